# Sourced by the scripts of this repository, at its top. Rattle's archives and programs are for Linux on x86-64, and so are the scripts.
# It has
#   archive       the library for C, which make_archive proves and writes; it takes flags of `rt lib`, as --target
#   program       where a program lies once it is built, as the gate and scripts/run leave it
# and links_c, which tries the C compiler, has_jpeg_programs, for an encoder and a decoder, runs_valgrind, and need, which installs
# what is missing.

[ "$(uname -m)" = x86_64 ] || { echo "not x86-64: $(uname -m)" >&2; exit 1; }
command -v rt >/dev/null || { echo "rt, Rattle's command, is not on the path" >&2; exit 1; }

archive=crates/ljosvark/out/libljosvark.a
cc_packages='gcc libc6-dev'

make_archive() { (cd crates/ljosvark && rt lib "$@"); }

program() { echo "$PWD/crates/$1/out/$1"; }

links_c() { echo 'int main(void) { return 0; }' | cc -x c -static -o /dev/null - 2>/dev/null; }

runs_valgrind() { valgrind -q true >/dev/null 2>&1; }

has_jpeg_programs() { command -v cjpeg >/dev/null && command -v djpeg >/dev/null; }

# need TEST PACKAGE..: installs Debian's packages where the test fails, and says so where that does not mend it.
need() {
    local test=$1
    shift
    $test && return
    echo "installing $*" >&2
    { apt-get update -qq && DEBIAN_FRONTEND=noninteractive apt-get install -y -qq --no-install-recommends "$@"; } >/dev/null 2>&1 || true
    $test && return
    echo "cannot install $* with apt-get: $test still fails" >&2
    return 1
}
