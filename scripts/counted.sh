# Sourced by the scripts of this repository that try several things: it counts them.
passed=0 failed=0

# counted WHAT COMMAND [WORD..]: one thing tried, which passes where the command does
counted() {
    local what=$1
    shift
    if "$@"; then
        passed=$((passed + 1))
    else
        echo "FAILED: $what"
        failed=$((failed + 1))
    fi
}

# tell_counts: the script's last line, and its status
tell_counts() {
    echo "$passed passed, $failed failed"
    [ "$failed" -eq 0 ]
}
