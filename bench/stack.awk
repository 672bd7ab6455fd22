# The deepest stack of the function `of`: the sum of the frames on its deepest path of calls, and the path. It reads what `objdump -dr`
# prints of an archive for x86-64 or Arm. What the C library's functions take is not counted. With numbers.awk.
function hex(s,   n, i) {
    for (i = 1; i <= length(s); i++) n = 16 * n + index("0123456789abcdef", substr(s, i, 1)) - 1
    return n
}

function deepest(f,   i, below, most, through) {
    for (i = 1; i <= calls[f]; i++) {
        if (!(callee[f, i] in here)) continue
        below = deepest(callee[f, i])
        if (below > most) { most = below; through = path[callee[f, i]] }
    }
    path[f] = f (most ? ", " through : "")
    return frame[f] + (x86 ? 8 : 0) + most
}

/file format elf64-x86-64/ { x86 = 1 }
/^[0-9a-f]+ <.*>:$/ {
    now = $0
    sub(/^[0-9a-f]+ </, "", now)
    sub(/>:$/, "", now)
    here[now]
    next
}
# Arm: registers stored below the stack's end, and room made
match($0, /\[sp, #-[0-9]+\]!/) { frame[now] += substr($0, RSTART + 7, RLENGTH - 9) }
match($0, /sub\tsp, sp, #0x[0-9a-f]+/) {
    room = hex(substr($0, RSTART + 15, RLENGTH - 15))
    frame[now] += /lsl #12/ ? 4096 * room : room
}
# x86-64: the same, and the address to return to, which stands below the caller's frame
/\tpush / { frame[now] += 8 }
match($0, /\$0x[0-9a-f]+,%rsp/) && /\tsub/ { frame[now] += hex(substr($0, RSTART + 3, RLENGTH - 8)) }
/\tadd +\$0xffffffffffffff80,%rsp/ { frame[now] += 128 } # room of 128 bytes is made by adding -128, which is shorter
/R_X86_64_PLT32|R_AARCH64_(CALL|JUMP)26/ {
    called = $NF
    sub(/[+-]0x[0-9a-f]+$/, "", called)
    sub(/^\.text\./, "", called)
    if (called != now && !((now, called) in seen)) { seen[now, called] = 1; callee[now, ++calls[now]] = called }
}
END { print whole(deepest(of)) " (" path[of] ")" }
