# The table, in Markdown, of what bench/measured.c printed: handed its lines of `time`, then callgrind's files, then its lines of `count`.
# With numbers.awk.
BEGIN { FS = ";" }

function ratio(a, b) { return a == "" || b == "" ? "" : sprintf("%.1f", a / b) }

FILENAME ~ /times$/ {
    ns[$1, $2] = $3
    if ($2 == "ours") { rows[++count] = $1; aim[$1] = $4 }
}
/^desc: Trigger: Client Request: / { sub(/.*Request: /, ""); row = $1; way = $2 }
/^(totals|summary): / { sub(/.*: /, ""); total[row, way] = $0 }
FILENAME ~ /counted$/ { instructions[$1, $2] = total[$1, $2] / $3 }

END {
    print "| a packet, or a call | ns | floors | instructions | the floor, ns | second implementation, ns | its instructions | aim |"
    print "|---|---|---|---|---|---|---|---|"
    for (i = 1; i <= count; i++) {
        row = rows[i]
        printf "| %s | %s | %s | %s | %s | %s | %s | %s |\n", row, whole(ns[row, "ours"]), ratio(ns[row, "ours"], ns[row, "floor"]),
            whole(instructions[row, "ours"]), whole(ns[row, "floor"]), whole(ns[row, "second"]), whole(instructions[row, "second"]), aim[row]
    }
}
