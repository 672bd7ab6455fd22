# A line of the table of memory, from what `size -A` prints of an archive: for the processor its text, its constants, and what is told of
# the receiver and of the stack. With numbers.awk.
$1 ~ /^\.text/ { text += $2 }
$1 ~ /^\.rodata/ { constants += $2 }
END { print "| " processor " | " whole(text) " | " whole(constants) " | " whole(receiver) " | " stack " |" }
