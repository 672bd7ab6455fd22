# For the tables: a number without its fraction, with a comma at the thousands; nothing where there is none.
function whole(n) {
    if (n == "") return ""
    n = sprintf("%.0f", n) + 0
    return n < 1000 ? n : int(n / 1000) sprintf(",%03d", n % 1000)
}
