# Writes inputs that are nearly good, made from the texts of the files that are named: count of them, from the number seed, for
# 'awk -v count=N -v seed=N -v traces=0 -f mutate.awk FILES', with the same texts on every awk. A record is ended by a NUL; its first
# line has the number of lines and of tokens of the text behind it. Where traces is 1, each file is an input of asio_check, of which
# mostly the trace is changed, and its first line has the number of the trace's lines too.
function draw(below) {
    state = (state * 16807) % 2147483647
    return int(state / 2147483647 * below)
}

# a byte, now and then one that no text may have
function any_byte(kind) {
    kind = draw(8)
    if (kind == 0)
        return sprintf("%c", 1 + draw(31))
    if (kind == 1)
        return sprintf("%c", 127 + draw(129))
    if (kind == 2)
        return " "
    return sprintf("%c", 33 + draw(94))
}

function any_word() {
    return words[1 + draw(word_count)]
}

# the text with one byte, word, line or end changed, behind the place from
function changed(text, from, kind, at, size, next_one, cut) {
    kind = draw(8)
    at = from + 1 + draw(length(text) - from)
    if (kind == 0)
        return substr(text, 1, at - 1) any_byte() substr(text, at + 1)
    if (kind == 1)
        return substr(text, 1, at - 1) substr(text, at + 1)
    if (kind == 2)
        return substr(text, 1, at - 1) any_byte() substr(text, at)
    if (kind == 3)
        return substr(text, 1, at)
    # from here to the end of the word or of the line that the place is in
    size = match(substr(text, at), kind < 6 ? / |\n/ : /\n/)
    if (size == 0)
        size = length(text) - at + 2
    cut = substr(text, at, size)
    if (kind == 4)
        return substr(text, 1, at - 1) any_word() " " substr(text, at + size)
    if (kind == 5 || kind == 6)
        return substr(text, 1, at - 1) cut substr(text, at)
    next_one = match(substr(text, at + size), /\n/)
    return substr(text, 1, at - 1) substr(text, at + size, next_one) cut substr(text, at + size + next_one)
}

function lines_of(text, parts) {
    return text == "" ? 1 : split(text, parts, "\n")
}

function tokens_of(text, parts, found, n, i) {
    n = split(text, parts, /[^!-~]+/)
    found = 0
    for (i = 1; i <= n; i++)
        if (parts[i] != "")
            found++
    return found
}

BEGIN {
    state = seed
    word_count = split("session 1 2 strands timers slots streams at feed end reset room open { } abort other restart run poll" \
        " post defer dispatch expires expiresat wait cancel cancelone emit readsome read until writesome write close stop - only 0" \
        " 7 00 16 17 4096 65536 999999999999 x61 x6 xg0 call back begin ok aborted eof take done tick last drop ended stopped polled" \
        " fault -1 +1 0x1", words, " ")
    for (i = 1; i < ARGC; i++) {
        text = ""
        while ((getline line < ARGV[i]) > 0)
            text = text line "\n"
        close(ARGV[i])
        texts[i] = text
    }
    files = ARGC - 1
    for (n = 0; n < count; n++) {
        text = texts[1 + draw(files)]
        from = 0
        if (traces && draw(8) > 0)
            from = index(text, "\n--\n") + 3
        for (times = 1 + draw(3); times > 0 && length(text) > from; times--)
            text = changed(text, from)
        trace = index(text, "\n--\n")
        printf "%d %d %d\n%s%c", lines_of(text), tokens_of(text), trace ? lines_of(substr(text, trace + 4)) : 0, text, 0
    }
}
