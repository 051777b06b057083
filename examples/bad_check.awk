# Writes an input of asio_check of the greatest size, 1,310,723 bytes, that is bad at its last line.
BEGIN {
    printf "%262144s--\n", "session 1 open { } run 1\n"
    for (line = 0; line < 27594; line++)
        print "begin 4294967295 not_found 4294967295"
    printf "xxxx"
}
