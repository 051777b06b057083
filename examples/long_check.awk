# Writes a long input of asio_check: a script of 4,096 reads on 64 streams and 64 strands, for which something arrives at 1,024 times,
# and a legal trace of it, of 25,601 lines.
BEGIN {
    acts = 4096; streams = 64; times = 1024
    printf "session 2 strands 64 streams %d", streams
    for (time = 1; time <= times; time++)
        printf " at %d feed %d x61616161", time, time % streams
    printf " open {"
    for (act = 0; act < acts; act++)
        printf " read %d 1 %d - { }", act % streams, act * 7 % 64
    print " } run 1"
    print "--"
    for (act = 0; act < acts; act++)
        printf "call %d\nback %d\n", act, act
    for (act = 0; act < acts; act++)
        print "take " act
    for (time = 1; time <= times; time++) {
        stream = time % streams
        print "tick " time
        # the next four reads of this stream
        for (n = 0; n < 4; n++)
            print "done " stream + streams * (4 * served[stream] + n) " ok 1"
        for (n = 0; n < 4; n++) {
            op = stream + streams * (4 * served[stream] + n)
            printf "begin %d ok 1\nend %d %d\n", op, op, 1000 + op
        }
        served[stream]++
    }
    print "ended"
}
