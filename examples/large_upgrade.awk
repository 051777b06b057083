# Writes a script of version 2 with 4,096 acts and 262,144 bytes, the most of each.
BEGIN {
    printf "session 2 streams 1 open {"
    for (act = 0; act < 4095; act++)
        printf " write 0 x%046d - - { }", act
    printf " write 0 x%012d - - { } } run 1", act
}
