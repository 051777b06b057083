#!/usr/bin/env bash
# Drives tcp_echo with 1, 2 and 4 workers by clients over real TCP connections, which compare each byte. Ends with 'tcp_echo: N
# passed, M failed'.
set -u
cd "$(dirname "$0")/.." || exit 1
if ! command -v python3 > /dev/null; then
  echo "tcp_echo: skipped, since python3 isn't here"
  exit 0
fi
. examples/common.sh tcp_echo tcp_echo
# (each connection is an open file of the server and one of the clients)
ulimit -n 4096 2> /dev/null || ulimit -n "$(ulimit -Hn)"

for workers in 1 2 4; do
  mkfifo "$room/end$workers"
  timeout 460 "$room/tcp_echo" 0 --workers "$workers" < "$room/end$workers" > "$room/said$workers" &
  server=$!
  # (the server ends when this end of its standard input is closed)
  exec 9> "$room/end$workers"
  timeout 440 python3 examples/tcp_echo_clients.py "$(port_in "$room/said$workers")" > "$room/clients" 2>&1
  while read -r name verdict; do
    [ "$verdict" = passed ]
    count $? "$name with $workers workers: $verdict"
  done < <(grep -E '^[a-z_]+: (passed|failed)$' "$room/clients")
  [ "$(grep -cE ': passed$' "$room/clients")" = 8 ]
  count $? "all cases with $workers workers: $(tail -n 3 "$room/clients")"
  exec 9>&-
  wait "$server"
  count $? "the server's end with $workers workers"
done

echo "tcp_echo: $passed passed, $failed failed"
[ "$failed" = 0 ]
