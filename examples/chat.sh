#!/usr/bin/env bash
# Drives chat with 1, 2 and 4 workers by clients over real TCP connections, which compare the lines that come: 100 of them in five
# rooms at a time, lines that are cut anywhere, one that reads nothing. Ends with 'chat: N passed, M failed'.
set -u
cd "$(dirname "$0")/.." || exit 1
if ! command -v python3 > /dev/null; then
  echo "chat: skipped, since python3 isn't here"
  exit 0
fi
. examples/common.sh chat chat
rooms="red green blue white black"

for workers in 1 2 4; do
  mkfifo "$room/end$workers"
  timeout 60 "$room/chat" 0 $rooms --workers "$workers" < "$room/end$workers" > "$room/said$workers" &
  server=$!
  # (the server ends when this end of its standard input is closed)
  exec 9> "$room/end$workers"
  port=$(port_in "$room/said$workers")
  # (the server is below `timeout`)
  timeout 55 python3 examples/chat_clients.py "$port" "$(pgrep -P "$server")" $rooms > "$room/clients" 2>&1
  while read -r name verdict; do
    [ "$verdict" = passed ]
    count $? "$name with $workers workers: $verdict"
  done < <(grep -E '^[a-z_]+: (passed|failed)$' "$room/clients")
  [ "$(grep -cE ': passed$' "$room/clients")" = 7 ]
  count $? "all cases with $workers workers: $(tail -n 3 "$room/clients")"
  exec 9>&-
  wait "$server"
  count $? "the server's end with $workers workers"
done

say_counts
