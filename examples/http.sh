#!/usr/bin/env bash
# Drives http_hello with 1, 2 and 4 workers by clients over real TCP connections: requests that are cut at each byte, pipelined ones,
# bad and long heads, 100 clients at once; by curl, and by a load of wrk and of ab where they are installed. Ends with 'http: N passed,
# M failed'.
set -u
cd "$(dirname "$0")/.." || exit 1
if ! command -v python3 > /dev/null; then
  echo "http: skipped, since python3 isn't here"
  exit 0
fi
. examples/common.sh http http_hello
# The body and the status that curl gets, with these further words.
curled() {
  curl -s -m 5 -w ' %{http_code} %{num_connects}' "$@"
}

# Two requests over one connection, HEAD, and a request with content.
curls() {
  local url="http://127.0.0.1:$1/"
  [ "$(curled "$url" "$url")" = "hello, this is request 1 of this connection
 200 1hello, this is request 2 of this connection
 200 0" ]
  count $? "curl: two requests with $workers workers"
  [ "$(curl -s -m 5 -I "$url" | head -n 1 | tr -d '\r')" = "HTTP/1.1 200 OK" ]
  count $? "curl: HEAD with $workers workers"
  [ "$(curled --http1.0 "$url")" = "hello, this is request 1 of this connection
 200 1" ]
  count $? "curl: HTTP/1.0 with $workers workers"
  [ "$(curled -d some "$url")" = "the request has content
 413 1" ]
  count $? "curl: content with $workers workers"
}

# A load for two seconds, of which each request is answered 200.
loads() {
  local url="http://127.0.0.1:$1/" told
  if command -v wrk > /dev/null; then
    told=$(timeout 15 wrk -t 2 -c 64 -d 2s "$url" 2>&1)
    grep -q 'requests in' <<< "$told" && ! grep -qE 'Socket errors|Non-2xx' <<< "$told"
    count $? "wrk with $workers workers: $told"
  else
    echo "http: no load of wrk, which isn't here"
  fi
  if command -v ab > /dev/null; then
    # (the texts differ in length, by their numbers)
    told=$(timeout 15 ab -q -l -k -t 2 -n 1000000 -c 50 "$url" 2>&1)
    grep -qE '^Failed requests: +0$' <<< "$told" && ! grep -q 'Non-2xx' <<< "$told"
    count $? "ab with $workers workers: $told"
  else
    echo "http: no load of ab, which isn't here"
  fi
}

# Starts a server with so many workers and these words, which tells its port; it ends once descriptor 9 is closed.
start() {
  workers=$1
  shift
  rm -f "$room/end" "$room/said"
  mkfifo "$room/end"
  timeout 60 "$room/http_hello" 0 --workers "$workers" "$@" < "$room/end" > "$room/said" &
  server=$!
  exec 9> "$room/end"
  port=$(port_in "$room/said")
}

# Ends it.
finish() {
  exec 9>&-
  wait "$server"
  count $? "the server's end with $workers workers"
}

# The cases of the clients, as many as $1; the rest are words for them.
cases() {
  local many=$1
  shift
  # (the server is below `timeout`)
  timeout 50 python3 examples/http_clients.py "$port" "$(pgrep -P "$server")" "$@" > "$room/clients" 2>&1
  while read -r name verdict; do
    [ "$verdict" = passed ]
    count $? "$name with $workers workers: $verdict"
  done < <(grep -E '^[a-z_]+: (passed|failed)$' "$room/clients")
  [ "$(grep -cE ': passed$' "$room/clients")" = "$many" ]
  count $? "all cases with $workers workers: $(tail -n 3 "$room/clients")"
}

for each in 1 2 4; do
  start "$each"
  cases 14
  if command -v curl > /dev/null; then curls "$port"; else echo "http: no curl here"; fi
  [ "$each" = 1 ] || loads "$port"
  finish
done
start 2 --idle 2
cases 2 slow
finish

say_counts
