#!/usr/bin/env bash
# What the system sees of tcp_echo with 1 and 4 workers: while it is idle it uses no processor; while clients send blocks for SECONDS
# (10, or the first word) its memory doesn't grow; then no descriptor is left. With more clients than it may have descriptors it uses
# hardly any processor either, and serves new ones once they are gone. Then each of its system calls fails, at its n-th use: no client
# gets a wrong byte, the others are served, and the server ends when its standard input does. Ends with 'tcp_echo_system: N passed, M
# failed'.
set -u
cd "$(dirname "$0")/.." || exit 1
seconds=${1:-10}
if ! command -v python3 > /dev/null; then
  echo "tcp_echo_system: skipped, since python3 isn't here"
  exit 0
fi
. examples/common.sh tcp_echo_system tcp_echo

# Starts the server behind the words given, which ends when descriptor 9 is closed. Its port is in $port then, none if it failed.
start() {
  rm -f "$room/end" "$room/said"
  mkfifo "$room/end"
  timeout 120 "$@" < "$room/end" > "$room/said" 2> "$room/notes" &
  server=$!
  exec 9> "$room/end"
  port=
  for wait in {1..200}; do
    port=$(sed -n 's/^port //p' "$room/said" 2> /dev/null)
    [ -n "$port" ] && break
    kill -0 "$server" 2> /dev/null || break
    sleep 0.02
  done
}

# Ends the server; its status is in $status.
stop() {
  exec 9>&-
  wait "$server"
  status=$?
}

# The process that the server is, below `timeout`.
server_pid() { pgrep -P "$server" | head -n 1; }

# Its resident memory in kilobytes, and the processor time that it has used in hundredths of a second.
memory_of() { awk '/^VmRSS:/ { print $2 }' "/proc/$1/status"; }
ticks_of() { awk '{ print $14 + $15 }' "/proc/$1/stat"; }
files_of() { ls "/proc/$1/fd" | wc -l; }

for workers in 1 4; do
  start "$room/tcp_echo" 0 --workers "$workers"
  pid=$(server_pid)
  # (memory is taken at the start, and becomes resident with its first use: each place for a connection is used once)
  python3 examples/tcp_echo_probe.py "$port" 0 1400 > "$room/whole"
  python3 examples/tcp_echo_probe.py "$port" 1 > "$room/whole"
  before=$(memory_of "$pid")
  files=$(files_of "$pid")
  used=$(ticks_of "$pid")
  sleep 2
  used=$(($(ticks_of "$pid") - used))
  [ "$used" -le 1 ]
  count $? "$workers workers that are idle for two seconds use $used hundredths of a second"
  python3 examples/tcp_echo_probe.py "$port" "$seconds" > "$room/whole" && [ "$(cat "$room/whole")" -gt 100 ]
  count $? "blocks for $seconds seconds with $workers workers: $(cat "$room/whole") whole"
  after=$(memory_of "$pid")
  [ "$((after - before))" -le 256 ]
  count $? "memory with $workers workers, in kilobytes: $before before, $after after"
  for wait in {1..100}; do
    [ "$(files_of "$pid")" -le "$files" ] && break
    sleep 0.05
  done
  [ "$(files_of "$pid")" -le "$files" ]
  count $? "descriptors with $workers workers: $files before, $(files_of "$pid") after"
  stop
  [ "$status" = 0 ]
  count $? "the server's end with $workers workers: $status"
done

# More clients come than it may have descriptors for: no accept of the others succeeds meanwhile.
for workers in 1 4; do
  start bash -c 'ulimit -n 40 && exec "$@"' limited "$room/tcp_echo" 0 --workers "$workers"
  pid=$(server_pid)
  clients=()
  for client in {1..60}; do
    exec {client}<> "/dev/tcp/127.0.0.1/$port"
    clients+=("$client")
  done
  sleep 0.5
  [ "$(files_of "$pid")" -ge 40 ]
  count $? "descriptors of $workers workers that may have 40: $(files_of "$pid")"
  used=$(ticks_of "$pid")
  sleep 2
  used=$(($(ticks_of "$pid") - used))
  [ "$used" -le 3 ]
  count $? "$workers workers without descriptors use $used hundredths of a second in two seconds"
  echo here >&"${clients[0]}" && read -r -t 5 line <&"${clients[0]}" && [ "$line" = here ]
  count $? "a client that was there before is served by $workers workers"
  for client in "${clients[@]}"; do
    exec {client}>&-
  done
  python3 examples/tcp_echo_probe.py "$port" > "$room/whole" && [ "$(cat "$room/whole")" = 8 ]
  count $? "new clients with $workers workers, once descriptors are free: $(cat "$room/whole") of 8"
  stop
  [ "$status" = 0 ]
  count $? "the end with $workers workers, without descriptors: $status"
done

# Whether no client gets a wrong byte and the server ends, where call $1 fails with $2 at its use $3. Before it listens it may give up.
hit=0
injected() {
  start strace -f -o "$room/calls" -e "trace=$1" -e "inject=$1:error=$2:when=$3" "$room/tcp_echo" 0 --workers 2
  right=0
  if [ -n "$port" ]; then
    timeout 60 python3 examples/tcp_echo_probe.py "$port" > "$room/whole"
    right=$?
    [ "$(cat "$room/whole")" -ge "$4" ] || right=2
  fi
  stop
  hit=$(grep -c INJECTED "$room/calls")
  [ "$right" = 0 ] && [ "$status" -le 2 ]
}

if ! command -v strace > /dev/null || ! strace -o /dev/null true 2> /dev/null; then
  echo "tcp_echo_system: no system call is made to fail, since strace can't be used here"
else
  # Of eight clients so many are served whole, whichever use of the call fails. (Each of the two workers counts its own.)
  for call in socket:0 bind:0 listen:0 epoll_create1:0 epoll_ctl:6 accept4:6 recvfrom:6 sendto:6; do
    hit=1
    for ((use = 1; hit > 0 && use < 12; use++)); do
      injected "${call%:*}" ENOBUFS "$use" "${call#*:}"
      count $? "${call%:*} failing at use $use: status $status, clients $right, whole $(cat "$room/whole")"
    done
  done
  # What only asks to try again changes nothing. (EAGAIN can't be made up: it says that an edge will come.)
  for call in recvfrom sendto accept4 epoll_wait; do
    for use in 1 2 3; do
      injected "$call" EINTR "$use" 8
      count $? "$call asking to try again at use $use: status $status, clients $right, whole $(cat "$room/whole")"
    done
  done
fi
say_counts
