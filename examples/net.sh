#!/usr/bin/env bash
# Runs every example over sockets ('run --net') with 1, 2 and 4 workers in each round, and has its trace judged with bytes untold.
# Then it lets system calls fail: each call on sockets, at its n-th use, for n until none is hit. Such a session ends with 5 and a
# legal trace that shows the fault. Last, what the system sees: a closed stream's socket is closed, and a connection that another
# process makes isn't taken for one of the session's. Ends with 'net: N passed, M failed'.
set -u
cd "$(dirname "$0")/.." || exit 1
. examples/common.sh net asio_run asio_check

# Whether the trace of the script in $room/script is that of a legal history.
is_legal() {
  { cat "$room/script"; echo "--"; cat "$room/trace"; } > "$room/input"
  [ "$("$room/asio_check" --net < "$room/input")" = legal ]
}

# Whether the script $1 runs over sockets with $2 workers.
passes() {
  sed -E "s/\b(run|poll) [0-9]+/\1 $2/g" "$1" > "$room/script"
  timeout 60 "$room/asio_run" run --net < "$room/script" > "$room/trace" && is_legal
}

for script in examples/*.session; do
  for workers in 1 2 4; do
    passes "$script" "$workers"
    count $? "$script with $workers workers"
  done
done

# Sessions with streams, each with a line that it has to show: bytes go over, and a write waits for no room.
sessions=(
  'done 0 ok 10: session 1 streams 1 at 1 feed 0 x616263 at 2 feed 0 x646566 at 3 feed 0 x6768696a open { read 0 10 - - { } } run 1'
  'done 0 ok 10: session 1 streams 1 at 3 feed 0 x6162636465666768696a open { read 0 10 - - { } } run 1'
  'done 0 ok 4: session 1 streams 1 at 1 room 0 2 at 3 room 0 9 open { write 0 x61626364 - - { } } run 1'
  'done 0 not_found 0: session 1 streams 1 at 1 feed 0 x61626364 open { until 0 x0a 4 - - { } } run 1'
  'done 0 ok 4: session 1 streams 1 at 1 feed 0 x6162630a open { until 0 x0a 4 - - { } } run 1'
  'done 0 eof 4: session 1 streams 1 at 1 feed 0 x61626364 at 1 end 0 open { read 0 10 - - { } } run 1'
  'done 0 eof 4: session 1 streams 1 at 1 feed 0 x61626364 open { read 0 10 - - { } } run 1'
  'done 0 ok 2: session 1 streams 1 at 1 feed 0 x616263 open { readsome 0 2 - - { } } run 1'
  'done 0 aborted 0: session 1 streams 1 open { readsome 0 4 - - { } close 0 } run 1'
  'done 0 ok 3: session 1 streams 1 at 0 room 0 2 open { writesome 0 x616263 - - { } } run 1'
  'done 0 eof 0: session 1 streams 1 open { readsome 0 4 - - { } } run 1'
  'done 0 reset 0: session 1 streams 1 at 1 reset 0 open { readsome 0 4 - - { } } run 1'
  'done 1 ok 4: session 1 strands 1 streams 1 at 1 feed 0 x61620d at 2 feed 0 x0a63640d0a open { until 0 x0d0a 64 0 - { } until 0 x0d0a 64 0 - { } } run 1'
  'done 2 bad 0: session 1 strands 1 streams 1 open { read 0 4 0 - { } close 0 read 0 4 0 - { } } run 1'
  'done 1 aborted 0: session 1 slots 1 streams 1 at 4 feed 0 x6162 open { emit 0 1 read 0 2 - 0 { } emit 0 2 } run 1'
)
for session in "${sessions[@]}"; do
  printf '%s\n' "${session#*: }" > "$room/script"
  timeout 60 "$room/asio_run" run --net < "$room/script" > "$room/trace" && is_legal && grep -qx "${session%%: *}" "$room/trace"
  count $? "$session"
done

# Where no descriptor is left for sockets, 'fault' is all that happened. (The loader of the program needs one.)
cp examples/read_line.session "$room/script"
(ulimit -n 4 && exec "$room/asio_run" run --net) < "$room/script" > "$room/trace" 2> "$room/notes"
[ $? = 5 ] && [ "$(cat "$room/trace")" = fault ]
count $? "no descriptor left"

# Whether the session in $room/script, in which call $1 fails with $2 at its use $3, ends as it has to; and whether one was hit.
hit=0
injected() {
  timeout 60 strace -f -o "$room/calls" -e "trace=$1" -e "inject=$1:error=$2:when=$3" \
    "$room/asio_run" run --net < "$room/script" > "$room/trace" 2> "$room/notes"
  status=$?
  hit=$(grep -c INJECTED "$room/calls")
  is_legal || return 1
  case $status in
    0) ! grep -qx fault "$room/trace" ;;
    5) grep -qx fault "$room/trace" ;;
    *) return 1 ;;
  esac
}

if ! command -v strace > /dev/null || ! strace -o /dev/null true 2> /dev/null; then
  echo "net: no system call is made to fail, since strace can't be used here"
else
  printf '%s\n' 'session 1 streams 2 at 1 feed 0 x616263 at 2 feed 0 x646566 at 3 feed 0 x6768696a at 3 room 0 9 at 4 end 0' \
    'at 4 reset 1 open { read 0 10 - - { write 0 x6162 - - { } } readsome 1 4 - - { } } run 1' > "$room/script"
  for call in socket bind listen connect accept4 epoll_create1 epoll_ctl sendto recvfrom shutdown setsockopt getsockname; do
    hit=1
    for ((use = 1; hit > 0 && use < 60; use++)); do
      injected "$call" ENOBUFS "$use" && { [ "$hit" = 0 ] || [ "$status" = 5 ]; }
      count $? "$call failing at use $use: status $status"
    done
  done
  # What only asks to try again changes nothing.
  for error in EAGAIN EINTR; do
    for use in 1 2 3; do
      injected recvfrom "$error" "$use" && [ "$status" = 0 ] && grep -qx 'done 0 ok 10' "$room/trace"
      count $? "recvfrom asking to try again at use $use by $error"
    done
  done
  # What the peer did is no fault.
  for error in ECONNRESET EPIPE; do
    injected sendto "$error" 2 && [ "$status" = 0 ]
    count $? "sendto with $error"
  done
  # A read waits for bytes that are under way: time doesn't move on before it has them.
  printf '%s\n' 'session 1 streams 1 at 1 feed 0 x616263 open { readsome 0 4 - - { } } run 1' > "$room/script"
  for use in 2 2..4; do
    injected recvfrom EAGAIN "$use" && [ "$status" = 0 ] && grep -qx 'done 0 ok 3' "$room/trace" && ! grep -qx last "$room/trace"
    count $? "a read that waits for bytes under way at uses $use"
  done

  # A closed stream gives its socket back at once: the near end of stream 0 is closed before stream 1 is read for the last time.
  printf '%s\n' 'session 1 strands 1 timers 1 streams 2 at 5 feed 1 x616263' \
    'open { close 0 expires 0 2 wait 0 0 - { readsome 1 4 0 - { } } } run 1' > "$room/script"
  timeout 60 strace -f -o "$room/calls" -e trace=connect,close,recvfrom "$room/asio_run" run --net < "$room/script" > "$room/trace"
  [ $? = 0 ] && is_legal && awk '
    /connect\(/ { gsub(/.*connect\(|,.*/, ""); near[n++] = $0; next }
    /close\(/ { gsub(/.*close\(|\).*/, ""); if ($0 == near[0] && n == 2) closed = NR }
    /recvfrom\(/ { fd = $0; gsub(/.*recvfrom\(|,.*/, "", fd); if (fd == near[1]) last = NR }
    END { exit !(n == 2 && closed && closed < last) }
  ' "$room/calls"
  count $? "a closed stream gives its socket back"

  # The listener's port is there for all. Another process connects before the session does, and is turned away.
  printf '%s\n' 'session 1 streams 1 at 1 feed 0 x616263 open { readsome 0 4 - - { } } run 1' > "$room/script"
  timeout 60 strace -f -o "$room/calls" -e trace=getsockname,connect -e inject=connect:delay_enter=2000000:when=1 \
    "$room/asio_run" run --net < "$room/script" > "$room/trace" 2> "$room/notes" &
  session=$!
  for ((waited = 0; waited < 100; waited++)); do
    port=$(sed -nE 's/.*getsockname\(.*sin_port=htons\(([1-9][0-9]*)\).*/\1/p' "$room/calls" 2> /dev/null | head -n 1)
    [ -n "$port" ] && break
    sleep 0.02
  done
  said=$(timeout 20 bash -c 'exec 3<> "/dev/tcp/127.0.0.1/$0" && cat <&3 && echo turned away' "${port:-0}" 2> "$room/none")
  wait "$session" && is_legal && grep -qx 'done 0 ok 3' "$room/trace" && [ "$said" = "turned away" ]
  count $? "a connection of another process: '$said'"
fi
say_counts
