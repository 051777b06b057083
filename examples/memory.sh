#!/usr/bin/env bash
# Counts how often the programs take memory, by valgrind. A session takes its memory before the first handler runs: asio_run
# takes it as often where the context is stopped in `open` and each handler is destroyed as where a restart lets everything run,
# but for a block of hints, which the first hint of a run takes (none of these sessions has as many as fill one).
# A replay takes its memory before its first event: asio_check takes it as often where the first line of a trace is illegal as
# where the whole trace is judged. A context of io_speed takes all its memory when it is made: as often for ten handlers posted one by
# another as for 5,000. Ends with 'N passed, M failed'.
set -u
cd "$(dirname "$0")/.." || exit 1
if ! command -v valgrind > /dev/null; then
  echo "memory: not counted, since there is no valgrind here"
  exit 0
fi
. examples/common.sh memory asio_run asio_check io_speed

# How often the command takes memory with $room/input as its input.
counted() {
  timeout 60 valgrind --log-file="$room/log" "$@" < "$room/input" > "$room/output"
  grep -oE 'total heap usage: [0-9,]+ allocs' "$room/log"
}

# Passes where both counts are one, and both outputs hold what they have to.
compare() {
  if [ -n "$2" ] && [ "$2" = "$3" ]; then
    passed=$((passed + 1))
  else
    failed=$((failed + 1))
    echo "memory: $1: '$2' differs from '$3'"
  fi
}

# How many times the text says, as a number.
times() {
  local digits=${1//[!0-9]/}
  echo "${digits:-0}"
}

# As `compare`, but the second may be one more.
compare_hints() {
  local more=$(( $(times "$3") - $(times "$2") ))
  if [[ $2 == total* ]] && [ "$more" = 1 ]; then
    compare "$1" "$3" "$3"
  else
    compare "$1" "$2" "$3"
  fi
}

for script in examples/*.session; do
  text=$(tr '\n' ' ' < "$script")
  text=${text%\}*}
  text=${text/open \{/open \{ stop}
  # Two scripts of one length, with the same acts.
  echo "$text}         run 1" > "$room/input"
  stopped=$(counted "$room/asio_run" run)
  # (so no run is counted that was refused, or that did something else)
  grep -q '^stopped' "$room/output" || stopped="not stopped"
  grep -q '^begin' "$room/output" && stopped="a handler ran"
  echo "$text} restart run 1" > "$room/input"
  whole=$(counted "$room/asio_run" run)
  grep -q '^ended\|^stopped' "$room/output" || whole="not run"
  grep -q '^restart' "$room/output" || whole="no restart"
  compare_hints "$script" "$stopped" "$whole"
done
for trace in examples/*.trace; do
  [ "$(head -n 1 "$trace")" = "call 0" ] || continue
  # Two inputs of one length, with as many events.
  { cat "${trace%.trace}.session"; echo "--"; cat "$trace"; } > "$room/input"
  whole=$(counted "$room/asio_check")
  [ "$(cat "$room/output")" = legal ] || whole="not legal"
  { cat "${trace%.trace}.session"; echo "--"; echo "back 0"; tail -n +2 "$trace"; } > "$room/input"
  first=$(counted "$room/asio_check")
  grep -q '^illegal 1$\|^illegal.* 1$' "$room/output" || first="$(cat "$room/output")"
  compare "$trace" "$whole" "$first"
done
for strands in 0 1 4; do
  : > "$room/input"
  few=$(counted "$room/io_speed" "$strands" 1 9 0 2 2> /dev/null)
  [ "$(cat "$room/output")" = 200 ] || few="not executed"
  many=$(counted "$room/io_speed" "$strands" 1 4999 0 2 2> /dev/null)
  [ "$(cat "$room/output")" = 100000 ] || many="too few executed"
  compare "io_speed over $strands strands" "$few" "$many"
done
say_counts
