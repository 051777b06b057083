#!/usr/bin/env bash
# Runs every example with 1, 2, 4 and 16 workers in each round, and has its trace judged: it has to be that of a legal history that
# keeps every law, and the stored one where one is stored. Runs those that may write several traces again and again with 16 workers:
# each trace has to be legal, and two have to be seen. Then the same of 2,000 random scripts, where python3 is there. Ends with
# 'N passed, M failed'.
set -u
cd "$(dirname "$0")/.." || exit 1
. examples/common.sh examples asio_run asio_check asio_laws

# Whether the script $1 with $2 workers has a trace, which is written to $room/trace, that is legal.
is_legal() {
  sed -E "s/\b(run|poll) [0-9]+/\1 $2/g" "$1" > "$room/script"
  timeout 60 "$room/asio_run" run < "$room/script" > "$room/trace" || return 1
  { cat "$room/script"; echo "--"; cat "$room/trace"; } > "$room/input"
  [ "$("$room/asio_check" < "$room/input")" = legal ] && [ "$("$room/asio_laws" < "$room/input")" = kept ]
}

# Examples of which several workers may write several traces. Where one is stored, it is that of one worker.
several=(examples/{echo,guard,three_postings}.session)

# Whether the script $1 gives with $2 workers what it has to give.
passes() {
  local stored=${1%.session}.trace
  is_legal "$1" "$2" || return 1
  if [ "$2" != 1 ] && [[ " ${several[*]} " == *" $1 "* ]]; then
    return 0
  fi
  [ ! -f "$stored" ] || cmp -s "$room/trace" "$stored"
}

for script in examples/*.session; do
  for workers in 1 2 4 16; do
    passes "$script" "$workers"
    count $? "$script with $workers workers"
  done
done

# 2,048 postings, of which each posts once more: no rule says which of them goes first.
{ echo "session 2 open {"; for _ in {1..2048}; do echo "post - { post - { } }"; done; echo "} run 16"; } > "$room/postings.session"
# Runs the script $1 with 16 workers until it has written two traces, at most 100 times; each has to be legal. Counts it in `varied`.
vary() {
  local run
  for run in {1..100}; do
    is_legal "$1" 16 || return 1
    [ "$run" != 1 ] || cp "$room/trace" "$room/first"
    cmp -s "$room/trace" "$room/first" || { varied=$((varied + 1)); return 0; }
  done
}
varied=0
several+=("$room/postings.session")
for script in "${several[@]}"; do
  vary "$script"
  count $? "$(basename "$script") again and again"
done
echo "examples: more than one order was seen of $varied of ${#several[@]} scripts that allow it"
# (one processor may execute all of one worker's before another one begins)
if [ "$(nproc)" -gt 1 ]; then
  [ "$varied" -gt 0 ]
  count $? "to see two orders of one script"
fi

if command -v python3 > /dev/null; then
  python3 examples/random_sessions.py check "$room" 2000 > "$room/random"
  counts=$(sed -nE 's/^random_sessions: ([0-9]+) passed, ([0-9]+) failed$/\1 \2/p' "$room/random")
  cat "$room/random"
  # (where it didn't come to its last line, that is one failure)
  read -r more less <<< "${counts:-0 1}"
  passed=$((passed + more))
  failed=$((failed + less))
else
  echo "examples: random scripts are skipped, since python3 isn't here"
fi
say_counts
