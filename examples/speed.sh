#!/usr/bin/env bash
# The measures of docs/SPEED.md: `examples/speed.sh [RUNS]` prints, for each, the medians of so many runs (25 by default) by the
# clock and of processor time; a channel of Rust's std is measured too, where there is a `rustc`.
# `(cd crates/asio_speed && rt run -- draws 2 1)` builds the program; ASIO_SPEED names another one.
set -u
cd "$(dirname "$0")/.." || exit 1
runs=${1:-25}
program=${ASIO_SPEED:-crates/asio_speed/out/asio_speed}
[ -x "$program" ] || { echo "speed: no program at $program" >&2; exit 1; }

# The median of the numbers in one column of the runs, over so many steps, in a unit of so many nanoseconds.
median() {
  sort -n -k "$1,$1" "$taken" | awk -v column="$1" -v per="$2" '
    { took[NR] = $column }
    END {
      middle = NR % 2 ? took[(NR + 1) / 2] : (took[NR / 2] + took[NR / 2 + 1]) / 2
      printf "%.3g (%.3g to %.3g)", middle / per, took[1] / per, took[NR] / per
    }'
}

# The ticks that the machine's host gave to others.
stolen() { awk '/^cpu / { print $9 }' /proc/stat; }

# One line: the command, and what one of its steps took by the clock and of processor time.
report() {
  local unit=$1 steps=$2 per run left before took
  shift 2
  case $unit in ns) per=1 ;; us) per=1000 ;; ms) per=1000000 ;; esac
  # A run in which the host took time is taken again, so often at most.
  for ((run = 0, left = 8 * runs; run < runs; left--)); do
    before=$(stolen)
    took=$("$@" 2>&1 >/dev/null) || { echo "speed: $* failed" >&2; exit 1; }
    [ "$left" -gt 0 ] && [ "$before" != "$(stolen)" ] && continue
    echo "$took"
    run=$((run + 1))
  done > "$taken"
  per=$(awk -v steps="$steps" -v per="$per" 'BEGIN { printf "%.0f", steps * per }')
  printf '%-36s %s: by the clock %s, processor time %s\n' "${1##*/} ${*:2}" "$unit" "$(median 1 "$per")" "$(median 2 "$per")"
}

work=$(mktemp -d) && trap 'rm -rf "$work"' EXIT
taken=$work/taken
echo "$runs runs each; the median (least to greatest); $(nproc) processors; load $(cut -d ' ' -f 1-3 /proc/loadavg)"
for capacity in 0 1 1024; do report ns 1000000 "$program" channel "$capacity" 1000000; done
for capacity in 1 1024; do report ns 1000000 "$program" messages "$capacity" 1000000; done
if rustc -O examples/std_channel.rs -o "$work/std_channel" 2>/dev/null; then
  for capacity in 1 1024; do report ns 1000000 "$work/std_channel" "$capacity" 1000000; done
fi
report us 1 "$program" sockets 64 16384
report us 1 "$program" pairs 64 16384
for measure in draws adds copies cells turn turns; do
  for threads in 1 2 4; do report ns $((65536 * threads * 20)) "$program" "$measure" "$threads" 20; done
done
report ms 10 "$program" replay 4096 10
report us 1000 "$program" replay 100 1000
report us 100 "$program" proactor 4096 100
for kind in '' locked_; do
  for workers in 1 2 4; do report us 10 "$program" "${kind}sessions" "$workers" 10; done
done
# A handler of a session, from its script to its history: acts, and of these the operations.
handlers() {
  local acts=$1 operations=$2 shape kind
  shift 2
  for shape in "$@"; do
    for kind in '' locked_; do
      for workers in 1 2 4; do report ns $((20 * operations)) "$program" "$kind$shape" "$acts" "$workers"; done
    done
  done
}
handlers 1024 1024 four_strands many_strands no_strand one_strand
handlers 1024 1024 computing_35 computing_90 computing_220 computing_550 computing_1400 computing
handlers 4096 4096 four_strands many_strands no_strand
handlers 1024 992 expired
echo "load $(cut -d ' ' -f 1-3 /proc/loadavg)"
