#!/usr/bin/env bash
# What asio_speed and io_speed measure beside Boost.Asio and tokio (docs/SPEED.md): `examples/side_by_side.sh [RUNS]`. The three programs
# run in turn, one process each, so that what else the machine does falls on all; for each it prints the median, the least and the
# greatest of so many runs (25 by default), in nanoseconds a handler: by the clock, and for io_speed of processor time too. A peer takes
# part where its Debian package is installed: libboost1.81-dev (or libboost-dev) with g++, and librust-tokio-dev with cargo. Our programs
# are built by `rt run` in their crates' folders; ASIO_SPEED and IO_SPEED name other ones.
set -u
cd "$(dirname "$0")/.." || exit 1
runs=${1:-25}
work=$(mktemp -d) && trap 'rm -rf "$work"' EXIT
install -m 755 "${ASIO_SPEED:-crates/asio_speed/out/asio_speed}" "$work/asio_run.shapes" || { echo "side_by_side: asio_speed isn't built" >&2; exit 1; }
install -m 755 "${IO_SPEED:-crates/io_speed/out/io_speed}" "$work/asio_run.handlers" || { echo "side_by_side: io_speed isn't built" >&2; exit 1; }

names=(asio_run)
cpp() { g++ -std=c++20 -O3 -DNDEBUG -pthread "examples/peers/asio_$1.cpp" -o "$work/Boost.Asio.$1" 2> "$work/log"; }
if cpp shapes && cpp handlers; then
  names+=(Boost.Asio)
else
  echo "side_by_side: without Boost.Asio: g++ or its headers aren't installed" >&2
fi
cp -r examples/peers/tokio_shapes "$work/crate"
mkdir -p "$work/crate/.cargo"
cat > "$work/crate/.cargo/config.toml" << CONFIG
[source.crates-io]
replace-with = "debian"
[source.debian]
directory = "/usr/share/cargo/registry"
CONFIG
if (cd "$work/crate" && cargo build --release --offline) > "$work/log" 2>&1; then
  cp "$work/crate/target/release/tokio_shapes" "$work/tokio.shapes"
  cp "$work/crate/target/release/tokio_handlers" "$work/tokio.handlers"
  names+=(tokio)
else
  echo "side_by_side: without tokio: cargo or librust-tokio-dev isn't installed" >&2
fi

# The median, least and greatest of the numbers in the file $1, each over $2 handlers.
median() {
  sort -n "$1" | awk -v per="$2" '
    { took[NR] = $1 }
    END {
      middle = NR % 2 ? took[(NR + 1) / 2] : (took[NR / 2] + took[NR / 2 + 1]) / 2
      printf "%.3g (%.3g to %.3g)", middle / per, took[1] / per, took[NR] / per
    }'
}

# The programs $2 with the other words, every peer in turn; the label is $1. Of the loads of handlers processor time is printed too.
compare() {
  local label=$1 kind=$2 name took run
  shift 2
  rm -f "$work"/*.took
  for ((run = 0; run < runs; run++)); do
    for name in "${names[@]}"; do
      took=$("$work/$name.$kind" "$@" 2>&1 > "$work/handlers") || { echo "side_by_side: $name failed" >&2; exit 1; }
      echo "${took%% *}" >> "$work/$name.took"
      echo "${took##* }" >> "$work/$name.worked.took"
    done
  done
  printf '%-40s' "$label:"
  for name in "${names[@]}"; do
    printf '  %s %s' "$name" "$(median "$work/$name.took" "$(cat "$work/handlers")")"
    [ "$kind" = shapes ] || printf ' of the processor %s' "$(median "$work/$name.worked.took" "$(cat "$work/handlers")")"
  done
  echo
}

echo "$runs runs each; nanoseconds a handler by the clock; $(nproc) processors; load $(cut -d ' ' -f 1-3 /proc/loadavg)"
lengths=(computing_35 computing_90 computing_220 computing_550 computing_1400 computing)
for shape in four_strands many_strands one_strand no_strand expired "${lengths[@]}"; do
  for workers in 1 2 4; do
    compare "$shape, $workers workers" shapes "$shape" 1024 "$workers"
  done
done
for threads in 1 2 4 8; do
  for strands in 4 64 1 0; do
    compare "1,024 posted, $strands strands, $threads threads" handlers "$strands" 1024 0 0 "$threads"
  done
  compare "100,000 by one another, $threads threads" handlers 4 4 24999 0 "$threads"
  compare "1,024 of 0.4 microseconds, $threads threads" handlers 4 1024 0 350 "$threads"
  compare "1,024 of 4 microseconds, $threads threads" handlers 4 1024 0 3500 "$threads"
done
echo "load $(cut -d ' ' -f 1-3 /proc/loadavg)"
