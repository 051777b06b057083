#!/usr/bin/env bash
# tcp_echo beside an echo server on Boost.Asio, driven by the same clients (docs/SPEED.md): `examples/echo_side_by_side.sh [RUNS
# [SECONDS]]`. The servers run in turn, 5 runs of 3 seconds each by default, with 1, 2 and 4 workers: 64 connections send blocks of 512
# bytes and compare what comes back. Prints the medians of the round trips a second and of the median and 99th percentile of their times,
# in microseconds. Boost.Asio takes part where its headers are installed (libboost1.81-dev or libboost-dev). TCP_ECHO names another server
# than the one that `rt run` builds in crates/tcp_echo.
set -u
cd "$(dirname "$0")/.." || exit 1
runs=${1:-5} seconds=${2:-3}
work=$(mktemp -d) && trap 'rm -rf "$work"' EXIT
install -m 755 "${TCP_ECHO:-crates/tcp_echo/out/tcp_echo}" "$work/tcp_echo" || { echo "echo_side_by_side: tcp_echo isn't built" >&2; exit 1; }
g++ -std=c++17 -O3 examples/peers/echo_load.cpp -o "$work/load" || exit 1
names=(tcp_echo)
if g++ -std=c++20 -O3 -DNDEBUG -pthread examples/peers/asio_echo.cpp -o "$work/Boost.Asio" 2> "$work/log"; then
  names+=(Boost.Asio)
else
  echo "echo_side_by_side: without Boost.Asio: its headers aren't installed" >&2
fi

# One run of the server $1 with $2 workers: what the clients measured goes to a file of the server's.
run_once() {
  local words=(0 "$2") port=
  [ "$1" = tcp_echo ] && words=(0 --workers "$2")
  rm -f "$work/end" "$work/said"
  mkfifo "$work/end"
  "$work/$1" "${words[@]}" < "$work/end" > "$work/said" &
  exec 9> "$work/end"
  for wait in {1..200}; do
    port=$(sed -n 's/^port //p' "$work/said")
    [ -n "$port" ] && break
    sleep 0.02
  done
  timeout "$((seconds + 30))" "$work/load" "$port" 64 512 "$seconds" >> "$work/$1.took" || echo "echo_side_by_side: a client of $1 failed" >&2
  exec 9>&-
  wait
}

# The median of column $2 of the file $1.
median() { awk -v column="$2" '{ print $column }' "$1" | sort -n | awk '{ took[NR] = $1 } END { printf "%.0f", NR % 2 ? took[(NR + 1) / 2] : (took[NR / 2] + took[NR / 2 + 1]) / 2 }'; }

echo "$runs runs of $seconds seconds each; $(nproc) processors; load $(cut -d ' ' -f 1-3 /proc/loadavg)"
for workers in 1 2 4; do
  rm -f "$work"/*.took
  for ((run = 0; run < runs; run++)); do
    for name in "${names[@]}"; do run_once "$name" "$workers"; done
  done
  for name in "${names[@]}"; do
    echo "$workers workers, $name: $(median "$work/$name.took" 1) round trips a second; median $(median "$work/$name.took" 2) µs, 99th percentile $(median "$work/$name.took" 3) µs"
  done
done
