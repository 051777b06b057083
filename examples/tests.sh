#!/usr/bin/env bash
# Runs the tests of all crates by `rt try --test`, as many crates at once as there are processors (JOBS names another number). Nothing is
# proved, so this takes minutes; the gate proves what the tests call, and runs them again. Names of crates as arguments run these alone.
# It says how far it is in a line a crate. The last line is 'tests: N passed, M failed', which counts tests; a crate that couldn't be
# compiled, or whose tests stopped, counts as one that failed.
set -u
cd "$(dirname "$0")/.." || exit 1
room=$(mktemp -d) || exit 1
trap 'rm -rf "$room"' EXIT
export room

# Runs the tests of the crate $1, and prints one line.
run_tests() {
  local began=$SECONDS log=$room/$1.log passed failed
  (cd "crates/$1" && rt try --test --seconds 900) > "$log" 2>&1
  local status=$?
  passed=$(sed -nE 's/^test result: .* ([0-9]+) passed; .*/\1/p' "$log" | tail -n 1)
  failed=$(sed -nE 's/^test result: .* ([0-9]+) failed; .*/\1/p' "$log" | tail -n 1)
  passed=${passed:-0} failed=${failed:-0}
  if [ "$status" != 0 ] && [ "$failed" = 0 ]; then failed=1; fi
  echo "$passed $failed" > "$room/$1.counts"
  echo "tests: $(find "$room" -name '*.counts' | wc -l) of $crates: $1: $passed passed, $failed failed ($((SECONDS - began)) s)"
  [ "$failed" = 0 ] || tail -n 30 "$log"
}
export -f run_tests

if [ $# = 0 ]; then
  # the crates whose sessions have many workers first, since they take longest; then those with the most tests
  longest='context_tests session_tests io_tests future_tests group_tests'
  mapfile -t with_tests < <(
    printf '%s\n' $longest
    grep -rE '^ *#\[test\]' crates/*/src | cut -d/ -f2 | sort | uniq -c | sort -rn | awk '{ print $2 }' | grep -vxF "${longest// /$'\n'}"
  )
  set -- "${with_tests[@]}"
fi
export crates=$#
printf '%s\n' "$@" | xargs -P "${JOBS:-$(nproc)}" -I{} bash -c 'run_tests {}'
echo "tests: $(cat "$room"/*.counts | awk '{ passed += $1; failed += $2 } END { print passed + 0 " passed, " failed + 0 " failed" }')" |
  tee "$room/last"
grep -qE '^tests: [1-9][0-9]* passed, 0 failed$' "$room/last"
