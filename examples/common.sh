# What the scripts here share. Each sources it, at the top of the repository, with the name by which it speaks of itself and the
# programs that it runs: `. examples/common.sh NAME PROGRAM..`. They lie in $room then, which goes when the script ends.
told_by=$1
shift
room=$(mktemp -d) || exit 1
trap 'rm -rf "$room"' EXIT
# (BUILT names another folder than crates/ in which the programs lie.)
for program; do
  # (what 'rt ci' keeps of a program may have lost the right to be run)
  if ! install -m 755 "${BUILT:-crates}/$program/out/$program" "$room/$program"; then
    echo "$told_by: $program isn't built ('rt ci' builds it, and 'rt run' in its crate's folder)"
    exit 1
  fi
done

passed=0
failed=0
# Counts a case, which ended with status $1; the rest says what it is.
count() {
  if [ "$1" = 0 ]; then
    passed=$((passed + 1))
  else
    failed=$((failed + 1))
    shift
    echo "$told_by: fails: $*"
  fi
}

# Says how many cases passed. Its status is that of the script.
say_counts() {
  echo "$told_by: $passed passed, $failed failed"
  [ "$failed" = 0 ]
}

# The port that a server writes into the file $1, once it does.
port_in() {
  local wait
  for wait in {1..200}; do
    if [ -s "$1" ]; then
      sed -n 's/^port //p' "$1"
      return
    fi
    sleep 0.02
  done
}
