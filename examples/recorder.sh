#!/usr/bin/env bash
# Builds the samples of recorder/ with Boost.Asio, each in its right form and in its wrong ones, records runs of them, so many of each
# (20 by default), and has each judged: `examples/recorder.sh [RUNS]`. RUN_JUDGE names the words that judge a file, CXX the compiler,
# CPLUS_INCLUDE_PATH where Boost is, if not in the system. Without a judge only the form of the lines is checked.
# Ends with 'recorder: N passed, M failed'.
set -u
cd "$(dirname "$0")/.." || exit 1
runs=${1:-20}
read -ra compiler <<< "${CXX:-g++}"
if ! command -v "${compiler[0]}" > /dev/null; then
  echo "recorder: skipped, since ${compiler[0]} isn't here"
  exit 0
fi
if ! "${compiler[@]}" -std=c++20 -fsyntax-only -x c++ - <<< '#include <boost/asio/version.hpp>' 2> /dev/null; then
  echo "recorder: skipped, since Boost.Asio isn't here"
  exit 0
fi
. examples/common.sh recorder

built=crates/run_judge/out/run_judge
if [ -n "${RUN_JUDGE-}" ]; then
  read -ra judge <<< "$RUN_JUDGE"
elif [ -f "$built" ]; then
  # (what 'rt ci' keeps of a program may have lost the right to be run)
  install -m 755 "$built" "$room/run_judge"
  judge=("$room/run_judge" check)
else
  judge=()
  echo "recorder: run_judge isn't built, so only the form of the lines is checked"
fi

# Compiles what the arguments say. What the compiler says is shown.
compile() {
  nice "${compiler[@]}" -std=c++20 -Wall -Wextra -Wpedantic -I recorder -pthread "$@"
}
tracking='-DBOOST_ASIO_CUSTOM_HANDLER_TRACKING="asio_recorder.hpp"'
# (a precompiled header, which saves a third of the time)
printf '#include "asio_recorder.hpp"\n#include <boost/asio.hpp>\n' > "$room/asio.hpp"
compile "$tracking" -x c++-header "$room/asio.hpp" -o "$room/asio.hpp.gch"
count $? "the header isn't compiled"

# Builds sample $1, to be recorded, as $room/$2; the rest are its macros.
build() {
  local sample=$1 program=$2 status
  shift 2
  compile "$tracking" -include "$room/asio.hpp" "${@/#/-D}" "recorder/samples/$sample.cpp" -o "$room/$program"
  status=$?
  count $status "$sample isn't built with: $*"
  return $status
}

# Whether each line of the run $1 has the form of one.
is_well_formed() {
  LC_ALL=C awk '
    BEGIN {
      # n a number, o a number or -, w a word
      shape["call"] = "nwnoo"; shape["done"] = shape["begin"] = "nwn"
      others = split("back end throw drop claim release lock unlock mark after cancel work stop restart", other, " ")
      for (i = 1; i <= others; i++) shape[other[i]] = "n"
      kinds = split("strand thing op thread context lock mark", kind, " ")
      for (i = 1; i <= kinds; i++) named[kind[i]] = 1
    }
    function is_number(word) {
      if (word !~ /^(0|[1-9][0-9]*)$/ || length(word) > 20) return 0
      return length(word) < 20 || (word "") <= "18446744073709551615"
    }
    function is_word(word) { return word ~ /^[a-z][a-z0-9_]*$/ && length(word) <= 32 }
    function has_shape(form, of, i, wanted, fits) {
      fits = of == 2 + length(form)
      for (i = 1; i <= length(form) && fits; i++) {
        wanted = substr(form, i, 1)
        if (wanted == "w") fits = is_word(words[2 + i])
        else fits = is_number(words[2 + i]) || wanted == "o" && words[2 + i] == "-"
      }
      return fits
    }
    function is_line(of) {
      of = split($0, words, / /)
      if (words[1] == "name") return of >= 4 && (words[2] in named) && is_number(words[3]) && $0 ~ /^name [a-z]+ [0-9]+ [ -~]+$/
      return is_number(words[1]) && (words[2] in shape) && has_shape(shape[words[2]], of)
    }
    (NR == 1 && $0 != "run 1") || (NR > 1 && !is_line()) { print FILENAME ": line " NR " is none: " $0; bad = 1; exit }
    END { exit bad || NR == 0 }
  ' "$1"
}

# The verdict on run $1: "legal", "legal so far", the rule that is broken, or "bad".
verdict_on() {
  local said
  is_well_formed "$1" >&2 || { echo bad; return; }
  [ ${#judge[@]} -gt 0 ] || { echo legal; return; }
  said=$("${judge[@]}" --streams "$1" 2>&1)
  case $said in
    legal) echo legal ;;
    'legal so far'*) echo 'legal so far' ;;
    illegal*) sed -n 's/^rule: //p' <<< "$said" ;;
    *) echo "bad: $said" ;;
  esac
}

# The status of the answer to what keeps the claims of run $1 apart: 0 if they never overlap in any order of it, 9 if that isn't known
# of some, 8 if the run isn't legal.
overlaps_in() {
  "${judge[@]/%check/overlaps}" "$1" > "$room/said" 2>&1
}

# Every second run goes to its file while the program runs.
record() {
  ASIO_RUN=$room/run ASIO_RUN_MEMORY=$(($2 % 2 * 16)) timeout 30 "$room/$1" > "$room/said" 2>&1
}

# Right programs: all runs are legal.
for sample in chat contexts coroutines pool timers; do
  build "$sample" "$sample" || continue
  for ((run = 0; run < runs; run++)); do
    record "$sample" "$run"
    status=$?
    verdict=$(verdict_on "$room/run")
    [ "$status $verdict" = '0 legal' ]
    count $? "$sample: status $status, $verdict"
    [ ${#judge[@]} -gt 0 ] || continue
    overlaps_in "$room/run"
    count $? "$sample: claims may overlap in another order"
  done
done

# Wrong programs: no run breaks another rule than the one of the mistake. A race may crash such a program, or keep it from its end.
# What chance decides has to be seen in one run at least, where there are processors for it.
for mistake in 'chat MISSING_STRAND Untouched' 'chat TWO_WRITES Single' 'contexts MISSING_POST Untouched' 'coroutines CLAIM_ACROSS_AWAIT Clean' \
  'pool NO_MUTEX Untouched' 'timers TIMER_WITHOUT_STRAND Untouched'; do
  read -r sample macro rule <<< "$mistake"
  build "$sample" wrong "$macro" || continue
  found=0
  for ((run = 0; run < runs; run++)); do
    record wrong "$run" 2> "$room/notes"
    verdict=$(verdict_on "$room/run")
    [[ $verdict == legal* || $verdict == "$rule" ]]
    count $? "$sample with $macro: $verdict"
    [ "$verdict" != "$rule" ] || found=$((found + 1))
    # in each run a mistake with claims is found, in this order of it or in another one
    [ ${#judge[@]} -gt 0 ] && [ "$rule" != Single ] || continue
    ! overlaps_in "$room/run"
    count $? "$sample with $macro: its claims are said never to overlap"
  done
  [ ${#judge[@]} -gt 0 ] || continue
  echo "recorder: $sample with $macro: $found of $runs runs break $rule"
  case $rule in
    Clean) [ "$found" = "$runs" ] ;;
    *) [ "$found" -gt 0 ] || [ "$(nproc)" = 1 ] ;;
  esac
  count $? "$sample with $macro: $found of $runs runs break $rule"
done

# What a signal ends leaves a run, which is legal so far. (A busy machine may need longer until the program begins.)
for signal in TERM SEGV; do
  rm -f "$room/run"
  for seconds in 0.03 0.1 0.3 1; do
    [ -e "$room/run" ] || ASIO_RUN=$room/run timeout -s "$signal" "$seconds" "$room/timers" > "$room/said" 2>&1
  done
  verdict=$(verdict_on "$room/run")
  [[ $verdict == legal* ]]
  count $? "timers, ended by SIG$signal: $verdict"
done 2> "$room/notes"

# Nothing is recorded without the macro, nor without ASIO_RUN, and a file that can't be written changes nothing.
rm -f "$room/run"
compile recorder/samples/pool.cpp -o "$room/plain" && ASIO_RUN=$room/run "$room/plain" > "$room/said" && [ ! -e "$room/run" ]
count $? "pool without the macro"
env -u ASIO_RUN "$room/pool" > "$room/again" && cmp -s "$room/said" "$room/again"
count $? "pool without ASIO_RUN"
ASIO_RUN=$room/none/run "$room/pool" > "$room/again" 2> "$room/notes" && cmp -s "$room/said" "$room/again" && [ -s "$room/notes" ]
count $? "pool with a file that can't be written"
say_counts
