#!/usr/bin/env bash
# Judges runs: the first run of docs/RUNS.md, each example of its table of rules (the last line has to break the rule of its row, and the
# lines before it none) and of its legal cases; what stands against a line; and a run of 1,000,000 lines, in under two seconds of
# processor time and in no more memory than one of 10,000. Ends with 'runs: N passed, M failed'.
set -u
cd "$(dirname "$0")/.." || exit 1
. examples/common.sh runs run_judge

# The run with the lines $1, with ' / ' between two, as $room/run.
write_run() {
  { echo 'run 1' && sed 's| / |\n|g' <<< "$1"; } > "$room/run"
}

# The first run.
awk '/^run 1$/ { inside = 1 } /^```$/ { if (inside) exit } inside' docs/RUNS.md > "$room/run"
[ "$("$room/run_judge" check "$room/run")" = legal ] && [ "$(wc -l < "$room/run")" -gt 5 ]
count $? "the first run is $("$room/run_judge" check "$room/run")"

# A rule a row: its name, and the example at its end.
rules=0
while IFS='|' read -r _ rule _ _ example _; do
  rule=${rule// /}
  example=${example#*\`}
  example=${example%\`*}
  case $rule in
    Ready | Order | Stopped | Nested | Finishing) level=--strict ;;
    *) level=--streams ;;
  esac
  write_run "$example"
  last=$(wc -l < "$room/run")
  said=$("$room/run_judge" check $level "$room/run")
  [[ $said == "illegal at line $last: ${example##* / }"* && $said == *$'\n'"rule: $rule"$'\n'* ]]
  count $? "$rule: $example: $said"
  sed -i '$d' "$room/run"
  said=$("$room/run_judge" check $level "$room/run")
  [[ $said == legal* ]]
  count $? "$rule, without the last line: $example: $said"
  rules=$((rules + 1))
done < <(grep -E '^\| [A-Z][A-Za-z]+ \|.* \| `[0-9].* / .*` \|$' docs/RUNS.md)
[ "$rules" = 22 ]
count $? "docs/RUNS.md has examples of $rules rules"

# Legal cases.
legal=0
while read -r example; do
  write_run "$example"
  said=$("$room/run_judge" check --streams "$room/run")
  [[ $said == legal* ]]
  count $? "$example: $said"
  legal=$((legal + 1))
done < <(grep -E '^- ' docs/RUNS.md | grep -oE '`[0-9][^`]* / [^`]*`' | tr -d '`')
[ "$legal" = 2 ]
count $? "docs/RUNS.md has $legal legal cases"

# What stands against the line that breaks a rule.
said=$(cd crates/run_judge/data && "$room/run_judge" why --streams race.run)
[ "$said" = "$(cat crates/run_judge/stdout)" ]
count $? "why: $said"

# What is under way at the end of a run, line by line.
write_run 'name strand 5 room / 0 call 0 post 0 - - / 0 call 1 read 0 5 9 / 0 call 2 post 0 - - / 1 begin 0 ok 0 / 1 claim 7 / 1 lock 8 / 1 unlock 8 / 0 drop 2'
cat > "$room/wanted" << 'END'
legal so far, 10 lines
owed: 1 operations that wait
owed: 1 threads that execute handlers
owed: 1 claims and locks
owed: line 4: 0 call 1 read 0 5 9 [strand 5 room]
owed: line 6: 1 begin 0 ok 0
owed: line 7: 1 claim 7
END
"$room/run_judge" why "$room/run" | cmp -s - "$room/wanted"
count $? "why of a run that goes on: $("$room/run_judge" why "$room/run")"

# What keeps claims apart: the lines of a run, the status, and what is said. All claims are of thing 1.
overlaps=0
while IFS='|' read -r lines status wanted; do
  write_run "$lines"
  said=$("$room/run_judge" overlaps "$room/run")
  [ "$?" = "$status" ] && [[ $said == "$wanted"* ]]
  count $? "overlaps of $lines: $said"
  overlaps=$((overlaps + 1))
done << 'END'
0 call 0 post 0 4 - / 0 call 1 post 0 4 - / 1 begin 0 ok 0 / 1 claim 1 / 1 release 1 / 1 end 0 / 2 begin 1 ok 0 / 2 claim 1|0|never: thing 1: 2 claims, on strand 4
0 call 0 post 0 4 - / 0 call 1 post 0 5 - / 1 begin 0 ok 0 / 1 claim 1 / 1 release 1 / 1 end 0 / 2 begin 1 ok 0 / 2 claim 1|10|may: thing 1: 2 claims
0 call 0 post 0 4 - / 0 call 1 post 0 5 - / 1 begin 0 ok 0 / 1 claim 1 / 1 release 1 / 1 end 0 / 1 begin 1 ok 0 / 1 claim 1|0|never: thing 1: 2 claims, on thread 1
0 call 0 post 0 4 - / 2 work 0 / 1 claim 1 / 1 release 1 / 1 begin 0 ok 0 / 1 claim 1|9|unknown: thing 1: 2 claims
1 lock 3 / 1 claim 1 / 1 release 1 / 1 unlock 3 / 2 lock 3 / 2 claim 1|0|never: thing 1: 2 claims, under lock 3
1 lock 3 / 1 claim 1 / 1 unlock 3 / 1 release 1 / 2 lock 3 / 2 claim 1|9|
1 claim 1 / 2 claim 1|8|
END
[ "$overlaps" = 7 ]
count $? "$overlaps runs were asked for overlaps"

# An order that overlaps two claims is a run that is illegal at its last line alone.
"$room/run_judge" order crates/run_judge/data/room.run 1 > "$room/order"
count $? "no order of room.run overlaps claims of thing 1"
said=$("$room/run_judge" check "$room/order")
[[ $said == "illegal at line $(wc -l < "$room/order"): $(tail -n 1 "$room/order")"$'\n'"rule: Untouched"* ]]
count $? "an order of room.run: $said"
sed -i '$d' "$room/order"
said=$("$room/run_judge" check "$room/order")
[[ $said == 'legal so far'* ]]
count $? "an order of room.run, without its last line: $said"
write_run '0 call 0 post 0 4 - / 0 call 1 post 0 4 - / 1 begin 0 ok 0 / 1 claim 1 / 1 release 1 / 1 end 0 / 2 begin 1 ok 0 / 2 claim 1'
said=$("$room/run_judge" order "$room/run" 1)
[ "$?$said" = 9 ]
count $? "an order of a run whose claims are on one strand: $said"

# The picture of docs/RUNS.md, one of a window, and one of what is no run.
"$room/run_judge" picture crates/run_judge/data/room.run | cmp -s - examples/room.svg
count $? "the picture of room.run isn't examples/room.svg"
said=$("$room/run_judge" picture crates/run_judge/data/room.run --from 6 --to 9)
[[ $said == *"lines 6 to 9 of the run; those before aren't drawn; more lines follow that aren't drawn"* && $said != *"line 10"* ]]
count $? "a window: $said"
printf 'run 1\n0 call\n' | "$room/run_judge" picture - > "$room/said" 2> "$room/notes"
[ $? = 7 ] && [ ! -s "$room/said" ] && [ "$(cat "$room/notes")" = 'run_judge: bad run at line 2' ]
count $? "a picture of no run: $(cat "$room/said" "$room/notes")"

# A long run: postings and reads on strands and things in turn, on five threads, with as much under way at the end as in its midst.
long_run() {
  awk -v lines="$1" 'BEGIN {
    print "run 1"
    for (op = 0; written < lines; op++) {
      print op % 5 " call " op (op % 3 ? " post 0 " op % 40 " -" : " read 0 - " op % 60); written++
      old = op - 100
      if (old < 0) continue
      thread = old % 5
      print thread " begin " old " ok 0"
      print thread " claim " old % 60
      print thread " release " old % 60
      print thread " end " old
      written += 4
    }
  }'
}
for lines in 10000 1000000; do
  long_run "$lines" > "$room/long"
  (
    # (room for twice what the judge takes)
    ulimit -v 65536
    TIMEFORMAT='%U %S'
    time "$room/run_judge" check "$room/long" > "$room/said" 2> "$room/notes"
  ) 2> "$room/time"
  read -r user system < "$room/time"
  [[ $(head -n 1 "$room/said") == "legal so far, $(wc -l < "$room/long") lines" ]]
  count $? "$lines lines: $(cat "$room/said" "$room/notes")"
  awk -v used="$user" -v more="$system" 'BEGIN { exit !(used + more < 2) }'
  count $? "$lines lines took $user and $system seconds"
  echo "runs: $(wc -l < "$room/long") lines took $user and $system seconds of processor time"
done
say_counts
