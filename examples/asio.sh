#!/usr/bin/env bash
# Runs the program asio: each command on files of examples/, beside the programs of the libraries; and on each fault of faults.table, of
# which it has to say exactly what is wanted. With a folder of inputs in CASES, each command is compared with the libraries' programs on
# all of them too. Ends with 'asio: N passed, M failed'.
set -u
cd "$(dirname "$0")/.." || exit 1
. examples/common.sh asio asio asio_run asio_check asio_show asio_orders run_judge
asio=$room/asio

# A session and its trace in one file: the script, a line `--`, and the trace.
both() {
  cat "examples/$1.session"
  echo "--"
  cat "examples/$1.trace"
}

for trace in examples/*.trace; do
  name=$(basename "$trace" .trace)
  session=examples/$name.session
  both "$name" > "$room/$name.input"
  # Both files, one file, and standard input have the checker's line and status.
  "$room/asio_check" < "$room/$name.input" > "$room/judged"
  judged=$?
  for files in "$session $trace" "$room/$name.input" "$session -"; do
    # shellcheck disable=SC2086
    "$asio" check $files < "$trace" > "$room/said" 2> "$room/notes"
    [ "$?" = "$judged" ] && cmp -s "$room/said" "$room/judged" && [ ! -s "$room/notes" ]
    count $? "asio check $files"
  done
  "$room/asio_show" why < "$room/$name.input" > "$room/shown"
  "$asio" why "$session" "$trace" > "$room/said" && cmp -s "$room/said" "$room/shown"
  count $? "asio why $session $trace"
  "$room/asio_run" upgrade < "$session" > "$room/upgraded"
  "$asio" upgrade "$session" > "$room/said" && cmp -s "$room/said" "$room/upgraded"
  count $? "asio upgrade $session"
  # One worker has one trace, which is that of the library's program, and the checker finds each legal.
  sed -E 's/\b(run|poll) [0-9]+/\1 1/g' "$session" | "$room/asio_run" run > "$room/wanted"
  "$asio" run "$session" --workers 1 | cmp -s - "$room/wanted"
  count $? "that asio run $session --workers 1 has the trace of asio_run"
  "$asio" run "$session" --workers 1 > "$room/ran" && "$asio" check "$session" "$room/ran" > "$room/said" && [ "$(cat "$room/said")" = legal ]
  count $? "asio run $session --workers 1"
done

for picture in examples/*.svg; do
  session=${picture%.svg}
  # (room.svg is the picture of a recorded run)
  [ -e "$session.session" ] || continue
  "$asio" picture "$session.session" "$session.trace" | cmp -s - "$picture"
  count $? "asio picture $session.session"
  said=$("$asio" picture "$session.session" "$session.trace" -o "$room/drawn.svg") && [ "$said" = legal ] && cmp -s "$room/drawn.svg" "$picture"
  count $? "asio picture $session.session -o drawn.svg"
done

# Each shape that a picture may have.
"$asio" picture examples/shapes.input | cmp -s - examples/shapes.svg
count $? "asio picture examples/shapes.input"

# A page has the picture as it is, the reasons and the lines, and nothing from elsewhere.
"$asio" picture examples/two_at_once.input > "$room/drawn.svg"
"$asio" picture examples/two_at_once.input --html > "$room/page"
[ "$?" = 8 ] && [ "$(grep -c '^<li>' "$room/page")" = 6 ] && ! grep -qE '(src|href)=' "$room/page" \
  && grep -q "isn't free: operation 0 runs there since line 5" "$room/page" && sed -n '/^<svg/,/^<\/svg>/p' "$room/page" | cmp -s - "$room/drawn.svg"
count $? "asio picture examples/two_at_once.input --html"

# Whether asio with the words behind $1 and $2 ends with the status $1, and says $2 on one of its lines.
says() {
  local wanted=$1 line=$2 status
  shift 2
  "$asio" "$@" > "$room/said" 2>&1
  status=$?
  [ "$status" = "$wanted" ] && grep -qxF -- "$line" "$room/said"
  count $? "asio $* (status $status, wanted $wanted and '$line')"
}

# Each fault, alone in a file.
LC_ALL=C awk -v room="$room" -f examples/faults.awk examples/faults.table
for escaped in "$room"/*.escaped; do
  number=$(basename "$escaped" .escaped)
  printf '%b' "$(cat "$escaped")" > "$room/$number.file"
  (cd "$room" && ./asio check "$number.file" > said 2> notes)
  [ "$?" = "$(cat "$room/$number.status")" ] && cmp -s "$room/notes" "$room/$number.wanted" && [ ! -s "$room/said" ]
  count $? "a fault of faults.table: $(cat "$escaped")"
done

# Faults in other commands and in other files.
printf 'session 1 open { psot - { } } run 1\n' > "$room/near.session"
says 2 ' --> '"$room"'/near.session:1:18' run "$room/near.session"
says 2 '  = hint: did you mean `post`?' upgrade "$room/near.session"
printf '# strand 0 room\nsession 1 strands 1 open {\n  post 1 { }\n} run 1\n' > "$room/unknown.session"
says 2 ' --> '"$room"'/unknown.session:3:8' run "$room/unknown.session"
printf 'call 0\nback 0\nbegin 0 okay 0\n' > "$room/code.trace"
says 7 ' --> '"$room"'/code.trace:3:9' why examples/one_posting.session "$room/code.trace"
printf 'ended' > "$room/cut.trace"
says 7 'error: bad trace at line 1: the last line has no line end' picture examples/no_work.session "$room/cut.trace"
says 7 'error: examples/echo.session: a script and no trace: give the trace as a second file, or behind a line that is exactly `--`' why examples/echo.session
says 3 "error: $room/none: no such file" check "$room/none"
says 3 "error: examples: it is a folder" run examples
says 3 "error: standard input: it is read once only" check - -
says 1 'Usage: asio <COMMAND>'
says 1 "error: unrecognized subcommand 'rnu'" rnu
says 0 'Example:' check --help
[[ $("$asio" --version) == "asio rattle-kit-"*" $(rt version | grep -o 'logic .*')" ]]
count $? "that asio --version names the kit: $("$asio" --version)"

# Several files have a verdict each, and the worst status.
says 8 'examples/two_at_once.input: illegal at line 6' check "$room/no_work.input" examples/two_at_once.input "$room/timers.input"
says 8 "$room/timers.input: legal" check "$room/no_work.input" examples/two_at_once.input "$room/timers.input"

# A recorded run has the verdict of the judge of runs: one that is legal, one that is under way, and one that isn't.
printf 'run 1\n0 call 0 post 0 0 -\n1 begin 0 ok 0\n1 end 0\n' > "$room/legal.run"
head -n 3 "$room/legal.run" > "$room/under_way.run"
{ cat "$room/legal.run"; echo '1 end 0'; } > "$room/illegal.run"
printf 'run 1\n0 call\n' > "$room/bad.run"
for run in legal under_way illegal bad; do
  "$room/run_judge" check "$room/$run.run" > "$room/judged"
  judged=$?
  "$asio" check "$room/$run.run" > "$room/said"
  [ "$?" = "$judged" ] && cmp -s "$room/said" "$room/judged"
  count $? "asio check $run.run"
done
says 0 '{"file":"'"$room"'/legal.run","status":0,"verdict":["legal"]}' check "$room/legal.run" --json

# Names, and objects.
{ echo "# strand 0 room"; echo "# act 1 second"; cat examples/two_at_once.input; } > "$room/named.input"
says 8 "begin 1 (second): strand 0 (room) isn't free: operation 0 runs there since line 5" why "$room/named.input"
says 8 '{"file":"'"$room"'/named.input","status":8,"verdict":"illegal","line":6,"reasons":["rule: Executions, LaneIsFree: nothing of its lane runs","begin 1 (second): strand 0 (room) isn'"'"'t free: operation 0 runs there since line 5"]}' why "$room/named.input" --json
"$asio" picture "$room/named.input" | sed 's/ (room)//g;s/ (second)//g' | cmp -s - "$room/drawn.svg" \
  && "$asio" picture "$room/named.input" | grep -q '>strand 0 (room)</text>' && "$asio" picture "$room/named.input" | grep -q '<title>act 1 (second) is called'
count $? "that a picture has the names"
says 0 '{"line":1,"event":"call","act":0}' run examples/one_posting.session --json
says 2 '{"file":"'"$room"'/near.session","status":2,"verdict":"refused","line":1,"column":18,"token":5,"rule":4,"message":"refused by rule 4, Shape: another kind or word than the grammar allows here","could_stand":"`}`, `post`, `defer`, `dispatch`, `release`, `stop`, `expires`, `wait`, `cancel`, `cancelone`, `emit`, `readsome`, `read`, `until`, `writesome`, `write`, `close`","hints":["did you mean `post`?"]}' run "$room/near.session" --json

# A reader that goes away ends it, and nothing is said of that.
"$asio" picture examples/echo.session "$room/ran" 2> "$room/notes" | true
"$asio" run examples/echo.session 2>> "$room/notes" | true
[ ! -s "$room/notes" ]
count $? "that a broken pipe ends it quietly: $(cat "$room/notes")"
"$asio" run examples/echo.session > /dev/full 2> "$room/notes"
[ "$?" = 4 ] && [ "$(cat "$room/notes")" = "error: writing failed" ]
count $? "that a full disk is a write fault"

# A session that waits for ever is ended by the signal of a terminal.
printf 'session 1 timers 1 guards 1 open { wait 0 - - { } abort { release 0 } } run 2\n' > "$room/waits.session"
timeout --preserve-status -s INT 1 "$asio" run "$room/waits.session" > "$room/said" 2> "$room/notes"
[ "$?" = 130 ] && [ ! -s "$room/notes" ]
count $? "that SIGINT ends a session that waits for ever"

if command -v script > /dev/null; then
  script -qec "timeout 4 '$asio' run '$room/waits.session'" /dev/null < /dev/null > "$room/notes"
  grep -q '^note: the session still runs: ' "$room/notes"
  count $? "that a terminal is told of a session that still runs"
else
  echo "asio: script is missing, so nothing looks whether a terminal is told of a session that still runs"
fi

# Orders: the answers and the statuses of the library's program.
while read -r question; do
  # shellcheck disable=SC2086
  "$room/asio_orders" examples/three_postings.session $question > "$room/judged" 2> "$room/notes"
  judged=$?
  # shellcheck disable=SC2086
  "$asio" orders examples/three_postings.session $question > "$room/said" 2> "$room/notes"
  [ "$?" = "$judged" ] && cmp -s "$room/said" "$room/judged"
  count $? "asio orders examples/three_postings.session $question"
done << 'end'

--list
--net --most 2 --list
--handlers
--most 3
--sort
end
asked='begin 1 before begin 0'
"$asio" orders examples/three_postings.session --can "$asked" > "$room/said" \
  && "$room/asio_orders" examples/three_postings.session --can "$asked" | cmp -s - "$room/said" && grep -qx yes "$room/said"
count $? "asio orders examples/three_postings.session --can '$asked'"
says 1 'error: these words are no question' orders examples/three_postings.session --sort
says 2 '  = hint: did you mean `post`?' orders "$room/near.session"
says 0 'Example:' orders --help

# The part of an input before its first line `--`, with one worker in each round.
script_of() {
  sed '/^--$/,$d' "$1" | sed -E 's/\b(run|poll) [0-9]+/\1 1/g'
}

# Whether a command does with the input $2 what the library's program does: the same status, and the same on standard output.
alike() {
  local input=$2 judged
  case $1 in
    check) "$room/asio_check" "${@:3}" < "$input" ;;
    why | picture) "$room/asio_show" "$1" "${@:3}" < "$input" ;;
    run) timeout 2 "$room/asio_run" run < "$room/case.session" ;;
    upgrade) "$room/asio_run" upgrade < "$room/case.session" ;;
    orders) "$room/asio_orders" "$room/case.session" --most 20 ;;
  esac > "$room/judged" 2> "$room/noted"
  judged=$?
  case $1 in
    check | why | picture) "$asio" "$1" "$input" "${@:3}" ;;
    run | upgrade) timeout 2 "$asio" "$1" "$room/case.session" ;;
    orders) "$asio" orders "$room/case.session" --most 20 ;;
  esac > "$room/said" 2> "$room/notes"
  [ "$?" = "$judged" ] && { cmp -s "$room/said" "$room/judged" || { [ "$1" = run ] && is_legal said && is_legal judged; } } && return
  # (a file without a line `--` is a script alone, which may be refused)
  ! { echo; cat "$input"; } | tr '\n' '\1' | grep -q $'\1--\1'
}

# Whether a trace is one of the script. (With one worker, too, a script may have several: its code in `open` runs beside it.)
is_legal() {
  { printf '%s\n--\n' "$(cat "$room/case.session")"; cat "$room/$1"; } | "$room/asio_check" | grep -qx legal
}

# Each command on each of the inputs. Comments at a script's head are read by asio alone.
if [ -n "${CASES:-}" ]; then
  commands=(check "check --net" why "why --net" picture run upgrade orders)
  while read -r input; do
    case $input in *.gz) gzip -dc "$input" ;; *) cat "$input" ;; esac > "$room/case.input"
    [ "$(head -c 1 "$room/case.input")" = "#" ] && continue
    script_of "$room/case.input" > "$room/case.session"
    for command in "${commands[@]}"; do
      # shellcheck disable=SC2086
      set -- $command
      # (the orders of a long script take minutes)
      [ "$1" = orders ] && [ "$(stat -c %s "$room/case.session")" -gt 400 ] && continue
      alike "$1" "$room/case.input" "${@:2}" || echo "$input" >> "$room/$1$#.differ"
    done
  done < <(find "$CASES" -name '*.in' -o -name '*.in.gz')
  for command in "${commands[@]}"; do
    # shellcheck disable=SC2086
    set -- $command
    [ ! -s "$room/$1$#.differ" ]
    count $? "asio $command has the answers of the library's program, but for $(head -n 3 "$room/$1$#.differ" 2> "$room/notes" | tr '\n' ' ')"
  done
fi
say_counts
