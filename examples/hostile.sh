#!/usr/bin/env bash
# Uses both programs badly, from outside: command lines that can't be read, outputs and notes that can't be written, inputs that
# can't be read or don't end, every first part of three scripts, 20,000 inputs that are nearly good, and threads that are refused.
# No use may crash or hang a program, and each has to end with its documented status, its note whole, and what it says of a place
# inside the text. Ends with 'hostile: N passed, M failed'.
set -u
cd "$(dirname "$0")/.." || exit 1
. examples/common.sh hostile asio_run asio_check
run=$room/asio_run
check=$room/asio_check
usage_run='asio_run: usage: asio_run run [--net] | asio_run gen START SIZE | asio_run upgrade'
usage_check='asio_check: usage: asio_check [--net]'
limit="timeout 20"

# Passes where both texts are one.
same() {
  if [ "$2" = "$3" ]; then
    passed=$((passed + 1))
  else
    failed=$((failed + 1))
    echo "hostile: $1: '$2' in place of '$3'" >&2
  fi
}

# Passes where the command after the name, status and note ends so, with nothing on its out (which is $room/out, where it is sent
# there).
ends() {
  local name=$1 status=$2 note=$3
  shift 3
  : > "$room/out"
  "$@" 2> "$room/note"
  same "$name" "$? '$(cat "$room/note")' $(wc -c < "$room/out")" "$status '$note' 0"
}

script=examples/echo.session
small=examples/one_posting.session
{ cat "$small"; echo "--"; cat examples/one_posting.trace; } > "$room/legal"
# Some 180,000 bytes of a trace, more than a pipe holds.
awk 'BEGIN { printf "session 2 open {"; for (n = 0; n < 4096; n++) printf " post - { }"; print " } run 1" }' > "$room/long"

# Words that aren't UTF-8 make a faulty command line, whatever the others say.
bad=$'\xff'
ends "run, a bad word" 1 "$usage_run" $limit "$run" "$bad" < "$small" > "$room/out"
ends "run, a bad word behind a good one" 1 "$usage_run" $limit "$run" run "$bad" < "$small" > "$room/out"
ends "run, a bad word before a good one" 1 "$usage_run" $limit "$run" "$bad" run < "$small" > "$room/out"
ends "run, a bad word in gen" 1 "$usage_run" $limit "$run" gen 1 "$bad" < "$small" > "$room/out"
ends "run, no word" 1 "$usage_run" $limit "$run" < "$small" > "$room/out"
ends "run, an empty word" 1 "$usage_run" $limit "$run" "" < "$small" > "$room/out"
ends "check, a bad word" 1 "$usage_check" $limit "$check" "$bad" < "$room/legal" > "$room/out"
ends "check, a bad word behind a good one" 1 "$usage_check" $limit "$check" --net "$bad" < "$room/legal" > "$room/out"
ends "check, an empty word" 1 "$usage_check" $limit "$check" "" < "$room/legal" > "$room/out"
ends "check, another word" 1 "$usage_check" $limit "$check" run < "$room/legal" > "$room/out"

# Outputs that are full, closed, or whose reader has gone.
to_full() { "$@" > /dev/full; }
to_closed() { "$@" >&-; }
to_reader_that_goes() { "$@" | head -n 1 > "$room/head"; return "${PIPESTATUS[0]}"; }
for out in to_full to_closed; do
  ends "run, $out" 4 "asio_run: write fault" $out $limit "$run" run < "$script"
  ends "run, long, $out" 4 "asio_run: write fault" $out $limit "$run" run < "$room/long"
  ends "upgrade, $out" 4 "asio_run: write fault" $out $limit "$run" upgrade < "$script"
  ends "gen, $out" 4 "asio_run: write fault" $out $limit "$run" gen 7 64 < /dev/null
  ends "check, $out" 4 "asio_check: write fault" $out $limit "$check" < "$room/legal"
done
ends "run, a reader that goes" 4 "asio_run: write fault" to_reader_that_goes $limit "$run" run < "$room/long"

# Inputs that can't be read, or have no end.
for form in run upgrade; do
  ends "$form, a folder" 3 "asio_run: read fault" $limit "$run" "$form" < examples > "$room/out"
  ends "$form, no input" 3 "asio_run: read fault" $limit "$run" "$form" <&- > "$room/out"
  ends "$form, no end" 2 "asio_run: refused 2 at line 0 token 0" $limit "$run" "$form" < /dev/zero > "$room/out"
  ends "$form, nothing" 2 "asio_run: refused 4 at line 1 token 1" $limit "$run" "$form" < /dev/null > "$room/out"
done
ends "check, a folder" 3 "asio_check: read fault" $limit "$check" < examples > "$room/out"
ends "check, no input" 3 "asio_check: read fault" $limit "$check" <&- > "$room/out"
ends "check, no end" 7 "asio_check: bad trace at line 0" $limit "$check" < /dev/zero > "$room/out"
ends "check, nothing" 7 "asio_check: bad trace at line 0" $limit "$check" < /dev/null > "$room/out"

# Notes that can't be written change no status.
notes_lost() {
  local name=$1 status=$2 how
  shift 2
  for how in full closed; do
    if [ "$how" = full ]; then "$@" 2> /dev/full; else "$@" 2>&-; fi
    same "$name, notes $how" "$?" "$status"
  done
}
notes_lost "run, usage" 1 $limit "$run" > "$room/out"
notes_lost "run, refused" 2 $limit "$run" run < /dev/null > "$room/out"
notes_lost "run, a folder" 3 $limit "$run" run < examples > "$room/out"
notes_lost "run, a full out" 4 to_full $limit "$run" gen 1 3
notes_lost "run, done" 0 $limit "$run" gen 1 3 > "$room/out"
notes_lost "check, usage" 1 $limit "$check" "$bad" > "$room/out"
notes_lost "check, no trace" 7 $limit "$check" < /dev/null > "$room/out"

# Every first part of three scripts: refused, at a place inside it, unless it ends in a whole round.
first_parts() {
  local text part size wrong=0 status note
  text=$(cat "$1")
  for ((size = 0; size < ${#text}; size++)); do
    part=${text:0:size}
    "$run" run <<< "$part" > "$room/out" 2> "$room/note"
    status=$?
    IFS= read -r note < "$room/note"
    if [[ $part =~ \}[^\{\}]*(run|poll)\ ([1-9]|1[0-6])[[:space:]]*$ ]]; then
      [ "$status" = 0 ] || wrong=$((wrong + 1))
    elif [ "$status" = 2 ] && [ ! -s "$room/out" ] && place_is_inside asio_run "$note" "$part"$'\n'; then
      :
    else
      wrong=$((wrong + 1))
      echo "hostile: the first $size bytes of $1: $status, $note" >&2
    fi
  done
  same "the first parts of $1" "$wrong" 0
}

# Whether the note $2 of the program $1 refuses a place inside the text $3.
place_is_inside() {
  local lines tokens
  lines=${3//[!$'\n']/}
  read -r -d '' -a tokens <<< "$3"
  is_refused "$1" "$2" $((${#lines} + 1)) "${#tokens[@]}"
}

# Whether the note $2 of the program $1 refuses a place in so many lines and tokens.
is_refused() {
  [[ $2 =~ ^$1:\ refused\ ([1-9])\ at\ line\ ([0-9]+)\ token\ ([0-9]+)$ ]] || return 1
  [ "${BASH_REMATCH[2]}" -ge 1 ] && [ "${BASH_REMATCH[2]}" -le "$3" ] \
    && [ "${BASH_REMATCH[3]}" -ge 1 ] && [ "${BASH_REMATCH[3]}" -le $(($4 + 1)) ]
}
for part in echo guard stop_and_restart; do
  first_parts "examples/$part.session"
done

# Whether a program ended as it may with the text of a record: $1 names the program and its form, $2 is the status, $3 the note,
# $4 the first line of the out, and then come the numbers of lines, of tokens, and of the lines of the trace.
is_documented() {
  case "$1-$2" in
    run-0 | upgrade-0) [ -z "$3" ] && [ -n "$4" ] ;;
    run-2 | upgrade-2) [ -z "$4" ] && is_refused asio_run "$3" "$5" "$6" ;;
    check-0) [ -z "$3" ] && [ "$4" = legal ] ;;
    check-2) [ -z "$4" ] && is_refused asio_check "$3" "$5" "$6" ;;
    check-7)
      [ -z "$4" ] && [[ $3 =~ ^asio_check:\ bad\ trace\ at\ line\ ([0-9]+)$ ]] && [ "${BASH_REMATCH[1]}" -le "$7" ]
      ;;
    check-8)
      [ -z "$3" ] && [[ $4 =~ ^(illegal\ at|incomplete\ after)\ line\ ([0-9]+)$ ]] && [ "${BASH_REMATCH[2]}" -le "$7" ]
      ;;
    *) false ;;
  esac
}

# Runs a program on 2,500 inputs that are nearly good, made from the number $2 and the files behind it. Writes what went wrong, and a
# last line once all are done.
nearly_good() {
  local kind=$1 seed=$2 own="$room/$1.$2" lines tokens traced text status note first
  shift 2
  while IFS=' ' read -r lines tokens traced && IFS= read -r -d '' text; do
    case $kind in
      check) "$check" <<< "$text" > "$own.out" 2> "$own.note" ;;
      *) "$run" "$kind" <<< "$text" > "$own.out" 2> "$own.note" ;;
    esac
    status=$?
    note= first=
    IFS= read -r note < "$own.note"
    IFS= read -r first < "$own.out"
    # (a here-string adds a line feed)
    is_documented "$kind" "$status" "$note" "$first" $((lines + 1)) "$tokens" $((traced + 1)) \
      || printf 'hostile: %s of %q: %s, %s, %s\n' "$kind" "$text" "$status" "$note" "$first"
  done < <(LC_ALL=C awk -v count=2500 -v seed="$seed" -v traces="$([ "$kind" = check ] && echo 1 || echo 0)" \
    -f examples/mutate.awk "$@")
  echo "done"
}
export LC_ALL=C
# (a guard that is never released would keep a session for good, as it should)
scripts=()
checks=()
for file in examples/*.session; do
  grep -q guards "$file" || scripts+=("$file")
done
for file in examples/*.trace; do
  name=$(basename "$file" .trace)
  { cat "examples/$name.session"; echo "--"; cat "$file"; } > "$room/$name.input"
  checks+=("$room/$name.input")
done
# Starts a batch. All are ended after ten minutes, many times what they take: no input may hang a program.
batch() {
  ( nearly_good "$@" ) > "$room/$1.$2.said" 2>&1 &
  batches+=("$1.$2")
  workers+=("$!")
}
batches=()
workers=()
for seed in 1 2; do
  batch run $((100 + seed)) "${scripts[@]}"
  batch upgrade $((200 + seed)) "${scripts[@]}"
  batch check $((300 + seed)) "${checks[@]}"
  batch check $((400 + seed)) "${checks[@]}"
done
( read -r -t 600 <> <(:); kill "${workers[@]}" 2> /dev/null ) > /dev/null 2>&1 &
watch=$!
wait "${workers[@]}" 2> /dev/null
kill "$watch" 2> /dev/null
for name in "${batches[@]}"; do
  same "the inputs $name" "$(tail -n 3 "$room/$name.said")" "done"
done

# Threads: sixteen workers are sixteen threads more, and where none can be had the session is whole all the same.
if command -v strace > /dev/null && strace -o "$room/calls" true 2> /dev/null; then
  awk 'BEGIN { printf "session 1 open {"; for (n = 0; n < 64; n++) printf " post - { }"; print " } run 16" }' > "$room/busy"
  $limit strace -f -o "$room/calls" -e trace=clone,clone3 "$run" run < "$room/busy" > "$room/trace"
  same "threads" "$? $(grep -cE 'clone3?\(' "$room/calls")" "0 16"
  $limit strace -f -o "$room/calls" -e trace=clone,clone3 -e inject=clone,clone3:error=EAGAIN "$run" run < "$room/busy" > "$room/trace"
  same "no threads" "$? $(grep -c INJECTED "$room/calls")" "0 16"
  { cat "$room/busy"; echo "--"; cat "$room/trace"; } > "$room/input"
  same "no threads, the trace" "$($limit "$check" < "$room/input")" legal
else
  echo "hostile: threads aren't refused, since there is no strace here"
fi
say_counts
