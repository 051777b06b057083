#!/usr/bin/env bash
# Runs what the documents show, in a copy of the tree: each command of README.md and of QUESTIONS, LIBRARY, SCRIPT, SERVER and TRACE in
# docs/, by the programs that were built, the first one also by `rt try` as it stands; each script in a block `session`, each
# script with its trace below it in one block, and each example of a refusal in docs/SCRIPT.md and of a broken rule in
# docs/RUNS.md. What stands in the block under one has to come out. And each piece of code in LIBRARY and SERVER, and in the
# comments on what a program calls, has to stand in the file that the line above it names. Ends with 'commands: N passed, M
# failed'.
set -u
cd "$(dirname "$0")/.." || exit 1
. examples/common.sh commands asio asio_run asio_check asio_show asio_orders prime_count run_judge tcp_echo
mkdir "$room/tree" "$room/blocks"
git ls-files | tar -c -T - | tar -x -C "$room/tree" || exit 1
# (documents run `asio` by its name)
export BUILT_IN=$room PATH=$room:$PATH

# The command rt in what the documents show: `rt run` and `rt try` run the program that was built.
rt() {
  case $1 in
    run | try)
      [ "${2-}" != -- ] || shift
      shift
      "$BUILT_IN/$(basename "$PWD")" "$@" ;;
    *) command rt "$@" ;;
  esac
}
export -f rt

# Whether $1 has the lines of the file $2, if that is there, in a row.
has() {
  [ ! -f "$2" ] || [[ $1 == *"$(cat "$2")"* ]]
}

# Runs the command $1, of which the file $2 shows what it prints. It has to end well, or with the verdict of an illegal trace.
run_command() {
  local said status
  said=$(cd "$room/tree" && timeout 300 bash -c "$1" 2>&1)
  status=$?
  { [ "$status" = 0 ] || [ "$status" = 8 ]; } && has "$said" "$2"
  count $? "$1: $said"
}

# Runs the script in the file $1. The file $2 has lines of its trace, with ' / ' for line ends; or its refusal.
run_script() {
  local said want
  said=$(timeout 20 "$room/asio_run" run < "$1" 2>&1)
  said=${said//$'\n'/ / }
  want=$(cat "$2" 2> "$room/none") && want=${want//$'\n'/ / }
  [[ $want == refused* ]] && want="asio_run: $want"
  [ -n "$said" ] && [[ $said == *"$want"* ]]
  count $? "$(cat "$1"): $said"
}

# Judges the trace in the file $1, behind its script in the first line, with ' / ' for line ends: it has to be legal.
judge_trace() {
  local said
  said=$({ head -n 1 "$1"; echo --; tail -n +2 "$1" | sed -E 's| /$||; s| / |\n|g'; } | "$room/asio_check" 2>&1)
  [ "$said" = legal ]
  count $? "$(cat "$1"): $said"
}

# Whether the code in the file $1 stands in the file that the line $2 names in backticks. A line `..` leaves some out.
has_code() {
  local file
  file=$(grep -oE '`crates/[a-z_/.]+`' <<< "$2" | tail -n 1 | tr -d '`')
  [ -f "$file" ] && awk '
    { sub(/^[ \t]+/, "") }
    NR == FNR { all = all "\n" $0; next }
    $0 == ".." { if (index(all "\n", part "\n") == 0) gone = 1; part = ""; next }
    { part = part "\n" $0 }
    END { if (index(all "\n", part "\n") == 0) gone = 1; exit gone }
  ' "$file" "$1"
  count $? "the code under '$2' stands in '$file'"
}

# Cuts a document's blocks: the lines of each, its kind, and the line above it.
cut_blocks() {
  LC_ALL=C awk -v blocks="$room/blocks" '
    /^```/ && inside { inside = 0; close(block); next }
    /^```/ {
      inside = 1
      block = sprintf("%s/%03d", blocks, ++n)
      printf "" > block
      print substr($0, 4) > (block ".kind")
      print above > (block ".above")
      next
    }
    inside { print > block; next }
    NF { above = $0 }
  ' "$1"
}

first=yes
for document in README.md docs/{QUESTIONS,LIBRARY,SCRIPT,SERVER,TRACE}.md; do
  rm -f "$room"/blocks/*
  cut_blocks "$document"
  for block in "$room"/blocks/???; do
    next=$(printf '%s/blocks/%03d' "$room" $((10#${block##*/} + 1)))
    # What comes out stands in a block without a kind, with nothing between.
    [ -f "$next" ] && [ -z "$(cat "$next.kind")" ] && cmp -s "$block.above" "$next.above" || next=$room/none
    case $(cat "$block.kind") in
      sh)
        while IFS= read -r command; do
          # The first one also by rt itself.
          [ "$first" = no ] || run_command "unset -f rt; $command" "$next"
          first=no
          run_command "$command" "$next"
        done < "$block" ;;
      session) run_script "$block" "$next" ;;
      rust) has_code "$block" "$(cat "$block.above")" ;;
      "") [[ $(sed -n 1p "$block") != session* || $(sed -n 2p "$block") != *" / "* ]] || judge_trace "$block" ;;
    esac
  done
done

# The code in comments.
while IFS= read -r source; do
  rm -f "$room"/blocks/*
  sed -nE 's|^ *///( (.*))?$|\2|p' "$source" > "$room/comments"
  cut_blocks "$room/comments"
  for block in "$room"/blocks/???; do
    has_code "$block" "$(cat "$block.above")"
  done
done < <(git grep -lE '^ */// ```rust$' -- 'crates/*.rt')

# The table of refusals: a script in backticks, and where it is refused.
while IFS='|' read -r _ _ _ _ example refused _; do
  example=${example//\`/}
  [[ $example == *session* ]] || continue
  said=$(printf '%s' "${example# }" | "$room/asio_run" run 2>&1)
  [ "$said" = "asio_run: refused$(sed -E 's/ +$//' <<< "$refused")" ]
  count $? "$example: $said"
done < <(grep -E '^\| [1-9] \|' docs/SCRIPT.md)

# The table of rules of runs: behind its header each example breaks its rule.
while IFS='|' read -r _ rule _ _ example _; do
  example=${example# \`} example=${example%\` } level=--streams
  [[ $rule =~ Ready|Order|Stopped|Nested|Finishing ]] && level=--strict
  said=$({ echo "run 1"; echo "${example// \/ /$'\n'}"; } | "$room/run_judge" check $level - 2>&1)
  [[ $said == *"rule:$(sed -E 's/ +$//' <<< "$rule")"* ]]
  count $? "$example: $said"
done < <(grep -E '^\| [A-Z][A-Za-z]+ \| `[a-z]+`.*\| `[0-9]+ ' docs/RUNS.md)

say_counts
