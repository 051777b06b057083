#!/usr/bin/env bash
# Runs asio_show: on each case of why.cases, where it has to say what is wanted, with the checker's status and first line; and on the
# sessions that have a picture, which it has to draw. Pictures have to be well formed, a long one too, where python3 is there to parse
# them; and how far it is, is said on a terminal alone. Ends with 'N passed, M failed'.
set -u
cd "$(dirname "$0")/.." || exit 1
. examples/common.sh show asio_show asio_check

# A case has three files in the room: its words, its input, and what is wanted.
LC_ALL=C awk -v room="$room" '
  part == "" && /^#/ { next }
  part == "" { n++; part = "input"; print > (room "/" n ".words"); printf "" > (room "/" n ".input"); next }
  part == "input" && /^==$/ { part = "wanted"; next }
  part == "wanted" && /^====$/ { part = ""; close(room "/" n ".input"); close(room "/" n ".wanted"); next }
  { print > (room "/" n "." part) }
' examples/why.cases

# Whether asio_show answers the case $1 as wanted, with the status and the first line of the checker; only its words are others.
says() {
  local words status
  read -r -a words < "$room/$1.words"
  "$room/asio_show" "${words[@]}" < "$room/$1.input" > "$room/said" 2>&1
  status=$?
  "$room/asio_check" "${words[@]:1}" < "$room/$1.input" > "$room/judged" 2>&1
  [ "$?" = "$status" ] && cmp -s "$room/said" "$room/$1.wanted" || return 1
  [ "$status" = 1 ] || [ "$(head -n 1 "$room/said" | sed 's/^asio_show:/asio_check:/')" = "$(cat "$room/judged")" ]
}

for words in "$room"/*.words; do
  case=$(basename "$words" .words)
  says "$case"
  count $? "case $case of why.cases ($(sed -n 2p "$room/$case.wanted"))"
done

# Each condition of docs/LEGALITY.md has a case.
sed -n '/^## The conditions by name/,/^## A session/s/^| `\([A-Za-z]*\)` | .*/\1/p' docs/LEGALITY.md > "$room/conditions"
while read -r condition; do
  grep -q "^rule: [A-Za-z ]*, $condition: " examples/why.cases
  count $? "that the condition $condition has a case"
done < "$room/conditions"

# Whether the picture $1 is well formed, has a title and a description, and takes nothing from elsewhere; without a parser nothing is said.
is_picture() {
  command -v python3 > /dev/null || return 0
  python3 - "$1" <<'END'
import sys, xml.etree.ElementTree as tree
svg = "{http://www.w3.org/2000/svg}"
root = tree.parse(sys.argv[1]).getroot()
parts = {part.tag for part in root.iter()}
named = all(root.find(svg + part) is not None for part in ("title", "desc"))
links = any(name.endswith(("href", "src")) for part in root.iter() for name in part.attrib)
sys.exit(0 if root.tag == svg + "svg" and named and not links and svg + "script" not in parts else 1)
END
}
command -v python3 > /dev/null || echo "show: python3 is missing, so nothing looks whether pictures are well formed"

for picture in examples/*.svg; do
  session=${picture%.svg}
  # (examples/runs.sh compares the picture of a recorded run)
  [ -e "$session.session" ] || continue
  { cat "$session.session"; echo "--"; cat "$session.trace"; } > "$room/input"
  "$room/asio_show" picture < "$room/input" > "$room/drawn" && cmp -s "$room/drawn" "$picture" && is_picture "$room/drawn"
  count $? "$picture"
done

# Each shape that a picture may have.
"$room/asio_show" picture < examples/shapes.input > "$room/drawn" && cmp -s "$room/drawn" examples/shapes.svg && is_picture "$room/drawn"
count $? "examples/shapes.svg"

# A trace of 25,601 lines, and the same with a line that is illegal behind it.
awk -f examples/long_check.awk > "$room/long"
"$room/asio_show" picture < "$room/long" > "$room/drawn" 2> "$room/notes" && is_picture "$room/drawn" && [ ! -s "$room/notes" ]
count $? "the picture of a long trace"
grep -q '<text class="again" x="3200" y="[0-9]*">open</text>' "$room/drawn"
count $? "that a wide picture has the names of its rows again"

# 17 handlers at once, and rows for 16.
{
  echo "session 1 open { $(printf 'post - { } %.0s' {0..16})} run 16"
  echo "--"
  for act in {0..16}; do printf 'call %d\nback %d\n' "$act" "$act"; done
  printf 'begin %d ok 0\n' {0..16}
  for act in {0..16}; do printf 'end %d %d\n' "$act" "$((1000 + act))"; done
  echo "ended"
} > "$room/crowd"
"$room/asio_show" picture < "$room/crowd" > "$room/drawn" && is_picture "$room/drawn" && grep -q '>and all others</text>' "$room/drawn" \
  && grep -q 'More than 16 handlers without a strand run at once' "$room/drawn"
count $? "that more handlers at once than rows are said"
echo "ended" >> "$room/long"
"$room/asio_show" picture < "$room/long" > "$room/drawn" 2> "$room/notes"
[ "$?" = 8 ] && is_picture "$room/drawn" && grep -q "illegal at line 25602" "$room/drawn" && [ ! -s "$room/notes" ]
count $? "the picture of a long trace that is illegal"
if command -v script > /dev/null; then
  script -qec "'$room/asio_show' picture < '$room/long' > '$room/drawn'" /dev/null < /dev/null > "$room/notes"
  grep -q "% drawn" "$room/notes"
  count $? "that a terminal gets how far it is"
else
  echo "show: script is missing, so nothing looks whether a terminal gets how far it is"
fi
say_counts
