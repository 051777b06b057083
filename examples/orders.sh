#!/usr/bin/env bash
# Lists all orders of each example, where a bound allows it, and runs the example 200 times with 4 workers, in rounds through all of them: each
# trace that is printed has to be among those listed. Runs for 45 seconds at most, and says how many rounds there were. Ends with 'N passed,
# M failed'.
set -u
cd "$(dirname "$0")/.." || exit 1
. examples/common.sh orders asio_run asio_check asio_orders

# The traces of a list, each as one line.
as_lines() {
  awk '/^--$/ { if (n++) print ""; next } n { printf "%s/", $0 } END { if (n) print "" }'
}

# Lists the orders of the script $1 under the name $2. They are as many as is said, and no two are the same.
is_list() {
  sed -E "s/\b(run|poll) [0-9]+/\1 4/g" "$1" > "$room/$2.script"
  timeout 20 "$room/asio_orders" "$room/$2.script" --list > "$room/$2.list" || return 1
  grep -q '^orders [0-9]' "$room/$2.list" || return 0
  as_lines < "$room/$2.list" | LC_ALL=C sort > "$room/$2.listed"
  : > "$room/$2.seen"
  [ -z "$(uniq -d "$room/$2.listed")" ] && [ "$(head -n 1 "$room/$2.list")" = "orders $(wc -l < "$room/$2.listed")" ]
}

for script in examples/*.session; do
  is_list "$script" "$(basename "$script" .session)"
  count $? "the list of $script"
done

rounds=0
while [ "$rounds" -lt 200 ] && [ "$SECONDS" -lt 45 ]; do
  for seen in "$room"/*.seen; do
    name=${seen%.seen}
    { echo "--"; timeout 10 "$room/asio_run" run < "$name.script"; } | as_lines >> "$seen"
  done
  rounds=$((rounds + 1))
done
for seen in "$room"/*.seen; do
  [ -z "$(LC_ALL=C sort -u "$seen" | LC_ALL=C comm -23 - "${seen%.seen}.listed")" ]
  count $? "$(basename "$seen" .seen): a trace that isn't listed"
done
echo "orders: $rounds runs of each of $(ls "$room"/*.seen | wc -l) scripts whose orders were all listed"

# Where bytes are untold, each order with told bytes is among those that are listed.
for name in cancelled_read end_of_file read_line short_write; do
  "$room/asio_orders" - --net --list < "$room/$name.script" | as_lines | LC_ALL=C sort > "$room/untold"
  [ -s "$room/untold" ] && [ -z "$(LC_ALL=C comm -23 "$room/$name.listed" "$room/untold")" ]
  count $? "$name: an order with told bytes that isn't listed with --net"
done

# A witness is legal by the checker.
while IFS='|' read -r name net asked; do
  { cat "examples/$name.session"; "$room/asio_orders" "examples/$name.session" $net --can "$asked" | sed 1d; } > "$room/judged"
  [ "$("$room/asio_check" $net < "$room/judged")" = legal ]
  count $? "$name: the witness of '$asked'"
done << 'end'
three_postings||begin 1 before end 0
stopped_in_open||drop 2
echo||begin 1 aborted
echo|--net|begin 3 ok 4
read_line|--net|done 0 reset
end

# A file that can't be read has the status of a reader that fails.
"$room/asio_orders" "$room/missing" 2> "$room/notes"
[ "$?:$(cat "$room/notes")" = "3:asio_orders: read fault" ]
count $? "a file that isn't there"

# Eight postings on four strands have 16! / (4! 4! 4! 4!) orders; they are counted by states, so no list of them is made.
{ echo "session 1 strands 4 open {"; for strand in 0 0 1 1 2 2 3 3; do echo "post $strand { }"; done; echo "} run 4"; } > "$room/eight"
[ "$(ulimit -t 1; "$room/asio_orders" < "$room/eight" | sed -n 1p)" = "orders 63063000" ]
count $? "the count of eight postings on four strands, in a second of processor time"
say_counts
