#!/usr/bin/env bash
# Computes the laws of legal histories, each as a plain function over the list of events, on spoilt histories: each law is broken by
# at least one, and `asio_laws` says so. Then on the legal traces of ../shared/cases, where they are there: all are kept. (check.sh
# computes them on the examples and on 2,000 random scripts.) Ends with 'N passed, M failed'.
set -u
cd "$(dirname "$0")/.." || exit 1
. examples/common.sh laws asio_laws

# What the laws say of the history $2 of the script $1; its events are parted by ' / '.
said_of() {
  { echo "$1"; echo "--"; sed 's| / |\n|g' <<< "$2"; } | "$room/asio_laws"
}

two="session 1 strands 1 open { post 0 { } post 0 { } } run 1"
made="call 0 / back 0 / call 1 / back 1"
first="begin 0 ok 0 / end 0 1000"
second="begin 1 ok 0 / end 1 1001"
wait="session 1 timers 1 open { wait 0 - - { } } run 1"
slot="session 1 timers 1 slots 1 open { wait 0 - 0 { } emit 0 7 } run 1"
read="session 1 streams 1 at 0 feed 0 x610a62 open { until 0 x0a 9 - - { } } run 1"
write="session 1 streams 1 at 0 room 0 1 open { writesome 0 x6162 - - { } } run 1"
over="begin 0 ok 0 / end 0 1000 / ended"
while IFS='|' read -r law script history; do
  said_of "$script" "$history" | grep -qx "$law"
  count $? "$law: $history"
done << ROWS
kept|$two|$made / $first / $second / ended
once|$two|$made / $first / $first / $second / ended
once|$two|$made / $first / ended
after_completion|$wait|call 0 / back 0 / $over
after_completion|$wait|call 0 / back 0 / take 0 / done 0 ok 1 / $over
alone|$two|$made / begin 0 ok 0 / $second / end 0 1000 / ended
in_order|$two|$made / $second / $first / ended
after_stop|session 1 strands 1 open { post 0 { } stop } run 1|call 0 / back 0 / call 1 / stop 1 / back 1 / $first / stopped
closes_once|$two|$made / $first / $second / ended / ended
closes_once|$two|$made / $first / $second / polled
closes_once|$two|$made / ended / $first / $second
cancelled|$wait|call 0 / back 0 / take 0 / done 0 aborted 0 / begin 0 aborted 0 / end 0 1000 / ended
cancelled|$slot|$made / take 0 / take 1 / done 0 ok 0 / $over
timers|session 1 timers 1 open { expires 0 5 wait 0 - - { } } run 1|$made / take 0 / take 1 / done 1 ok 0 / $second / ended
kept|$read|call 0 / back 0 / take 0 / done 0 ok 2 / begin 0 ok 2 / end 0 1000 / ended
streams|$read|call 0 / back 0 / take 0 / done 0 ok 3 / begin 0 ok 3 / end 0 1000 / ended
streams|$write|call 0 / back 0 / take 0 / done 0 ok 2 / begin 0 ok 2 / end 0 1000 / ended
ROWS

# 1,155 ends of rounds and more, where no act is.
{ echo "session 1 open { } run 1"; echo "--"; for _ in {1..1155}; do echo ended; done; } | "$room/asio_laws" | grep -qx length
count $? "length: 1,155 ends of rounds"

cases=../shared/cases
if [ -f "$cases/cases.tsv" ]; then
  while IFS=$'\t' read -r file words _ out _; do
    [ "$out" = legal ] || continue
    [ "$words" != - ] || words=
    # (a name that ends with .gz is packed)
    [ "$(zcat -f "$cases/$file" | "$room/asio_laws" $words)" = kept ]
    count $? "the case $file"
  done < "$cases/cases.tsv"
else
  echo "laws: the shared cases aren't here"
fi
say_counts
