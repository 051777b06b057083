# Makes of each fault of faults.table what `asio check N.file` has to say of it: N.wanted, and its exit status in N.status. The file
# itself is made of N.escaped by printf. They go into the folder `room`.

# A part with its names written out; `-` is nothing.
function whole(part) {
  while (match(part, /[$][A-Z_]+/))
    part = substr(part, 1, RSTART - 1) texts[substr(part, RSTART, RLENGTH)] substr(part, RSTART + RLENGTH)
  return part == "-" ? "" : part
}

# So many of a character.
function many(character, count, all) {
  while (count-- > 0) all = all character
  return all
}

# The line of a file, from its escaped text, as it is shown.
function line_of(escaped, number, lines) {
  split(escaped, lines, /\\n/)
  sub(/\\r$/, "", lines[number])
  gsub(/\\t/, "\t", lines[number])
  gsub(/\\xEF\\xBB\\xBF/, "\357\273\277", lines[number])
  return lines[number]
}

/^#/ { next }
split($0, part, / [|] /) == 1 {
  at = index($0, " ")
  texts[substr($0, 1, at - 1)] = substr($0, at + 1)
  next
}
{
  cases++
  file = whole(part[1])
  title = whole(part[2])
  split(part[3], place, /[: ]/)
  stand = whole(part[4])
  hint = whole(part[5])
  printf "%s", file > (room "/" cases ".escaped")
  print (title ~ /^bad trace/ ? 7 : 2) > (room "/" cases ".status")
  wanted = room "/" cases ".wanted"
  print "error: " title > wanted
  print " --> " cases ".file:" place[1] ":" place[2] > wanted
  print "  |" > wanted
  print place[1] " | " line_of(file, place[1]) > wanted
  print "  | " many(" ", place[2] - 1) many("^", place[3]) > wanted
  if (stand != "") print "  = could stand here: " stand > wanted
  if (hint != "") print "  = hint: " hint > wanted
  close(room "/" cases ".escaped")
  close(room "/" cases ".status")
  close(wanted)
}
