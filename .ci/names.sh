#!/usr/bin/env bash
# Each name in backticks in the documents still stands in the tree: as a word of the code, its definitions, proofs or
# edits, as a crate or a file. Words of the toolchain, of Asio and of the shell are listed in docs/other_names.txt.
set -u
cd "$(dirname "$0")/.." || exit 1
words=$(mktemp) && wanted=$(mktemp) && trap 'rm -f "$words" "$wanted"' EXIT
{
  git ls-files | tr '/.' '\n\n'
  git ls-files crates examples .ci crates.txt HANDLES | grep -v '/stdout$' | xargs cat
  cat docs/other_names.txt
} | grep -oE '[A-Za-z_][A-Za-z0-9_]*' | LC_ALL=C sort -u > "$words"
# A span without a blank is a name or a path of names; others are examples of text.
grep -oHE '`[^` ]+`' README.md docs/*.md examples/README.md |
  sed -E 's/^([^:]*):`(.*)`$/\1 \2/' | grep -E '^[^ ]+ [A-Za-z_][A-Za-z0-9_]*([:./-]+[A-Za-z0-9_]+)*/?$' > "$wanted"
awk -v list="$words" '
  BEGIN { while ((getline word < list) > 0) stands[word] = 1 }
  {
    count = split($2, parts, /[^A-Za-z0-9_]+/)
    gone = ""
    for (i = 1; i <= count; i++) if (parts[i] ~ /^[A-Za-z_]/ && !(parts[i] in stands)) gone = gone " " parts[i]
    if (gone == "") passed++
    else { failed++; print $1 ": " $2 ": nowhere in the tree:" gone }
  }
  END { print "names: " passed + 0 " passed, " failed + 0 " failed"; exit failed > 0 }
' "$wanted"
