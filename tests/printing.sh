#!/usr/bin/env bash
# Runs the printing program: the books of books/ against stored outputs, the edge cases of 01 ("Books and figures", last entry), and generated books, half of them
# damaged, judged by an independent program with its own reading of 01 (tests/compare). BOOKS says how many (default 20000), SEED where they start.
set -u
cd "$(dirname "$0")/.." || exit 2
light=$PWD/crates/page_program/out/page_program
[ -x "$light" ] || { echo 'printing: crates/page_program/out/page_program is not there: ./plan or ./test builds it'; exit 1; }
failed=0
work=$(mktemp -d) || exit 2
trap 'rm -rf "$work"' EXIT

for b in A B C D E F per-span limit-above-k span-left-out ring-cut-2; do
  "$light" <"books/$b" | cmp -s - "tests/expected/$b" || { echo "printing: book $b is not printed as stored"; failed=1; }
done

# bytes of a number, high byte first
two() { printf "\\x$(printf %02x $(($1 / 256)))\\x$(printf %02x $(($1 % 256)))"; }
none() { head -c "$1" /dev/zero; }
net() { printf '\x01'"\\x$(printf %02x "$1")"; two "$2"; two "$3"; none 10; }                 # shape nodes channels
span() { printf '\x02'"\\x$(printf %02x "$3")"; two "$1"; two "$2"; none 10; }               # number limit mark
req() { printf '\x03\x00'; two "$1"; two "$2"; two "$3"; two $(($4 / 65536)); two $(($4 % 65536)); none 4; } # number a b profit
reqs() { local i; for ((i = 0; i < $1; i++)); do req "$i" 0 1 7; done; }
spans() { local i; for ((i = 0; i < $1; i++)); do span "$i" 1 1; done; }

# check NAME EXPECTED-FIRST-LINE < book
check() {
  local got; got=$("$light" | head -n 1)
  [ "$got" = "$2" ] || { echo "printing: $1: got '$got', wanted '$2'"; failed=1; }
}
{ net 1 2 4; span 0 4 1; req 0 0 1 7; } | check 'a limit of k is taken' 'profit 7 kept 1 cut none'
{ net 1 2 4; span 0 5 1; req 0 0 1 7; } | check 'a limit of k + 1 is 7' 'refused 7 at 1'
{ net 1 2 4; span 0 5 0; } | check 'a mark of 0 with a limit above k is 6' 'refused 6 at 1'
{ net 1 2 4; span 0 4 1; req 0 0 1 1000000; } | check 'a profit of 1,000,000 is taken' 'profit 1000000 kept 1 cut none'
{ net 1 2 4; span 0 4 1; req 0 0 1 1000001; } | check 'a profit of 1,000,001 is 11' 'refused 11 at 2'
{ net 1 2 4; span 0 4 1; req 0 0 1 0; } | check 'a profit of 0 is 11' 'refused 11 at 2'
{ net 1 2 96; span 0 96 1; reqs 256; } | check '256 requests are taken' 'profit 672 kept 96 cut none'
{ net 1 2 96; span 0 96 1; reqs 257; } | check '257 requests are 8' 'refused 8 at 258'
{ net 2 64 1; spans 64; reqs 257; } | check '257 requests on a ring of 64 nodes are 1' 'refused 1 at 0'
none 0 | check 'an empty file is 1' 'refused 1 at 0'
net 1 2 4 | check 'a network record alone is 5 at 1' 'refused 5 at 1'
# a folder can be opened and not read: that is no empty file
[ -z "$("$light" <"$work" 2>/dev/null)" ] || { echo 'printing: a page was written for an input that cannot be read'; failed=1; }

OUT="$work" sh tests/compare/run.sh standalone drive "$light" --books "${BOOKS:-20000}" ${SEED:+--seed "$SEED"} || failed=1
[ "$failed" -eq 0 ] && echo 'printing: all as it should be'
exit "$failed"
