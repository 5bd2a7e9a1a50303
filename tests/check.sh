#!/usr/bin/env bash
# Builds the partners' checking program (tools/check.c, warnings as errors) and runs it: our own plans and prices get a yes on every line of books/, other
# plans the no that they deserve, a ring its refusal.
set -u
cd "$(dirname "$0")/.." || exit 2
mkdir -p target
[ -n "${DESK_BUILT:-}" ] || ./desk_library >target/desk.log 2>&1 || { tail -n 20 target/desk.log; echo 'check: the static library was not built'; exit 1; }
work=$(mktemp -d) || exit 2
trap 'rm -rf "$work"' EXIT
cc -std=c11 -O2 -Wall -Wextra -Wpedantic -Werror -Iinclude tools/check.c target/staticlib/libdesk.a -o "$work/check" || exit 1
failed=0
expect() { # WANTED-STATUS WANTED-TEXT ARGUMENTS..
  local status=$1 text=$2 got; shift 2
  got=$("$work/check" "$@" 2>&1); local was=$?
  [ "$was" -eq "$status" ] && [ "$got" = "$text" ] || { echo "check: $*: got '$got' ($was), wanted '$text' ($status)"; failed=1; }
}
for b in A B C D F; do
  "$work/check" --plan "books/$b" >"$work/plan" && "$work/check" --prices "books/$b" >"$work/prices" || failed=1
  expect 0 yes "books/$b" "$work/plan" "$work/prices"
done
printf '0\n4\n0\n' >"$work/prices"
printf '1 2 1\n2 1 1\n3 1 2\n' >"$work/plan"; expect 0 yes books/B "$work/plan" "$work/prices"
printf '1 2 1\n2 1 1\n' >"$work/plan"; expect 1 'no: it earns 8, and the ceiling of these prices is 10' books/B "$work/plan" "$work/prices"
printf '0 1 1\n2 1 1\n' >"$work/plan"; expect 1 'no: requests 0 and 2 are both on channel 1 of span 0' books/B "$work/plan" "$work/prices"
printf '0 1 1\n1 2 2\n' >"$work/plan"; expect 1 'no: 2 requests cross span 1, whose limit is 1' books/B "$work/plan" "$work/prices"
printf '1 1 1\n' >"$work/plan"; expect 1 'no: request 1 has no way 1' books/B "$work/plan" "$work/prices"
printf '1 2 3\n' >"$work/plan"; expect 1 'no: request 1 is on channel 3 of 2' books/B "$work/plan" "$work/prices"
printf '1 2 1\n1 2 2\n' >"$work/plan"; expect 2 'plan line 2: request 1 is named on line 1 already' books/B "$work/plan" "$work/prices"
printf '1 2 1\n2 1 1\n3 1 2\n4 1 1\n' >"$work/plan"; expect 2 'plan line 4: the book has no request 4' books/B "$work/plan" "$work/prices"
# what cannot be read is no empty plan; a line that is cut is no line; a file for standard input
expect 2 "$work: Is a directory" books/B "$work" "$work/prices"
expect 2 "$work: Is a directory" books/B "$work/plan" "$work"
printf '1 2 1\0 2 1 1\n' >"$work/plan"; expect 2 "$work/plan:1: a line too long, or a zero byte" books/B "$work/plan" "$work/prices"
printf '0\n4\n0\n0\n' >"$work/more"; printf '1 2 1\n2 1 1\n3 1 2\n' >"$work/plan"; expect 2 'prices: the book has 3 spans' books/B "$work/plan" "$work/more"
expect 0 yes - "$work/plan" "$work/prices" <books/B
printf '1 2 3\n' >"$work/plan"
printf '0\n4\n4294967296\n' >"$work/prices"; expect 3 'refused 13 at 2' books/B "$work/plan" "$work/prices"
printf '0\n4\n1000001\n' >"$work/prices"; expect 3 'refused 13 at 2' books/B "$work/plan" "$work/prices"
printf '0\n4\n' >"$work/prices"; expect 3 'refused 12 at 0' books/B "$work/plan" "$work/prices"
expect 3 'refused 14 at 0' books/E /dev/null /dev/null
printf '4\n' >"$work/prices"; printf '0 1 1\n1 1 2\n' >"$work/plan"; expect 1 'no: it earns 13, and the ceiling of these prices is 14' books/A "$work/plan" "$work/prices"
printf '0\n' >"$work/prices"; : >"$work/plan"; expect 1 'no: it earns 0, and the ceiling of these prices is 18' books/A "$work/plan" "$work/prices"
[ "$failed" -eq 0 ] && echo 'check: all as it should be'
exit "$failed"
