#!/usr/bin/env bash
# Calls both functions of the desk's library on hostile input (tools/hostile.c): refusals write nothing, bytes after the written part stay, our own plan gets a yes.
# CALLS says how many (default 400000); where valgrind is installed, a twentieth of them again under it, which sees every access outside a list.
set -u
cd "$(dirname "$0")/.." || exit 2
mkdir -p target
[ -n "${DESK_BUILT:-}" ] || ./desk_library >target/desk.log 2>&1 || { tail -n 20 target/desk.log; echo 'hostile: the static library was not built'; exit 1; }
work=$(mktemp -d) || exit 2
trap 'rm -rf "$work"' EXIT
cc -std=c11 -O2 -Wall -Wextra -Wpedantic -Werror -Iinclude tools/hostile.c target/staticlib/libdesk.a -o "$work/hostile" || exit 1
calls=${CALLS:-400000}
"$work/hostile" "$calls" || { echo 'hostile: failed'; exit 1; }
if command -v valgrind >/dev/null 2>&1; then
  valgrind -q --error-exitcode=3 "$work/hostile" $((calls / 20)) 7 || { echo 'hostile: failed under valgrind'; exit 1; }
else
  echo 'hostile: no valgrind here, run without it only'
fi
echo 'hostile: all as it should be'
