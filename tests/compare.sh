#!/usr/bin/env bash
# Compares planner and checker, through the desk's static library, with an independent program (tests/compare) on fixed cases and on generated books, at least
# half of them damaged. BOOKS says how many (default 24,000; fewer than 20,000 different ones fail), SEED where the generator starts.
set -u
cd "$(dirname "$0")/.." || exit 2
mkdir -p target
[ -n "${DESK_BUILT:-}" ] || ./desk_library >target/desk.log 2>&1 || { tail -n 20 target/desk.log; echo 'compare: the static library was not built'; exit 1; }
OUT=target/compare sh tests/compare/run.sh target/staticlib/libdesk.a --books "${BOOKS:-24000}" ${SEED:+--seed "$SEED"}
