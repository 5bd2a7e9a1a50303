#!/bin/sh
# Builds the comparison and runs it.
#   run.sh LIBDESK.A [arguments]     against that library
#   run.sh standalone [arguments]    against the stand-in, without a library
# The program is put into OUT (a temporary folder unless set); RUSTFLAGS are
# passed on, such as "-C relocation-model=static".
set -eu
if [ $# -lt 1 ]; then
    sed -n '2,6s/^# //p' "$0"
    exit 2
fi
library=$1
shift
sources=$(cd "$(dirname "$0")" && pwd)
if [ -z "${OUT:-}" ]; then
    OUT=$(mktemp -d)
    trap 'rm -rf "$OUT"' EXIT
fi
mkdir -p "$OUT"
if [ "$library" = standalone ]; then
    set -- --cfg standalone -- "$@"
else
    library=$(cd "$(dirname "$library")" && pwd)/$(basename "$library")
    set -- -C "link-arg=$library" -- "$@"
fi
rustc --edition 2021 -O -D warnings --check-cfg 'cfg(standalone)' "$1" "$2" ${RUSTFLAGS:-} -o "$OUT/compare" "$sources/main.rs"
shift 3
"$OUT/compare" "$@"
