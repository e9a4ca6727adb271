#!/usr/bin/env bash
# Takes a member out of a million rows: by the calls for columns, row by row, and by a loop in C
# that trusts the rows.
#
#     bench/typed/run.sh ARCHIVE [ROWS]
#
# ARCHIVE is the libkohiblad.a that tools/library builds.
set -euo pipefail
[ $# -gt 0 ] || { sed -n '2,7s/^# \?//p' "$0" >&2; exit 2; }
archive=$(realpath "$1")
cd "$(dirname "$0")/../.."
work=$(mktemp -d)
trap 'rm -rf "$work"' EXIT
"${CC:-cc}" -std=c99 -O2 -Wall -Wextra -Ibindings bench/typed/columns.c \
    bindings/memory.c "$archive" -o "$work/columns"
"$work/columns" "${2:-1000000}"
