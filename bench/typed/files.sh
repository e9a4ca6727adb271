#!/usr/bin/env bash
# Stores a million rows as a file of typed columns, as a stored column and as lines of JSON, and
# prints sizes and times.
#
#     bench/typed/files.sh ARCHIVE [ROWS]
#
# ARCHIVE is the libkohiblad.a that tools/library builds.
set -euo pipefail
[ $# -gt 0 ] || { sed -n '2,7s/^# \?//p' "$0" >&2; exit 2; }
archive=$(realpath "$1")
cd "$(dirname "$0")/../.."
work=$(mktemp -d)
trap 'rm -rf "$work"' EXIT
"${CC:-cc}" -std=c99 -O2 -Wall -Wextra -Ibindings bench/typed/files.c \
    bindings/memory.c "$archive" -o "$work/files"
"$work/files" "${2:-1000000}"
