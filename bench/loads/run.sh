#!/bin/sh
# Measures what loading JSON texts takes: the memory of a parse, as a multiple of its text, and the
# loads of the bindings, beside jsonb, SQLite's text and Python's json, in time of the processor.
#
#     bench/loads/run.sh [ARCHIVE]
#
# ARCHIVE is what tools/library wrote before; else tools/install runs it. It needs what the scripts
# of the bindings need: postgresql-server-dev-15, libsqlite3-dev, sqlite3, python3-dev.
set -eu
cd "$(dirname "$0")/../.."
work=$(mktemp -d)
trap 'rm -rf "$work"' EXIT
tools/install ${1:+--archive "$1"} "$work/prefix" > "$work/installed"
export PREFIX="$work/prefix"
echo "load of the machine $(cut -d ' ' -f 1-3 /proc/loadavg)"
echo
"${CC:-cc}" -std=c99 -O2 -Wall -Wextra -Wpedantic -I"$PREFIX/include" bench/loads/memory.c \
    "$PREFIX/lib/libkohiblad.a" -o "$work/memory"
echo '| a text of 20 MB | memory of its parse, of the text | its document, of the text |'
echo '|---|---|---|'
for kind in ones strings object records; do "$work/memory" $kind; done
echo
bindings/postgresql/bench.sh 9 load 2> "$work/told"
echo
bindings/sqlite/bench/run.sh load
echo
cp -r bindings/python "$work/python"
cd "$work/python"
python3 build_backend/kohiblad_build.py --extension src/kohiblad > "$work/told"
KOHIBLAD_LIBRARY=$(echo "$PREFIX"/lib/libkohiblad.so.*.*.*) PYTHONPATH=src python3 bench.py loads
