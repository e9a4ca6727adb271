#!/bin/sh
# Times the library for C beside cJSON, jansson and simdjson. Prints the tables of docs/C.md, with
# the median of each time, and writes bench/c/results.txt, which has the lowest and the highest too.
#
#     bench/c/run.sh [ARCHIVE]
#
# ARCHIVE is what `rt lib` wrote before in crates/kohiblad; else tools/install runs it. Of Debian's
# packages it takes libcjson-dev, libjansson-dev, libsimdjson-dev, pkg-config and g++.
set -eu
cd "$(dirname "$0")/../.."
work=$(mktemp -d)
trap 'rm -rf "$work"' EXIT
if ! pkg-config --exists libcjson jansson simdjson; then
    echo 'install the packages libcjson-dev, libjansson-dev and libsimdjson-dev first' >&2
    exit 1
fi
tools/install ${1:+--archive "$1"} "$work/prefix" > "$work/installed"
export PKG_CONFIG_PATH="$work/prefix/lib/pkgconfig"
peers='libcjson jansson simdjson'
# The words that pkg-config prints are split.
# shellcheck disable=SC2046,SC2086
"${CXX:-c++}" -std=c++17 -O2 -march=native -Wall -Wextra $(pkg-config --cflags kohiblad $peers) \
    bench/c/texts.cc $(pkg-config --libs kohiblad $peers) -o "$work/texts"
{
    echo "cJSON $(pkg-config --modversion libcjson), jansson $(pkg-config --modversion jansson)," \
        "simdjson $(pkg-config --modversion simdjson); $("${CXX:-c++}" --version | head -n 1)"
    echo "load of the machine before: $(cut -d ' ' -f 1-3 /proc/loadavg)"
    LD_LIBRARY_PATH=$work/prefix/lib "$work/texts"
    echo
    echo "load of the machine after: $(cut -d ' ' -f 1-3 /proc/loadavg)"
} > "$work/results.txt"
cp "$work/results.txt" bench/c/results.txt
# The ranges are in brackets.
sed 's/ ([^|()]* to [^|()]*)//g' bench/c/results.txt
