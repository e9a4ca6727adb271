#!/usr/bin/env bash
# Makes random calls of an extension that is built with sanitizers, and cancels them at random:
# tests/random_calls.py says how.
#
#     PREFIX=/usr/local bindings/postgresql/tests/random_calls.sh [MINUTES] [SEED]
#
# tests/server.sh has the settings; MINUTES are 1 if not given. The library of the address sanitizer
# is loaded before the server, which has none, with untranslated.c. The last line has the counts.
set -Eeuo pipefail
folder=$(cd "$(dirname "$0")/.." && pwd)
. "$folder/tests/server.sh"
trap 'fail "line $LINENO of random_calls.sh"' ERR
export ASAN_OPTIONS=detect_leaks=0:abort_on_error=1 UBSAN_OPTIONS=halt_on_error=1:print_stacktrace=1

# Puts a program in the server's place that loads the sanitizer's library before it.
load_library() {
    local before
    cc -shared -fPIC -O1 "$folder/tests/untranslated.c" -o "$scratch/untranslated.so"
    before="$(realpath "$(cc -print-file-name=libasan.so)") $scratch/untranslated.so"
    mv "$bin/postgres" "$bin/postgres.bare"
    printf '#!/bin/sh\nLD_PRELOAD="%s" exec "${0%%/*}/postgres.bare" "$@"\n' "$before" \
        > "$bin/postgres"
    chmod 755 "$bin/postgres" "$scratch/untranslated.so"
}

find_tools
scratch=$(mktemp -d)
trap stop_server EXIT
note "build the extension with sanitizers"
copy_server
load_library
build_extension "-g -O1 -fno-omit-frame-pointer -fno-sanitize-recover=all \
    -fsanitize=address,undefined -include $folder/tests/guarded.h"
note "start the server"
start_server max_stack_depth=4MB
PSQL=$bin/psql python3 "$folder/tests/random_calls.py" "$@" || {
    grep -A 40 -m 1 -E 'Sanitizer|runtime error' "$scratch/server.log" >&2 || true
    tail -n 20 "$scratch/server.log" >&2
    fail "a random call"
}
