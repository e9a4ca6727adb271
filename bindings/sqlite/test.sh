#!/bin/sh
# Builds the extension and runs its tests with the sqlite3 shell, in a scratch directory. Finds the
# library by pkg-config; PREFIX names another place of it.
set -eu
cd "$(dirname "$0")"

pass_over() {
    echo "bindings/sqlite: passed over: needs the Debian package $1"
    exit 77
}
needs() {
    command -v "$1" > "$scratch/found" || pass_over "$2"
}
fail() {
    echo "bindings/sqlite: failed: $1"
    exit 1
}

scratch=$(mktemp -d)
trap 'rm -rf "$scratch"' EXIT
export HOME="$scratch"
[ -z "${PREFIX:-}" ] || export PKG_CONFIG_PATH="$PREFIX/lib/pkgconfig"
needs cc gcc
needs make make
needs pkg-config pkg-config
needs sqlite3 sqlite3
pkg-config --exists sqlite3 || pass_over libsqlite3-dev
pkg-config --exists kohiblad || fail 'pkg-config finds no kohiblad; set PREFIX or PKG_CONFIG_PATH'

tests=0
# A script has the lines that it prints after -->, and its errors after --!.
expect() {
    sed -n "s/^--$2 //p" "$1"
}
run_script() {
    echo "tests/$1.sql in $2"
    sqlite3 -batch -list -nullvalue NULL -cmd "PRAGMA encoding='$2'" \
        -cmd ".load $scratch/out/kohiblad" "$scratch/$1.$2.db" < "tests/$1.sql" \
        > "$scratch/printed" 2> "$scratch/reported" || true
    sed 's/^[A-Za-z ]*[Ee]rror:* near line [0-9]*: //' "$scratch/reported" > "$scratch/errors"
    expect "tests/$1.sql" '>' | diff - "$scratch/printed" || fail "tests/$1.sql in $2"
    expect "tests/$1.sql" '!' | diff - "$scratch/errors" || fail "errors of tests/$1.sql in $2"
    tests=$((tests + $(grep -c '^--[>!] ' "tests/$1.sql")))
}

echo 'build the extension'
make -s OUT="$scratch/out" EXTRA_CFLAGS=-Werror || fail 'the build'
exports=$(nm -D --defined-only "$scratch/out/kohiblad.so" | awk '{ print $3 }')
[ "$exports" = sqlite3_kohiblad_init ] || fail "it exports $exports"
! ldd "$scratch/out/kohiblad.so" | grep -q kohiblad.so. || fail 'it needs libkohiblad.so'
version=$(sqlite3 -batch -cmd ".load $scratch/out/kohiblad" :memory: 'SELECT jb_version()')
[ "$version" = "$(pkg-config --modversion kohiblad)" ] || fail "the version $version"
tests=$((tests + 3))

scripts='documents read numbers paths queries each tree edits builders combine aggregates windows survey'
scripts="$scripts subtypes binary changes schema order errors"
for name in $scripts; do
    for encoding in UTF-8 UTF-16le UTF-16be; do run_script "$name" "$encoding"; done
done
run_script utf8 UTF-8
run_script json1 UTF-8
run_script many UTF-8
run_script steps UTF-8

echo 'the texts of dates, timestamps and intervals, which are those of Python'
times=../../tests/times.tsv
sed "s/^\([0-9a-f]*\).*/SELECT jb_value(x'\1', '\$');/" "$times" > "$scratch/times.sql"
sqlite3 -batch -cmd ".load $scratch/out/kohiblad" :memory: < "$scratch/times.sql" \
    > "$scratch/printed" || fail 'the statements of tests/times.tsv'
cut -f 2 "$times" | diff - "$scratch/printed" || fail 'the texts of tests/times.tsv'
tests=$((tests + $(grep -c '' "$scratch/printed")))

# A database that an earlier version wrote, by store.sh: the integrity of an index by a function is
# checked by calling it for each row.
for stored in ../../tests/stored/*/; do
    echo "the rows of $(basename "$stored")"
    cp "${stored}rows.db" "$scratch/stored.db"
    sqlite3 -batch -cmd ".load $scratch/out/kohiblad" "$scratch/stored.db" > "$scratch/printed" \
        "SELECT jb_text(doc) FROM rows INDEXED BY by_key ORDER BY jb_key(doc);
        SELECT count(*) FROM rows a, rows b INDEXED BY by_key
            WHERE a.id = b.id AND jb_key(a.doc) = jb_key(b.doc);
        SELECT jb_value(doc, '\$.id') FROM rows INDEXED BY by_town
            WHERE jb_key(jb_at(doc, '\$.town')) = jb_key(jb_of('Oslo'));
        PRAGMA integrity_check"
    { cut -f 2 "${stored}rows.tsv"; grep -c '' "${stored}rows.tsv"; printf '3\n2\nok\n'; } |
        diff - "$scratch/printed" || fail "the rows of $stored"
    tests=$((tests + $(grep -c '' "$scratch/printed")))
done

echo 'tests/deepest.sql with 2.5 MB of stack'
# shellcheck disable=SC3045 # dash and bash have ulimit -s
(ulimit -s 2560 && run_script deepest UTF-8) || fail 'the stack'
tests=$((tests + $(grep -c '^--[>!] ' tests/deepest.sql)))

echo 'the session of README.md'
awk '/^    sqlite> /,/^$/' README.md > "$scratch/session"
sed -n 's/^    sqlite> //p; s/^       \.\.\.> //p' "$scratch/session" > "$scratch/typed"
sed '/^    sqlite> /d; /^       \.\.\.> /d; /^$/d; s/^    //' "$scratch/session" > "$scratch/shown"
(cd "$scratch" && sqlite3 -batch < typed > printed 2>&1) || true
diff "$scratch/shown" "$scratch/printed" || fail 'the session of README.md'
tests=$((tests + $(wc -l < "$scratch/shown")))

echo 'tests/refuse.c: each allocation refused in turn, hostile and broken documents'
# The words that pkg-config prints are split.
# shellcheck disable=SC2046
cc -std=c11 -O1 -Wall -Wextra -Werror tests/refuse.c -o "$scratch/refuse" -rdynamic \
    $(pkg-config --cflags --libs sqlite3) || fail 'the build of tests/refuse.c'
# In a locale whose decimal point is a comma, if one can be made. localedef fails on warnings.
localedef -i de_DE -f UTF-8 "$scratch/de_DE.UTF-8" > "$scratch/found" 2>&1 || true
locale=C
if [ -d "$scratch/de_DE.UTF-8" ]; then locale=de_DE.UTF-8
else echo 'without a decimal comma, which needs the Debian package locales'; fi
LOCPATH="$scratch" LC_ALL=$locale "$scratch/refuse" "$scratch/out/kohiblad" > "$scratch/count" \
    || fail 'tests/refuse.c'
tests=$((tests + $(cat "$scratch/count")))

echo 'tests/interrupt.c: functions interrupted while they run'
make -s OUT="$scratch/newer" EXTRA_CFLAGS='-Werror -include tests/newer.h' LDFLAGS=-Wl,-z,undefs \
    || fail 'the build with tests/newer.h'
# shellcheck disable=SC2046
cc -std=c11 -O1 -Wall -Wextra -Werror tests/interrupt.c -o "$scratch/interrupt" -rdynamic \
    $(pkg-config --cflags --libs sqlite3) || fail 'the build of tests/interrupt.c'
"$scratch/interrupt" "$scratch/newer/kohiblad" > "$scratch/count" || fail 'tests/interrupt.c'
tests=$((tests + $(cat "$scratch/count")))

# RANDOM_STATEMENTS sets how many, RANDOM_SEED which, and SOAK_MINUTES how long they are cancelled.
if command -v python3 > "$scratch/found" && echo 'int main(void) { return 0; }' \
    | cc -fsanitize=address,undefined -x c - -o "$scratch/sanitized" 2> "$scratch/found"; then
    count=${RANDOM_STATEMENTS:-3000}
    echo "$count random statements under the address and undefined-behaviour sanitizers"
    make -s OUT="$scratch/sanitized.out" CFLAGS='-O1 -g -fno-sanitize-recover=all' \
        EXTRA_CFLAGS='-Werror -fsanitize=address,undefined' || fail 'the build with sanitizers'
    python3 tests/random_statements.py "$count" "${RANDOM_SEED:-1}" > "$scratch/random.sql"
    LD_PRELOAD="$(cc -print-file-name=libasan.so) $(cc -print-file-name=libubsan.so)" \
        ASAN_OPTIONS=detect_leaks=1:exitcode=99 UBSAN_OPTIONS=print_stacktrace=1:exitcode=99 \
        sqlite3 -batch -cmd ".load $scratch/sanitized.out/kohiblad" :memory: \
        < "$scratch/random.sql" > "$scratch/printed" 2> "$scratch/reported" || [ $? -eq 1 ] \
        || fail "sanitizers: $(grep -A 12 'ERROR: \|runtime error' "$scratch/reported")"
    [ "$(tail -n 1 "$scratch/printed")" = 'done' ] || fail 'the random statements do not end'
    minutes=${SOAK_MINUTES:-0.1}
    echo "tests/soak.c: random statements, cancelled at random, for $minutes minutes"
    rm -r "$scratch/sanitized.out"
    make -s OUT="$scratch/sanitized.out" CFLAGS='-O1 -g -fno-sanitize-recover=all' \
        EXTRA_CFLAGS='-Werror -fsanitize=address,undefined -include tests/newer.h' \
        LDFLAGS=-Wl,-z,undefs || fail 'the build with sanitizers and tests/newer.h'
    # shellcheck disable=SC2046
    cc -std=c11 -O1 -g -Wall -Wextra -Werror -fsanitize=address,undefined \
        -fno-sanitize-recover=all tests/soak.c -o "$scratch/soak" -rdynamic -pthread \
        $(pkg-config --cflags --libs sqlite3) || fail 'the build of tests/soak.c'
    python3 tests/random_statements.py 0 "${RANDOM_SEED:-1}" \
        | "$scratch/soak" "$scratch/sanitized.out/kohiblad" "$minutes" "${RANDOM_SEED:-1}" \
        || fail 'tests/soak.c'
    tests=$((tests + 2))
else
    echo 'without random statements, which need python3 and the sanitizers of gcc'
fi

under_valgrind() {
    valgrind -q --error-exitcode=9 --leak-check=full --main-stacksize=16777216 "$@" \
        > "$scratch/printed" 2> "$scratch/reported" || [ $? -eq 1 ] \
        || fail "valgrind: $(cat "$scratch/reported")"
    tests=$((tests + 1))
}
if [ -n "${QUICK:-}" ]; then
    echo 'without valgrind, as QUICK asks'
elif command -v valgrind > "$scratch/found"; then
    for name in $scripts; do
        echo "tests/$name.sql under valgrind"
        under_valgrind sqlite3 -batch -cmd "PRAGMA encoding='UTF-16le'" \
            -cmd ".load $scratch/out/kohiblad" "$scratch/valgrind.$name.db" < "tests/$name.sql"
    done
    echo 'tests/refuse.c under valgrind, which refuses no allocation'
    under_valgrind "$scratch/refuse" "$scratch/out/kohiblad"
else
    echo 'without valgrind, which is the Debian package valgrind'
fi
echo "bindings/sqlite: $tests tests passed"
