#!/usr/bin/env bash
# Tests the Python package against an installed library, in a scratch directory.
#
#     PREFIX=/usr/local bindings/python/test.sh
#     PKG_CONFIG_PATH=/usr/local/lib/pkgconfig bindings/python/test.sh
#
# All tests run twice: without the extension module, and with it if it can be compiled. Then soak.sh
# makes random calls for SOAK_MINUTES, 0.1 if it is not set, with a module that was compiled with
# sanitizers. tests/kills.py kills programs and servers of bindings/examples, for KILL_SECONDS each,
# which is 1 with QUICK and 10 without it, at places that are drawn with KILL_SEED. At the end
# drivers.sh runs the lines of DRIVERS.md. PYTHON names another Python than python3. The last line
# says how many tests passed, and lines before it which were passed over; the status is 0, 1 after a
# failure, or 77 if a tool is missing.
set -euo pipefail
name=bindings/python
python=${PYTHON:-python3}

pass_over() {
    echo "$name: passed over: needs the Debian package $1"
    exit 77
}

fail() {
    echo "$name: $1" >&2
    exit 1
}

run() {
    echo "+ $*"
    "$@"
}

command -v "$python" > /dev/null || pass_over python3
if [ -n "${PREFIX:-}" ]; then
    folder=$(cd "$PREFIX/lib" && pwd) || fail "there is no $PREFIX/lib"
else
    command -v pkg-config > /dev/null || pass_over pkg-config
    folder=$(pkg-config --variable=libdir kohiblad) || fail "pkg-config finds no kohiblad"
fi
top=$(cd "$(dirname "$0")/../.." && pwd)
library=$folder/$(sed -n 's/^FILE_NAME = "\(.*\)"$/\1/p' "$top/$name/src/kohiblad/_library.py")
[ -f "$library" ] || fail "there is no $library"

cmp "$top/LICENSE" "$top/$name/LICENSE" || fail "LICENSE is not that of the repository"
scratch=$(mktemp -d)
trap 'rm -rf "$scratch"' EXIT
cp -r "$top/$name" "$scratch/python"
cp -r "$top/bindings/examples" "$scratch/examples"
cp -r "$top/tests/lines/jsonb_probe" "$scratch/lines"
mkdir "$scratch/docs" "$scratch/tests"
cp "$top/docs/PATHS.md" "$scratch/docs"
cp -r "$top/tests/paths" "$top/tests/times.tsv" "$scratch/tests"
cd "$scratch/python"
packages=${PYTHONPATH:-}
export HOME=$scratch KOHIBLAD_LIBRARY=$library KOHIBLAD_LINES=$scratch/lines
export KOHIBLAD_PATHS=$scratch/tests/paths KOHIBLAD_TIMES=$scratch/tests/times.tsv
export PYTHONPATH=$scratch/python/src PYTHONWARNINGS=error::SyntaxWarning

run "$python" --version
run "$python" -m compileall -q src tests build_backend bench.py || fail "a file has a wrong syntax"

# Lists what the tests of the log passed over.
list_skipped() {
    sed -n "s|.*\.\.\. skipped ['\"]\(.*\)['\"]$|$name: passed over: \1|p" "$scratch/log" |
        sort -u >> "$scratch/skipped"
}

# Runs the tests with or without the extension module, and counts those that passed in $passed.
run_tests() {
    local ran skipped
    echo "+ KOHIBLAD_NATIVE=$1"
    (cd tests && KOHIBLAD_NATIVE=$1 run "$python" -m unittest -v) 2>&1 | tee "$scratch/log" ||
        fail "the tests failed with KOHIBLAD_NATIVE=$1"
    ran=$(sed -n 's/^Ran \([0-9]*\) test.*/\1/p' "$scratch/log")
    skipped=$(sed -n 's/^OK.*skipped=\([0-9]*\).*/\1/p' "$scratch/log")
    list_skipped
    passed=$((ran - ${skipped:-0}))
}

# Whether the compiler has sanitizers, which Python itself need not have.
has_sanitizers() {
    echo 'int main(void) { return 0; }' |
        ${CC:-cc} -fsanitize=address,undefined -x c - -o "$scratch/tried" 2> "$scratch/found"
}

rm -f src/kohiblad/_native.*.so
build=("$python" build_backend/kohiblad_build.py --extension src/kohiblad)
if KOHIBLAD_NATIVE=1 run "${build[@]}"; then has_module=1; else has_module=; fi
run_tests 0
told="$passed tests passed without the extension module"
if [ "$has_module" ]; then
    # What was passed over without the module is not, with it.
    : > "$scratch/skipped"
    run_tests 1
    told="$told, $passed with it"
fi
if [ "$has_module" ] && has_sanitizers; then
    PREFIX=${library%/lib/*} run "$top/$name/soak.sh" "${SOAK_MINUTES:-0.1}" "${SOAK_SEED:-1}" ||
        fail "soak.sh failed"
fi
# Once, for Debian's Python has no extension module.
if [ -n "${QUICK:-}" ]; then seconds=1; else seconds=10; fi
kills=("$python" kills.py "${KILL_SECONDS:-$seconds}" "${KILL_SEED:-1}")
(cd tests && run "${kills[@]}") 2>&1 | tee "$scratch/log" || fail "kills.py failed"
list_skipped
# The lines of DRIVERS.md, with the drivers that are installed.
status=0
PYTHONPATH=$packages run "$top/$name/drivers.sh" 2>&1 | tee "$scratch/log" || status=$?
[ $status = 0 ] || [ $status = 77 ] || fail "drivers.sh failed"
[ $status = 77 ] || sed -i '/drivers.sh runs them/d' "$scratch/skipped"
list_skipped
sort -u "$scratch/skipped"
echo "$name: $told"
