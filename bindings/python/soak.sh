#!/usr/bin/env bash
# Makes random calls with the extension module, compiled with sanitizers, and cancels them at random.
#
#     PREFIX=/usr/local bindings/python/soak.sh [MINUTES [SEED]]
#     PKG_CONFIG_PATH=/usr/local/lib/pkgconfig bindings/python/soak.sh [MINUTES [SEED]]
#
# Without numbers it takes 20 minutes and the seed 1. The module is compiled in a scratch directory
# with the address and undefined-behaviour sanitizers, and tests/soak.py makes the calls. Python does
# not free all of its memory, so leaks are not looked for. PYTHON names another Python than python3.
# The last line counts the calls; the status is 0, 1 after a failure, or 77 if a tool is missing.
set -euo pipefail
name=bindings/python/soak.sh
python=${PYTHON:-python3}
minutes=${1:-20}
seed=${2:-1}
top=$(cd "$(dirname "$0")" && pwd)

if [ -n "${PREFIX:-}" ]; then
    folder=$(cd "$PREFIX/lib" && pwd)
else
    folder=$(pkg-config --variable=libdir kohiblad)
fi
library=$folder/$(sed -n 's/^FILE_NAME = "\(.*\)"$/\1/p' "$top/src/kohiblad/_library.py")
scratch=$(mktemp -d)
trap 'rm -rf "$scratch"' EXIT
echo 'int main(void) { return 0; }' |
    ${CC:-cc} -fsanitize=address,undefined -x c - -o "$scratch/tried" 2> "$scratch/found" || {
    echo "$name: passed over: needs the Debian package gcc"
    exit 77
}
# A copy, so that a module in use is not replaced, whose header is found as from here.
mkdir "$scratch/bindings"
cp -r "$top" "$scratch/bindings/python"
cp "$top"/../*.h "$scratch/bindings"
cd "$scratch/bindings/python"
rm -f src/kohiblad/_native.*.so
KOHIBLAD_NATIVE=1 CFLAGS='-O1 -g -fsanitize=address,undefined -fno-sanitize-recover=all' \
    "$python" build_backend/kohiblad_build.py --extension src/kohiblad
cd tests
preloaded="$(${CC:-cc} -print-file-name=libasan.so) $(${CC:-cc} -print-file-name=libubsan.so)"
LD_PRELOAD=$preloaded PYTHONMALLOC=malloc PYTHONPATH=../src KOHIBLAD_NATIVE=1 \
    KOHIBLAD_LIBRARY=$library ASAN_OPTIONS=detect_leaks=0:exitcode=99 \
    UBSAN_OPTIONS=print_stacktrace=1:exitcode=99 "$python" soak.py "$minutes" "$seed"
