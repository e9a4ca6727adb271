#!/bin/sh
# Times the library beside the Rust crate: run.sh BASELINE, a cargo project of the crate's own core
# named crate_baseline, as baseline.py makes it. Of Debian's packages it takes libsimdjson-dev and
# g++ too.
set -eu
here=$(cd "$(dirname "$0")" && pwd)
baseline=$(cd "$1" && pwd)
kit=$(dirname "$(rt doc)")
scratch=$(mktemp -d)
trap 'rm -rf "$scratch"' EXIT
cp -r "$here/../crates" "$here/../crates.txt" "$scratch"
echo "measured staticlib: jsonb_comparable jsonb jsonb_value jsonb_codec" \
    >> "$scratch/crates.txt"
mkdir -p "$scratch/crates/measured/src" "$baseline/examples"
cp "$here/measured.rt.in" "$scratch/crates/measured/src/lib.rt"
cp "$here/driver.rs" "$baseline/examples/driver.rs"
(cd "$scratch" && git init -q && cd crates/measured && rt check && rt lib)
"$here/texts.py" "$scratch/texts"
"${CXX:-c++}" -std=c++17 -O2 -march=x86-64-v2 -c "$here/simdjson.cc" -o "$scratch/simdjson.o"
cd "$baseline"
flags="-C target-cpu=x86-64-v2"
for archive in "$scratch/crates/measured/out/libmeasured.a" "$scratch/simdjson.o" \
    "$kit/c/liblibc_c.a" "$kit/c/libos_c.a" -lsimdjson -lstdc++; do
    flags="$flags -C link-arg=$archive"
done
TEXTS=$scratch/texts RUSTFLAGS=$flags cargo run --release --offline --example driver
