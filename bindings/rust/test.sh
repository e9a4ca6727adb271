#!/usr/bin/env bash
# Tests the crate against an installed library, which pkg-config finds: by PKG_CONFIG_PATH, or below
# the directory PREFIX if that is set. What is built goes to a scratch directory, which is removed.
#
#     PREFIX=/usr/local bindings/rust/test.sh
#
# The status is 0 if all passed, 1 if something failed, and 77 if a tool is missing.
set -euo pipefail
cd "$(dirname "$0")"
name=bindings/rust
scratch=$(mktemp -d)
trap 'rm -rf "$scratch"' EXIT
export CARGO_TARGET_DIR=$scratch/target
if [ -n "${PREFIX:-}" ]; then
    export PKG_CONFIG_PATH=$PREFIX/lib/pkgconfig${PKG_CONFIG_PATH:+:$PKG_CONFIG_PATH}
fi

note() { printf '== %s\n' "$*"; }

fail() {
    printf '%s: failed: %s\n' "$name" "$*"
    exit 1
}

# Prints what is run, and runs it.
run() {
    note "$*"
    "$@" || fail "$*"
}

# Ends if the tool $2, which the Debian package $1 has, does not run with the arguments after it.
need() {
    local package=$1
    shift
    "$@" > "$scratch/found" 2>&1 && return
    printf '%s: passed over: needs the Debian package %s\n' "$name" "$package"
    exit 77
}

# Prints the first block of the language $1 in README.md.
readme_block() {
    awk -v fence="\`\`\`$1" '/^```/ { on = $0 == fence && !seen++; next } on' README.md
}

need cargo cargo --version
need rustc rustc --version
need gcc "${CC:-cc}" --version
need pkg-config "${PKG_CONFIG:-pkg-config}" --version
needed=$(sed -n 's|^const NEEDED: &str = "\(.*\)";$|\1|p' build.rs)
"${PKG_CONFIG:-pkg-config}" --exists "$needed" || fail "pkg-config finds no $needed"
cargo=(--offline --locked --quiet)
for name_of_stack in CALL_STACK LEVEL_STACK EDIT_LEVEL_STACK PATCH_LEVEL_STACK PATH_STACK; do
    bytes=$(sed -n "s/^pub const $name_of_stack: usize = \([0-9]*\);$/\1/p" src/lib.rs)
    grep -q "^#define KOHIBLAD_$name_of_stack $bytes$" ../kohiblad.h ||
        fail "$name_of_stack is not that of kohiblad.h"
done
# Names, reasons and the classes of what may come are those of the header.
sed -n 's/^ *\(Error::.* => \)\{0,1\}\(".*"\),$/\2/p' src/error.rs src/words.rs > "$scratch/words"
[ "$(wc -l < "$scratch/words")" -gt 50 ] || fail 'src/error.rs and src/words.rs have no words'
while IFS= read -r words; do
    grep -qF "return $words;" ../kohiblad.h || fail "kohiblad.h has no words $words"
done < "$scratch/words"

if cargo fmt --version > "$scratch/found" 2>&1; then
    run cargo fmt --check
fi
if cargo clippy --version > "$scratch/found" 2>&1; then
    run cargo clippy "${cargo[@]}" --all-targets -- --deny warnings
fi
run cargo build "${cargo[@]}" --no-default-features
# The oldest compiler that Cargo.toml promises, which is that of Debian 12.
oldest=$(sed -n 's/^rust-version = "\(.*\)"$/\1/p' Cargo.toml)
old_cargo=${OLDEST_CARGO:-/usr/bin/cargo} old_rustc=${OLDEST_RUSTC:-/usr/bin/rustc}
if "$old_rustc" --version 2> "$scratch/found" | grep -q "^rustc $oldest\."; then
    run env RUSTC="$old_rustc" CARGO_TARGET_DIR="$scratch/oldest" "$old_cargo" build "${cargo[@]}" \
        --all-targets
else
    note "without rustc $oldest, which is the Debian package rustc of bookworm"
fi
run env RUSTDOCFLAGS='--deny warnings' cargo doc "${cargo[@]}" --no-deps
# As docs.rs does it, where no library is installed.
run env -u KOHIBLAD_LIB_DIR DOCS_RS=1 PKG_CONFIG=false RUSTDOCFLAGS='--deny warnings' \
    cargo doc "${cargo[@]}" --no-deps
run cargo test --offline --locked 2>&1 | tee "$scratch/tested"
tests=$(sed -n 's/^test result: ok\. \([0-9]*\) passed.*/\1/p' "$scratch/tested" |
    awk '{ sum += $1 } END { print sum + 0 }')
[ "$tests" -gt 0 ] || fail 'no test was run'

if [ -z "${QUICK:-}" ] && command -v valgrind > "$scratch/found"; then
    # Rust's test harness keeps blocks to the end, which are no definite leaks.
    runner='valgrind --quiet --error-exitcode=1 --leak-check=full'
    runner+=' --show-leak-kinds=definite --errors-for-leak-kinds=definite'
    run env "CARGO_TARGET_X86_64_UNKNOWN_LINUX_GNU_RUNNER=$runner" \
        cargo test "${cargo[@]}" --test format --test depth --test lines --test memory \
        --test conversions
fi

note 'the types in README.md'
# Each call of a table, as `TYPE::name(..)`, and the type beside it.
# shellcheck disable=SC2016
sed -n 's/^| \(.*(.*\) | `\(.*\)` |$/\1\t\2/p' README.md > "$scratch/rows"
while IFS=$'\t' read -r calls type; do
    while read -r call; do printf '%s %s\n' "$call" "$type"; done < <(
        grep -oE '`[A-Za-z:.]*[a-z_0-9]+\(' <<< "$calls" | tr -d '`(')
done < "$scratch/rows" > "$scratch/types"
[ "$(wc -l < "$scratch/types")" -gt 50 ] || fail 'README.md has no types'
# What functions of this name return, in the file of their own type.
returned() {
    local in=src self=
    case $1 in
        JsonPath::*) in=src/json_path.rs self=JsonPath ;;
        OwnedJsonb::*) in=src/owned.rs self=OwnedJsonb ;;
        RawJsonb::*) in=src/raw.rs self="RawJsonb<'a>" ;;
        bytes::*) in=src/bytes.rs ;;
    esac
    find "$in" -name '*.rs' -exec cat {} + | tr '\n' ' ' | grep -oE "pub fn ${1##*[:.]}[(<][^{]*" |
        sed "s/.* -> //; s/ where .*//; s/ *\$//; s/Self/$self/"
}
while read -r call type; do
    returned "$call" | grep -qxF "$type" || fail "README.md has another type of $call"
done < "$scratch/types"

note 'the program of README.md'
readme_block rust | diff - examples/readme.rs || fail 'README.md and examples/readme.rs differ'
cargo run "${cargo[@]}" --example readme > "$scratch/shown" || fail 'examples/readme.rs'
readme_block text | diff - "$scratch/shown" || fail 'README.md has another output'

# This builds the crate of the files in the package.
run cargo package "${cargo[@]}" --allow-dirty
tar -xOf "$CARGO_TARGET_DIR"/package/kohiblad-*.crate --wildcards 'kohiblad-*/LICENSE' |
    cmp - ../../LICENSE || fail 'the package has not the licence of the repository'
printf '%s: %s tests passed\n' "$name" "$((tests + 2))"
