# shellcheck shell=bash
# Sourced: what is built for another processor than this machine's takes Debian's cross compiler,
# and runs under qemu. The targets are those of the kit for Linux.

TARGETS=(x86_64-unknown-linux-gnu aarch64-unknown-linux-gnu)
NATIVE=$(uname -m)-unknown-linux-gnu

# Sets what a target is built with, where the caller's variables do not say it, and runs with:
# $machine, the processor's name; $packages, the end of the names of Debian's packages with these
# tools; $emulator, the words before a program.
# shellcheck disable=SC2034  # they are for the caller
use_target() {
    local tools
    machine=${1%%-*} packages='' emulator=()
    [ "$1" != "$NATIVE" ] || return 0
    tools=$machine-linux-gnu-
    packages=-$machine-linux-gnu
    export CC=${CC:-${tools}gcc} CXX=${CXX:-${tools}g++} LD=${LD:-${tools}ld} NM=${NM:-${tools}nm}
    export AR=${AR:-${tools}ar} OBJCOPY=${OBJCOPY:-${tools}objcopy} STRIP=${STRIP:-${tools}strip}
    export READELF=${READELF:-${tools}readelf}
    emulator=("qemu-$machine-static" -L "/usr/$machine-linux-gnu")
}

# Whether there is such a target.
is_target() { [[ " ${TARGETS[*]} " = *" $1 "* ]]; }
