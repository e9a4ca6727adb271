# Sourced by test.sh and bench.sh: builds the extension and starts a server of its own with it.
# tests/paths/against_server.py at the top starts one without the extension.
#
# A server finds its share and library folders relative to its binary. So the installed server is
# copied to a scratch folder, the extension is installed there by `make install`, and CREATE
# EXTENSION works as on a user's machine, while the system's folders are untouched.
#
#     PREFIX           where the library is installed, if PKG_CONFIG_PATH does not say it
#     PG_CONFIG        the server's pg_config, else that of Debian's postgresql-15
#     POSTGRES_HEADERS the folder of postgres.h, else what pg_config says

binding=bindings/postgresql
pg_config=${PG_CONFIG:-/usr/lib/postgresql/15/bin/pg_config}
unset PG_CONFIG
[ -z "${PREFIX:-}" ] || export PKG_CONFIG_PATH=$PREFIX/lib/pkgconfig:${PKG_CONFIG_PATH:-}

pass_over() {
    echo "$binding: passed over: needs the Debian package $1"
    exit 77
}

fail() {
    echo "$binding: failed: $*" >&2
    exit 1
}

note() { printf '== %s\n' "$*"; }

# Runs a command as the user that the server runs as, which must not be root.
as_user() {
    if [ "$(id -u)" = 0 ]; then
        setpriv --reuid="$user" --regid="$group" --clear-groups env HOME="$scratch" "$@"
    else
        "$@"
    fi
}

find_server() {
    [ -x "$pg_config" ] || pass_over postgresql-15
    bin=$("$pg_config" --bindir)
    [ -x "$bin/initdb" ] || pass_over postgresql-15
    user=nobody
    ! id postgres > /dev/null 2>&1 || user=postgres
    group=$(id -g "$user")
}

find_tools() {
    command -v make > /dev/null || pass_over make
    command -v cc > /dev/null || pass_over gcc
    command -v pkg-config > /dev/null || pass_over pkg-config
    find_server
    headers=${POSTGRES_HEADERS:-$("$pg_config" --includedir-server)}
    [ -f "$headers/postgres.h" ] || pass_over postgresql-server-dev-15
    pkg-config --exists kohiblad || fail "pkg-config finds no kohiblad: set PKG_CONFIG_PATH"
}

stop_server() {
    [ ! -f "$scratch/data/postmaster.pid" ] ||
        as_user "$bin/pg_ctl" -D "$scratch/data" -m immediate -w stop > "$scratch/stop.log" 2>&1 ||
        cat "$scratch/stop.log" >&2
    rm -rf "$scratch"
}

copy_server() {
    local lib share
    lib=$(dirname "$("$pg_config" --bindir)")
    share=$("$pg_config" --sharedir)
    mkdir -p "$scratch$lib" "$scratch$share"
    cp -a "$lib/." "$scratch$lib"
    cp -a "$share/." "$scratch$share"
    bin=$scratch$lib/bin
}

# Builds the extension, with more options of the compiler if they are given.
build_extension() {
    mkdir "$scratch/build"
    cp -r "$folder/Makefile" "$folder"/kohiblad* "$folder"/{src,sql,expected} "$scratch/build"
    make -C "$scratch/build" PG_CONFIG="$bin/pg_config" includedir_server="$headers" \
        COPT="-Werror ${1:-}" \
        install > "$scratch/build.log" 2>&1 || { cat "$scratch/build.log" >&2; fail "make"; }
}

# Starts the server with these settings; it listens on a socket in the scratch folder alone.
start_server() {
    local setting options="-k $scratch -c listen_addresses= -c fsync=off"
    for setting in "$@"; do
        options="$options -c $setting"
    done
    chmod 755 "$scratch"
    mkdir "$scratch/data"
    [ "$(id -u)" != 0 ] || chown "$user" "$scratch" "$scratch/data"
    as_user "$bin/initdb" -D "$scratch/data" -U tester -E UTF8 --locale=C -A trust -N \
        > "$scratch/initdb.log" 2>&1 || { cat "$scratch/initdb.log" >&2; fail "initdb"; }
    as_user "$bin/pg_ctl" -D "$scratch/data" -l "$scratch/server.log" -o "$options" -w start \
        > "$scratch/start.log" 2>&1 ||
        { cat "$scratch/start.log" "$scratch/server.log" >&2; fail "the server did not start"; }
    export PGHOST=$scratch PGUSER=tester PGDATABASE=postgres PGOPTIONS= PGCONNECT_TIMEOUT=20
    unset PGPORT PGSERVICE PGPASSWORD
}

psql() { "$bin/psql" -X -q -v ON_ERROR_STOP=1 "$@"; }

open_server() {
    find_tools
    scratch=$(mktemp -d)
    trap stop_server EXIT
    note "copy the server of $("$pg_config" --version)"
    copy_server
    note "build the extension and install it into the copy"
    build_extension
    note "start the server"
    start_server "$@"
}
