# Sourced by cluster.sh and bench_cluster.sh, after server.sh: several servers on loopback
# addresses, of which number 0 is the coordinator. SERVER_BIN names the programs of a server with
# the extension, which is then not built; SETTINGS has more words for each server, and FSYNC says
# whether they wait for the disk (off).

stop_all() {
    local data
    for data in "$scratch"/data*; do
        [ ! -f "$data/postmaster.pid" ] ||
            as_user "$bin/pg_ctl" -D "$data" -m immediate -w stop > "$scratch/stop.log" 2>&1 ||
            cat "$scratch/stop.log" >&2
    done
    rm -rf "$scratch"
}

start_one() {
    local settings="-c fsync=${FSYNC:-off} -c jit=off -c shared_buffers=32MB -c autovacuum=off ${SETTINGS:-}"
    as_user "$bin/pg_ctl" -D "$scratch/data$1" -l "$scratch/log$1" -w start > "$scratch/start.log" \
        -o "-k $scratch -p 543$1 -c listen_addresses=$net.$1 $settings" 2>&1 ||
        { cat "$scratch/start.log" "$scratch/log$1" >&2; fail "server $1 did not start"; }
}

make_one() {
    as_user "$bin/initdb" -D "$scratch/data$1" -U tester -E UTF8 --locale=C -A trust -N \
        > "$scratch/initdb.log" 2>&1 || { cat "$scratch/initdb.log" >&2; fail "initdb"; }
    start_one "$1"
}

kill_one() {
    as_user "$bin/pg_ctl" -D "$scratch/data$1" -m immediate -w stop > "$scratch/kill.log"
}

# Runs psql at a server; ask returns the lines of an answer, or the first of an error.
psql_at() { local server=$1; shift; psql -At -h "$net.$server" -p "543$server" "$@"; }
ask() { psql_at "$1" -c "$2" 2> "$scratch/error" || head -n 1 "$scratch/error"; }

# Finds or builds the programs, and stops the servers at the end. All of 127.0.0.0/8 is this
# machine: no other server listens at an address of which two numbers were drawn.
open_servers() {
    find_tools
    scratch=$(mktemp -d)
    trap stop_all EXIT
    if [ -n "${SERVER_BIN:-}" ]; then
        bin=$SERVER_BIN
    else
        note "copy the server of $("$pg_config" --version), and build the extension"
        copy_server
        build_extension
    fi
    [ -f "$("$bin/pg_config" --sharedir)/extension/postgres_fdw.control" ] ||
        pass_over "postgresql-15, with postgres_fdw"
    chmod 755 "$scratch"
    [ "$(id -u)" != 0 ] || chown "$user" "$scratch"
    export PGUSER=tester PGDATABASE=postgres PGCONNECT_TIMEOUT=60
    export PGOPTIONS="-c client_min_messages=warning -c enable_partitionwise_aggregate=on"
    PGOPTIONS+=" -c enable_partitionwise_join=on"
    unset PGHOST PGPORT PGSERVICE PGPASSWORD
    net=127.$((RANDOM % 200 + 20)).$((RANDOM % 250 + 1))
}
