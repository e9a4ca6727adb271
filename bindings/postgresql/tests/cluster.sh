#!/usr/bin/env bash
# Tests the extension over several servers: a coordinator, three servers with a part of each table,
# and a standby of one of them. They listen on loopback addresses, and are removed at the end.
#
#     PKG_CONFIG_PATH=/usr/local/lib/pkgconfig bindings/postgresql/tests/cluster.sh [ROWS]
#
# tests/server.sh has the settings; ROWS are 10000 if not given. SERVER_BIN names the programs of a
# server with the extension, which is then not built. The last line has the number of tests.
# docs/DISTRIBUTED.md says how such tables are made; tests/cluster/ makes them.
set -Eeuo pipefail
folder=$(cd "$(dirname "$0")/.." && pwd)
. "$folder/tests/server.sh"
. "$folder/tests/cluster/servers.sh"
trap 'fail "line $LINENO of cluster.sh"' ERR
rows=${1:-10000}
tests=0
tables=(by_hash by_id by_doc keyed goods)
standby=9

# Compares two texts, the one that must be and the one that is.
expect() {
    [ "$2" = "$3" ] || fail "$1: expected $2, got $3"
    tests=$((tests + 1))
}

# What a query sends to the servers, one line for each, and how many of these have a text.
remote_sql() { ask 0 "EXPLAIN (VERBOSE, COSTS OFF) $1" | sed -n 's/ *Remote SQL: //p'; }
expect_sent() {
    expect "servers that get $3 of $2" "$1" "$(remote_sql "$2" | grep -cF -- "$3" || true)"
}

make_cluster() {
    note "four servers at $net"
    local server
    for server in 0 1 2 3; do make_one "$server"; done
    for server in 1 2 3; do
        psql_at "$server" -v part="$server" -f "$folder/tests/cluster/part.sql"
        psql_at 0 -v part="$server" -v host="$net.$server" -v port="543$server" \
            -v remainder=$((server - 1)) -v from="$(bound "$server")" \
            -v to="$(bound $((server + 1)))" -v doc_from="$(doc_bound "$server")" \
            -v doc_to="$(doc_bound $((server + 1)))" -f "$folder/tests/cluster/coordinator.sql"
    done
    psql_at 0 -v rows="$rows" -f "$folder/tests/cluster/rows.sql"
    for server in 1 2 3; do ask "$server" "ANALYZE"; done
    ask 0 "ANALYZE here, by_hash, by_id, by_doc, keyed, goods"
}

# All servers have the version of this repository.
run_versions() {
    local server version
    version=$(< "$folder/../../VERSION")
    for server in 0 1 2 3; do
        expect "the version of server $server" "$version" \
            "$(ask "$server" "SELECT kohiblad_version()")"
    done
}

# Where the part of a server begins, in the order of doc -> 'id' and in that of doc.
bound() {
    case $1 in
        1) echo MINVALUE ;;
        4) echo MAXVALUE ;;
        *) echo "'$((rows * ($1 - 1) / 3))'" ;;
    esac
}
doc_bound() {
    local cities=(0 0 25 400)
    case $1 in
        1) echo MINVALUE ;;
        4) echo MAXVALUE ;;
        *) echo "'{\"city\":\"city ${cities[$1]}\"}'" ;;
    esac
}

# All rows came, to three servers, each into the part whose bounds it is in.
run_parts() {
    note "rows in their parts"
    local table part outside
    for table in "${tables[@]}"; do
        expect "rows of $table" "$rows" "$(ask 0 "SELECT count(*) FROM $table")"
        expect "servers of $table" 3 "$(ask 0 "SELECT count(DISTINCT tableoid) FROM $table")"
        for part in 1 2 3; do
            outside=$(ask 0 "SELECT pg_get_partition_constraintdef('${table}_$part'::regclass)")
            expect "rows outside of ${table}_$part" 0 \
                "$(ask 0 "SELECT count(*) FROM (TABLE ${table}_$part OFFSET 0) t
                    WHERE NOT ($outside)")"
        done
    done
}

# The same answers as of one table.
run_answers() {
    note "answers"
    local query table
    while read -r -d ';' query; do
        for table in here by_hash by_id by_doc goods; do
            ask 0 "${query//ROWS/$table}" > "$scratch/$table.answer"
            ! grep '^ERROR' "$scratch/$table.answer" || fail "$table: $query"
            cmp "$scratch/here.answer" "$scratch/$table.answer" || fail "$table: $query"
        done
        tests=$((tests + 4))
    done < "$folder/tests/cluster/queries.sql"
}

run_sent() {
    note "what is sent"
    expect_sent 3 "SELECT doc FROM by_hash WHERE doc -> 'id' = '5'" \
        "WHERE ((public.kohiblad_at(doc, '\"id\"'::public.kohiblad) OPERATOR(public.=) '5'"
    expect_sent 3 "SELECT doc FROM by_hash WHERE doc #> '{tags,1}' = '\"t3\"'" \
        "WHERE ((public.kohiblad_at(doc, '[\"tags\",\"1\"]'"
    expect_sent 3 "SELECT doc FROM by_hash WHERE doc -> 'tags' -> 1 = '\"t3\"'" "WHERE"
    expect_sent 3 "SELECT doc FROM by_hash WHERE doc -> 'id' = '3' OR doc -> 'id' = '5'" "WHERE"
    expect_sent 3 "SELECT doc FROM by_hash WHERE doc['id'] = '5'" "WHERE"
    expect_sent 3 "SELECT doc FROM by_hash WHERE doc @? '\$.id'" "WHERE"
    expect_sent 3 "SELECT doc FROM by_hash WHERE doc ? 'id'" "WHERE (public.kohiblad_has("
    expect_sent 3 "SELECT doc FROM by_hash WHERE doc -> 'id' IN ('5', '7')" ") ANY ("
    expect_sent 3 "SELECT doc FROM by_hash WHERE doc -> 'id' NOT IN ('5', '7')" ") ALL ("
    expect_sent 3 "SELECT doc FROM by_hash WHERE doc -> 'seen' IS NOT NULL" "IS NOT NULL"
    expect_sent 3 "SELECT doc FROM by_hash WHERE (doc -> 'price')::numeric > 100" "WHERE"
    expect_sent 3 "SELECT doc FROM by_hash WHERE doc @> '{\"city\": \"city 7\"}'" "WHERE"
    expect_sent 3 "SELECT doc FROM by_hash WHERE doc < '{\"city\": \"city 7\"}'" "WHERE"
    expect_sent 1 "SELECT doc FROM by_id WHERE doc -> 'id' = '5'" "WHERE"
    expect_sent 1 "SELECT doc FROM keyed WHERE id < '5'" "WHERE"
    expect_sent 3 "SELECT doc FROM by_hash ORDER BY doc DESC LIMIT 3" "ORDER BY doc DESC"
    expect_sent 3 "SELECT doc FROM by_hash ORDER BY doc -> 'price' LIMIT 3" \
        "ORDER BY public.kohiblad_at"
    expect_sent 3 "SELECT max(doc -> 'price') FROM by_hash" "ORDER BY public.kohiblad_at"
    expect_sent 1 "SELECT min(doc -> 'price'), count(*) FROM by_hash_1" "min(public.kohiblad_at"
    expect_sent 3 "SELECT doc -> 'id', count(*) FROM by_id GROUP BY 1" "GROUP BY"
    expect_sent 3 "SELECT id, max(doc -> 'price') FROM keyed GROUP BY 1" "GROUP BY"
    expect_sent 1 "SELECT doc -> 'city', count(*) FROM by_hash_1 GROUP BY 1" "GROUP BY"
    expect_sent 3 "SELECT * FROM cities" "GROUP BY"
    expect_sent 3 "DELETE FROM by_hash WHERE doc -> 'id' = '5'" "DELETE FROM public.by_hash"
    expect_sent 3 "UPDATE by_id SET doc = doc WHERE doc -> 'city' = '\"none\"'" \
        "UPDATE public.by_id"
    expect_sent 1 "SELECT kohiblad_agg(doc) FROM keyed_1" "kohiblad_agg"
    expect_sent 0 "SELECT doc FROM by_hash WHERE doc ->> 'city' = 'city 7'" "WHERE"
    expect_sent 0 "SELECT doc FROM by_hash WHERE kohiblad_kind(doc) = 'array'" "WHERE"
    expect_sent 0 "SELECT doc FROM by_hash ORDER BY doc LIMIT 3" "LIMIT"
    expect_sent 0 "SELECT kohiblad_agg(doc) FROM by_hash" "kohiblad_agg"
    expect_sent 0 "SELECT doc -> 'city', count(*) FROM by_id GROUP BY 1" "GROUP BY"
    ask 0 "PREPARE by_name(text) AS SELECT doc FROM by_hash WHERE doc -> \$1 = '5';
        EXPLAIN (VERBOSE, COSTS OFF) EXECUTE by_name('id')" > "$scratch/prepared"
    expect "a prepared name" 3 "$(grep -cF "WHERE ((public.kohiblad_at(doc" "$scratch/prepared")"
    local sent
    sent=$(remote_sql "SELECT doc FROM by_hash_1 WHERE doc -> 'id' = '5'")
    expect "the index of the other server" 1 \
        "$(ask 1 "EXPLAIN (COSTS OFF) $sent" | grep -c 'Index Scan .*by_member_1')"
}

# Parts by the hash of a member are even, and a condition on it asks one server.
run_member_hash() {
    note "parts by the hash of a member"
    local part
    for part in 1 2 3; do
        expect "whether part $part is even" t \
            "$(ask "$part" "SELECT abs(count(*) - $rows / 3) < $rows / 20 FROM goods_$part")"
    done
    expect_sent 1 "SELECT doc FROM goods WHERE doc -> 'id' = '777'" "WHERE"
    expect_sent 3 "SELECT doc FROM goods WHERE doc -> 'id' < '777'" "WHERE"
    expect_sent 1 "UPDATE goods SET doc = doc || '{\"sold\": 1}' WHERE doc -> 'id' = '777'" \
        "UPDATE public.goods"
    expect_sent 1 "DELETE FROM goods WHERE doc -> 'id' = '777'" "DELETE FROM public.goods"
}

# A generated column of each part is a column of the whole: no document comes for it.
run_generated() {
    note "generated columns"
    expect "what comes for a sum" "SELECT price FROM public.goods_1" \
        "$(remote_sql "SELECT sum(price) FROM goods" | head -n 1)"
    expect_sent 3 "SELECT sum(price) FROM goods WHERE price < 100" "WHERE ((price < 100"
    expect_sent 1 "SELECT sum(price), count(*) FROM goods_1" "SELECT sum(price), count(*)"
    expect "a sum" "$(ask 0 "SELECT sum((doc -> 'price')::numeric) FROM here")" \
        "$(ask 0 "SELECT sum(price) FROM goods")"
    local one="doc -> 'id' = '777'"
    ask 0 "UPDATE goods SET doc = doc || '{\"price\": 1.25}' WHERE $one"
    expect "a price after a change" 1.25 "$(ask 0 "SELECT price FROM goods WHERE $one")"
    ask 0 "UPDATE goods SET doc = (SELECT doc FROM here WHERE $one) WHERE $one"
}

# How many rows a condition finds, and how many the coordinator plans.
planned_rows() {
    ask 0 "EXPLAIN SELECT FROM goods WHERE $1" | sed -n '1s/.* rows=\([0-9]*\) .*/\1/p'
}
# Whether a condition is planned within three times what it finds.
expect_planned() {
    expect "rows planned for $1" "$2" "$(ask 0 "SELECT $(planned_rows "$1") BETWEEN n / 3 AND 3 * n
        FROM (SELECT count(*)::numeric AS n FROM goods WHERE $1) s")"
}

# The coordinator plans by the statistics of its foreign tables, or by those of the servers.
run_estimates() {
    note "estimates"
    local condition server
    local known=("doc < '{\"city\":\"city 300\"}'" "doc @> '{\"tags\":[\"t7\"]}'"
        "doc @? '\$.tags[*] ? (@ == \"t7\")'" "doc ? 'city'" "price BETWEEN 100 AND 130")
    local unknown="doc -> 'price' BETWEEN '100' AND '130'"
    for condition in "${known[@]}"; do expect_planned "$condition" t; done
    for condition in "doc ? 'none'" "doc ?| '{no,none}'" "doc ?& '{id,none}'"; do
        expect "whether few rows are planned for $condition" t \
            "$(ask 0 "SELECT $(planned_rows "$condition") < $rows / 100")"
    done
    expect_planned "$unknown" f
    for server in 1 2 3; do
        ask 0 "CREATE STATISTICS goods_of_price_$server ON (doc -> 'price') FROM goods_$server"
        ask 0 "ALTER TABLE goods_$server ALTER doc SET STATISTICS 1000"
    done
    ask 0 "ANALYZE goods_1, goods_2, goods_3"
    for condition in "${known[@]}" "$unknown"; do expect_planned "$condition" t; done
    for server in 1 2 3; do ask 0 "DROP STATISTICS goods_of_price_$server"; done
    expect_planned "$unknown" f
    for server in 1 2 3; do
        ask "$server" "CREATE STATISTICS of_price ON (doc -> 'price') FROM goods_$server"
        ask "$server" "ANALYZE goods_$server"
        ask 0 "ALTER SERVER s$server OPTIONS (ADD use_remote_estimate 'true')"
    done
    for condition in "${known[@]}" "$unknown"; do expect_planned "$condition" t; done
    for server in 1 2 3; do
        ask 0 "ALTER SERVER s$server OPTIONS (DROP use_remote_estimate)"
    done
}

# Joins of two parts are sent where the servers' own estimates are asked.
run_joins() {
    note "joins, by the servers' estimates"
    local server
    for server in 1 2 3; do
        ask 0 "ALTER SERVER s$server OPTIONS (ADD use_remote_estimate 'true')"
    done
    expect_sent 3 "SELECT count(*) FROM by_id a JOIN by_id b ON a.doc -> 'id' = b.doc -> 'id'" \
        "INNER JOIN"
    expect_sent 3 "SELECT a.doc FROM keyed a JOIN keyed b ON a.id = b.id" "INNER JOIN"
    expect "rows that are joined" "$rows" \
        "$(ask 0 "SELECT count(*) FROM by_id a JOIN by_id b ON a.doc -> 'id' = b.doc -> 'id'")"
    for server in 1 2 3; do
        ask 0 "ALTER SERVER s$server OPTIONS (DROP use_remote_estimate)"
    done
}

# Dates, which JSON has not, are sent, found and sorted as they are.
run_extension_values() {
    note "extension values"
    local date="'\\x20000000600000051000000001'" table part
    for table in by_hash by_doc; do
        ask 0 "INSERT INTO $table VALUES ($date), ('{\"id\":1,\"on\":1}')"
        expect "a date in $table" 1 "$(ask 0 "SELECT count(*) FROM $table WHERE doc = $date")"
        expect "its kind in $table" extension \
            "$(ask 0 "SELECT kohiblad_kind(doc) FROM $table ORDER BY doc LIMIT 1")"
        expect "its text in $table" 0 "$(ask 0 "SELECT count(*) FROM $table WHERE doc = '\"1\"'")"
        ask 0 "DELETE FROM $table WHERE doc = $date OR doc -> 'on' = '1'"
        expect "the rows of $table" "$rows" "$(ask 0 "SELECT count(*) FROM $table")"
    done
}

# A row that an UPDATE would take out of its part is refused by the server that has it.
run_keys_kept() {
    note "keys that are changed"
    ask 1 "ALTER TABLE keyed_1 ADD CHECK (id < $(bound 2))"
    expect "an update out of a part" \
        'ERROR:  new row for relation "keyed_1" violates check constraint "keyed_1_id_check"' \
        "$(ask 0 "UPDATE keyed SET id = '$rows' WHERE id = '1'")"
}

# Each server commits by itself, also beside the others: another session sees the rows of those that
# have committed, and they stay if the commit of another fails.
run_halves() {
    note "the half of a transaction"
    local server waited halves=
    local new="INSERT INTO keyed VALUES ('1', '\"half\"'), ('$rows', '\"half\"')"
    local rows_of_half="SELECT count(*) FROM keyed WHERE doc = '\"half\"'"
    for server in 1 2 3; do ask 0 "ALTER SERVER s$server OPTIONS (ADD parallel_commit 'true')"; done
    ask 3 "CREATE FUNCTION wait() RETURNS trigger LANGUAGE plpgsql AS
            'BEGIN PERFORM pg_sleep(3); RETURN NULL; END'"
    ask 3 "CREATE CONSTRAINT TRIGGER late AFTER INSERT ON keyed_3 DEFERRABLE INITIALLY DEFERRED
            FOR EACH ROW EXECUTE FUNCTION wait()"
    ask 0 "$new" > "$scratch/inserted" &
    for ((waited = 0; waited < 600; waited++)); do
        halves+="$(ask 0 "$rows_of_half") "
        [[ $halves != *2* ]] || break
        sleep 0.1
    done
    wait $!
    expect "what another session sees" "0 1 2" "$(tr ' ' '\n' <<< "0 $halves" | sort -u | xargs)"
    ask 0 "DELETE FROM keyed WHERE doc = '\"half\"'"
    ask 3 "CREATE OR REPLACE FUNCTION wait() RETURNS trigger LANGUAGE plpgsql AS
            'BEGIN RAISE ''no commit''; END'"
    expect "a commit that fails" "ERROR:  no commit" "$(ask 0 "$new")"
    expect "the half that stays" 1 "$(ask 0 "$rows_of_half")"
    ask 3 "DROP TRIGGER late ON keyed_3"
    ask 0 "DELETE FROM keyed WHERE doc = '\"half\"'"
    for server in 1 2 3; do ask 0 "ALTER SERVER s$server OPTIONS (DROP parallel_commit)"; done
}

run_killed() {
    note "a server killed"
    local down='ERROR:  could not connect to server "s3"'
    kill_one 3
    expect "rows of another part" 1 "$(ask 0 "SELECT count(*) FROM keyed WHERE id = '1'")"
    expect "rows of all parts" "$down" "$(ask 0 "SELECT count(*) FROM keyed")"
    expect "rows of the part" "$down" "$(ask 0 "SELECT count(*) FROM keyed WHERE id = '$rows'")"
    expect "rows for two parts" "$down" \
        "$(ask 0 "INSERT INTO keyed VALUES ('1', '\"new\"'), ('$rows', '\"new\"')")"
    expect "rows for the other part" 0 \
        "$(ask 0 "SELECT count(*) FROM keyed_1 WHERE doc = '\"new\"'")"
    start_one 3
    expect "rows of all parts again" "$rows" "$(ask 0 "SELECT count(*) FROM keyed")"
}

run_standby() {
    note "a standby promoted"
    as_user "$bin/pg_basebackup" -h "$net.2" -p 5432 -U tester -D "$scratch/data$standby" -R \
        -X stream -c fast > "$scratch/backup.log" 2>&1 || { cat "$scratch/backup.log" >&2; false; }
    start_one "$standby"
    ask 0 "ALTER SERVER s2 OPTIONS (SET host '$net.2,$net.$standby', SET port '5432,543$standby',
        ADD target_session_attrs 'read-write')"
    ask 0 "INSERT INTO keyed SELECT id, '\"late\"' FROM keyed_2 LIMIT 100"
    local place waited
    place=$(ask 2 "SELECT pg_current_wal_lsn()")
    for ((waited = 0; waited < 600; waited++)); do
        [ "$(ask "$standby" "SELECT pg_last_wal_replay_lsn() >= '$place'")" != t ] || break
        sleep 0.1
    done
    kill_one 2
    expect "rows, with the server killed" 'ERROR:  could not connect to server "s2"' \
        "$(ask 0 "SELECT count(*) FROM keyed")"
    as_user "$bin/pg_ctl" -D "$scratch/data$standby" -w promote > "$scratch/promote.log"
    expect "rows, with the standby" $((rows + 100)) "$(ask 0 "SELECT count(*) FROM keyed")"
    ask 0 "DELETE FROM keyed WHERE doc = '\"late\"'"
    expect "rows, after a change" "$rows" "$(ask 0 "SELECT count(*) FROM keyed")"
}

open_servers
make_cluster
run_versions
run_parts
run_answers
run_sent
run_member_hash
run_generated
run_estimates
run_joins
run_extension_values
run_keys_kept
run_halves
run_killed
run_standby
! grep -E 'PANIC|terminated by signal' "$scratch"/log* || fail "a server broke down"
echo "$binding over several servers: $tests tests passed"
