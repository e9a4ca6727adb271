#!/usr/bin/env bash
# Times queries over one table, and over parts on 1, 2 and 3 servers: the table of
# docs/DISTRIBUTED.md.
#
#     bindings/postgresql/bench_cluster.sh [ROWS [ROUNDS]]
#
# ROWS are 1000000 and ROUNDS 3 if not given; the least time counts. tests/server.sh has the
# settings. All servers are on this machine, and share its cores.
set -Eeuo pipefail
folder=$(cd "$(dirname "$0")" && pwd)
. "$folder/tests/server.sh"
. "$folder/tests/cluster/servers.sh"
trap 'fail "line $LINENO of bench_cluster.sh"' ERR
rows=${1:-1000000}
rounds=${2:-3}
SETTINGS="-c shared_buffers=256MB -c work_mem=64MB -c maintenance_work_mem=256MB"
SETTINGS+=" -c max_parallel_workers_per_gather=0"

ask() { psql_at "$1" -c "$2"; }

# The milliseconds of a command, which is run so many times in one session: the least of all but the
# first, in which the coordinator connects, if there are more.
milliseconds() {
    local round runs=() times=$2
    for ((round = 0; round < times; round++)); do runs+=(-c "$1"); done
    psql_at 0 -c '\timing on' "${runs[@]}" | sed -n 's/^Time: \([0-9.]*\) ms.*/\1/p' |
        awk 'NR == 1 || NR == 2 || $1 < least { least = $1 }
            END { printf(least < 10 ? "%.1f" : "%.0f", least) }'
}

# Makes the tables over the first servers: by ranges of doc -> 'id', and by the hash of a document.
make_tables() {
    local count=$1 part from to views=
    ask 0 "CREATE TABLE by_id_$count (doc kohiblad NOT NULL) PARTITION BY RANGE ((doc -> 'id'))"
    ask 0 "CREATE TABLE by_hash_$count (doc kohiblad NOT NULL) PARTITION BY HASH (doc)"
    for ((part = 1; part <= count; part++)); do
        from=MINVALUE to=MAXVALUE
        [ "$part" = 1 ] || from="'$((rows * (part - 1) / count + 1))'"
        [ "$part" = "$count" ] || to="'$((rows * part / count + 1))'"
        for table in by_id by_hash; do
            ask "$part" "CREATE TABLE ${table}_$count (doc kohiblad NOT NULL)"
        done
        ask 0 "CREATE FOREIGN TABLE by_id_${count}_$part PARTITION OF by_id_$count
            FOR VALUES FROM ($from) TO ($to) SERVER s$part OPTIONS (table_name 'by_id_$count')"
        ask 0 "CREATE FOREIGN TABLE by_hash_${count}_$part PARTITION OF by_hash_$count
            FOR VALUES WITH (MODULUS $count, REMAINDER $((part - 1))) SERVER s$part
            OPTIONS (table_name 'by_hash_$count')"
        views+="${views:+ UNION ALL }SELECT doc -> 'city' AS city, count(*) AS n,
            max(doc -> 'price') AS highest FROM by_id_${count}_$part GROUP BY 1"
    done
    ask 0 "CREATE VIEW cities_$count AS
        SELECT city, sum(n) AS n, max(highest) AS highest FROM ($views) parts GROUP BY 1"
}

make_indexes() {
    local count=$1 part
    for ((part = 1; part <= count; part++)); do
        for table in by_id by_hash; do
            ask "$part" "CREATE INDEX ON ${table}_$count ((doc -> 'id'))"
            ask "$part" "VACUUM ANALYZE ${table}_$count"
        done
    done
    ask 0 "ANALYZE by_id_$count, by_hash_$count"
}

# One line of the table: ROWS, HASH and CITIES in the query are those of one table, and of 1 to 3
# servers.
measure() {
    local name=$1 query=$2 count line
    line="| $name | $(milliseconds "$(of_tables "$query" here here cities)" $((rounds + 1)))"
    for count in 1 2 3; do
        line+=" | $(milliseconds "$(of_tables "$query" "by_id_$count" "by_hash_$count" \
            "cities_$count")" $((rounds + 1)))"
    done
    echo "$line |"
}

of_tables() { local query=${1//ROWS/$2}; query=${query//HASH/$3}; echo "${query//CITIES/$4}"; }

open_servers >&2
for server in 0 1 2 3; do make_one "$server"; done
ask 0 "CREATE EXTENSION postgres_fdw"
for server in 0 1 2 3; do ask "$server" "CREATE EXTENSION kohiblad"; done
for server in 1 2 3; do
    ask 0 "CREATE SERVER s$server FOREIGN DATA WRAPPER postgres_fdw
        OPTIONS (host '$net.$server', port '543$server', dbname 'postgres', extensions 'kohiblad',
                 async_capable 'true', fetch_size '10000', batch_size '1000')"
    ask 0 "CREATE USER MAPPING FOR tester SERVER s$server OPTIONS (user 'tester')"
done
ask 0 "CREATE TABLE texts AS
    SELECT format('{\"id\":%s,\"name\":\"customer %s\",\"city\":\"city %s\",\"price\":%s.%s,'
                  '\"tags\":[\"new\",\"t%s\"],\"seen\":%s}', i, i * 7919 % 100003, i * 31 % 500,
                  i * 17 % 900, 10 + i % 90, i % 13,
                  CASE WHEN i % 3 = 0 THEN 'null' ELSE 'true' END) AS line
    FROM generate_series(1::bigint, $rows) i ORDER BY md5(i::text)"
ask 0 "CREATE TABLE here (doc kohiblad NOT NULL)"
ask 0 "CREATE VIEW cities AS SELECT doc -> 'city' AS city, count(*) AS n,
    max(doc -> 'price') AS highest FROM here GROUP BY 1"
for count in 1 2 3; do make_tables "$count"; done

echo "| $rows rows, ms | one table | 1 server | 2 servers | 3 servers |"
echo "|---|---|---|---|---|"
line="| load, by \`INSERT\` of texts"
for table in here by_id_1 by_id_2 by_id_3; do
    line+=" | $(milliseconds "INSERT INTO $table SELECT line::kohiblad FROM texts" 1)"
done
echo "$line |"
for count in 1 2 3; do ask 0 "INSERT INTO by_hash_$count SELECT doc FROM here"; done
ask 0 "CREATE INDEX ON here ((doc -> 'id'))"
ask 0 "VACUUM ANALYZE here"
for count in 1 2 3; do make_indexes "$count"; done
measure "\`doc -> 'id' = '777'\`, parts by that member" \
    "SELECT doc FROM ROWS WHERE doc -> 'id' = '777'"
measure "\`doc -> 'id' = '777'\`, parts by hash" "SELECT doc FROM HASH WHERE doc -> 'id' = '777'"
measure "\`doc ->> 'id' = '777'\`, which is not sent" \
    "SELECT doc FROM ROWS WHERE doc ->> 'id' = '777'"
measure "a range of \`doc -> 'price'\`, no index" \
    "SELECT doc FROM ROWS WHERE doc -> 'price' BETWEEN '100' AND '100.50'"
measure "\`ORDER BY doc -> 'price' LIMIT 10\`" \
    "SELECT doc FROM ROWS ORDER BY doc -> 'price' LIMIT 10"
measure "\`max(doc -> 'id')\`, an index" "SELECT max(doc -> 'id') FROM ROWS"
measure "groups of \`doc -> 'city'\`, each server its own" "SELECT count(*) FROM CITIES"
measure "groups of \`doc -> 'city'\`, of the table" \
    "SELECT count(*) FROM (SELECT doc -> 'city', count(*) FROM ROWS GROUP BY 1) s"
measure "\`count(*)\`" "SELECT count(*) FROM ROWS"
measure 'all documents, by `doc -> '"'id'"'`' \
    "SELECT count(*) FROM (SELECT doc FROM ROWS ORDER BY doc -> 'id' OFFSET 1) s"

# Transactions that change a row on each server, which wait for the disk. Each commits on its own
# server after the one before it, or beside it by parallel_commit.
transactions=200
for server in 0 1 2 3; do
    kill_one "$server"
    FSYNC=on start_one "$server"
done
ask 0 "CREATE PROCEDURE change(table_name text, parts int) LANGUAGE plpgsql AS \$\$ BEGIN
    FOR i IN 1 .. $transactions LOOP
        EXECUTE format('UPDATE %I SET doc = doc || ''{\"n\": 1}'' WHERE doc -> ''id'' IN (%s)',
            table_name, (SELECT string_agg(quote_literal($rows * part / parts + i), ',')
                         FROM generate_series(0, parts - 1) part));
        COMMIT;
    END LOOP;
END \$\$"
# The milliseconds of one of the transactions.
milliseconds_of_change() {
    milliseconds "CALL change('$1', $2)" "$((rounds + 1))" |
        awk -v count="$transactions" '{ printf("%.1f", $1 / count) }'
}
for option in false true; do
    name="a row changed on each, one commit"
    [ $option = true ] || name+=" after the other"
    [ $option = false ] || name+=" beside the other: \`parallel_commit\`"
    line="| $name | $(milliseconds_of_change here 1)"
    for server in 1 2 3; do
        ask 0 "ALTER SERVER s$server OPTIONS (ADD parallel_commit '$option')"
    done
    for count in 1 2 3; do line+=" | $(milliseconds_of_change "by_id_$count" "$count")"; done
    echo "$line |"
    for server in 1 2 3; do ask 0 "ALTER SERVER s$server OPTIONS (DROP parallel_commit)"; done
done

# How many rows the coordinator plans for conditions on three servers: by a sample of each part, by
# statistics of members, and by the estimates of the servers, which have such statistics too.
conditions=("doc -> 'id' = '777'" "doc -> 'price' BETWEEN '100' AND '101'"
    "doc -> 'city' = '\"city 7\"'" "doc @> '{\"city\": \"city 7\"}'"
    "doc @> '{\"tags\": [\"t3\"]}'" "doc ? 'none'" "doc < '{\"city\": \"city 100\"}'")
planned_lines() {
    local condition
    for condition in "${conditions[@]}"; do
        ask 0 "EXPLAIN SELECT FROM by_id_3 WHERE $condition" |
            sed -n '1s/.* rows=\([0-9]*\) .*/ \1 |/p'
    done
}
make_statistics() {
    ask "$1" "CREATE STATISTICS ${2}_price ON (doc -> 'price') FROM $2"
    ask "$1" "CREATE STATISTICS ${2}_city ON (doc -> 'city') FROM $2"
    ask "$1" "CREATE STATISTICS ${2}_id ON (doc -> 'id') FROM $2"
    ask "$1" "ANALYZE $2"
}
for condition in "${conditions[@]}"; do
    echo "| \`$condition\` | $(ask 0 "SELECT count(*) FROM by_id_3 WHERE $condition") |"
done > "$scratch/conditions"
planned_lines > "$scratch/by_sample"
for server in 1 2 3; do make_statistics 0 "by_id_3_$server"; done
planned_lines > "$scratch/by_statistics"
for server in 1 2 3; do
    make_statistics "$server" by_id_3
    ask 0 "ALTER SERVER s$server OPTIONS (ADD use_remote_estimate 'true')"
done
planned_lines > "$scratch/by_servers"
for server in 1 2 3; do ask 0 "ALTER SERVER s$server OPTIONS (DROP use_remote_estimate)"; done
echo
echo "| condition on $rows rows | rows | planned | with statistics | by the servers |"
echo "|---|---|---|---|---|"
paste -d '' "$scratch"/{conditions,by_sample,by_statistics,by_servers}
