#!/usr/bin/env bash
# Compares what GIN indexes find among 1,000,000 random documents with what a scan of the table
# finds.
#
#     PKG_CONFIG_PATH=/usr/local/lib/pkgconfig bindings/postgresql/tests/million.sh [ROWS]
#
# tests/server.sh has the settings. It takes some ten minutes of one core and 1 GB in the scratch
# folder. The last line has the counts, and the status is 1 if an answer differs.
set -Eeuo pipefail
folder=$(cd "$(dirname "$0")/.." && pwd)
. "$folder/tests/server.sh"
rows=${1:-1000000}

query() { psql -At -c "$1"; }

# The seconds that a command takes.
time_of() {
    local start=$EPOCHREALTIME
    query "$1" > "$scratch/answer"
    awk -v start="$start" -v end="$EPOCHREALTIME" 'BEGIN { printf "%.1f s\n", end - start }'
}

open_server max_parallel_workers_per_gather=0 max_parallel_maintenance_workers=0 jit=off \
    maintenance_work_mem=256MB
psql -f "$folder/sql/prepare.sql"
# The functions of random.sql, which come before its table of commands.
sed '/^-- A command with/,$d' "$folder/sql/random.sql" > "$scratch/random.sql"
psql -At -f "$scratch/random.sql" > "$scratch/answer"
note "$rows random documents"
time_of "CREATE TABLE found AS
    SELECT i, random_text(3)::kohiblad AS d FROM generate_series(1, $rows) i"
note "the index of all operators"
time_of "CREATE INDEX found_all ON found USING gin (d)"
note "the index of @>, @@ and @? alone"
time_of "CREATE INDEX found_path ON found USING gin (d kohiblad_path_ops)"
query "ANALYZE found"
query "SELECT relname, pg_size_pretty(pg_relation_size(oid)) FROM pg_class
    WHERE relname LIKE 'found%' ORDER BY 1"
query "CREATE TABLE conditions AS
    SELECT format('d @> %L', d) AS condition FROM found WHERE i <= 25
    UNION ALL SELECT format('d @> %L', it)
              FROM found, kohiblad_path_query(d, '\$.*') it WHERE i BETWEEN 100 AND 110
    UNION ALL SELECT format('d @> %L', kohiblad_build_object(key, value))
              FROM found, kohiblad_each(d) WHERE i BETWEEN 200 AND 215 AND key IS NOT NULL
    UNION ALL SELECT format('d ? %L', one_of('{a,b,0,é,x,\"\"}')) FROM generate_series(1, 5)
    UNION ALL SELECT format('d @@ %L', replace(replace(test, 'KEY', one_of('{a,b,c,d}')),
                                               'VALUE', one_of('{0,1,2,1.5,true,null}')))
              FROM unnest('{\$.KEY == VALUE && \$.b != null,\$.KEY[*] == VALUE && \$.d > 0,
                            \$.KEY.a == VALUE && !(\$.b < 2),\$.c == 1 && \$.KEY == VALUE,
                            \$.KEY == VALUE || \$.d == 1}'::text[]) test, generate_series(1, 4)
    UNION ALL SELECT format('d @? %L', replace(replace(path, 'KEY', one_of('{a,b,c,d}')),
                                               'VALUE', one_of('{0,1,2,1.5,true,null}')))
              FROM unnest('{\$.a ? (@.KEY == VALUE && @.b != null),\$[*] ? (@.KEY[*] == VALUE),
                            \$.KEY ? (@ == VALUE && \$.d >= 1)}'::text[]) path,
                   generate_series(1, 4)
    UNION ALL SELECT format('d ?| %L', random_path()) FROM generate_series(1, 5)
    UNION ALL SELECT format('d ?& %L', random_path()) FROM generate_series(1, 10)"

# The numbers of the rows that each condition finds, by one way; and without the index of the rest.
answer_all() {
    query "CREATE TABLE $1 (condition text, rows bigint, answer text)"
    psql -At > "$scratch/answer" << SQL
SET enable_seqscan = $2;
SET enable_bitmapscan = $3;
SELECT format('INSERT INTO $1 SELECT %L, count(*), md5(string_agg(i::text, '' '' ORDER BY i))
               FROM found WHERE %s', condition, condition) FROM conditions \gexec
SQL
}

note "the conditions by the index"
answer_all by_index off on
expected=$(query "SELECT count(*) FROM conditions")
query "DROP INDEX found_all"
note "those of @>, @@ and @? by the other index"
query "DELETE FROM conditions WHERE condition NOT LIKE 'd @%'"
answer_all by_path off on
note "by a scan of the table"
query "INSERT INTO conditions SELECT condition FROM by_index WHERE condition NOT LIKE 'd @%'"
answer_all by_scan on off
differ=$(query "SELECT count(*) FROM by_scan s
    WHERE NOT EXISTS (SELECT FROM by_index i WHERE (i.condition, i.rows, coalesce(i.answer, ''))
                                                 = (s.condition, s.rows, coalesce(s.answer, '')))
       OR s.condition LIKE 'd @%' AND NOT EXISTS
              (SELECT FROM by_path i WHERE (i.condition, i.rows, coalesce(i.answer, ''))
                                         = (s.condition, s.rows, coalesce(s.answer, '')))")
found=$(query "SELECT sum(rows) FROM by_scan")
echo "$binding: $expected conditions over $rows documents find $found rows, $differ differ"
[ "$differ" = 0 ]
