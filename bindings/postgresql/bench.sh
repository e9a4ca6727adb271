#!/usr/bin/env bash
# Times the extension beside jsonb on 100,000 rows, and prints rows of README.md's table.
#
#     bindings/postgresql/bench.sh [ROUNDS [NAME]]
#
# Each time is the processor's, as log_statement_stats of the server says it: the least of ROUNDS
# (5) rounds, in which both types take turns, so that other work on the machine matters little. With
# NAME it measures the rows of the table alone in whose names this is. tests/server.sh has the
# settings that are needed.
set -euo pipefail
folder=$(cd "$(dirname "$0")" && pwd)
. "$folder/tests/server.sh"
rounds=${1:-5}
name_part=${2:-}
rows=100000
open_server shared_buffers=512MB work_mem=256MB maintenance_work_mem=256MB jit=off \
    max_parallel_workers_per_gather=0 max_parallel_maintenance_workers=0 autovacuum=off >&2

# The milliseconds of a command: those of the processor, in its own process.
milliseconds() {
    psql -At -c 'SET client_min_messages = log' -c 'SET log_statement_stats = on' -c "$1" 2>&1 |
        awk '/^!.* s user, .* s system/ { print 1000 * ($2 + $5); exit }'
}

least() { sort -n | awk 'NR == 1 { printf($1 < 10 ? "%.1f" : "%.0f", $1) }'; }

# One line of the table, of what a command takes, and a command after it that is not timed. TYPE in
# them and in the name becomes the name of each type. jsonb has a command of its own if it is given.
measure() {
    local name=$1 command=$2 after=${3:-} command_of_jsonb=${4:-$2} type round asked
    [[ $name = *"$name_part"* ]] || return 0
    : > "$scratch/jsonb.times"
    : > "$scratch/kohiblad.times"
    for ((round = 0; round < rounds; round++)); do
        for type in jsonb kohiblad; do
            asked=$command
            [ $type = kohiblad ] || asked=$command_of_jsonb
            milliseconds "${asked//TYPE/$type}" >> "$scratch/$type.times"
            [ -z "$after" ] || psql -c "${after//TYPE/$type}"
        done
    done
    echo "| ${name//TYPE/kohiblad} | $(least < "$scratch/kohiblad.times") |" \
        "$(least < "$scratch/jsonb.times") |"
}

psql << SQL
CREATE EXTENSION kohiblad;
CREATE TABLE texts AS
    SELECT format('{"id": %s, "name": "customer %s", "city": "city %s", "price": %s.%s, '
                  '"tags": ["new", "t%s"], "seen": %s}',
                  i, i * 7919 % 100003, i * 31 % 500, i * 17 % 900, 10 + i % 90, i % 13,
                  CASE WHEN i % 3 = 0 THEN 'null' ELSE 'true' END) AS line
    FROM generate_series(1, $rows) i ORDER BY md5(i::text);
CREATE TABLE in_jsonb AS SELECT line::jsonb AS doc FROM texts;
CREATE TABLE in_kohiblad AS SELECT line::kohiblad AS doc FROM texts;
CREATE TABLE wide_texts AS
    SELECT rtrim(line, '}') || format(', "address": {"street": "street %s", "zip": "%s"}, "lines": '
                  '[{"sku": "s%s", "n": %s}, {"sku": "s%s", "n": %s, "price": %s.50}], '
                  '"note": "%s"}', i % 1000, 10000 + i % 90000, i % 700, i % 9, i % 77, i % 8,
                  i % 500, repeat(md5(i::text), 2)) AS line
    FROM (SELECT line, row_number() OVER () AS i FROM texts) s;
CREATE TABLE wide_jsonb AS SELECT line::jsonb AS doc FROM wide_texts;
CREATE TABLE wide_kohiblad AS SELECT line::kohiblad AS doc FROM wide_texts;
VACUUM ANALYZE;
SQL

# A query that makes the value of an expression for all rows.
in_all() { echo "SELECT count(it) FROM (SELECT $1 AS it FROM in_TYPE OFFSET 0) s"; }

sizes=$(psql -At -F ' | ' -c "SELECT (SELECT sum(pg_column_size(doc)) / $rows FROM in_kohiblad),
                                     (SELECT sum(pg_column_size(doc)) / $rows FROM in_jsonb)")
echo "| 100,000 rows, ms | kohiblad | jsonb |"
echo "|---|---|---|"
measure 'load: texts to documents' \
    'CREATE TABLE loaded AS SELECT line::TYPE AS doc FROM texts' 'DROP TABLE loaded'
measure "\`doc ->> 'id'\`" "SELECT sum((doc ->> 'id')::int) FROM in_TYPE"
measure "\`doc #> '{tags,0}'\`" "$(in_all "doc #> '{tags,0}'")"
measure 'text back: `doc::text`' 'SELECT sum(length(doc::text)) FROM in_TYPE'
measure "index built on \`doc -> 'name'\`" \
    "CREATE INDEX built ON in_TYPE ((doc -> 'name'))" 'DROP INDEX built'
measure 'index built on `doc`' 'CREATE INDEX built ON in_TYPE (doc)' 'DROP INDEX built'
measure '`ORDER BY doc`' 'SELECT count(*) FROM (SELECT doc FROM in_TYPE ORDER BY doc OFFSET 1) s'
measure "\`ORDER BY doc -> 'id'\`" \
    "SELECT count(*) FROM (SELECT doc FROM in_TYPE ORDER BY doc -> 'id' OFFSET 1) s"
measure "\`ORDER BY doc -> 'name'\`" \
    "SELECT count(*) FROM (SELECT doc FROM in_TYPE ORDER BY doc -> 'name' OFFSET 1) s"
measure "\`GROUP BY doc -> 'city'\`" \
    "SELECT count(*) FROM (SELECT doc -> 'city', count(*) FROM in_TYPE GROUP BY 1) s"
measure '`SELECT DISTINCT doc`' 'SELECT count(*) FROM (SELECT DISTINCT doc FROM in_TYPE) s'
measure "\`doc @> '{\"city\": \"city 7\"}'\`" "$(in_all "doc @> '{\"city\": \"city 7\"}'")"
measure "\`doc @> '{\"tags\": [\"t3\"]}'\`" "$(in_all "doc @> '{\"tags\": [\"t3\"]}'")"
measure "\`doc ? 'name'\`" "$(in_all "doc ? 'name'")"
measure "\`doc \|\| '{\"sold\": 1}'\`" "$(in_all "doc || '{\"sold\": 1}'")"
measure "\`doc - 'name'\`" "$(in_all "doc - 'name'")"
measure "\`TYPE_set(doc, '{tags,0}', '1')\`" "$(in_all "TYPE_set(doc, '{tags,0}', '1')")"
measure "\`TYPE_insert(doc, '{tags,0}', '1')\`" "$(in_all "TYPE_insert(doc, '{tags,0}', '1')")"
measure "\`doc #- '{tags,0}'\`" "$(in_all "doc #- '{tags,0}'")"
measure "\`TYPE_strip_nulls(doc)\`" "$(in_all 'TYPE_strip_nulls(doc)')"
measure "\`TYPE_merge_patch(doc, '{\"name\": null, \"sold\": 1}')\`" \
    "$(in_all "TYPE_merge_patch(doc, '{\"name\": null, \"sold\": 1}')")" '' \
    "$(in_all "(doc - 'name') || '{\"sold\": 1}'")"
measure "\`TYPE_path_query(doc, '\$.tags[*]')\`" \
    "SELECT count(*) FROM in_TYPE, TYPE_path_query(doc, '\$.tags[*]')"
measure "\`TYPE_array_elements(doc -> 'tags')\`" \
    "SELECT count(*) FROM in_TYPE, TYPE_array_elements(doc -> 'tags')"
measure "\`doc @@ '\$.price > 100'\`" "$(in_all "doc @@ '\$.price > 100'")"
measure "\`doc @? '\$.tags[*] ? (@ == \"t3\")'\`" "$(in_all "doc @? '\$.tags[*] ? (@ == \"t3\")'")"
measure "\`doc @@ '\$.city starts with \"city 7\" && \$.id > 9'\`" \
    "$(in_all "doc @@ '\$.city starts with \"city 7\" && \$.id > 9'")"
measure "\`doc @? '\$.tags[0,1][0] ? (@ == \"t3\")'\`" \
    "$(in_all "doc @? '\$.tags[0,1][0] ? (@ == \"t3\")'")"
measure "\`doc @@ '\$.price > \$.id'\`" "$(in_all "doc @@ '\$.price > \$.id'")"
measure "\`doc @@ '\$.price.type() == \"number\"'\`" \
    "$(in_all "doc @@ '\$.price.type() == \"number\"'")"
measure "\`doc @@ 'strict \$.price > 100'\`" "$(in_all "doc @@ 'strict \$.price > 100'")"
measure "\`doc @@ '\$.price * 2 > \$.id'\`" "$(in_all "doc @@ '\$.price * 2 > \$.id'")"
measure "\`doc @? '\$.tags.size() ? (@ > 2)'\`" "$(in_all "doc @? '\$.tags.size() ? (@ > 2)'")"
measure "\`TYPE_path_exists(doc, '\$.price ? (@ > \$x)', '{\"x\": 100}')\`" \
    "$(in_all "TYPE_path_exists(doc, '\$.price ? (@ > \$x)', '{\"x\": 100}')")"
measure "\`doc @? '\$.** ? (@ == \"t3\")'\`" "$(in_all "doc @? '\$.** ? (@ == \"t3\")'")"
measure "\`doc @@ '\$.price.double() > 100'\`" "$(in_all "doc @@ '\$.price.double() > 100'")"
measure 'GIN index built' 'CREATE INDEX built ON in_TYPE USING gin (doc)' 'DROP INDEX built'
measure 'GIN index built, `TYPE_path_ops`' \
    'CREATE INDEX built ON in_TYPE USING gin (doc TYPE_path_ops)' 'DROP INDEX built'
for type in jsonb kohiblad; do
    psql -c "CREATE INDEX ON in_$type USING gin (doc)"
done
measure "\`count(*)\` of 7,692 rows with a tag, by GIN" \
    "SELECT count(*) FROM in_TYPE WHERE doc @> '{\"tags\": [\"t3\"]}'"
measure "\`TYPE_survey(doc, '\"price\"')\`" "SELECT TYPE_survey(doc, '\"price\"') FROM in_TYPE" '' \
    "SELECT jsonb_typeof(doc -> 'price'), count(*) FROM in_jsonb GROUP BY 1"
measure "\`sum((doc -> 'price')::numeric)\`" "SELECT sum((doc -> 'price')::numeric) FROM in_TYPE"
measure "\`(doc -> 'price')::numeric < 10\`" "$(in_all "(doc -> 'price')::numeric < 10")"
for type in jsonb kohiblad; do
    psql << SQL
ALTER TABLE in_$type
    ADD price numeric(5, 2) GENERATED ALWAYS AS ((doc -> 'price')::numeric) STORED;
CREATE INDEX ON in_$type (price);
VACUUM ANALYZE in_$type;
SQL
done
measure '`sum(price)` of a generated column' 'SELECT sum(price) FROM in_TYPE'
measure '`price < 10`, by its index' 'SELECT sum(price) FROM in_TYPE WHERE price < 10'
echo "| bytes a row | $sizes |"

# Whole documents, and what they contain, in rows of two sizes: those of in_TYPE and of wide_TYPE.
measure_sizes() {
    local name=$1 command=$2 after=${3:-} here wide
    here=$(measure "$name" "$command" "$after")
    [ -n "$here" ] || return 0
    wide=$(measure "$name" "${command//in_TYPE/wide_TYPE}" "$after")
    echo "$here${wide#"| $name |"}"
}

bytes_of() { psql -At -c "SELECT round(avg(pg_column_size(doc))) FROM $1"; }
echo
echo "| 100,000 rows, ms | $(bytes_of in_kohiblad) bytes | \`jsonb\` |" \
    "$(bytes_of wide_kohiblad) bytes | \`jsonb\` |"
echo "|---|---|---|---|---|"
for condition in '{"city": "city 7"}' '{"city": "city 7", "seen": true}' '{"tags": ["t3"]}' \
    '{"tags": ["new", "t3"], "seen": null}' '{"tags": ["new", "t3", "a", "b", "c"]}' \
    '{"city": "city 7", "id": 7, "name": "a", "price": 17.17, "seen": null}' \
    '{"lines": [{"n": 3}]}' '{"lines": [{"sku": "s7", "n": 7}]}'; do
    measure_sizes "\`doc @> '$condition'\`" "$(in_all "doc @> '$condition'")"
done
measure_sizes '`ORDER BY doc`' \
    'SELECT count(*) FROM (SELECT doc FROM in_TYPE ORDER BY doc OFFSET 1) s'
measure_sizes '`ORDER BY doc DESC LIMIT 10`' \
    'SELECT count(*) FROM (SELECT doc FROM in_TYPE ORDER BY doc DESC LIMIT 10) s'
measure_sizes '`SELECT DISTINCT doc`' 'SELECT count(*) FROM (SELECT DISTINCT doc FROM in_TYPE) s'
measure_sizes 'index built on `doc`' 'CREATE INDEX built ON in_TYPE (doc)' 'DROP INDEX built'

# One line of the table of estimates: how many rows a condition finds, and how many are planned.
estimate() {
    local type plans=''
    [[ $1 = *"$name_part"* ]] || return 0
    for type in kohiblad jsonb; do
        plans+=" $(psql -At -c "EXPLAIN SELECT FROM in_$type WHERE $1" |
            sed -n '1s/.* rows=\([0-9]*\) .*/\1/p') |"
    done
    echo "| \`$1\` | $(psql -At -c "SELECT count(*) FROM in_kohiblad WHERE $1") |$plans"
}

for type in jsonb kohiblad; do
    psql << SQL
CREATE STATISTICS ${type}_id ON (doc -> 'id') FROM in_$type;
CREATE STATISTICS ${type}_name ON (doc -> 'name') FROM in_$type;
CREATE STATISTICS ${type}_price ON (doc -> 'price') FROM in_$type;
CREATE STATISTICS ${type}_tags ON (doc -> 'tags') FROM in_$type;
ANALYZE in_$type;
SQL
done
echo
echo "| condition on 100,000 rows | rows | planned | by \`jsonb\` |"
echo "|---|---|---|---|"
estimate "doc -> 'id' BETWEEN '100' AND '500'"
estimate "doc -> 'id' < '4434'"
estimate "doc -> 'price' BETWEEN '100' AND '101'"
estimate "doc -> 'name' BETWEEN '\"customer 50000\"' AND '\"customer 50999\"'"
estimate "doc < '{\"city\": \"city 100\"}'"
estimate "doc @> '{\"city\": \"city 7\"}'"
estimate "doc @> '{\"tags\": [\"t3\"]}'"
estimate "doc @> '{\"id\": 77}'"
estimate "doc -> 'tags' ? 't3'"
estimate "doc ? 'none'"
estimate "doc @? '\$.city ? (@ == \"city 7\")'"
estimate "doc @@ '\$.price > 100'"
