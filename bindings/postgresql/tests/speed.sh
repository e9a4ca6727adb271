#!/usr/bin/env bash
# Times each operator of the extension beside jsonb, on random rows of 150 and of 350 bytes, which
# have an array of objects, and prints rows of bench/DIARY.md's table.
#
#     bindings/postgresql/tests/speed.sh [SECONDS [SEED [NAME]]]
#
# In each round each operator is asked of all rows of one size, of one type right after the other,
# so that other work on the machine matters little. Rounds begin for so many seconds (60), two at
# least. A time is the processor's, as log_statement_stats of the server says it, and the least of
# all rounds. SEED (1) makes the rows. With NAME it measures the rows of the table alone in whose
# names this is. server.sh has the settings that are needed.
set -Eeuo pipefail
folder=$(cd "$(dirname "$0")/.." && pwd)
. "$folder/tests/server.sh"
seconds=${1:-60}
seed=${2:-1}
name_part=${3:-}
names=()
queries=()

# A row of the table: its name, and the query that both types are asked. ROWS in it becomes the name
# of the table of a type, ASKED and TEXTS those of two beside it, and TYPE the type's.
row() {
    [[ $1 = *"$name_part"* ]] || return 0
    names+=("$1")
    queries+=("$2")
}

# The rows of an expression over all documents, which no index answers; of the rows that a function
# makes of each document; and of an order.
each() { row "\`$1\`" "SELECT count($1) FROM ROWS"; }
rows_of() { row "\`$1\`" "SELECT count(it) FROM ROWS, $1 it"; }
sorted_by() {
    row "\`ORDER BY $1\`" "SELECT count(*) FROM (SELECT FROM ROWS ORDER BY $1 OFFSET 1) it"
}

each "doc -> 'total'"
each "doc -> 'lines'"
each "doc ->> 'id'"
each "doc ->> 'total'"
each "doc ->> 'lines'"
each "doc #> '{customer,town}'"
each "doc #>> '{lines,0,price}'"
each "doc @> '{\"customer\": {\"town\": \"town 7\"}}'"
each "doc @> '{\"lines\": [{\"count\": 3}]}'"
each "doc ? 'note'"
each "doc || '{\"sold\": true}'"
each "TYPE_set(doc, '{total}', '1')"
each "TYPE_set(doc, '{lines,0,price}', '1')"
each "doc - 'note'"
each "doc #- '{lines,0}'"
each "TYPE_strip_nulls(doc)"
each "doc::text"
each "to_tsvector('simple', doc)"
row '`TYPE_agg(doc)`' 'SELECT TYPE_agg(doc) IS NULL FROM ROWS'
row '`TYPE_agg(doc)`, of ten rows each' \
    'SELECT count(it) FROM (SELECT TYPE_agg(doc) AS it FROM ROWS GROUP BY id / 10) made'
row '`TYPE_object_agg(id, doc)`, of ten rows each' \
    'SELECT count(it) FROM (SELECT TYPE_object_agg(id, doc) AS it FROM ROWS GROUP BY id / 10) made'
rows_of 'TYPE_each(doc)'
rows_of 'TYPE_each_text(doc)'
rows_of "TYPE_array_elements(doc -> 'lines')"
each "TYPE_build_object('id', id, 'doc', doc)"
each "TYPE_build_object('id', id, 'of', 'shop')"
each 'to_TYPE(ROWS)'
sorted_by doc
sorted_by "doc -> 'customer'"
row "\`GROUP BY doc -> 'customer'\`" \
    "SELECT count(*) FROM (SELECT count(*) FROM ROWS GROUP BY doc -> 'customer') it"
row '`SELECT DISTINCT doc`' 'SELECT count(*) FROM (SELECT DISTINCT doc FROM ROWS) it'
row "\`doc @> '{\"id\": 7}'\`, by GIN, 500 of these" \
    'SELECT sum(it) FROM (SELECT (SELECT count(*) FROM ROWS WHERE ROWS.doc @> ASKED.doc) AS it
                          FROM ASKED) found'
# Paths of each kind.
each "doc @? '\$.customer.town'"
each "doc @? '\$.customer.*'"
each "doc @? '\$.lines[last].sku'"
each "doc @? '\$.lines[1 to 2].sku'"
each "doc @? '\$.lines[*] ? (@.price > 190)'"
each "doc @? '\$.lines[*] ? (@.price > 190 && @.count == 3)'"
each "doc @? '\$.lines[*] ? (exists(@.count ? (@ > 8)))'"
each "doc @? '\$.lines[*] ? (@.sku starts with \"k77\")'"
each "doc @? '\$.lines[*] ? (@.sku like_regex \"^k77\")'"
each "doc @? '\$.lines[*] ? (@.price * @.count > 1700)'"
each "doc @? 'strict \$.lines[*] ? (@.price > 190)'"
each "doc @? '\$.** ? (@ == 7)'"
each "doc @@ '\$.total > 400'"
each "doc @@ '\$.total + \$.id > 4000'"
each "doc @@ '\$.lines.size() > 3'"
each "doc @@ '\$.note.type() == \"string\"'"
each "TYPE_path_exists(doc, '\$.lines[*] ? (@.price > \$least)', '{\"least\": 190}')"
each "TYPE_path_query_first(doc, '\$.lines[*].price.floor()')"
rows_of "TYPE_path_query(doc, '\$.lines[*].price')"
rows_of "TYPE_path_query(doc, '\$.lines[*].price ? (@ > \$.total)')"
row "\`sum((doc ->> 'total')::numeric)\`" "SELECT sum((doc ->> 'total')::numeric) FROM ROWS"
row "\`sum((doc -> 'total')::numeric)\`" "SELECT sum((doc -> 'total')::numeric) FROM ROWS"
row 'inserted from text' 'INSERT INTO loaded_TYPE SELECT line::TYPE FROM TEXTS'

# The tables of so many rows, each of which has so many items.
make_tables() {
    local size=$1 count=$2 items=$3
    psql -At << SQL
SELECT setseed(($seed % 1000) / 1000.0) \g /dev/null
CREATE TABLE texts_$size AS
    SELECT i AS id, format(
        '{"id": %s, "customer": {"town": "town %s"}, "total": %s.%s, "note": %s, "lines": [%s]}',
        i, (random() * 200)::int, (random() * 900)::int, 10 + (random() * 89)::int,
        CASE WHEN random() < 0.3 THEN 'null' ELSE '"ring the bell"' END, lines) AS line
    FROM generate_series(1, $count) i, LATERAL (
        SELECT string_agg(format('{"sku": "k%s", "price": %s.%s, "count": %s}',
            (random() * 9999)::int, (random() * 200)::int, 10 + (random() * 89)::int,
            1 + (random() * 9)::int), ', ') AS lines
        FROM generate_series(1, $items)) made
    ORDER BY random();
CREATE TABLE in_jsonb_$size AS SELECT id, line::jsonb AS doc FROM texts_$size;
CREATE TABLE in_kohiblad_$size AS SELECT id, line::kohiblad AS doc FROM texts_$size;
CREATE TABLE asked_jsonb_$size AS
    SELECT jsonb_build_object('id', i * 7) AS doc FROM generate_series(1, 500) i;
CREATE TABLE asked_kohiblad_$size AS SELECT doc::kohiblad FROM asked_jsonb_$size;
CREATE INDEX ON in_jsonb_$size USING gin (doc);
CREATE INDEX ON in_kohiblad_$size USING gin (doc);
VACUUM ANALYZE;
SQL
}

# A query for a type and a size, after a mark on standard error, between the statistics on and off.
statement() {
    local number=$1 size=$2 type=$3 query=${queries[$1]}
    query=${query//ROWS/in_${type}_$size}
    query=${query//ASKED/asked_${type}_$size}
    query=${query//TEXTS/texts_$size}
    cat << SQL
CREATE TEMP TABLE loaded_$type (doc $type);
\\warn = $number $size $type
SET log_statement_stats = on;
${query//TYPE/$type};
SET log_statement_stats = off;
DROP TABLE loaded_$type;
SQL
}

write_rounds() {
    local number size type
    echo "SET client_min_messages = log;"
    for number in "${!names[@]}"; do
        for size in 150 350; do
            for type in jsonb kohiblad; do
                statement "$number" $size $type
            done
        done
    done
}

# Two rounds in one session, of which the first has more to do: it loads what a session keeps.
run_rounds() {
    psql -At -f "$scratch/round.sql" -f "$scratch/round.sql" > "$scratch/answers" \
        2>> "$scratch/told" || { tail -n 3 "$scratch/told" >&2; fail "a round"; }
    rounds=$((rounds + 2))
}

# The least time of each row, size and type. The first statistics after a mark are the query's.
least_times() {
    awk '
        $1 == "=" { mark = $2 " " $3 " " $4; waits = 1 }
        waits && /^!.* s user, .* s system/ {
            time = 1000 * ($2 + $5)
            if (!(mark in least) || time < least[mark]) least[mark] = time
            waits = 0
        }
        END { for (mark in least) print mark, least[mark] }' "$scratch/told"
}

# One line of the table: a name, and what both types take of 150 and of 350 bytes.
print_row() {
    awk -v name="$1" -v ours="$2" -v theirs="$3" -v long="$4" -v their_long="$5" '
        BEGIN { gsub(/[|]/, "\\|", name)
                printf("| %s | %.2f | %.2f | %.1f | %.1f |\n", name, ours / theirs,
                       long / their_long, long, their_long) }'
}

bytes_of() { psql -At -c "SELECT avg(pg_column_size(doc)) FROM in_$1"; }

print_table() {
    local number size type ms
    declare -A times
    while read -r number size type ms; do
        times["$number $size $type"]=$ms
    done
    echo "| of the time of \`jsonb\` | 150 bytes | 350 bytes | ms of 350 | \`jsonb\` |"
    echo "|---|---|---|---|---|"
    for number in "${!names[@]}"; do
        print_row "${names[$number]//TYPE/kohiblad}" "${times["$number 150 kohiblad"]}" \
            "${times["$number 150 jsonb"]}" "${times["$number 350 kohiblad"]}" \
            "${times["$number 350 jsonb"]}"
    done
}

open_server shared_buffers=512MB work_mem=256MB maintenance_work_mem=256MB jit=off \
    max_parallel_workers_per_gather=0 autovacuum=off >&2
psql -c "CREATE EXTENSION kohiblad"
make_tables 150 8000 1
make_tables 350 4000 4
write_rounds > "$scratch/round.sql"
: > "$scratch/told"
rounds=0
started=$SECONDS
while [ $rounds = 0 ] || [ $((SECONDS - started)) -lt "$seconds" ]; do
    run_rounds
done
least_times | print_table
print_row 'bytes a row' "$(bytes_of kohiblad_150)" "$(bytes_of jsonb_150)" \
    "$(bytes_of kohiblad_350)" "$(bytes_of jsonb_350)"
echo "$rounds rounds, seed $seed, load $(cut -d ' ' -f 1-3 /proc/loadavg)"
