#!/usr/bin/env bash
# Tests the extension on a server of its own, which is stopped and removed at the end.
#
#     PKG_CONFIG_PATH=/usr/local/lib/pkgconfig bindings/postgresql/test.sh
#
# tests/server.sh has the settings. Each line of expected/NAME.out is the answer that sql/NAME.sql
# must print, by `make installcheck`, and counts as a test. So does each line of tests/NAME.out, and
# each that tests/catalogue.sql prints. tests/cluster.sh has those of several servers.
set -Eeuo pipefail
folder=$(cd "$(dirname "$0")" && pwd)
. "$folder/tests/server.sh"
trap 'fail "line $LINENO of test.sh"' ERR
vectors=$folder/../../tests/lines/jsonb_probe/comparable-keys
tests=0

passed() { tests=$((tests + ${1:-1})); }

# Runs a script in a database, and compares what it prints with what it must print.
run_script() {
    local name=$1
    note "tests/$name.sql"
    psql -At -d "${2:-$PGDATABASE}" -f "$folder/tests/$name.sql" > "$scratch/$name.out" 2> \
        "$scratch/$name.err" || { cat "$scratch/$name.err" >&2; fail "tests/$name.sql"; }
    sed 's/^psql:[^:]*:[0-9]*: //' "$scratch/$name.err" >> "$scratch/$name.out"
    diff -u "$folder/tests/$name.out" "$scratch/$name.out" >&2 || fail "tests/$name.sql"
    passed "$(wc -l < "$folder/tests/$name.out")"
}

# Compares two texts, the one that must be and the one that is.
expect() {
    [ "$2" = "$3" ] || fail "$1: expected $2, got $3"
    passed
}

query() { psql -At -c "$1" "${2:-$PGDATABASE}"; }

# The scripts that a user has too. The rest of the tests use what they made.
run_installcheck() {
    note "make installcheck"
    local result
    [ "$(id -u)" != 0 ] || chown -R "$user" "$scratch/build"
    as_user make -C "$scratch/build" PG_CONFIG="$bin/pg_config" PGUSER=tester \
        installcheck > "$scratch/installcheck.log" 2>&1 || {
        cat "$scratch/installcheck.log" "$scratch/build/regression.diffs" >&2
        fail "make installcheck"
    }
    for result in "$scratch/build/results"/*.out; do
        passed $(($(wc -l < "$result") - 1))
    done
    export PGDATABASE=contrib_regression
}

# Copies the answer of a query into a table, in a format.
copy() {
    psql -c "COPY ($1) TO STDOUT (FORMAT $2)" > "$scratch/copied"
    psql -c "COPY $3 FROM STDIN (FORMAT $2)" < "$scratch/copied" 2> "$scratch/refused"
}

# Copies the documents of 33 rows. The first is a date, which has no form in JSON.
run_copies() {
    note "COPY, in text and binary"
    local format
    for format in text csv binary; do
        query "CREATE TABLE copied_$format (d kohiblad)"
        copy "SELECT d FROM ranked" "$format" "copied_$format"
    done
    for format in text csv binary; do
        expect "COPY in $format" 33 "$(query "SELECT count(*) FROM ranked r
            JOIN copied_$format c ON r.d::bytea = c.d::bytea")"
    done
}

# Rows of hash partitions that are copied as text, as pg_dump does, are found in the new ones.
run_partitions() {
    note "COPY of hash partitions, in text"
    local table part
    for table in spread received; do
        query "CREATE TABLE $table (d kohiblad) PARTITION BY HASH (d)"
        for part in 0 1 2 3; do
            query "CREATE TABLE ${table}_$part PARTITION OF $table
                FOR VALUES WITH (MODULUS 4, REMAINDER $part)"
        done
    done
    query "INSERT INTO spread SELECT d FROM ranked"
    for part in 0 1 2 3; do
        copy "SELECT d FROM spread_$part" text "received_$part"
    done
    expect "documents found" 33 "$(query "SELECT found_in('received', 'ranked')")"
}

# Bytes that a client sends in binary are checked: those of bytea are sent unchanged.
run_refusals() {
    note "bad bytes in binary"
    local bytes
    query "CREATE TABLE refused (d kohiblad)"
    for bytes in "''" "'\\x80'" "'\\x8000000000'" "'\\x8000000110000002c328'" \
        "nested_bytes(1001)" "nested_bytes(100000)"; do
        if copy "SELECT $bytes::bytea" binary refused; then
            fail "bytes $bytes were taken"
        fi
        expect "the error for $bytes" "ERROR:  kohiblad: InvalidJsonb" \
            "$(head -n 1 "$scratch/refused")"
    done
    copy "SELECT nested_bytes(1000)" binary refused
    expect "rows taken" 1 "$(query "SELECT count(*) FROM refused")"
}

# A pretty text of more than 1 GB, of 1,000,000 items in 1,000 levels, is refused before memory is
# asked for.
run_memory() {
    note "memory"
    query "CREATE TABLE indented AS SELECT (repeat('[', 1000) || repeat('1,', 999999) || '1'
        || repeat(']', 1000))::kohiblad AS d"
    expect "a long text" "54000 kohiblad: the result has 2005001998 bytes, more than 1 GB t" \
        "$(psql -At -c "SELECT refusal('SELECT kohiblad_pretty(d) FROM indented')" -c "SELECT
            (regexp_match(pg_read_file('/proc/self/status'), 'VmHWM:\s+(\d+)'))[1]::int < 400000" |
            paste -sd ' ')"
}

# Prints the sessions of a page as psql --echo-all prints them, or their statements alone. There a
# statement begins after `=> ` and goes on in indented lines, and a row begins with one space.
session_of() {
    awk -v statements="${2:-}" '
        /^```/ { on = $0 == "```text"; next }
        !on { next }
        /^=> |^   / { print substr($0, 4); next }
        !statements { sub(/^ /, ""); print }' "$1"
}

# All lines of the page on moving in are run, and print what stands there.
run_page() {
    note "MIGRATE.md"
    psql -c "CREATE DATABASE shop"
    session_of "$folder/MIGRATE.md" > "$scratch/page"
    [ -s "$scratch/page" ] || fail "MIGRATE.md has no sessions"
    session_of "$folder/MIGRATE.md" statements |
        "$bin/psql" -Xq --echo-all -At -P fieldsep=' | ' -d shop > "$scratch/shown" 2>&1
    diff -u "$scratch/page" "$scratch/shown" >&2 || fail "MIGRATE.md"
    passed "$(wc -l < "$scratch/page")"
}

# Dates, timestamps and intervals have the texts that Python shows.
run_times() {
    note "tests/times.tsv"
    local times=$folder/../../tests/times.tsv answer
    query "CREATE TABLE times (bytes text, shown text)"
    psql -c "COPY times FROM STDIN" < "$times"
    for answer in "d #>> '{}'" "kohiblad_build_array(d) ->> 0" \
        "kohiblad_build_object('at', d) ->> 'at'"; do
        expect "texts by $answer" "$(grep -c '' "$times")" "$(query "SELECT count(*)
            FROM times, LATERAL kohiblad(decode(bytes, 'hex')) d WHERE $answer = shown")"
    done
}

load_vectors() {
    query "CREATE TABLE lines (request text, answer text)"
    paste "$vectors.in" "$vectors.out" | psql -c "COPY lines FROM STDIN"
}

run_latin() {
    psql -c "CREATE DATABASE latin ENCODING LATIN1 LOCALE 'C' TEMPLATE template0"
    run_script latin latin
    psql -c "CREATE DATABASE latin_again ENCODING LATIN1 LOCALE 'C' TEMPLATE template0"
    "$bin/pg_dump" --no-sync latin > "$scratch/latin.sql"
    psql -d latin_again -f "$scratch/latin.sql" > "$scratch/restored"
    local rows="SELECT count(*), md5(string_agg(d::bytea::text, ' ' ORDER BY id)) FROM lacking"
    expect "rows that LATIN1 lacks" "$(query "$rows" latin)" "$(query "$rows" latin_again)"
}

# Texts in the order of jsonb, in a database that has a collation of ICU, if the server has ICU.
run_collation() {
    "$bin/pg_config" --configure | grep -q -e --with-icu ||
        { note "passed over: a collation needs a server with ICU"; return; }
    psql -c "CREATE DATABASE collated LOCALE_PROVIDER icu ICU_LOCALE 'en' ENCODING UTF8
        TEMPLATE template0"
    run_script collated collated
}

# What pg_dump writes makes the same rows, indexes and extension in another database.
run_dump() {
    note "pg_dump and restore"
    psql -c "CREATE DATABASE restored"
    "$bin/pg_dump" --no-sync "$PGDATABASE" > "$scratch/dump.sql"
    psql -d restored -f "$scratch/dump.sql" > "$scratch/restored"
    local rows="SELECT md5(string_agg(d::bytea::text, ' ' ORDER BY d::bytea)) FROM ranked"
    expect "the rows restored" "$(query "$rows")" "$(query "$rows" restored)"
    expect "documents found" 33 "$(query "SELECT found_in('spread', 'ranked')" restored)"
    expect "the indexes restored" 3 \
        "$(query "SELECT count(*) FROM pg_indexes WHERE tablename = 'rows_of'" restored)"
    query "DROP EXTENSION kohiblad CASCADE" restored 2> "$scratch/dropped"
    expect "functions left" 0 \
        "$(query "SELECT count(*) FROM pg_proc WHERE proname LIKE 'kohiblad%'" restored)"
}

# A dump keeps the order of jsonb as the default, and in views and indexes what they were made with.
run_order_dump() {
    note "pg_dump and restore of the order of jsonb"
    psql -c "CREATE DATABASE sorted" -c "CREATE DATABASE sorted_again"
    psql -d sorted -c "CREATE EXTENSION kohiblad" -c "CREATE TABLE goods (d kohiblad)" \
        -c "INSERT INTO goods VALUES ('null'), ('[]'), ('7'), ('\"a\"'), ('{}'), ('false')" \
        -c "CREATE VIEW early AS SELECT d FROM goods ORDER BY d" \
        -c "CREATE INDEX early_index ON goods (d)" \
        -c "CREATE EXTENSION kohiblad_compat" -c "CREATE EXTENSION kohiblad_jsonb_order" \
        -c "SET search_path = kohiblad_compat, public" \
        -c "CREATE VIEW public.late AS SELECT d FROM goods WHERE d < 'true' ORDER BY d" \
        -c "CREATE INDEX late_index ON goods (d)"
    "$bin/pg_dump" --no-sync sorted > "$scratch/sorted.sql"
    psql -d sorted_again -f "$scratch/sorted.sql" > "$scratch/restored"
    local database early='false 7 "a" {} [] null' late='[] null "a" 7 false'
    for database in sorted sorted_again; do
        expect "orders in $database" "$early, $late, $late {}" "$(query "SELECT concat_ws(', ',
            (SELECT string_agg(d::text, ' ') FROM early),
            (SELECT string_agg(d::text, ' ') FROM late),
            (SELECT string_agg(d::text, ' ' ORDER BY d) FROM goods))" "$database")"
        expect "classes in $database" 'kohiblad_ops jsonb_order_ops' \
            "$(query "SELECT string_agg(opcname, ' ' ORDER BY indexrelid::regclass::text)
                FROM pg_index JOIN pg_opclass c ON c.oid = indclass[0]
                WHERE indrelid = 'goods'::regclass" "$database")"
    done
}

# Another server is asked in text, and what it sorts is merged by this one.
run_servers() {
    [ -f "$("$bin/pg_config" --sharedir)/extension/postgres_fdw.control" ] ||
        { note "passed over: two servers need postgres_fdw"; return; }
    note "rows on another server"
    psql -c "CREATE DATABASE other" -c "CREATE EXTENSION postgres_fdw" -c "CREATE SERVER other
        FOREIGN DATA WRAPPER postgres_fdw
        OPTIONS (host '$scratch', dbname 'other', extensions 'kohiblad')" \
        -c "CREATE USER MAPPING FOR tester SERVER other OPTIONS (user 'tester')" \
        -c "CREATE TABLE remote (d kohiblad) PARTITION BY HASH (d)"
    query "CREATE EXTENSION kohiblad" other
    local part
    for part in 0 1; do
        query "CREATE TABLE remote_$part (d kohiblad)" other
        query "CREATE FOREIGN TABLE remote_$part PARTITION OF remote
            FOR VALUES WITH (MODULUS 2, REMAINDER $part) SERVER other"
    done
    query "INSERT INTO remote SELECT d FROM ranked"
    expect "documents found" 33 "$(query "SELECT found_in('remote', 'ranked')")"
    local merged="SET enable_sort = off; SELECT"
    expect "a merge" t "$(query "$merged
        plan_has('SELECT d FROM remote ORDER BY d', 'Merge Append')")"
    local keys="string_agg(kohiblad_key(d)::text, ' ')"
    expect "the order merged" "$(query "SELECT $keys FROM (SELECT d FROM ranked ORDER BY d) s")" \
        "$(query "$merged $keys FROM (SELECT d FROM remote ORDER BY d) s")"
}

# The rows of the table of README.md with this head: what is in back quotes in their cells, or the
# cells themselves, with a tab between them.
table_of_page() {
    awk -v head="$1" '
        index($0, head) == 1 { on = 1; getline; next }
        on && !/^\|/ { exit }
        on {
            gsub(/\\\|/, "\001")
            count = split($0, cells, "|")
            line = ""
            for (i = 2; i < count; i++) {
                cell = cells[i]
                if (match(cell, /`[^`]*`/)) cell = substr(cell, RSTART + 1, RLENGTH - 2)
                gsub(/^ +| +$/, "", cell)
                line = line (i > 2 ? "\t" : "") cell
            }
            gsub("\001", "|", line)
            print line
        }' "$folder/README.md"
}

# What README.md says of each condition is so: whether postgres_fdw sends it, and that what is to be
# written in its place is sent and finds the same rows.
run_sent() {
    [ -f "$("$bin/pg_config" --sharedir)/extension/postgres_fdw.control" ] || return 0
    local goods="CREATE TABLE goods AS
        SELECT format('{\"id\":%s,\"city\":\"city %s\",\"price\":%s,\"tags\":[\"new\",\"t%s\"],'
                      '\"seen\":%s%s}', i, i % 50, i % 300, i % 13, (i % 3 = 0)::text,
                      CASE WHEN i % 5 = 0 THEN ',\"ref\":[]' END)::kohiblad AS doc
        FROM generate_series(1, 2000) i"
    query "$goods"
    query "$goods" other
    query "CREATE INDEX goods_by_content ON goods USING gin (doc)" other
    query "ANALYZE goods" other
    query "CREATE FOREIGN TABLE far_goods (doc kohiblad) SERVER other OPTIONS (table_name 'goods')"
    query "CREATE TABLE on_page (condition text, sent text, instead text)"
    table_of_page '| condition | sent |' > "$scratch/on_page"
    [ -s "$scratch/on_page" ] || fail "README.md has no table of conditions"
    psql -c "COPY on_page FROM STDIN" < "$scratch/on_page"
    query "CREATE TABLE priced (doc kohiblad, price numeric
        GENERATED ALWAYS AS ((doc -> 'price')::numeric) STORED)" other
    run_script sent
    local asked
    asked=$(query "EXPLAIN (VERBOSE, COSTS OFF) SELECT doc FROM far_goods WHERE doc ? 'ref'" |
        sed -n 's/ *Remote SQL: //p')
    expect "plans with the index of the other server" 1 "$(query "SET enable_seqscan = off;
        EXPLAIN (COSTS OFF) $asked" other | grep -c goods_by_content)"
}

# A session that is open during an update goes on not sending what it did not send before, until the
# options of the server change.
run_open_session() {
    [ -f "$("$bin/pg_config" --sharedir)/extension/postgres_fdw.control" ] || return 0
    note "a session that is open during an update"
    psql -c "CREATE DATABASE opened"
    psql -d opened -c "CREATE EXTENSION kohiblad VERSION '0.7'" -c "CREATE EXTENSION postgres_fdw" \
        -c "CREATE SERVER other FOREIGN DATA WRAPPER postgres_fdw
            OPTIONS (host '$scratch', dbname 'other', extensions 'kohiblad')" \
        -c "CREATE USER MAPPING FOR tester SERVER other OPTIONS (user 'tester')" \
        -c "CREATE FOREIGN TABLE far_goods (doc kohiblad) SERVER other
            OPTIONS (table_name 'goods')"
    local asked="EXPLAIN (VERBOSE, COSTS OFF)
        SELECT doc FROM far_goods WHERE doc -> 'id' IN ('7', '8');"
    local other="$bin/psql -Xq -d opened -c"
    psql -At -d opened > "$scratch/opened" << SQL
$asked
\! $other "ALTER EXTENSION kohiblad UPDATE"
\echo updated
$asked
\! $other "ALTER SERVER other OPTIONS (SET extensions 'kohiblad')"
\echo altered
$asked
SQL
    expect "what is left here, and sent" "Filter updated Filter altered ANY" \
        "$(grep -oE '^ *Filter|^updated|^altered|Remote SQL.* ANY' "$scratch/opened" |
            sed 's/.* //' | paste -sd ' ')"
}

# Rows that were inserted before a subscription come from the log, in text.
run_replication() {
    note "logical replication"
    psql -c "CREATE DATABASE replica" -c "CREATE TABLE published (d kohiblad)" \
        -c "CREATE PUBLICATION documents FOR TABLE published"
    query "SELECT pg_create_logical_replication_slot('replica', 'pgoutput')" > "$scratch/slot"
    query "INSERT INTO published SELECT d FROM ranked"
    psql -d replica -c "CREATE EXTENSION kohiblad" -c "CREATE TABLE published (d kohiblad)" \
        -c "CREATE SUBSCRIPTION documents CONNECTION 'host=$scratch user=tester dbname=$PGDATABASE'
            PUBLICATION documents
            WITH (create_slot = false, slot_name = 'replica', copy_data = false)"
    local waited
    for ((waited = 0; waited < 600; waited++)); do
        [ "$(query "SELECT count(*) FROM published" replica)" != 33 ] || break
        sleep 0.1
    done
    local rows="SELECT md5(string_agg(d::bytea::text, ' ' ORDER BY d::bytea)) FROM published"
    expect "the rows replicated" "$(query "$rows")" "$(query "$rows" replica)"
}

# Earlier versions made the same hashes, by which hash indexes and partitions find rows, and sorted
# rows in the same order.
run_stored() {
    note "rows that earlier versions stored"
    local stored
    for stored in "$folder"/../../tests/stored/*/; do
        query "DROP TABLE IF EXISTS stored"
        query "CREATE TABLE stored (id serial, bytes text, hash int, extended bigint)"
        psql -c "COPY stored (bytes, hash, extended) FROM STDIN" < "${stored}hashes.tsv"
        expect "the hashes of $stored" "$(grep -c '' "${stored}hashes.tsv")" \
            "$(query "SELECT count(*) FROM stored, LATERAL kohiblad(decode(bytes, 'hex')) d
                WHERE hash = kohiblad_hash(d) AND extended = kohiblad_hash_extended(d, 1)")"
        expect "the order of $stored" t "$(query "SELECT array_agg(id ORDER BY id) =
            array_agg(id ORDER BY kohiblad(decode(bytes, 'hex')), id) FROM stored")"
    done
}

# The owner of a database, who is no superuser, makes the extension and updates it.
run_trusted() {
    note "an owner's extension"
    psql -c "CREATE ROLE owner LOGIN" -c "CREATE DATABASE owned OWNER owner"
    psql -U owner -d owned -c "CREATE EXTENSION kohiblad VERSION '0.6'" \
        -c "ALTER EXTENSION kohiblad UPDATE" -c "CREATE EXTENSION kohiblad_compat VERSION '0.7'" \
        -c "ALTER EXTENSION kohiblad_compat UPDATE"
    expect "a member" 7 "$("$bin/psql" -XAt -U owner -d owned -c "SELECT '[7]'::kohiblad -> 0")"
    local sorted="SELECT string_agg(d::text, ' ' ORDER BY d)
        FROM (VALUES ('7'::kohiblad), ('null'), ('[]')) v(d)"
    psql -U owner -d owned -c "CREATE EXTENSION kohiblad_jsonb_order"
    expect "the order of jsonb" '[] null 7' "$(query "$sorted" owned)"
    psql -U owner -d owned -c "DROP EXTENSION kohiblad_jsonb_order"
    expect "the order of documents" '7 [] null' "$(query "$sorted" owned)"
    expect "one version" 1 "$(query "SELECT count(DISTINCT extversion) FROM pg_extension
        WHERE extname LIKE 'kohiblad%'" owned)"
}

# A schema whose name is a statement: no script has the name in a text that is run, and META.json
# asks for the least servers that refuse scripts which have.
run_schemas() {
    note "a schema whose name is a statement"
    ! grep -l '@extschema' "$folder"/kohiblad*.sql || fail "these scripts name the schema"
    expect "the least server in META.json" '"PostgreSQL": "15.4.0"' \
        "$(grep -o '"PostgreSQL": .*' "$folder/META.json")"
    local schema="x'); CREATE TABLE taken(); --"
    psql -c "CREATE DATABASE quoted"
    psql -d quoted -c "CREATE SCHEMA \"$schema\"" -c "CREATE SCHEMA other" \
        -c "CREATE EXTENSION kohiblad SCHEMA \"$schema\""
    expect "the other schema" "ERROR:  kohiblad_compat must be in the schema of kohiblad" \
        "$({ query "CREATE EXTENSION kohiblad_compat SCHEMA other" quoted 2>&1 || true; } |
            head -n 1)"
    query "CREATE EXTENSION kohiblad_compat SCHEMA \"$schema\"" quoted
    expect "a function there" '["a"]' "$(query "SET search_path = \"$schema\";
        SELECT jsonb_extract_path('{\"x\":[\"a\"]}'::kohiblad, 'x')" quoted)"
    expect "tables" 0 "$(query "SELECT count(*) FROM pg_class WHERE relname = 'taken'" quoted)"
}

# Makes a database in which an extension can be updated.
open_for_update() { psql -c "DROP DATABASE IF EXISTS updated" -c "CREATE DATABASE updated"; }

# Compares what the extension $1 has in the catalogues of a new database and of one that updated it.
same_catalogue() {
    local database
    for database in fresh updated; do
        psql -At -d $database -v extension="$1" -f "$folder/tests/catalogue.sql" > \
            "$scratch/$database.catalogue"
    done
    diff -u "$scratch"/{fresh,updated}.catalogue >&2 || fail "the update of $1 from $2"
    passed "$(wc -l < "$scratch/fresh.catalogue")"
}

# An extension of version $1 that is updated has the catalogue of a new one.
update_from() {
    local version
    version=$(pkg-config --modversion kohiblad)
    open_for_update
    query "CREATE EXTENSION kohiblad VERSION '$1'" updated
    query "CREATE TABLE goods AS SELECT '[7]'::kohiblad AS doc" updated
    query "CREATE VIEW shown AS SELECT doc::json FROM goods" updated
    query "ALTER EXTENSION kohiblad UPDATE" updated
    expect "the version" "${version%.*}" "$(query "SELECT extversion FROM pg_extension
        WHERE extname = 'kohiblad'" updated)"
    expect "the library's version" "$version" \
        "$(query "SELECT kohiblad_version()" updated)"
    expect "a row" '{"doc":[7]}' "$(query "SELECT row_to_json(goods) FROM goods" updated)"
    expect "a view" '[7]' "$(query "TABLE shown" updated)"
    query "CREATE EXTENSION kohiblad_compat" updated
    same_catalogue kohiblad "$1"
}

# So has a kohiblad_compat of version $1.
update_compat_from() {
    open_for_update
    psql -d updated -c "CREATE EXTENSION kohiblad" \
        -c "CREATE EXTENSION kohiblad_compat VERSION '$1'" \
        -c "ALTER EXTENSION kohiblad_compat UPDATE"
    same_catalogue kohiblad_compat "$1"
}

# The versions that the scripts of updates of an extension begin at.
versions_of() {
    local script
    for script in "$folder/$1"--*--*.sql; do
        script=${script##*/"$1"--}
        echo "${script%%--*}"
    done
}

# META.json names the scripts that lead to this version, and `make install` installs all.
run_scripts() {
    note "scripts"
    local version script
    version=$(pkg-config --modversion kohiblad)
    expect "the version in META.json" "$version" \
        "$(sed -n 's/^    "version": "\(.*\)",$/\1/p' "$folder/META.json")"
    for script in $(sed -n 's/^ *"file": "\(.*\)",$/\1/p' "$folder/META.json"); do
        expect "the end of $script, which is there" "--${version%.*}.sql" \
            "$(ls "$folder/$script" | sed 's/.*--/--/')"
    done
    expect "the scripts installed" "$(cd "$folder" && echo kohiblad*.sql)" \
        "$(cd "$("$bin/pg_config" --sharedir)/extension" && echo kohiblad*.sql)"
}

run_updates() {
    note "updates"
    psql -c "CREATE DATABASE fresh"
    psql -d fresh -c "CREATE EXTENSION kohiblad" -c "CREATE EXTENSION kohiblad_compat"
    local version
    for version in $(versions_of kohiblad); do
        update_from "$version"
    done
    for version in $(versions_of kohiblad_compat); do
        update_compat_from "$version"
    done
}

# Several servers, with the programs and the extension that are installed.
run_cluster() {
    note "several servers"
    local status=0 last
    PG_CONFIG=$pg_config SERVER_BIN=$bin "$folder/tests/cluster.sh" \
        > "$scratch/cluster.log" 2>&1 || status=$?
    last=$(tail -n 1 "$scratch/cluster.log")
    case $status in
        0) passed "$(echo "$last" | sed 's/.*: \([0-9]*\) tests.*/\1/')" ;;
        77) note "$last" ;;
        *) cat "$scratch/cluster.log" >&2; fail "tests/cluster.sh" ;;
    esac
}

# The least stack that the server allows at this setting: nothing may reach its end.
ulimit -S -s 2560
open_server max_stack_depth=2MB wal_level=logical
run_installcheck
run_copies
run_partitions
run_refusals
run_memory
run_page
run_times
load_vectors
run_script vectors
run_latin
run_collation
run_dump
run_order_dump
run_servers
run_sent
run_open_session
run_replication
run_stored
run_trusted
run_schemas
run_scripts
run_updates
run_cluster
! grep -E 'PANIC|terminated by signal' "$scratch/server.log" || fail "the server broke down"
echo "$binding: $tests tests passed"
