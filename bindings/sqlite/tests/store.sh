#!/bin/sh
# Stores the rows of tests/stored/rows.in in a new database with indexes, for later versions to read.
#
#     bindings/sqlite/tests/store.sh out/kohiblad tests/stored/VERSION/rows.db
set -eu
rows=$(dirname "$0")/../../../tests/stored/rows.in
{
    echo 'PRAGMA page_size = 1024;'
    echo 'CREATE TABLE rows (id INTEGER PRIMARY KEY, doc BLOB NOT NULL CHECK (jb_valid(doc)));'
    echo 'CREATE INDEX by_key ON rows (jb_key(doc));'
    echo "CREATE INDEX by_town ON rows (jb_key(jb_at(doc, '\$.town')));"
    # shellcheck disable=SC1003
    sed "s/'/''/g; s/^\\\\x\(.*\)/INSERT INTO rows (doc) VALUES (x'\1');/; t
        s/.*/INSERT INTO rows (doc) VALUES (jb('&'));/" "$rows"
} | sqlite3 -batch -bail -cmd ".load $1" "$2"
