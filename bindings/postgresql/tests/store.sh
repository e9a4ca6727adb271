#!/usr/bin/env bash
# Writes the hashes that this version makes of the documents of tests/stored/VERSION/rows.tsv, for
# later versions to compare, to hashes.tsv beside them.
#
#     PREFIX=/usr/local bindings/postgresql/tests/store.sh tests/stored/VERSION
set -Eeuo pipefail
stored=$(realpath "$1")
folder=$(cd "$(dirname "$0")/.." && pwd)
. "$folder/tests/server.sh"
open_server
psql -c "CREATE EXTENSION kohiblad" -c "CREATE TABLE lines (bytes text)"
cut -f 1 "$stored/rows.tsv" | psql -c "COPY lines FROM STDIN"
psql -At -c "COPY (SELECT bytes, kohiblad_hash(d), kohiblad_hash_extended(d, 1)
    FROM lines, LATERAL kohiblad(decode(bytes, 'hex')) d) TO STDOUT" > "$stored/hashes.tsv"
