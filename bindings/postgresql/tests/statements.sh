#!/usr/bin/env bash
# Asks PostgreSQL's own statements on jsonb of a server of its own: tests/statements.py says how.
#
#     PKG_CONFIG_PATH=/usr/local/lib/pkgconfig bindings/postgresql/tests/statements.sh [FOLDER]
#
# tests/server.sh has the settings. With --list the statements whose answers differ are printed.
set -Eeuo pipefail
folder=$(cd "$(dirname "$0")/.." && pwd)
. "$folder/tests/server.sh"

open_server
for database in of_jsonb of_kohiblad of_compat of_order of_both; do
    psql -c "CREATE DATABASE $database"
    psql -d "$database" -c "CREATE EXTENSION kohiblad"
done
for database in of_compat of_order of_both; do
    psql -d "$database" -c "CREATE EXTENSION kohiblad_compat"
done
psql -d of_order -c "CREATE EXTENSION kohiblad_jsonb_order"
PSQL=$bin/psql python3 "$folder/tests/statements.py" "$@"
