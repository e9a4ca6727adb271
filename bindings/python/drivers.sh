#!/usr/bin/env bash
# Runs the lines of DRIVERS.md on a PostgreSQL server of its own, which has the extension.
#
#     PREFIX=/usr/local bindings/python/drivers.sh
#
# The server is a copy of the installed one, as bindings/postgresql/tests/server.sh says, which has
# the variables too. PYTHON names another Python than python3. A section whose package is missing is
# passed over, and named. The status is 0, 1 after a failure, or 77 if there is no server.
set -euo pipefail
python=${PYTHON:-python3}
here=$(cd "$(dirname "$0")" && pwd)
folder=$here/../postgresql
# shellcheck source=bindings/postgresql/tests/server.sh
. "$folder/tests/server.sh"
binding=bindings/python/drivers.sh
# shellcheck disable=SC2119
open_server
psql -c 'CREATE EXTENSION kohiblad'
export PATH=$bin:$PATH PYTHONPATH=$here/src${PYTHONPATH:+:$PYTHONPATH} PYTHONDONTWRITEBYTECODE=1
KOHIBLAD_LIBRARY=$(pkg-config --variable=libdir kohiblad)/libkohiblad.so
export KOHIBLAD_LIBRARY KOHIBLAD_DRIVERS=1
note 'the lines of DRIVERS.md'
cd "$here/tests"
"$python" -m unittest -v test_drivers
