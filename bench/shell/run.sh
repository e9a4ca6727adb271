#!/usr/bin/env bash
# Times `kohiblad` at the shell beside jq, Miller (mlr), gron and sqlite3, where they are installed,
# over rows of some 150 bytes from a file.
#
#     bench/shell/run.sh PROGRAM [ROWS] [ROUNDS]
#
# PROGRAM is the kohiblad that the gate or tools/install builds. Each line has the seconds of the
# processor of the fastest round, how many times those of the first command of its task they are,
# the most memory in MB, and the command.
set -euo pipefail
[ $# -gt 0 ] || { sed -n '2,10s/^# \?//p' "$0" >&2; exit 2; }
program=$(realpath "$1") rows=${2:-1000000} rounds=${3:-3}
work=$(mktemp -d)
trap 'rm -rf "$work"' EXIT
cd "$work"
ln -s "$program" kohiblad
awk -v rows="$rows" 'BEGIN {
    split("Oslo Bergen Rome Lima Quito Perth Turin Osaka Accra Miami", city, " ")
    for (i = 0; i < rows; i++) {
        key = (i * 7919 + 104729) % 1000003
        printf "{\"id\": %d, \"at\": %d, \"city\": \"%s\", \"note\": \"n%d\", \"ok\": %s, ", i,
            1700000000 + i, city[i % 10 + 1], key % 97, key % 3 ? "true" : "false"
        printf "\"price\": %d.%02d, \"qty\": %d, \"score\": %d, \"sku\": \"k%d\", \"tax\": %d}\n",
            key % 900, key % 100, key % 40, key % 2001 - 1000, key % 900, key % 90
    }
}' > rows.ndjson
./kohiblad encode rows.ndjson > rows.docs
ls -l rows.ndjson rows.docs | awk '{ print $5, "bytes of", $9 }'

# Names a task, whose first command the others are compared with.
task() {
    first='' && echo "$1:"
}

# The fastest of the rounds of a command, if its program is there.
timed() {
    local command=$1 best
    type "${command%% *}" > /dev/null 2>&1 || return 0
    for _ in $(seq "$rounds"); do
        /usr/bin/time -f '%U %S %M' -o times -a bash -c "$command" > /dev/null
    done
    best=$(sort -n times | awk 'NR == 1 { print $1 + $2, $3 / 1000 }')
    rm times
    first=${first:-${best% *}}
    command=$command awk -v first="$first" '{
        ratio = first > 0 ? sprintf("%7.1f", $1 / first) : "      -"
        printf "%7.2f s %s %6.0f MB  %s\n", $1, ratio, $2, ENVIRON["command"]
    }' <<< "$best"
}

load="'create table rows (line)' '.mode ascii' '.separator \"\001\" \"\n\"' \
    '.import rows.ndjson rows'"

task 'one member'
timed "./kohiblad get '\$.qty' rows.ndjson"
timed "./kohiblad get --documents '\$.qty' rows.docs"
timed "jq -c .qty rows.ndjson"
timed "mlr --ijsonl --onidx cut -f qty rows.ndjson"
timed "gron --stream rows.ndjson | grep '\.qty = '"
timed "sqlite3 :memory: $load 'select json_extract(line, \"\$.qty\") from rows'"
task 'some rows'
timed "./kohiblad filter '\$?(@.qty > 30)' rows.ndjson"
timed "./kohiblad filter --documents '\$?(@.qty > 30)' rows.docs"
timed "jq -c 'select(.qty > 30)' rows.ndjson"
timed "mlr --ijsonl --ojsonl filter '\$qty > 30' rows.ndjson"
task 'in order'
timed "./kohiblad sort --by '\$.price' rows.ndjson"
timed "./kohiblad sort --documents --by '\$.price' rows.docs"
timed "jq -c -s 'sort_by(.price)[]' rows.ndjson"
timed "mlr --ijsonl --ojsonl sort -nf price rows.ndjson"
timed "sqlite3 :memory: $load 'select line from rows order by json_extract(line, \"\$.price\")'"
task 'two columns'
timed "./kohiblad extract '\$.qty' int64 '\$.price' 'decimal 2' rows.ndjson"
timed "jq -r '[.qty, .price] | @csv' rows.ndjson"
timed "mlr --ijsonl --ocsv --headerless-csv-output cut -o -f qty,price rows.ndjson"
task 'whether all are JSON'
timed "./kohiblad check rows.ndjson"
timed "jq empty rows.ndjson"
