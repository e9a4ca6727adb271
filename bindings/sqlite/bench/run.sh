#!/bin/sh
# Times the extension beside SQLite's own JSON functions over text, on 100,000 rows in memory, and
# prints rows of README.md's table: the median of 9 rounds in which both take turns, in milliseconds
# of processor time. Finds the library as test.sh does.
#
#     bindings/sqlite/bench/run.sh [NAME]
#
# With NAME it measures the rows of the table alone in whose names this is.
set -eu
cd "$(dirname "$0")/.."
name_part=${1:-}
rounds=9
scratch=$(mktemp -d)
trap 'rm -rf "$scratch"' EXIT
export HOME="$scratch"
[ -z "${PREFIX:-}" ] || export PKG_CONFIG_PATH="$PREFIX/lib/pkgconfig"
make -s OUT="$scratch"

# bench/statements has three lines for each row of the table: its name, the statement over text, and
# the statement over documents. What it makes is dropped again.
awk -v part="$name_part" 'NR % 3 == 1 { on = index($0, part) || part == "" } on' \
    bench/statements > "$scratch/statements"
if [ ! -s "$scratch/statements" ]; then
    echo "no row of the table has $name_part in its name" >&2
    exit 2
fi
{
    echo ".load $scratch/kohiblad"
    echo '.read bench/rows.sql'
    for _ in $(seq "$rounds"); do
        while read -r name && read -r text && read -r documents; do
            for statement in "$text" "$documents"; do
                printf '.timer on\n%s;\n.timer off\n' "$statement"
                case $name in
                    load) echo 'DROP TABLE x;' ;;
                    index*) echo 'DROP INDEX i;' ;;
                esac
            done
        done < "$scratch/statements"
    done
} > "$scratch/all.sql"
sqlite3 -batch :memory: < "$scratch/all.sql" > "$scratch/printed"

echo "SQLite $(sqlite3 --version | cut -d ' ' -f 1)," \
    "load of the machine $(cut -d ' ' -f 1-3 /proc/loadavg)"
echo
echo '| milliseconds | SQLite, text | Kohiblad | share |'
echo '|---|---|---|---|'
# Two times for each statement and round, in the order of the list.
awk -v rounds="$rounds" '
    function median(column, row,    i, j, held) {
        for (i = 2; i <= rounds; i++)
            for (j = i; j > 1 && time[row, column, j - 1] > time[row, column, j]; j--) {
                held = time[row, column, j]
                time[row, column, j] = time[row, column, j - 1]
                time[row, column, j - 1] = held
            }
        return time[row, column, (rounds + 1) / 2]
    }
    FNR == NR { if (FNR % 3 == 1) name[rows++] = $0; next }
    /^Run Time/ {
        split($0, words, " ")
        row = int(count / 2) % rows
        time[row, count % 2, int(count / 2 / rows) + 1] = 1000 * (words[6] + words[8])
        count++
    }
    END {
        for (row = 0; row < rows; row++) {
            text = median(0, row)
            documents = median(1, row)
            form = text < 1 ? "| %s | %.2f | %.2f | %.2f |\n" : "| %s | %.0f | %.0f | %.2f |\n"
            printf form, name[row], text, documents, documents / text
        }
    }' "$scratch/statements" "$scratch/printed"
