#!/bin/bash
# What an index is worth over a table of 200,000 rows, by a Unicode collation: `=` and LIKE of a rare
# prefix, through an index of whole names and through one of first characters, beside the scan of the
# same run; and what it costs to build. bench/rows.sh says what the rows are.
#
#     bench/index.sh [ROWS]
#
# A statement's time is what a script of some thousand of them takes longer than one of a single
# statement, for each; a scan's is that of one of twenty. Building is what a script of one statement
# takes longer with the index than without it; beside it stands what a C++ program (bench/index.cc, built
# by c++ -O2) takes longer that sorts the same names' weights with their rows. Each time is that of the
# quickest of five runs. Aims: through the index at least 10 times faster than the scan; building at most
# 2 times the C++ program's sort.
#
# Where MariaDB is on the machine, a server of this script's own answers the same statements from a
# table in its MEMORY engine with a BTREE index; its times are those that SHOW PROFILES tells, the
# quickest of five. Aim: faster than these. MYCOLL names the program where it isn't to be the one that
# ./mycoll runs.
set -e
rows=${1:-200000}
. "$(dirname "$0")/rows.sh"

declare -A statements=(
    [equal]="SELECT id FROM w WHERE name = 'basch';"
    [like]="SELECT id FROM w WHERE name LIKE 'basch%';"
)
run_whole() { "$mycoll" whole.txt s.sql; }
run_front() { "$mycoll" front.txt s.sql; }
sort_none() { ./sort_index names.txt; }
sort_all() { ./sort_index names.txt all; }

many() { # a command, a statement, how many of it: the seconds of one
    local one
    repeat "$2" 1
    one=$(best "$1")
    repeat "$2" "$3"
    awk -v all="$(best "$1")" -v one="$one" -v n="$3" \
        'BEGIN { printf "%.7f", (all - one) / (n - 1) }'
}

cd "$folder"
make_catalog
{ cat cat.txt; echo "index w_name name"; } >whole.txt
{ cat cat.txt; echo "index w_front name 3"; } >front.txt
make_rows "$rows"
make_names
c++ -O2 -std=c++20 -o sort_index "$top/bench/index.cc"

for which in equal like; do
    statement=${statements[$which]}
    repeat "$statement" 1
    for run in run_whole run_front; do
        "$run" >through.out
        run_rows | cmp - through.out
    done
    scan=$(many run_rows "$statement" 20)
    whole=$(many run_whole "$statement" 5000)
    front=$(many run_front "$statement" 500)
    declare "took_$which=$whole"
    echo "$statement scan $scan s; index of whole names $whole s, scan / index" \
        "$(ratio "$scan" "$whole"); of first characters $front s, scan / index" \
        "$(ratio "$scan" "$front")"
done

repeat "SELECT 1;" 1
built=$(less "$(best run_whole)" "$(best run_rows)")
sorted=$(less "$(best sort_all)" "$(best sort_none)")
echo "building an index $built s; C++ sort $sorted s; mycoll / C++ $(ratio "$built" "$sorted")"

if ! has_server; then
    echo "no MariaDB on this machine: nothing is measured beside it"
    exit 0
fi
start_server
fill_server
echo "CREATE INDEX w_name ON w (name) USING BTREE;" | ask
for which in equal like; do
    it=$(served "${statements[$which]}")
    mine=took_$which
    echo "MariaDB, ${statements[$which]} $it s; mycoll / MariaDB $(ratio "${!mine}" "$it")"
done
