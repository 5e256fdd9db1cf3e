#!/bin/bash
# How long the proved program takes over a table of 100,000 rows and one of 200,000: to load it, to
# scan it for `name = 'ss'` and for `name LIKE 's%'` (beside a condition that no row meets, so that
# nothing is printed), and to show its names in order. bench/rows.sh says what the rows are.
#
#     bench/scan.sh [ROWS]      200,000, and half as many
#
# A script of one statement and one of a hundred: what the second takes longer is the time of the
# further 99. Loading is a script without tables taken away. Names in order stand beside
# `LC_ALL=C sort` over the same names, loading taken away. Each time is that of the quickest of five
# runs. Aims at 200,000 rows: loading below 0.10 s, a scan below 0.015 s, names in order within 2
# times of sort, twice the rows at most 2.2 times as long.
#
# Where MariaDB is on the machine (mariadbd and mariadb), a server of this script's own answers the
# same statements from a table in its MEMORY engine, without an index, in utf8mb4_unicode_ci; its
# times are those that SHOW PROFILES tells, the quickest of five. MYCOLL names the program where it
# isn't to be ./mycoll.
set -e
rows=${1:-200000}
. "$(dirname "$0")/rows.sh"

declare -A scans=(
    [equal]="SELECT id FROM w WHERE name = 'ss';"
    [like]="SELECT id FROM w WHERE name LIKE 's%' AND id < 0;"
    [order]="SELECT name FROM w ORDER BY name;"
)
run_sort() { sort names.txt; }

measure() { # how many rows
    make_rows "$1"
    make_names
    repeat "SELECT 1;" 1
    local none=$(best run_plain) loaded=$(best run_rows)
    repeat "${scans[order]}" 1
    local ordered=$(best run_rows) sorted=$(best run_sort)
    load=$(less "$loaded" "$none")
    equal=$(each "${scans[equal]}")
    like=$(each "${scans[like]}")
    order=$(less "$ordered" "$loaded")
    echo "$1 rows: load $load s, = 'ss' $equal s, LIKE 's%' $like s, ORDER BY name $order s," \
        "sort $sorted s; ORDER BY / sort $(ratio "$order" "$sorted")"
}

cd "$folder"
make_catalog
measure $((rows / 2))
half_load=$load half_equal=$equal half_like=$like half_order=$order
measure "$rows"
echo "twice the rows: load $(ratio "$load" "$half_load") times, = $(ratio "$equal" "$half_equal")," \
    "LIKE $(ratio "$like" "$half_like"), ORDER BY $(ratio "$order" "$half_order")"
if ! has_server; then
    echo "no MariaDB on this machine: nothing is measured beside it"
    exit 0
fi
start_server
fill_server
for scan in equal like order; do
    it=$(served "${scans[$scan]}")
    echo "MariaDB, ${scans[$scan]} $it s; mycoll / MariaDB $(ratio "${!scan}" "$it")"
done
