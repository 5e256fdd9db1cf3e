#!/bin/bash
# How long the proved program takes to count the different names of a table of 200,000 rows, and to
# list each with the number of its rows, by a Unicode collation. bench/rows.sh says what the rows are.
#
#     bench/group.sh [ROWS]
#
# Each statement runs once; loading the table, which a statement without rows does too, is taken away.
# Beside each stands a C++ program (bench/group.cc, built by c++ -O2) that reads the same names, sorts
# their bytes and groups equal ones, also listing them for the second. Each time is that of the quickest
# of five runs, in turns. Aim: at most 2 times the C++ program's.
#
# Where MariaDB is on the machine, a server of this script's own answers the same statements from a
# table in its MEMORY engine; its times are those that SHOW PROFILES tells, the quickest of five. Aim:
# at most half of them. MYCOLL names the program where it isn't to be the one that ./mycoll runs.
set -e
rows=${1:-200000}
. "$(dirname "$0")/rows.sh"

count="SELECT COUNT(DISTINCT name) FROM w;"
list="SELECT name, COUNT(*) FROM w GROUP BY name;"
run_count() { "$mycoll" cat.txt count.sql; }
run_list() { "$mycoll" cat.txt list.sql; }
sort_count() { ./group names.txt; }
sort_list() { ./group names.txt all; }

cd "$folder"
make_catalog
make_rows "$rows"
make_names
c++ -O2 -std=c++17 -o group "$top/bench/group.cc"
repeat "SELECT 1 FROM w LIMIT 0;" 1
loaded=$(best run_rows)
echo "$count" >count.sql
echo "$list" >list.sql
for what in count list; do
    take_turns "run_$what" "sort_$what"
    took=$(less "$first" "$loaded")
    echo "${!what} $took s; C++ $second s; mycoll / C++ $(ratio "$took" "$second")"
    declare "took_$what=$took"
done
if ! has_server; then
    echo "no MariaDB on this machine: nothing is measured beside it"
    exit 0
fi
start_server
fill_server
for what in count list; do
    it=$(served "${!what}")
    mine=took_$what
    echo "MariaDB, ${!what} $it s; mycoll / MariaDB $(ratio "${!mine}" "$it")"
done
