#!/bin/bash
# How long the proved program takes to load published tables of collation elements, and how much
# memory: each file on this machine that is called allkeys.txt, or the same with a version, beside
# `sort -u` over the file.
#
#     bench/allkeys.sh [FILE..]
#
# No such table stands in the repository. On Debian the packages perl-modules, unicode-data,
# python3-pyuca and libunicode-collate-perl bring some; the Unicode Consortium publishes them under
# https://www.unicode.org/Public/UCA/. Each file is loaded as uca900_as_cs, by a script of one
# comparison. The two programs take turns, and the quickest of five runs each counts; the memory is
# the greatest that a run had at once, where GNU time is there to tell. MYCOLL names the program
# where it isn't to be ./mycoll.
set -e
top=$(cd "$(dirname "$0")/.." && pwd)
mycoll=$(realpath "${MYCOLL:-$("$top/bench/program.sh")}")
folder=$(mktemp -d)
trap 'rm -rf "$folder"' EXIT
export LC_ALL=C
. "$top/bench/timing.sh"

run_mycoll() { "$mycoll" cat.txt s.sql; }
run_sort() { sort -u allkeys.txt; }

memory() { # the greatest memory of a run of a command, in MiB
    [ -x /usr/bin/time ] || { echo "memory unknown"; return; }
    /usr/bin/time -f %M -o "$folder/memory" "$@" >/dev/null
    awk '{ printf "%.1f MiB", $1 / 1024 }' "$folder/memory"
}

if [ $# = 0 ]; then
    mapfile -t files < <(find / -xdev -name 'allkeys*.txt' -type f 2>/dev/null | sort)
else
    mapfile -t files < <(realpath "$@")
fi
[ ${#files[@]} != 0 ] || { echo "no allkeys.txt is on this machine"; exit 0; }
cd "$folder"
echo "collation utf8mb4_0900_as_cs utf8mb4 uca900_as_cs allkeys.txt" >cat.txt
answer="'co-op' COLLATE utf8mb4_0900_as_cs = 'coop'"
echo "SELECT $answer;" >s.sql
for file in "${files[@]}"; do
    cp "$file" allkeys.txt
    printed=$(run_mycoll) || { echo "$file: $printed"; continue; }
    [ "$printed" = "$answer"$'\n0' ] || { echo "$file: $printed"; exit 1; }
    take_turns run_mycoll run_sort
    echo "$file, $(sed -n 's/^@version *//p' allkeys.txt), $(wc -l <allkeys.txt) lines:" \
        "mycoll $first s, sort -u $second s; mycoll / sort $(ratio "$first" "$second");" \
        "mycoll $(memory "$mycoll" cat.txt s.sql), sort $(memory sort -u allkeys.txt)"
done
