#!/bin/bash
# How long the proved program takes over a long script: 200,000 comparisons (about 6 MB) and
# 400,000, beside `cat` and `sort` over the same bytes, the quickest of seven runs each. Aim: twice
# the statements take at most 2.2 times as long. Then a quarter as many statements of 40 tokens, and half as
# many: over a
# table that no catalog declares, which are read and refused by their first lookup; and without a
# table, which are typed, evaluated and answered. Aims: at most 3 times as long as `sort` over the
# same bytes, and 2.2 times as long for twice the statements. MYCOLL names the program where it isn't
# to be ./mycoll.
#
#     bench/script.sh [STATEMENTS]
set -e
top=$(cd "$(dirname "$0")/.." && pwd)
mycoll=$(realpath "${MYCOLL:-$("$top/bench/program.sh")}")
count=${1:-200000}
folder=$(mktemp -d)
trap 'rm -rf "$folder"' EXIT
export LC_ALL=C

make_script() { # how many statements, a file
    awk -v n="$1" 'BEGIN {
        for (i = 0; i < n; i++)
            printf "SELECT \047a%06d\047 = \047a%06d \047;\n", i, i + i % 2
    }' >"$2"
}

make_refused_statements() { # how many statements of 40 tokens, a file
    awk -v n="$1" 'BEGIN {
        for (i = 0; i < n; i++) {
            printf "SELECT a + 1 * (b - 2), f(c, \047x%06d\047), NOT d BETWEEN 1 AND 2,", i
            printf " e LIKE \047y%06d\047 ESCAPE \047!\047 FROM t WHERE g = \047z\047", i
            print " ORDER BY h DESC;"
        }
    }' >"$2"
}

make_answered_statements() { # how many statements of 40 tokens, a file
    awk -v n="$1" 'BEGIN {
        for (i = 0; i < n; i++) {
            printf "SELECT 1 + 1 * (3 - 2) a, CONCAT(\047c\047, \047x%06d\047) b,", i
            printf " NOT 4 BETWEEN 1 AND 2, \047e\047 LIKE \047y%06d\047 ESCAPE \047!\047 d,", i
            print " \047g\047 = \047z\047, 7 e;"
        }
    }' >"$2"
}

seconds() { # runs a command seven times, and prints how many seconds the quickest run took
    local started took best=
    for _ in 1 2 3 4 5 6 7; do
        started=$(date +%s%N)
        "$@" >"$folder/out" || [ $? = 1 ]
        took=$(($(date +%s%N) - started))
        if [ -z "$best" ] || [ "$took" -lt "$best" ]; then best=$took; fi
    done
    awk -v ns="$best" 'BEGIN { printf "%.3f", ns / 1e9 }'
}

ratio() {
    awk -v a="$1" -v b="$2" 'BEGIN { printf "%.2f", a / b }'
}

make_script "$count" "$folder/one.sql"
make_script $((2 * count)) "$folder/two.sql"
"$mycoll" "$folder/one.sql" >"$folder/out"
lines=$(wc -l <"$folder/out")
[ "$lines" = $((2 * count)) ] || { echo "$lines lines were written, wanted $((2 * count))"; exit 1; }

bytes=$(wc -c <"$folder/one.sql")
one=$(seconds "$mycoll" "$folder/one.sql")
two=$(seconds "$mycoll" "$folder/two.sql")
plain=$(seconds cat "$folder/one.sql")
sorted=$(seconds sort "$folder/one.sql")
echo "$count comparisons, $bytes bytes: mycoll $one s, cat $plain s, sort $sorted s;" \
    "mycoll / sort $(ratio "$one" "$sorted")"
echo "$((2 * count)) comparisons: mycoll $two s, $(ratio "$two" "$one") times as long"

long_statements() { # what they are, how they are made, a pattern of each line that is written
    "$2" $((count / 4)) "$folder/one.sql"
    "$2" $((count / 2)) "$folder/two.sql"
    "$mycoll" "$folder/one.sql" >"$folder/out" || [ $? = 1 ]
    ! grep -vEm 3 "$3" "$folder/out" || exit 1
    bytes=$(wc -c <"$folder/one.sql")
    one=$(seconds "$mycoll" "$folder/one.sql")
    two=$(seconds "$mycoll" "$folder/two.sql")
    sorted=$(seconds sort "$folder/one.sql")
    echo "$((count / 4)) $1 of 40 tokens, $bytes bytes: mycoll $one s, sort $sorted s;" \
        "mycoll / sort $(ratio "$one" "$sorted")"
    echo "$((count / 2)) $1: mycoll $two s, $(ratio "$two" "$one") times as long"
}

long_statements "refused statements" make_refused_statements '^ERROR 1146: '
long_statements "answered statements" make_answered_statements $'^(a\tb\t|2\tcx)'
