#!/bin/bash
# How long the proved program takes to load a table of weights, and to compare texts by such tables.
#
#     bench/tables.sh
#
# Loading: a file that gives each of the code points 0000 to FFFF its weight in a line of its own,
# in a shuffled order, with a script without statements; beside `sort -u` on that file. Aim: at most
# 3 times its time.
#
# Comparing: seven statements on two texts of just under 1 MiB each (a text of more than 1,048,576
# bytes is NULL), equal but for the case of their letters, so that no text is passed over; beside
# bench/tables.rs, a plain Rust program that reads the same catalog, script and weights and writes
# the same bytes. Once by code points and once by bytes, over letters, digits and spaces, and once
# by code points over texts in which about an eighth of the characters have two or three bytes. Aim:
# at most twice the Rust program's time.
#
# The two programs take turns, what they write goes nowhere, and the quickest of five runs each
# counts. MYCOLL names the program where it isn't to be the one that ./mycoll runs.
set -e
top=$(cd "$(dirname "$0")/.." && pwd)
mycoll=$(realpath "${MYCOLL:-$("$top/bench/program.sh")}")
folder=$(mktemp -d)
trap 'rm -rf "$folder"' EXIT
export LC_ALL=C
. "$top/bench/timing.sh"

make_weights() { # one line for each code point up to FFFF, in the order of a full cycle of numbers
    awk 'BEGIN {
        code = 0
        for (i = 0; i < 65536; i++) {
            printf "%04X %04X\n", code, (code * 7919 + 1) % 65536
            code = (code * 25173 + 13849) % 65536
        }
    }'
}

make_script() { # characters without case, what stands before a string, and a collation
    awk -v others="$1" -v before="$2" -v collation="$3" '
        function draw(limit) {
            state = (state * 69069 + 1) % 4294967296
            return int(state / 65536) % limit
        }
        BEGIN {
            lower = split("a b c d e f g h i j k l m n o p q r s t u v w x y z", small, " ")
            split("A B C D E F G H I J K L M N O P Q R S T U V W X Y Z", large, " ")
            count = split(others, plain, " ")
            plain[++count] = " "
            state = 1
            while (bytes + 3 <= 1048576) {
                if (draw(4) == 0) {
                    one = other = plain[1 + draw(count)]
                } else {
                    place = 1 + draw(lower)
                    one = draw(2) ? small[place] : large[place]
                    other = draw(2) ? small[place] : large[place]
                }
                bytes += length(one)
                left_part = left_part one
                right_part = right_part other
                if (length(left_part) > 4096) {
                    left = left left_part
                    right = right right_part
                    left_part = right_part = ""
                }
            }
            left = before "\047" left left_part "\047 COLLATE " collation
            right = before "\047" right right_part "\047"
            for (i = 0; i < 7; i++) print "SELECT " left " = " right ";"
        }'
}

run_mycoll() { "$mycoll" cat.txt s.sql; }
run_plain() { "$folder/yardstick" cat.txt s.sql; }
run_sort() { sort -u gen.txt; }

compare_texts() { # what is compared
    must_agree run_mycoll run_plain
    [ "$(grep -cx 1 "$folder/first.out")" = 7 ] || { echo "$1: texts that aren't equal"; exit 1; }
    take_turns run_mycoll run_plain
    echo "comparing $1: $(wc -l <s.sql) statements, $(wc -c <s.sql) bytes:" \
        "mycoll $first s, Rust $second s; mycoll / Rust $(ratio "$first" "$second")"
}

cd "$folder"
echo "collation utf8mb4_general_ci utf8mb4 general gen.txt" >cat.txt
make_weights >gen.txt
[ "$(sort -u gen.txt | wc -l)" = 65536 ] || { echo "some code point stands twice"; exit 1; }
: >s.sql
take_turns run_mycoll run_sort
echo "loading $(wc -l <gen.txt) lines, $(wc -c <gen.txt) bytes:" \
    "mycoll $first s, sort -u $second s; mycoll / sort $(ratio "$first" "$second")"

build_yardstick tables
echo "collation latin1_german2_ci latin1 table8 german2.txt" >>cat.txt
echo "0061..007A @ 0041" >gen.txt
printf 'default =\n61..7A @ 41\n' >german2.txt
digits="0 1 2 3 4 5 6 7 8 9"
make_script "$digits" "" utf8mb4_general_ci >s.sql
compare_texts "code points, letters, digits and spaces"
make_script "$digits" _latin1 latin1_german2_ci >s.sql
compare_texts "bytes, letters, digits and spaces"
make_script "$digits é ß ñ ç Ж я λ € 中 か ก 가" "" utf8mb4_general_ci >s.sql
compare_texts "code points, characters of two and three bytes too"
