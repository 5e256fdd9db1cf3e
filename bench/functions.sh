#!/bin/bash
# How long the proved program takes for string functions over texts of about 1 MiB, beside
# bench/functions.rs, a plain Rust program that reads the same script and writes the same bytes. Both
# take turns, what they write goes nowhere, and the quickest of five runs each counts. Aim: at most
# twice the Rust program's time for each function.
#
#     bench/functions.sh [FUNCTION..]
#
# The functions are REPEAT, REPLACE, CONCAT, LPAD, TRIM and SUBSTRING. UPPER and LOWER are not in the
# language, so there is nothing to measure. A script has twelve statements `SELECT FUNCTION(..) a;`.
# Their texts are drawn from ASCII letters and letters of two and three bytes, in an order that
# doesn't repeat; what they give is below the greatest length of a string, 1,048,576 bytes.
#
# MYCOLL names the program where it isn't to be the one that ./mycoll runs.
set -e
top=$(cd "$(dirname "$0")/.." && pwd)
mycoll=${MYCOLL:-$("$top/bench/program.sh")}
functions=("$@")
[ "$#" != 0 ] || functions=(REPEAT REPLACE CONCAT LPAD TRIM SUBSTRING)
folder=$(mktemp -d)
trap 'rm -rf "$folder"' EXIT
export LC_ALL=C
. "$top/bench/timing.sh"

make_script() { # a function
    awk -v name="$1" '
        function text(bytes,  part, whole) { # of at most so many bytes
            whole = part = ""
            while (1) {
                state = (state * 69069 + 1) % 4294967296
                letter = letters[1 + int(state / 65536) % count]
                bytes -= length(letter)
                if (bytes < 0) break
                part = part letter
                if (length(part) > 4096) { whole = whole part; part = "" }
            }
            return whole part
        }
        function quoted(it) { return "\047" it "\047" }
        function copies(it, times,  i, all) {
            all = ""
            for (i = 0; i < times; i++) all = all it
            return all
        }
        BEGIN {
            count = split("a b Q 7 e é ß Ж € 中 か ,", letters, " ")
            state = 1
            side = copies("ab", 120000)
            for (i = 1; i <= 12; i++) {
                if (name == "REPEAT") args = quoted(text(1000)) ", 1000"
                if (name == "REPLACE") args = quoted(text(1000000)) ", " quoted("ab") ", " quoted("é")
                if (name == "CONCAT") args = quoted(text(250000)) ", " quoted(text(250000)) \
                    ", " quoted(text(250000)) ", " quoted(text(250000))
                if (name == "LPAD") args = quoted(text(1000)) ", 500000, " quoted("xé€")
                if (name == "TRIM") args = "BOTH " quoted("ab") " FROM " quoted(side "-" text(500000) "-" side)
                if (name == "SUBSTRING") args = quoted(text(1000000)) ", " (i % 2 ? "-400000" : "1000") ", 300000"
                print "SELECT " name "(" args ") a;"
            }
        }'
}

run_mycoll() { "$mycoll" "$folder/s.sql"; }
run_plain() { "$folder/yardstick" "$folder/s.sql"; }

build_yardstick functions
for name in "${functions[@]}"; do
    make_script "$name" >"$folder/s.sql"
    must_agree run_mycoll run_plain
    if grep -qx NULL "$folder/first.out"; then echo "$name: a text is too long"; exit 1; fi
    take_turns run_mycoll run_plain
    echo "$name: $(wc -c <"$folder/s.sql") bytes, $(wc -c <"$folder/first.out") written:" \
        "mycoll $first s, Rust $second s; mycoll / Rust $(ratio "$first" "$second")"
done
