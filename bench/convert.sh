#!/bin/bash
# How long the proved program takes to convert texts into each of the eight character sets, beside
# bench/convert.rs, a plain Rust program that reads the same script and writes the same bytes. Both
# take turns, what they write goes nowhere, and the quickest of five runs each counts. Aim: at most
# 1.5 times the Rust program's time in each set.
#
#     bench/convert.sh [SET..]
#
# A script has about 15 MB of statements `SELECT HEX(CONVERT('..' USING SET));`. Their text is drawn
# from sixteen characters, four each of one, two, three and four bytes in UTF-8, in an order that
# doesn't repeat. A literal of more than 1,048,576 bytes is NULL, and so is HEX of more than 524,288
# bytes, as it has two digits a byte. So a literal is as long as both limits allow, just under 1 MiB
# for latin1 and ascii, 512 KiB for utf8mb4, and 131,072 characters for utf32; and a script has as
# many statements as fit 15 MB.
#
# MYCOLL names the program where it isn't to be the one that ./mycoll runs.
set -e
top=$(cd "$(dirname "$0")/.." && pwd)
mycoll=${MYCOLL:-$("$top/bench/program.sh")}
sets=("$@")
[ "$#" != 0 ] || sets=(latin1 ascii utf8mb3 utf8mb4 ucs2 utf16 utf32 binary)
folder=$(mktemp -d)
trap 'rm -rf "$folder"' EXIT
export LC_ALL=C
. "$top/bench/timing.sh"

make_script() { # a character set
    awk -v set="$1" '
        function converted(bytes) { # how many bytes a character of so many in UTF-8 has in the set
            if (set == "latin1" || set == "ascii") return 1
            if (set == "utf8mb3") return bytes < 4 ? bytes : 1
            if (set == "ucs2") return 2
            if (set == "utf16") return bytes < 4 ? 2 : 4
            if (set == "utf32") return 4
            return bytes
        }
        BEGIN {
            count = split("a Q 7 , é ß ñ Ж € 中 か ก 😀 𝄞 𐍈 𠀋", letters, " ")
            state = 1
            text = ""
            while (1) {
                state = (state * 69069 + 1) % 4294967296
                letter = letters[1 + int(state / 65536) % count]
                source += length(letter)
                target += converted(length(letter))
                if (source > 1048576 || target > 524288) break
                part = part letter
                if (length(part) > 4096) { text = text part; part = "" }
            }
            statement = "SELECT HEX(CONVERT(\047" text part "\047 USING " set "));"
            for (i = 1; i * (length(statement) + 1) <= 15000000; i++) print statement
        }'
}

run_mycoll() { "$mycoll" "$folder/s.sql"; }
run_plain() { "$folder/yardstick" "$folder/s.sql"; }

build_yardstick convert
for set in "${sets[@]}"; do
    make_script "$set" >"$folder/s.sql"
    must_agree run_mycoll run_plain
    if grep -qx NULL "$folder/first.out"; then echo "$set: a text is too long"; exit 1; fi
    take_turns run_mycoll run_plain
    echo "$set: $(wc -l <"$folder/s.sql") statements, $(wc -c <"$folder/s.sql") bytes:" \
        "mycoll $first s, Rust $second s; mycoll / Rust $(ratio "$first" "$second")"
done
