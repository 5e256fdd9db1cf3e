#!/bin/bash
# What the measuring scripts that have a Rust program as yardstick share. A script that reads this
# file has set `top` to the repository's folder and `folder` to a temporary one.

build_yardstick() { # the name of a Rust program beside this file, built as $folder/yardstick
    if ! command -v rustc >/dev/null; then
        echo "rustc is not on this machine: nothing is measured against bench/$1.rs"
        exit 0
    fi
    rustc -O --edition 2021 -o "$folder/yardstick" "$top/bench/$1.rs"
}

must_agree() { # two commands: stops where one fails or they don't write the same bytes
    "$1" >"$folder/first.out" || { echo "$1: status $?"; exit 1; }
    "$2" >"$folder/second.out" || { echo "$2: status $?"; exit 1; }
    cmp "$folder/first.out" "$folder/second.out" || exit 1
}

# Runs two commands in turns, five times each, so that other work on the machine slows both. What
# they write goes nowhere. Sets `first` and `second` to the seconds of their quickest runs.
take_turns() {
    first=
    second=
    for _ in 1 2 3 4 5; do
        first=$(quicker "$first" "$1")
        second=$(quicker "$second" "$2")
    done
}

quicker() { # the seconds of a command's quickest run so far, and the command, which is run again
    local started took
    started=$(date +%s%N)
    "$2" >/dev/null || exit 1
    took=$(($(date +%s%N) - started))
    awk -v best="$1" -v ns="$took" 'BEGIN {
        took = ns / 1e9
        printf "%.4f", best == "" || took < best + 0 ? took : best
    }'
}

ratio() {
    awk -v a="$1" -v b="$2" 'BEGIN { printf "%.2f", a / b }'
}
