#!/bin/bash
# Runs each folder of examples/ through ./mycoll and compares what it prints and its status; then
# the words that only the script ./mycoll knows.
#
# A folder holds `words` (the words of the command, one a line), `expected` (what is printed) and,
# where it isn't 0, `status`. One with `command` in place of `words` is a tool's, run by the tool's
# own tests. The last line counts: N passed, M failed.
top=$(cd "$(dirname "$0")/.." && pwd)
room=$(mktemp -d)
trap 'rm -rf "$room"' EXIT
passed=0
failed=0

check() { # a name, and whether it held
    if [ "$2" = 0 ]; then
        passed=$((passed + 1))
    else
        failed=$((failed + 1))
        echo "FAILED $1"
    fi
}

run() { # a folder and words: what ./mycoll prints there, says beside it, and its status
    (cd "$1" && shift && "$top/mycoll" "$@" >"$room/printed" 2>"$room/said")
    status=$?
    cat "$room/said" >&2
}

expect() { # a name, what is printed and the status wanted; then as `run`
    run "${@:4}"
    [ "$(cat "$room/printed")" = "$2" ]
    check "$1: what is printed" $?
    [ "$status" = "$3" ]
    check "$1: the status is $status, wanted $3" $?
}

# README's first command.
expect "README: ./mycoll -e" "'a' = 'a  '"$'\n1' 0 "$top" -e "SELECT 'a' = 'a  '"

for folder in "$top"/examples/*/; do
    name=$(basename "$folder")
    [ -f "$folder/command" ] && continue
    mapfile -t words <"$folder/words"
    wanted_status=0
    [ -f "$folder/status" ] && wanted_status=$(cat "$folder/status")
    run "$folder" "${words[@]}"
    cmp -s "$room/printed" "$folder/expected"
    check "examples/$name: what is printed" $?
    [ "$status" = "$wanted_status" ]
    check "examples/$name: the status is $status, wanted $wanted_status" $?
done

answer="'ü' = 'ue' COLLATE latin1_german2_ci"
expect "./mycoll CATALOG -e" "$answer"$'\n1' 0 "$top/examples/german" cat.txt -e "SELECT $answer"
expect "a word without UTF-8" $'refused \xFF.sql Absent 0' 3 "$top" $'\xFF.sql'
expect "-e without UTF-8" "refused /dev/stdin NotUtf8 8" 3 "$top" -e $'SELECT \'\xFF\''
[ "$(cat "$room/said")" = "mycoll: /dev/stdin holds the statements behind -e" ]
check "-e without UTF-8: what /dev/stdin is" $?
expect "-e with an absent catalog" "refused absent.txt Absent 0" 3 "$top" absent.txt -e 'SELECT 1'
[ ! -s "$room/said" ]
check "-e with an absent catalog: nothing is said beside it" $?

expect "./mycoll --help" "$("$top/mycoll" --help)" 0 "$top" --help
grep -q "mycoll CATALOG -e 'STATEMENTS'" "$room/printed"
check "./mycoll --help: its forms" $?
run "$top" --version
grep -qE '^mycoll, commit .+, proved by rattle-kit-' "$room/printed"
check "./mycoll --version" $?
usage='usage: mycoll [CATALOG] SCRIPT | --make N'
expect "other words are the program's" "$usage" 2 "$top" --help --version -e

# What is said while the program is built, in a folder where `rt` is played by a script.
mkdir "$room/stub" "$room/bin"
cp "$top/mycoll" "$top/crates.txt" "$room/stub"
for crate in $(sed -n 's/^\([a-z][a-z0-9_]*\).*/\1/p' "$top/crates.txt"); do
    mkdir -p "$room/stub/crates/$crate"
done
cat >"$room/bin/rt" <<'END'
#!/bin/sh
[ "$1" = lib ] && exec test "$(basename "$PWD")" != "$REFUSED"
mkdir -p out && cp /bin/echo out/mycoll
END
chmod +x "$room/bin/rt"
own_top=$top
top=$room/stub
PATH=$room/bin:$PATH REFUSED=mc_charset expect "a crate that fails" '' 70 "$room" 'words'
grep -q '^mycoll: mc_charset was not built; the end' "$room/said"
check "a crate that fails is told" $?
PATH=$room/bin:$PATH REFUSED='' expect "a program that is built" 'one two' 0 "$room" one two
grep -qE '^mycoll: 1 of [0-9]+: mc_base, [0-9]+ s$' "$room/said" &&
    grep -qE '^mycoll: ([0-9]+) of \1: mycoll, [0-9]+ s$' "$room/said"
check "each crate is told as it is proved" $?
top=$own_top

echo "$passed passed, $failed failed"
[ "$failed" = 0 ]
