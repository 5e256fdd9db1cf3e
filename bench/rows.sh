#!/bin/bash
# A table of names for bench/scan.sh, group.sh and index.sh, which source this file: `w.csv` with an id and
# a name of 1 to 8 characters in each row, drawn from ten: a, b, c, h, s, ß, space, TAB, C, U+00AD; a
# catalog with that table under a collation of kind uca400, over a table of elements for these ten
# that is made here; and, where MariaDB is on the machine (mariadbd and mariadb), a server of the
# script's own with the same rows in its MEMORY engine, without an index, in utf8mb4_unicode_ci.
top=$(cd "$(dirname "$0")/.." && pwd)
mycoll=$(realpath "${MYCOLL:-$("$top/bench/program.sh")}")
folder=$(mktemp -d)
server_id=
clean_up() {
    if [ -n "$server_id" ]; then
        kill "$server_id" 2>/dev/null
        wait "$server_id" 2>/dev/null || true
    fi
    rm -rf "$folder"
}
trap clean_up EXIT
export LC_ALL=C
PATH=$PATH:/usr/sbin:/usr/libexec
. "$top/bench/timing.sh"

make_rows() { # how many rows, to w.csv
    python3 - "$1" >w.csv <<'END'
import csv, sys
state = 1
def draw():
    global state
    state = (state * 1103515245 + 12345) % 2147483648
    return state // 65536 % 32768
letters = ["a", "b", "c", "h", "s", "\u00df", " ", "\t", "C", "\u00ad"]
sys.stdout.reconfigure(encoding="utf-8", newline="")
out = csv.writer(sys.stdout, lineterminator="\n")
for row in range(1, int(sys.argv[1]) + 1):
    out.writerow([row, "".join(letters[draw() % 10] for _ in range(1 + draw() % 8))])
END
}

make_names() { # the names of w.csv, a line each, to names.txt
    python3 -c 'import csv, sys
sys.stdout.reconfigure(encoding="utf-8")
for row in csv.reader(open("w.csv", encoding="utf-8", newline="")): print(row[1])' >names.txt
}

make_catalog() {
    cat >elements.txt <<'END'
@version 4.0.0
0009 ; [.0201.0020.0002]
0020 ; [.0209.0020.0002]
00AD ; [.0000.0000.0000]
0061 ; [.0E33.0020.0002]
0062 ; [.0E4A.0020.0002]
0063 ; [.0E60.0020.0002]
0043 ; [.0E60.0020.0008]
0068 ; [.0EE1.0020.0002]
0073 ; [.0FEA.0020.0002]
00DF ; [.0FEA.0020.0004] [.0FEA.0020.0004]
END
    {
        echo "collation utf8mb4_unicode_ci utf8mb4 uca400 elements.txt"
        echo "connection utf8mb4_unicode_ci"
    } >plain.txt
    {
        cat plain.txt
        echo "table w w.csv"
        echo "column id bigint"
        echo "column name varchar 8 utf8mb4_unicode_ci"
    } >cat.txt
}

repeat() { # a statement, how many times, to s.sql
    awk -v statement="$1" -v n="$2" 'BEGIN { for (i = 0; i < n; i++) print statement }' >s.sql
}

run_plain() { "$mycoll" plain.txt s.sql; }
run_rows() { "$mycoll" cat.txt s.sql; }

best() { # a command: the seconds of the quickest of five runs
    local quickest=
    for _ in 1 2 3 4 5; do quickest=$(quicker "$quickest" "$1"); done
    echo "$quickest"
}

each() { # a statement: the seconds of one of a hundred
    local one
    repeat "$1" 1
    one=$(best run_rows)
    repeat "$1" 100
    awk -v all="$(best run_rows)" -v one="$one" 'BEGIN { printf "%.5f", (all - one) / 99 }'
}

less() { # two numbers
    awk -v a="$1" -v b="$2" 'BEGIN { printf "%.4f", a - b }'
}

ask() { mariadb --no-defaults --socket="$folder/socket" --user=root --batch --skip-column-names w; }

start_server() {
    mariadb-install-db --no-defaults --user="$(id -un)" --datadir="$folder/data" \
        --auth-root-authentication-method=normal --skip-test-db >"$folder/server.log" 2>&1
    mkdir "$folder/data/w"
    mariadbd --no-defaults --user="$(id -un)" --datadir="$folder/data" --skip-networking \
        --socket="$folder/socket" --pid-file="$folder/id" --secure-file-priv="$folder" \
        --max-heap-table-size=1G >>"$folder/server.log" 2>&1 &
    server_id=$!
    local tries=120
    until echo 'SELECT 1;' | ask >/dev/null 2>&1; do
        tries=$((tries - 1))
        [ "$tries" != 0 ] || { tail -n 5 "$folder/server.log"; exit 1; }
        sleep 0.5
    done
}

fill_server() {
    ask <<END
SET NAMES utf8mb4;
CREATE TABLE w (id BIGINT, name VARCHAR(8)) ENGINE=MEMORY
    CHARACTER SET utf8mb4 COLLATE utf8mb4_unicode_ci;
LOAD DATA INFILE '$folder/w.csv' INTO TABLE w CHARACTER SET utf8mb4
    FIELDS TERMINATED BY ',' OPTIONALLY ENCLOSED BY '"' ESCAPED BY '' LINES TERMINATED BY '\n';
END
}

served() { # a statement: the server's own time of the quickest of five
    { echo "SET NAMES utf8mb4 COLLATE utf8mb4_unicode_ci; SET profiling = 1;"
        for _ in 1 2 3 4 5; do echo "$1"; done
        echo "SHOW PROFILES;"; } | ask | awk -F'\t' '
            $3 ~ /^SELECT/ && (best == "" || $2 < best) { best = $2 }
            END { printf "%.5f", best }'
}

has_server() { command -v mariadbd >/dev/null && command -v mariadb >/dev/null; }
