#!/bin/bash
# Compares mycoll's answers, over weight tables exported from a server on this machine, with that
# server's own: `=` over pairs of strings, and the groups of two tables of names, which it fills,
# dumps and hands to check_migration.py, with GROUP BY.
#
#     tools/check_server.sh [PAIRS [SEED]]      2,000 pairs of strings for each collation; seed 1
#
# It installs nothing: where mariadbd or mysqld is on the machine, it starts a server of its own, on
# a socket alone, in a folder of its own, and stops it at the end. Where there is none it says so,
# with status 0. Status 1: some answers differ, or something failed.
#
# Variables: MYCOLL is the full path of the program in place of ./mycoll, SERVER that of the server
# in place of the first one found. PARTS are the parts that run ("pairs groups"), NAMES the rows of
# each table (4,000). ELEMENTS is the full path of allkeys-4.0.0.txt: where it is given, the groups
# are compared under utf8mb4_unicode_ci too.
top=$(cd "$(dirname "$0")/.." && pwd)
pairs=${1:-2000}
seed=${2:-1}
mycoll=${MYCOLL:-$top/mycoll}
names=${NAMES:-4000}
parts=${PARTS:-pairs groups}
collations=(latin1_swedish_ci latin1_german1_ci latin1_german2_ci ascii_general_ci
    utf8mb4_general_ci)
servers=(mariadbd mysqld)
[ -z "$SERVER" ] || servers=("$SERVER")
PATH=$PATH:/usr/sbin:/usr/local/sbin:/usr/libexec
export PYTHONDONTWRITEBYTECODE=1

first_of() { # the path of the first of these commands that is there
    local name
    for name in "$@"; do
        command -v "$name" && return
    done
    return 1
}

if ! server=$(first_of "${servers[@]}") || ! client=$(first_of mariadb mysql); then
    echo "no server (${servers[*]}) with its client on this machine: nothing was compared"
    exit 0
fi
folder=$(mktemp -d) || exit 1
server_id=

clean_up() { # stops the server that this script started, by its process, and takes its folder away
    if [ -n "$server_id" ]; then
        kill "$server_id" 2>/dev/null
        wait "$server_id" 2>/dev/null
    fi
    rm -rf "$folder"
}
trap clean_up EXIT
trap 'exit 130' INT
trap 'exit 143' TERM

fail() { # what failed, and a log
    echo "check_server.sh: $1; the end of its log:" >&2
    tail -n 15 "$2" >&2
    exit 1
}

make_data() { # an empty server's data, whose root has no password
    if [[ $("$server" --version) == *MariaDB* ]]; then
        "$(first_of mariadb-install-db mysql_install_db)" --no-defaults --user="$(id -un)" \
            --datadir="$folder/data" --auth-root-authentication-method=normal --skip-test-db
    else
        "$server" --no-defaults --user="$(id -un)" --datadir="$folder/data" --initialize-insecure
    fi
}

start_server() {
    "$server" --no-defaults --user="$(id -un)" --datadir="$folder/data" --skip-networking \
        --socket="$folder/socket" --pid-file="$folder/id" --secure-file-priv="$folder" \
        --loose-mysqlx=OFF >"$folder/server.log" 2>&1 &
    server_id=$!
    printf '[client]\nsocket=%s\nuser=root\n' "$folder/socket" >"$folder/client.cnf"
    local tries=120
    until echo 'SELECT 1;' | ask >/dev/null 2>&1; do
        tries=$((tries - 1))
        if [ "$tries" = 0 ] || ! kill -0 "$server_id" 2>/dev/null; then
            fail "the server did not start" "$folder/server.log"
        fi
        sleep 0.5
    done
}

ask() { # the client in batch mode, its statements from standard input
    "$client" --defaults-file="$folder/client.cnf" --batch --skip-column-names
}

compare() { # a line of the catalog, whose file lies in the folder of the run
    local name set
    read -r _ name set _ <<<"$1"
    echo "$1" >catalog.txt
    python3 "$top/tools/check_pairs.py" make "$name" "$set" "$pairs" "$seed" >script.sql || return 1
    "$mycoll" catalog.txt script.sql >mycoll.out </dev/null
    ask <script.sql >server.out || return 1
    python3 "$top/tools/check_pairs.py" compare "$name" script.sql mycoll.out server.out
}

compare_pairs() { # `=` in each collation
    local status=0 line
    echo "program: $mycoll; $pairs pairs of strings for each collation, seed $seed"
    "$top/tools/export_weights.py" server --defaults-file "$folder/client.cnf" \
        "${collations[@]}" >lines.txt || return 1
    while read -r line; do
        compare "$line" || status=1
    done <lines.txt
    return "$status"
}

compare_groups() { # the tables' collation, the new one, and the words that give weights
    local old=$1 new=$2
    echo "groups of two tables of at most $names names, $old to $new, seed $seed:"
    rm -rf kept
    {
        echo "DROP DATABASE IF EXISTS names;"
        python3 "$top/tools/check_groups.py" make "$old" "$names" "$seed"
    } | ask || return 1
    "$dumper" --defaults-file="$folder/client.cnf" names >names.sql || return 1
    "$top/tools/check_migration.py" names.sql --to "$new" "${@:3}" --keep kept \
        --mycoll "$mycoll" >report.txt
    grep '^summary: ' report.txt || return 1
    python3 "$top/tools/check_groups.py" groups "$new" | ask >groups.out || return 1
    python3 "$top/tools/check_groups.py" compare kept groups.out
}

check_groups() { # towards each collation whose weights are there
    local status=0
    if ! dumper=$(first_of mariadb-dump mysqldump); then
        echo "neither mariadb-dump nor mysqldump on this machine: no groups were compared"
        return 0
    fi
    "$top/tools/export_weights.py" server --force --defaults-file "$folder/client.cnf" \
        utf8mb4_general_ci >/dev/null || return 1
    compare_groups utf8mb4_bin utf8mb4_general_ci --weights utf8mb4_general_ci.txt || status=1
    if [ -n "$ELEMENTS" ]; then
        compare_groups utf8mb4_general_ci utf8mb4_unicode_ci \
            --weights utf8mb4_general_ci.txt --weights "$ELEMENTS" || status=1
    fi
    return "$status"
}

make_data >"$folder/install.log" 2>&1 || fail "no data folder was made" "$folder/install.log"
start_server
echo "server: $("$server" --version)"
cd "$folder" || exit 1
status=0
for part in $parts; do
    case $part in
        pairs) compare_pairs || status=1 ;;
        groups) check_groups || status=1 ;;
        *) echo "check_server.sh: no part $part: pairs or groups" >&2 && status=1 ;;
    esac
done
exit "$status"
