#!/bin/bash
# How many pairs of texts a second the proved program compares under a published table of collation
# elements, beside ICU's root collation at the same strength over the same pairs (bench/compare.cc).
#
#     bench/compare.sh ALLKEYS
#
# ALLKEYS is a published table, as bench/allkeys.sh finds them; that of version 9.0.0 is the one that
# the names of the collations speak of. Short names have 5 to 12 characters: names that differ, half
# of them behind three equal letters, and names that are equal but for the case of their letters.
# Long texts have just under 1 MiB each and are equal but for the case of half of their words, so at
# three levels the first two are run through to their end.
#
# The program reads a script of comparisons, each pair once, and one with each pair 200 times (long
# texts: once and 3 times); what the second takes longer is the time of the further ones. To set
# reading aside the same scripts run under utf8mb4_0900_bin, whose comparison ends at the first byte
# that differs, and that time is taken away. ICU's program measures its comparisons alone. The
# quickest of five runs each counts. Aims, mycoll's rate to ICU's: 2 for Latin and Cyrillic names
# that differ, 1 elsewhere at one level, 0.8 at three; each ratio is printed beside its aim, and at
# the end how many reach it. MYCOLL names the program where it isn't to be the one that ./mycoll runs.
set -e
[ $# = 1 ] || { sed -n '5s/^# *//p' "$0"; exit 2; }
top=$(cd "$(dirname "$0")/.." && pwd)
mycoll=$(realpath "${MYCOLL:-$("$top/bench/program.sh")}")
table=$(realpath "$1")
folder=$(mktemp -d)
trap 'rm -rf "$folder"' EXIT
export LC_ALL=C
. "$top/bench/timing.sh"

if ! command -v g++ >/dev/null || ! pkg-config --exists icu-i18n 2>/dev/null; then
    echo "g++ or ICU (Debian's libicu-dev) is not on this machine: nothing is measured"
    exit 0
fi
# shellcheck disable=SC2046 # the flags are several words
g++ -O2 -std=c++17 -o "$folder/yardstick" "$top/bench/compare.cc" \
    $(pkg-config --cflags --libs icu-i18n icu-uc)

make_names() { # latin or cyrillic, differing or equal: 1,000 pairs
    awk -v alphabet="$1" -v kind="$2" '
        function draw(limit) {
            state = (state * 69069 + 1) % 4294967296
            return int(state / 65536) % limit
        }
        function letter(place, capital) {
            if (alphabet == "latin") return sprintf("%c", (capital ? 65 : 97) + place)
            place += capital ? 0 : 32 # U+0410 to U+044F
            return place < 48 ? sprintf("%c%c", 208, 144 + place) : sprintf("%c%c", 209, 80 + place)
        }
        BEGIN {
            letters = alphabet == "latin" ? 26 : 32
            state = 7
            for (pair = 0; pair < 1000; pair++) {
                left = right = ""
                size = 5 + draw(8)
                for (i = 0; i < size; i++) {
                    one = draw(letters)
                    same = kind == "equal" || (pair % 2 && i < 3)
                    left = left letter(one, i == 0)
                    right = right letter(same ? one : draw(letters), draw(2))
                }
                print left "\t" right
            }
        }'
}

make_long() { # one pair
    awk '
        function draw(limit) {
            state = (state * 69069 + 1) % 4294967296
            return int(state / 65536) % limit
        }
        BEGIN {
            state = 7
            for (bytes = 0; bytes < 1040000; bytes += length(word) + 1) {
                word = ""
                for (i = 5 + draw(8); i > 0; i--) word = word sprintf("%c", 97 + draw(26))
                left_part = left_part word " "
                right_part = right_part (draw(2) ? toupper(word) : word) " "
                if (length(left_part) > 4096) {
                    left = left left_part
                    right = right right_part
                    left_part = right_part = ""
                }
            }
            print left left_part "\t" right right_part
        }'
}

make_script() { # how often each pair, a collation
    awk -F '\t' -v times="$1" -v collation="$2" '{
        for (i = 0; i < times; i++)
            print "SELECT \047" $1 "\047 COLLATE " collation " = \047" $2 "\047;"
    }' pairs.txt
}

run_once() { "$mycoll" cat.txt once.sql; }
run_often() { "$mycoll" cat.txt often.sql; }

further() { # a collation, and how often each pair: the seconds that the further ones take
    make_script 1 "$1" >once.sql
    make_script "$2" "$1" >often.sql
    take_turns run_once run_often
    awk -v once="$first" -v often="$second" 'BEGIN { printf "%.6f", often - once }'
}

compare_pairs() { # what is compared, a collation, its strength, how often each pair, the aim
    local pairs equal took best=
    pairs=$(wc -l <pairs.txt)
    make_script 1 "$2" >once.sql
    equal=$(run_once | grep -cx 1 || true)
    for _ in 1 2 3 4 5; do
        read -r same took < <(./yardstick pairs.txt "$3" "$4")
        best=$(awk -v a="$best" -v b="$took" 'BEGIN { print a == "" || b < a + 0 ? b : a }')
    done
    [ "$equal" = "$same" ] || echo "$1: mycoll finds $equal of $pairs pairs equal, ICU $same"
    awk -v what="$1" -v whole="$(further "$2" "$4")" -v reading="$(further utf8mb4_0900_bin "$4")" \
        -v count=$((pairs * ($4 - 1))) -v icu="$best" -v all=$((pairs * $4)) -v aim="$5" 'BEGIN {
            ours = whole > reading ? count / (whole - reading) : 0
            theirs = all / icu
            printf "%s: mycoll %.0f a second, ICU %.0f, ratio %.2f, aim %s%s",
                what, ours, theirs, ours / theirs, aim, ours < aim * theirs ? " missed" : ""
            printf " (script %.4f s, reading %.4f s)\n", whole, reading
        }' | tee -a ratios.txt
}

cd "$folder"
cp "$table" allkeys.txt
for levels in ai_ci as_cs; do
    echo "collation utf8mb4_0900_$levels utf8mb4 uca900_$levels allkeys.txt"
done >cat.txt
for alphabet in latin cyrillic; do
    make_names $alphabet differing >pairs.txt
    compare_pairs "$alphabet names that differ, one level" utf8mb4_0900_ai_ci 1 200 2
    compare_pairs "$alphabet names that differ, three levels" utf8mb4_0900_as_cs 3 200 0.8
    make_names $alphabet equal >pairs.txt
    compare_pairs "$alphabet names of other case, one level" utf8mb4_0900_ai_ci 1 200 1
    compare_pairs "$alphabet names of other case, three levels" utf8mb4_0900_as_cs 3 200 0.8
done
make_long >pairs.txt
compare_pairs "long texts of other case, one level" utf8mb4_0900_ai_ci 1 3 1
compare_pairs "long texts of other case, three levels" utf8mb4_0900_as_cs 3 3 0.8
echo "$(grep -vc " missed" ratios.txt) of $(wc -l <ratios.txt) ratios reach their aims"
