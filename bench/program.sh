#!/bin/bash
# Prints the path of the proved program, which is built first where it is missing or older than a source
# file. Benches measure this program: ./mycoll looks for newer files each time, which takes it longer than
# many a script.
top=$(cd "$(dirname "$0")/.." && pwd)
"$top/mycoll" -e 'SELECT 1' >/dev/null || exit
echo "$top/crates/mycoll/out/mycoll"
