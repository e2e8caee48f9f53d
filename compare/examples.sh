#!/usr/bin/env bash
# The examples print what is stored for them, and README and docs/TABLES.md show it; the program's limits of input; points by the way that
# docs/TABLES.md shows.
set -euo pipefail
cd "$(dirname "$0")/.."

triangularize=crates/triangularize/out/triangularize
table_jobs=crates/table_jobs/out/table_jobs

shown() {
    examples/words <"examples/$1.txt" | $triangularize | cmp - "examples/$1.out"
    [[ $(<"$2") == *'```'$'\n'"$(<"examples/$1.out")"$'\n''```'* ]] || { echo "examples: $2 does not show examples/$1.out"; return 1; }
}
shown arm README.md
shown four-bar docs/TABLES.md

# The program takes 4,096 records and no more, and no broken last word.
arm() { examples/words <examples/arm.txt; }
size=$(arm | wc -c)
{ arm; head -c $((65536 - size)) /dev/zero; } | $triangularize | cmp - examples/arm.out
for length in 65537 65540 65552; do
    [ "$({ arm; head -c $((length - size)) /dev/zero; } | $triangularize)" = "1 0 0" ]
done
[ "$(arm | head -c -1 | $triangularize)" = "1 0 0" ]

# A point solves the arm's table exactly when it solves the one listed system: 1 for yes, and 1 for its place; 0 for no, and for none.
tried() {
    local answer=$1
    shift
    [ "$(examples/point "$@" <examples/arm.txt | $table_jobs)" = "0 $answer" ]
    [ "$(tail -n +2 examples/arm.out | examples/point -l "$@" | $table_jobs)" = "0 $answer" ]
}
tried 1 1 0 0 1
tried 1 25603 12802 12802 6400
tried 0 0 1 0 1
echo "examples: they print what README and docs/TABLES.md show"
