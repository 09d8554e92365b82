#!/bin/sh
# table.sh [stack] [BEFORE]: the tables of docs/PERFORMANCE.md, as Markdown, or that of the stack alone. With a file that it printed
# before, each row gets that one's ratio as a last column. Nothing is built here: it says what is missing.
set -eu
cd "$(dirname "$0")/.."
harness=harness/target/release oracle=oracle/target/release pack=crates/pack/out/pack trays=harness/trays
only= needed="$harness/race $harness/stream $harness/programs $oracle/oracle $oracle/trays $pack"
if [ "${1-}" = stack ]; then
    only=stack needed=
    shift
fi
for file in $harness/stack crates/ferghuul/out/libferghuul.a $needed; do
    [ -e $file ] || { echo "$file is missing: (cd crates/pack && rt run), (cd crates/ferghuul && rt lib), then cargo in oracle/ and harness/ (README.md)" >&2; exit 1; }
done
[ $harness/stack -nt crates/ferghuul/out/libferghuul.a ] || { echo "the library is newer than the harness" >&2; exit 1; }
kept=$(mktemp -d)
trap 'rm -rf "$kept"' EXIT

# The rows of a table whose header stands already.
more() {
    "$@" > "$kept/rows"
    sed 1,2d "$kept/rows"
}

stack_table() {
    printf '## The stack\n\n'
    $harness/stack none mirrored trays/soma.tray $trays/far_end.tray $trays/wide_8.tray
}

tables() {
    if [ "$only" = stack ]; then
        stack_table
        return
    fi
    printf '## The page call\n\n'
    $harness/race 9 trays/soma.tray $trays/soma_in_boxes.tray $trays/boxes_72.tray
    more $harness/race 3 $trays/spare.tray
    more $harness/race 9 $trays/far_end.tray $trays/dominoes_4_4.tray $trays/dominoes_4_6.tray $trays/dominoes_4_8.tray
    more $harness/race 9 $trays/dominoes_6_6.tray $trays/bars_80.tray
    more $harness/race 9 fast $trays/wide_4.tray $trays/wide_8.tray
    printf '\n## Random trays\n\n'
    $oracle/trays 9001 800 > "$kept/cases"
    $harness/stream 9 < "$kept/cases"
    printf '\n## Whole programs\n\n'
    $harness/programs 9 $pack $oracle/oracle trays/soma.tray
    more $harness/programs 3 none $pack $oracle/oracle $trays/dominoes_6_7.tray $trays/dominoes_6_8.tray $trays/dominoes_7_8.tray
    printf '\n'
    stack_table
}

if [ $# -eq 0 ]; then
    tables
else
    tables > "$kept/tables"
    # A row is known by its table, tray, engine and identification; its ratio is the seventh cell, of the stack's rows the fourth.
    awk -F'|' '
        /^## / { table = $0 }
        NR == FNR { before[table $2 $3 $4] = NF > 8 ? $8 : $5; next }
        /^\|---/ { print $0 "---|"; next }
        $2 ~ /^ Trays? $/ { print $0 " Before |"; next }
        NF > 3 { print $0 before[table $2 $3 $4] "|"; next }
        { print }' "$1" "$kept/tables"
fi
