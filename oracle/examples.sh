#!/bin/sh
# Runs every example of docs/TRAYS.md and compares what comes out with what the page says: by the model, and by the built programs
# (../crates/pack/out/pack, dlx1 and catalogue in the same way), where they are there. Exit status 1 if anything differs.
cd "$(dirname "$0")" || exit 1
pack=../crates/pack/out/pack
[ -x $pack ] || pack=
dlx1=../crates/dlx1/out/dlx1
[ -x $dlx1 ] || dlx1=
catalogue=../crates/catalogue/out/catalogue
[ -x $catalogue ] || catalogue=
parts=$(mktemp -d) || exit 1
trap 'rm -r "$parts"' EXIT

# Example N's blocks go to N.typed, and to N.all (all that is printed), N.last (the last line of it), N.dlx1 or N.catalogue (all that these print).
sed 's/⇥/\t/g' ../docs/TRAYS.md | awk -v parts="$parts" '
    /^Type:$/ { number++; part = "typed"; next }
    /^Printed:$/ { part = "all"; next }
    /^The last line:$/ { part = "last"; next }
    /^Printed by `dlx1`:$/ { part = "dlx1"; next }
    /^Printed by `catalogue`:$/ { part = "catalogue"; next }
    /^    / && part != "" { print substr($0, 5) > (parts "/" number "." part); next }
    /[^ ]/ { part = "" }
'

failed=0
run=0
differs() {
    echo "DIFFERS ($1): example $2"
    cat "$parts/$2.typed"
    failed=1
}
# What is printed for what is typed, held to the page.
held() {
    for part in all dlx1 catalogue; do
        if [ -f "$parts/$2.$part" ]; then
            cmp -s "$parts/ran" "$parts/$2.$part" || differs "$1" "$2"
            return
        fi
    done
    tail -n 1 "$parts/ran" | cmp -s - "$parts/$2.last" || differs "$1" "$2"
}
for typed in "$parts"/*.typed; do
    number=$(basename "$typed" .typed)
    if [ -f "$parts/$number.dlx1" ]; then
        words=dlx1 program=$dlx1
    elif [ -f "$parts/$number.catalogue" ]; then
        words=catalogue program=$catalogue
    else
        words='' program=$pack
    fi
    python3 model.py $words <"$typed" >"$parts/ran"
    held model "$number"
    if [ -n "$program" ]; then
        $program <"$typed" >"$parts/ran"
        held "$program" "$number"
    fi
    run=$((run + 1))
done

# A page that lost its examples must not pass.
if [ "$run" != "$(grep -c '^Type:$' ../docs/TRAYS.md)" ] || [ "$run" = 0 ]; then
    echo "DIFFERS: $run examples of docs/TRAYS.md"
    failed=1
fi
[ $failed = 0 ] && echo "examples: all $run as the page says${pack:+, pack too}${dlx1:+, dlx1 too}${catalogue:+, catalogue too}"
exit $failed
