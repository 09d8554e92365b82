#!/bin/sh
# Runs every input of docs/DIFFERENCES.md and compares what comes out with what
# the page says: the original, called without refusals, and this project's
# definition, by the model and by the built pack (../crates/pack/out/pack), where
# there is one. Exit status 1 if anything differs.
cd "$(dirname "$0")" || exit 1
cargo build --release --offline --quiet || exit 1
raw=target/release/raw
pack=../crates/pack/out/pack
[ -x $pack ] || pack=
parts=$(mktemp -d) || exit 1
trap 'rm -r "$parts"' EXIT

# Each section's three blocks go to NUMBER.input, NUMBER.original, NUMBER.here.
sed 's/⇥/\t/g' ../docs/DIFFERENCES.md | awk -v parts="$parts" '
    /^## / { number++; part = ""; print substr($0, 4) > (parts "/" number ".title") }
    /^Input:$/ { part = "input" }
    /^The original prints:$/ { part = "original" }
    /^Here:$/ { part = "here" }
    /^    / && part != "" { print substr($0, 5) > (parts "/" number "." part) }
'

failed=0
run=0
for input in "$parts"/*.input; do
    section=${input%.input}
    "$raw" <"$input" >"$section.original_ran"
    # Calls that no file can make are judged by the refusals of a call.
    case $(head -n 1 "$input") in
    *auto* | *naive* | *mirrored_only*) "$raw" refusal <"$input" >"$section.here_ran" ;;
    *)
        python3 model.py <"$input" >"$section.here_ran"
        if [ -n "$pack" ] && ! $pack <"$input" | cmp -s - "$section.here"; then
            echo "DIFFERS (pack): $(cat "$section.title")"
            failed=1
        fi
        ;;
    esac
    for part in original here; do
        if ! cmp -s "$section.$part" "$section.${part}_ran"; then
            echo "DIFFERS ($part): $(cat "$section.title")"
            cat "$section.${part}_ran"
            failed=1
        fi
    done
    run=$((run + 1))
done

# A page that lost its sections must not pass.
if [ "$run" != "$(grep -c '^## ' ../docs/DIFFERENCES.md)" ] || [ "$run" = 0 ]; then
    echo "DIFFERS: $run inputs for the sections of docs/DIFFERENCES.md"
    failed=1
fi
[ $failed = 0 ] && echo "differences: all $run as the page says"
exit $failed
