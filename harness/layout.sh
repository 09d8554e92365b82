#!/bin/sh
# Holds record and answer in C to their layout: compiles layout.c, whose assertions stand for sizes and offsets with a wood and before
# it, with `missing` and before it, links it with the static library (`rt lib` in crates/ferghuul), runs it and compares what it
# lists with the model (oracle/model.py). `layout.sh compile` stops before the library. Status 1 on a difference.
cd "$(dirname "$0")" || exit 1
library=../crates/ferghuul/out/libferghuul.a
folder=$(mktemp -d) || exit 1
trap 'rm -r "$folder"' EXIT
${CC:-cc} -std=c11 -Wall -Wextra -pedantic -Werror -I../include -O2 -c layout.c -o "$folder/layout.o" || exit 1
[ "$1" = compile ] && exit 0
${CC:-cc} "$folder/layout.o" "$library" -o "$folder/layout" || exit 1

failed=0
run=0
for engine in fast knuth; do
    for identified in none turned; do
        for woods in "0 0" "7 7" "0 1" "1 0" "255 0" "9 10" "127 128"; do
            printf 'config\t%s\t%s\nboard\t1\t1\t2\t11\n' $engine $identified >"$folder/tray"
            printf 'piece\t1\t1\t1\t1\t1\t%s\n' $woods >>"$folder/tray"
            python3 ../oracle/model.py <"$folder/tray" >"$folder/expected"
            # $woods is two words.
            if ! "$folder/layout" $engine $identified $woods >"$folder/found" ||
                ! cmp -s "$folder/found" "$folder/expected"; then
                echo "DIFFERS: $engine $identified, woods $woods"
                failed=1
            fi
            run=$((run + 1))
        done
    done
done
[ $failed = 0 ] && echo "layout: a record of 40 bytes, wood at 28, wood 0 as no wood; an answer of 24, missing at 17; of a text 16; $run lists as the model's"
exit $failed
