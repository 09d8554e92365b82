#!/bin/sh
# The header as C99 and as C++17, without a warning; then Soma from C (soma.c), linked with the static library (`rt lib` in crates/ferghuul at the
# root), its text for DLX1 held to the model's (oracle/model.py), and its pieces once more from the catalogue. Then the interface's number: the header's,
# the library's symbols, and that a program does not link which was compiled with a header of another number, or of none; and that the library wants no name
# from outside but memcpy and memset. `c.sh compile` stops before the library. Status 1 on a difference.
cd "$(dirname "$0")" || exit 1
library=../crates/ferghuul/out/libferghuul.a
number=1
calls="catalogue dlx1 page"
folder=$(mktemp -d) || exit 1
trap 'rm -r "$folder"' EXIT

wrong() {
    echo "c: $1" >&2
    exit 1
}

# soma.c with the header in folder $1, without a warning: as C, $2.o, and as C++, $2_cpp.o.
compile() {
    ${CC:-cc} -std=c99 -Wall -Wextra -pedantic -Werror -I"$1" -O2 -c soma.c -o "$folder/$2.o" || exit 1
    ${CXX:-c++} -x c++ -std=c++17 -Wall -Wextra -pedantic -Werror -I"$1" -O2 -c soma.c -o "$folder/$2_cpp.o" || exit 1
}

# The symbols that begin with ferghuul_: of kind T, which a library offers, or U, which a program wants.
symbols() {
    nm -g "$2" | awk -v kind="$1" 'NF > 1 && $(NF - 1) == kind && $NF ~ /^ferghuul_/ { print $NF }' | sort | tr '\n' ' '
}

compile ../include soma
told=$(printf '#include "ferghuul.h"\nFERGHUUL_INTERFACE\n' | ${CC:-cc} -E -P -I../include - | tail -n 1)
[ "$told" = $number ] || wrong "FERGHUUL_INTERFACE is $told"
named=$(for call in $calls; do printf 'ferghuul_%s_%s ' $number "$call"; done)
for object in soma soma_cpp; do
    [ "$(symbols U "$folder/$object.o")" = "$named" ] || wrong "$object.o wants $(symbols U "$folder/$object.o")"
done

# The header of the next number, and one whose calls bear none.
mkdir "$folder/next" "$folder/plain" || exit 1
sed "s/^#define FERGHUUL_INTERFACE $number\$/#define FERGHUUL_INTERFACE $((number + 1))/" ../include/ferghuul.h >"$folder/next/ferghuul.h"
sed '/^#define ferghuul_/d' ../include/ferghuul.h >"$folder/plain/ferghuul.h"
compile "$folder/next" next
compile "$folder/plain" plain
[ "$1" = compile ] && exit 0

[ "$(symbols T "$library")" = "$named" ] || wrong "the library offers $(symbols T "$library")"
outside=$(nm -u "$library" | awk '$1 == "U" { print $2 }' | sort -u | tr '\n' ' ')
[ "$outside" = "memcpy memset " ] || wrong "the library wants $outside"
python3 ../oracle/model.py dlx1 <../trays/soma.tray >"$folder/expected" || exit 1
for object in soma soma_cpp; do
    ${CC:-cc} "$folder/$object.o" "$library" -o "$folder/soma" || exit 1
    "$folder/soma" || exit 1
    "$folder/soma" text | cmp - "$folder/expected" || exit 1
done
for object in next next_cpp plain plain_cpp; do
    ${CC:-cc} "$folder/$object.o" "$library" -o "$folder/other" 2>"$folder/refused" && wrong "$object.o links"
    for call in $calls; do
        case $object in
        next*) wanted=ferghuul_$((number + 1))_$call ;;
        *) wanted=ferghuul_$call ;;
        esac
        grep -q "undefined.*$wanted\b" "$folder/refused" || wrong "$object.o does not link, but not for want of $wanted: $(cat "$folder/refused")"
    done
done
echo "c: FERGHUUL_INTERFACE is $number, and so are the symbols; a program of another header does not link; outside names: $outside"
