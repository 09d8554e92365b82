#!/bin/sh
# Runs the known results: document 01's fillings and the counts of well-known
# trays, with the original and with the model. Exit status 1 on any difference.
#   known.sh        about a minute
#   known.sh long   also Conway's 5 by 5 by 5, about a minute more
# The built pack (../crates/pack/out/pack), dlx1 and catalogue (in the same way), where
# there are any, are held to the same.
cd "$(dirname "$0")" || exit 1
cargo build --release --offline --quiet || exit 1
oracle=target/release/oracle
pack=../crates/pack/out/pack
[ -x $pack ] || pack=
dlx1=../crates/dlx1/out/dlx1
[ -x $dlx1 ] || dlx1=
catalogue=../crates/catalogue/out/catalogue
[ -x $catalogue ] || catalogue=
failed=0
got=$(mktemp) || exit 1
trap 'rm -f "$got"' EXIT

differs() {
    echo "DIFFERS: $1"
    failed=1
}

# Trays with a listing beside them: the model prints it byte for byte, and so
# does the original, save where it is known to panic. (With no piece, trays
# empty_box_*, the original is not asked: the oracle has a list of its own. Nor
# is it where woods are mixed: the oracle says so. Of one wood are woods_one*. Trays
# with empty outer layers are layers_*, row_in_longer_box and drawn_in_a_box: it is
# given the grids without them.)
for listing in trays/*.listing ../trays/*.listing; do
    tray=${listing%.listing}.tray
    python3 model.py <"$tray" >"$got"
    cmp -s "$got" "$listing" || differs "$tray (model)"
    [ -z "$pack" ] || $pack <"$tray" | cmp -s - "$listing" || differs "$tray (pack)"
    "$oracle" <"$tray" >"$got"
    case $tray in
    trays/no_copies_knuth.tray | trays/spare_handed_*.tray)
        [ "$(cat "$got")" = panic ] || differs "$tray (original, panic expected)" ;;
    trays/woods_two*.tray | trays/woods_handed.tray | trays/woods_order.tray | \
        trays/woods_eight.tray | trays/layers_woods.tray | trays/layers_placements_1024.tray)
        [ "$(cat "$got")" = mixed ] || differs "$tray (oracle, mixed expected)" ;;
    *)
        cmp -s "$got" "$listing" || differs "$tray (original)" ;;
    esac
done

# under TRAY ENGINE IDENTIFIED: the tray with that first line
under() {
    printf 'config\t%s\t%s\n' "$2" "$3"
    tail -n +2 "../trays/$1.tray"
}

# last TRAY ENGINE IDENTIFIED EXPECTED: the last line
last() {
    for program in $oracle $pack; do
        line=$(under "$1" "$2" "$3" | "$program" | tail -n 1)
        [ "$line" = "$(printf "$4")" ] || differs "$1 $2 $3 ($program): $line"
    done
}

# counts TRAY NONE TURNED MIRRORED: how many packings, with both engines
counts() {
    for engine in fast knuth; do
        last "$1" $engine none "packings\t$2"
        last "$1" $engine turned "packings\t$3"
        last "$1" $engine mirrored "packings\t$4"
    done
}

# mixed TRAY NONE TURNED MIRRORED: the same of a tray of several woods, by the model
mixed() {
    for engine in fast knuth; do
        for expected in none/$2 turned/$3 mirrored/$4; do
            for program in "python3 model.py" $pack; do
                line=$(under "$1" $engine "${expected%/*}" | $program | tail -n 1)
                [ "$line" = "$(printf 'packings\t%s' "${expected#*/}")" ] ||
                    differs "$1 $engine ${expected%/*} ($program): $line"
            done
        done
    done
}

# limits TRAY PLACEMENTS LINKS [FOLDER]
limits() {
    numbers=$(python3 model.py limits <"${4:-../trays}/$1.tray")
    [ "$numbers" = "$(printf 'placements\t%s\nlinks\t%s' "$2" "$3")" ] || differs "$1: $numbers"
}

counts soma 11520 480 240
counts tetracubes 11120 1390 695
counts slothouber_graatsma 8 1 1
counts drawn_in_a_box 8 1 1
mixed two_woods 160 8 4
counts dominoes 6728 930 930
counts t_tetrominoes 84 15 15
counts pentominoes 856 107 107
limits soma 688 3330
limits tetracubes 666 3370
limits slothouber_graatsma 63 263
limits drawn_in_a_box 63 263
limits dominoes 60 217
limits t_tetrominoes 168 905
limits conway 769 4965
limits woods_eight 1024 392 trays
limits woods_nine 1152 393 trays
limits layers_placements_1024 1024 392 trays
limits layers_placements_1152 1152 393 trays
last conway knuth none "refused\t15"

# The long listings agree with the model line for line.
for tray in soma tetracubes t_tetrominoes; do
    for identified in none turned mirrored; do
        for engine in fast knuth; do
            under $tray $engine $identified | python3 model.py >"$got"
            for program in $oracle $pack; do
                under $tray $engine $identified | "$program" | cmp -s - "$got" ||
                    differs "$tray $engine $identified ($program)"
            done
        done
    done
done

if [ "$1" = long ]; then
    last conway fast none "packings\t27456"
    last conway fast turned "packings\t1144"
    last conway fast mirrored "packings\t572"
fi

# page TRAY SKIP CAPACITY EXPECTED: a page of a tray's list, by the model
page() {
    lines=$(python3 model.py page "$2" "$3" <"$1")
    [ "$lines" = "$(printf "$4")" ] || differs "page $2 $3 of $1: $lines"
}

# text_of TRAY LINES BYTES COVERS: the text for DLX1, and what covers.py finds in it. The
# original's rows are this text too, where each kind has one copy.
text_of() {
    tray=../trays/$1.tray
    python3 model.py dlx1 <"$tray" >"$got"
    numbers=$(wc -lc <"$got" | tr -s ' ' | sed 's/^ //')
    [ "$numbers $(./covers.py <"$got")" = "$2 $3 $4" ] || differs "$1 (text): $numbers"
    target/release/rows <"$tray" | cmp -s - "$got" || differs "$1 (the original's rows)"
    [ -z "$dlx1" ] || $dlx1 <"$tray" | cmp -s - "$got" || differs "$1 (dlx1)"
}

text_of listing 6 53 2
text_of soma 689 11808 11520

# text TRAY EXPECTED: the text for DLX1 of a tray of these lines behind the first
text() {
    printf 'config\tfast\tnone\n%b' "$1" | python3 model.py dlx1 >"$got"
    printf "$2" | cmp -s - "$got" || differs "text of $1"
    [ -z "$dlx1" ] || printf 'config\tknuth\tturned\n%b' "$1" | $dlx1 | cmp -s - "$got" ||
        differs "text of $1 (dlx1)"
}

text 'board\t1\t1\t2\t11\npiece\t0\t1\t1\t1\t1\npiece\t1\t1\t1\t2\t11\n' 'b0 b1 | p1\np1 b0 b1\n'
text 'board\t1\t1\t1\t1\npiece\t0\t1\t1\t1\t1\n' 'b0\n'
text 'board\t1\t1\t1\t1\npiece\t1\t1\t1\t2\t11\n' 'b0 | p0\n'
text 'board\t1\t1\t2\t11\n' 'b0 b1\n'
text 'board\t1\t2\t2\t1111\npiece\t1\t1\t2\t2\t1111\n' 'b0 b1 b2 b3 | p0\np0 b0 b2 b1 b3\n'
text 'board\t1\t1\t2\t11\npiece\t2\t1\t1\t2\t11\n' 'refused\t17\n'
text 'board\t1\t1\t2\t11\npiece\t1\t1\t1\t2\t11\npiece\t1\t1\t2\t1\t11\n' 'refused\t17\n'
text 'board\t1\t1\t2\t00\n' 'refused\t17\n'
text 'board\t1\t1\t9\t111111111\n' 'refused\t3\n'
text 'board\t1\t1\t2\t1\n' 'refused\t16\n'

# Texts at which DLX1 stops, or of which it passes an option over; covers.py stops too.
for bad in '' 'b0' '| p0\n' 'b0 b0\n' 'b0 | b0\n' 'b0 b12345678\n' 'b0 b:1\n' 'b0 | | p0\n' \
    'b0 | p0\np0 b1\n' 'b0 b1 | p0\np0 b1 b1\n' 'b0 | p0\np0\n' 'b0 | p0\np0 b0'; do
    ! printf "$bad" | ./covers.py >"$got" 2>&1 || differs "covers.py takes $bad"
done
[ "$(printf 'b0 b2345678 | p\n\n| none\np b0\nb2345678\nb0\n' | ./covers.py)" = 2 ] || differs "covers.py"

# grown N NUMBER: how many pieces of N cells hang together by faces, mirror pairs as two
grown() {
    ./grow.py "$1" >"$got"
    [ "$(tail -n 1 "$got")" = "$(printf 'pieces\t%s' "$2")" ] || differs "pieces of $1 cells"
}

# pieces N NUMBER: the same, and the catalogue as they are grown
pieces() {
    grown "$1" "$2"
    for program in "python3 model.py catalogue" $catalogue; do
        printf 'cells\t%s\n' "$1" | $program | cmp -s - "$got" || differs "catalogue of $1 ($program)"
    done
}

pieces 1 1
pieces 2 1
pieces 3 2
pieces 4 8
pieces 5 29
pieces 6 166
grown 7 1023

# entries N SKIP BYTES EXPECTED: a page of the catalogue, by the model
entries() {
    lines=$(printf 'cells\t%s\n' "$1" | python3 model.py entries "$2" "$3")
    [ "$lines" = "$(printf "$4")" ] || differs "entries of $1 cells, $3 bytes at $2: $lines"
}

straight="0\t1 1 3 1 1 1 0 0 0 0 0 0 0 0 0 0 0 0 0 0 0\n"
bent="1\t1 2 2 0 1 1 1 0 0 0 0 0 0 0 0 0 0 0 0 0 0\n"
entries 3 0 0 "written\t0\nfollows\tyes"
entries 3 0 20 "written\t0\nfollows\tyes"
entries 3 0 21 "${straight}written\t1\nfollows\tyes"
entries 3 0 41 "${straight}written\t1\nfollows\tyes"
entries 3 0 42 "${straight}${bent}written\t2\nfollows\tno"
entries 3 1 63 "${bent}written\t1\nfollows\tno"
entries 3 2 21 "written\t0\nfollows\tno"
entries 5 28 20 "written\t0\nfollows\tyes"
entries 5 29 20 "written\t0\nfollows\tno"
entries 5 18446744073709551615 21 "written\t0\nfollows\tno"
for number in 0 7 4294967295; do entries $number 0 42 "refused\t21"; done

two=../trays/listing.tray
page $two 0 0 "written\t0\nfollows\tyes"
page $two 0 1 "0\t0.0 1.0 1.0\nwritten\t1\nfollows\tyes"
page $two 1 1 "1\t1.0 1.0 0.0\nwritten\t1\nfollows\tno"
page $two 1 9 "1\t1.0 1.0 0.0\nwritten\t1\nfollows\tno"
page $two 2 1 "written\t0\nfollows\tno"
page $two 18446744073709551615 1 "written\t0\nfollows\tno"

# The one empty packing of a box without pieces, and a board that has none.
for one in trays/empty_box_unfilled.tray trays/empty_box_unfilled_knuth.tray; do
    entry=$(head -n 1 "${one%.tray}.listing")
    page $one 0 0 "written\t0\nfollows\tyes"
    page $one 0 1 "$entry\nwritten\t1\nfollows\tno"
    page $one 0 9 "$entry\nwritten\t1\nfollows\tno"
    page $one 1 1 "written\t0\nfollows\tno"
    page $one 18446744073709551615 1 "written\t0\nfollows\tno"
done
for none in trays/empty_box_filled.tray trays/empty_box_filled_knuth.tray; do
    page $none 0 0 "written\t0\nfollows\tno"
    page $none 0 1 "written\t0\nfollows\tno"
done

# room TRAY SKIP BYTES EXPECTED: the page that so many bytes hold; an answer's size is
# that of the lent box, eight bytes for 1110.
room() {
    lines=$(python3 model.py room "$2" "$3" <"$1")
    [ "$lines" = "$(printf "$4")" ] || differs "room of $3 bytes at $2 of $1: $lines"
}

row=trays/layers_row_none.tray
room $row 0 7 "written\t0\nfollows\tyes"
room $row 0 8 "0\t0.0 1.0 1.0 -\nwritten\t1\nfollows\tyes"
room $row 0 15 "0\t0.0 1.0 1.0 -\nwritten\t1\nfollows\tyes"
room $row 0 16 "0\t0.0 1.0 1.0 -\n1\t1.0 1.0 0.0 -\nwritten\t2\nfollows\tno"
room $row 1 8 "1\t1.0 1.0 0.0 -\nwritten\t1\nfollows\tno"
room trays/layers_unfilled.tray 0 7 "written\t0\nfollows\tyes"
room trays/layers_unfilled.tray 0 8 "0\t- - - -\nwritten\t1\nfollows\tno"

# Refusals that no file reaches, 8,191 work words among them.
cargo test --release --offline --quiet --lib >"$got" 2>&1 || differs "cargo test"

[ $failed = 0 ] && echo "known results: all come out"
exit $failed
