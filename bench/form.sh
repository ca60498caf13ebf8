#!/bin/sh
# Measures `form` lines of words of 40 letters of all kinds, through the built program, and the longest word over E8(2); the matrices of such words over
# G2(5) on the module of dimension 7; and the product of two forms of random elements.
#
#   sh bench/form.sh                    the program alone
#   GAP=gap sh bench/form.sh            with GAP 4.12 (the Debian package `gap-core`) beside it, where it is installed: matrices of words over G2(5), and
#                                       products of two matrices of the dimension of the least module
#   sh bench/form.sh G2 F4              the words of these groups alone, without the products
#
# A figure is that of the lines less that of as many with the word 1. That of a product is that of `mul w ; v` less those of `form w` and `form v`, which
# the program makes first.
set -eu
here=$(cd "$(dirname "$0")" && pwd)
top=$(dirname "$here")
. "$here/program.sh"
. "$here/data.sh"

# the data of the products: name, prime, generator, positive roots, lines, the dimension of the least module, and the rows of the Cartan matrix
product_types='
A1 5 2 1 20000 2 2
A3 5 2 6 10000 4 2,-1,0 -1,2,-1 0,-1,2
G2 5 2 6 10000 7 2,-1 -3,2
F4 5 2 24 2000 26 2,-1,0,0 -1,2,-2,0 0,-1,2,-1 0,0,-1,2
E6 5 2 36 1000 27 2,0,-1,0,0,0 0,2,0,-1,0,0 -1,0,2,-1,0,0 0,-1,-1,2,-1,0 0,0,0,-1,2,-1 0,0,0,0,-1,2
E7 2 1 63 500 56 2,0,-1,0,0,0,0 0,2,0,-1,0,0,0 -1,0,2,-1,0,0,0 0,-1,-1,2,-1,0,0 0,0,0,-1,2,-1,0 0,0,0,0,-1,2,-1 0,0,0,0,0,-1,2
E8 2 1 120 200 248 2,0,-1,0,0,0,0,0 0,2,0,-1,0,0,0,0 -1,0,2,-1,0,0,0,0 0,-1,-1,2,-1,0,0,0 0,0,0,-1,2,-1,0,0 0,0,0,0,-1,2,-1,0 0,0,0,0,0,-1,2,-1 0,0,0,0,0,0,-1,2
'

# the module of dimension 7 of G2, by a table: its weights from the highest down, and on each simple root and its opposite the strings of these
seven() {
    echo 'module v table 7 14'
    printf 'weight %s\n' '1 0' '-1 1' '2 -1' '0 0' '-2 1' '1 -1' '-1 0'
    printf 'entry %s\n' '1 1 1 2 1' '1 1 3 4 2' '1 1 4 5 1' '1 2 3 5 1' '1 1 6 7 1' '-1 1 2 1 1' '-1 1 4 3 1' '-1 1 5 4 2' '-1 2 5 3 1' '-1 1 7 6 1' \
        '2 1 2 3 1' '2 1 5 6 1' '-2 1 3 2 1' '-2 1 6 5 1'
}

# a command on two words of random elements: a root element of each positive root, a torus element, letters of the Weyl group, and again
# a root element of each positive root; `both` is one line `mul w ; v`, and `apart` two lines `form`
products() {
    awk -v how="$1" -v roots="$2" -v prime="$3" -v rank="$4" -v lines="$5" 'BEGIN {
        srand(12)
        for (n = 0; n < lines; n++) {
            w = element(); v = element()
            if (how == "both") print "mul " w " ; " v
            else { print "form " w; print "form " v }
        }
    }
    function unipotent(    word, k) {
        for (k = 1; k <= roots; k++) word = word sprintf("x%d(%d) ", k, int(prime * rand()))
        return word
    }
    function torus(    word, j) {
        word = "h("
        for (j = 1; j <= rank; j++) word = word (j > 1 ? "," : "") (1 + int((prime - 1) * rand()))
        return word ") "
    }
    function element(    word, k) {
        word = unipotent() torus()
        for (k = 0; k < 2 * roots; k++) word = word sprintf("n%d ", 1 + int(rank * rand()))
        word = word unipotent()
        sub(/ $/, "", word)
        return word
    }'
}

# the name of a group, the prime, the generator, the number of positive roots, lines, letters, and the rows
report() {
    name=$1 prime=$2 generator=$3 roots=$4 lines=$5 letters=$6
    shift 6
    datum "$prime" "$generator" "$@" >"$rooms/head"
    words "$roots" "$prime" $# "$lines" "$letters" >"$rooms/lines"
    repeated 'form 1' "$lines" >"$rooms/less"
    ours "form of a word of $letters letters, $name($prime)" head lines less
    if [ "$name" = G2 ]; then
        seven >>"$rooms/head"
        for it in lines less; do sed 's/^form/matrix v/' "$rooms/$it" >"$rooms/matrix_$it"; done
        ours "matrix of dimension 7 of a word of $letters letters, $name($prime)" head matrix_lines matrix_less
        theirs "matrix of dimension 7 of a word of $letters letters, $name($prime)" 'Words()' 200 $((lines / 200))
    fi
}

# the name of a group, the prime, the generator, the number of positive roots, lines, the dimension, and the rows: the product of two forms
report_product() {
    name=$1 prime=$2 generator=$3 roots=$4 lines=$5 n=$6
    shift 6
    datum "$prime" "$generator" "$@" >"$rooms/head"
    products both "$roots" "$prime" $# "$lines" >"$rooms/both"
    products apart "$roots" "$prime" $# "$lines" >"$rooms/apart"
    ours "product of two forms, $name($prime)" head both apart
    theirs "product of two matrices of dimension $n over $prime" "Matrices($prime, $n)" 20 $((1 + 2000000 / n / n / n))
}

echo "$types" | while read -r name prime generator roots count rows; do
    [ -n "$name" ] && is_asked "$name" "$@" || continue
    case $name in
    G2 | F4 | E6)
        # shellcheck disable=SC2086
        report "$name" "$prime" "$generator" "$roots" $((count / 10)) 40 $rows
        ;;
    E8)
        # shellcheck disable=SC2086
        report "$name" "$prime" "$generator" "$roots" 20 4096 $rows
        ;;
    esac
done

[ $# -eq 0 ] || exit 0
echo "$product_types" | while read -r name prime generator roots lines n rows; do
    [ -n "$name" ] || continue
    # shellcheck disable=SC2086
    report_product "$name" "$prime" "$generator" "$roots" "$lines" "$n" $rows
done
