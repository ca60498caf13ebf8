#!/bin/sh
# Measures products of dense matrices over prime fields by the crate lie_dense, through the program bench_dense, and GAP's beside them.
#
#   sh bench/dense.sh                       the program alone
#   GAP=gap sh bench/dense.sh               with GAP 4.12 (the Debian package `gap-core`), where it is installed
#   DENSE=PROGRAM sh bench/dense.sh         this program, in place of the one that `rt run` proves and builds
#
# The entries come from one fixed sequence, and GAP's product must have the same sum of entries.
set -eu
here=$(cd "$(dirname "$0")" && pwd)
top=$(dirname "$here")
. "$here/data.sh"
if [ -z "${DENSE:-}" ]; then
    (cd "$top/crates/bench_dense" && rt run -- 5 2 27 1 >/dev/null 2>&1)
    DENSE=$top/crates/bench_dense/out/bench_dense
fi

# prime, generator, dimension, products by the program, and by GAP in twenties
while read -r prime generator n count twenties; do
    what="product of two matrices of dimension $n over $prime"
    python3 "$here/figure.py" lie "$what" --times "$count" -- "$DENSE" "$prime" "$generator" "$n"
    theirs "$what" "Matrices($prime, $n)" 20 "$twenties"
    if [ -n "${GAP:-}" ]; then
        sum=$("$DENSE" "$prime" "$generator" "$n" 1)
        other=$(cd "$here" && printf 'Read("products.g");Matrices(%d, %d);Print(Total(), "\\n");' "$prime" "$n" | "$GAP" -q -b --quitonbreak)
        if [ "$sum" != "$other" ]; then
            echo "$what: the sum of its entries is $sum, and $other by GAP" >&2
            exit 1
        fi
    fi
done <<END
5 2 7 400000 20000
5 2 27 20000 2000
2 1 56 5000 5000
2 1 248 60 500
END
