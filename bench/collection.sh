#!/bin/sh
# Measures the product of two full elements of the positive root group, through the built program, and GAP beside it.
#
#   sh bench/collection.sh                    the program alone
#   GAP=gap sh bench/collection.sh            with GAP 4.12 (the Debian package `gap-core`), where it is installed
#   sh bench/collection.sh G2 E8              these groups alone
#
# The program's figure: `form` lines whose words are two full elements one after the other, less the same lines with each word's
# letters sorted by root. GAP's is that of its kernel's collector for p-groups.
set -eu
here=$(cd "$(dirname "$0")" && pwd)
top=$(dirname "$here")
. "$here/program.sh"
. "$here/data.sh"

# `form` lines of two full elements: how = apart for one after the other, sorted for both letters of a root side by side
lines() {
    awk -v how="$1" -v roots="$2" -v prime="$3" -v lines="$4" 'BEGIN {
        srand(7)
        for (n = 0; n < lines; n++) {
            for (k = 1; k <= 2 * roots; k++) a[k] = 1 + int((prime - 1) * rand())
            line = "form"
            for (k = 1; k <= 2 * roots; k++) {
                place = how == "apart" ? k : (k % 2 ? (k + 1) / 2 : roots + k / 2)
                line = line sprintf(" x%d(%d)", place > roots ? place - roots : place, a[place])
            }
            print line
        }
    }'
}

echo "$types" | while read -r name prime generator roots count rows; do
    [ -n "$name" ] && is_asked "$name" "$@" || continue
    # shellcheck disable=SC2086
    datum "$prime" "$generator" $rows >"$rooms/head"
    lines apart "$roots" "$prime" "$count" >"$rooms/apart"
    lines sorted "$roots" "$prime" "$count" >"$rooms/sorted"
    what="product of two full elements of U, $name($prime)"
    ours "$what" head apart sorted
    theirs "$what" "FullElements(\"${name%?}\", ${name#?}, $prime)" 200 $((count / 200))
done
