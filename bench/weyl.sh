#!/bin/sh
# Measures `weyl` on random words over E_8, through the built program, and LiE's `canonical` beside it.
#
#   sh bench/weyl.sh [LETTERS [LINES]]        240 letters and 2,000 words, if not said
#   LIE=lie sh bench/weyl.sh                  with LiE 2.2.2 (the Debian package `lie`), where it is installed
#
# The program's figure is that of lines `weyl` less that of as many `weyl -`; LiE's is that of a loop over the words less that of the same loop without
# the call.
set -eu
here=$(cd "$(dirname "$0")" && pwd)
top=$(dirname "$here")
. "$here/program.sh"
. "$here/data.sh"
letters=${1:-240}
lines=${2:-2000}

# as many random words of E_8, one a line, from a fixed seed
numbers() {
    awk -v letters="$letters" -v lines="$lines" 'BEGIN {
        srand(5)
        for (n = 0; n < lines; n++) {
            word = 1 + int(8 * rand())
            for (k = 1; k < letters; k++) word = word " " 1 + int(8 * rand())
            print word
        }
    }'
}

numbers >"$rooms/numbers"
e8 >"$rooms/head"
for _ in 1 2 3 4 5; do sed 's/^/weyl /' "$rooms/numbers"; done >"$rooms/lines"
sed 's/.*/weyl -/' "$rooms/lines" >"$rooms/less"
what="least word of $letters letters, E8"
ours "$what" head lines less

if [ -n "${LIE:-}" ]; then
    {
        printf 'maxnodes 900000\nmaxobjects %d\nm=[' $((2 * letters * lines + 40000))
        awk '{ gsub(/ /, ","); printf "%s[%s]", (NR > 1 ? "," : ""), $0 }' "$rooms/numbers"
        printf ']\ncanonical([1],E8)\n'
    } >"$rooms/head"
    repeated 'for k=1 to 5 do for w row m do canonical(w,E8) od od' 10 >"$rooms/lines"
    repeated 'for k=1 to 5 do for w row m do w od od' 10 >"$rooms/less"
    set -- --head "$rooms/head" --lines "$rooms/lines" --less "$rooms/less"
    python3 "$here/figure.py" LiE "$what" --each $((5 * lines)) "$@" -- "$LIE"
fi
