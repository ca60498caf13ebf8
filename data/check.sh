#!/bin/sh
# Loads each header of this folder through the program, and compares the replies; where there is GAP, cartan.g is run too.
#
#   sh data/check.sh                 each field with a torus, each group over two and over three elements
#   sh data/check.sh 'SL* G2'        those groups alone, without the fields
#   PROGRAM=.. sh data/check.sh      through this program
#
# The program is ./lie where ./prove has built it. Else one unproved run of rt takes all, which needs minutes for a group of some fifty roots, so name
# small groups then. The program itself tests each generator. The numbers of roots are those of the types, n (n + 1) for A_n, 2 n^2 for B_n and C_n,
# 2 n (n - 1) for D_n, 72, 126, 240, 48, 12 for E_6, E_7, E_8, F_4, G_2; the dimension of the natural module is the one that the header tells.
set -u
top=$(cd "$(dirname "$0")/.." && pwd) && cd "$top" || exit 1
room=$(mktemp -d) || exit 1
trap 'rm -rf "$room"' EXIT
trap 'exit 130' INT TERM HUP
mkdir "$room/scripts" "$room/wanted" "$room/replies"

# the number of roots of a type such as C_3, or of several
roots_of() {
    for it in "$@"; do echo "$it"; done | awk -F_ '
        $1 == "A" { sum += $2 * ($2 + 1) }
        $1 == "B" || $1 == "C" { sum += 2 * $2 * $2 }
        $1 == "D" { sum += 2 * $2 * ($2 - 1) }
        $1 == "E" { sum += $2 == 6 ? 72 : $2 == 7 ? 126 : 240 }
        $1 == "F" { sum += 48 }
        $1 == "G" { sum += 12 }
        END { print sum + 0 }'
}

# a script, and what it must reply
field_case() {
    cat "data/fields/$1" data/groups/T1 >"$room/scripts/field_$1"
    echo "loaded $1 1 0" >"$room/wanted/field_$1"
}
group_case() {
    file=data/groups/$1 name=$1_over_$2
    kind=$(sed -n 's/^# module nat //p' "$file")
    { cat "data/fields/$2" "$file" && echo "module nat $kind"; } >"$room/scripts/$name"
    # (the types are several words)
    # shellcheck disable=SC2046
    count=$(roots_of $(sed -n 's/^# type \([^;]*\);.*/\1/p' "$file"))
    echo "loaded $2 $(sed -n 's/^datum \([0-9]*\) .*/\1/p' "$file") $count" >"$room/wanted/$name"
    echo "module nat $(sed -n 's/^#   dimension \([0-9]*\);.*/\1/p' "$file")" >>"$room/wanted/$name"
}

if [ $# -eq 0 ]; then
    for it in data/fields/*; do field_case "${it#data/fields/}"; done
    set -- '*'
fi
# (the names are patterns for files of data/groups)
# shellcheck disable=SC2086
for it in $(cd data/groups && ls -d $1); do
    group_case "$it" 2
    group_case "$it" 3
done

if [ -z "${PROGRAM:-}" ] && ./prove --current; then PROGRAM=./lie; fi
if [ -n "${PROGRAM:-}" ]; then
    for it in "$room"/scripts/*; do "$PROGRAM" run <"$it" >"$room/replies/${it##*/}"; done
else
    echo "data/check.sh: an unproved run by rt" >&2
    (cd crates/lie_cli && rt try --seconds 3600 --cases "$room/scripts" -- run) >"$room/said" 2>"$room/error" || cat "$room/error" >&2
    awk -v room="$room/replies/" '/^== / { file = room $2; next } file { print >file }' "$room/said"
fi

failed=0 count=0
for it in "$room"/wanted/*; do
    name=${it##*/}
    count=$((count + 1))
    # of the reply to `load` the dimension of the carrier is left out
    sed 's/^\(loaded [0-9]* [0-9]* [0-9]*\) [0-9]*$/\1/' "$room/replies/$name" >"$room/got" 2>/dev/null
    if ! cmp -s "$room/got" "$it"; then
        echo "$name: $(cat "$room/replies/$name" 2>/dev/null)"
        failed=$((failed + 1))
    fi
done
echo "$count headers loaded, $failed faults"
if command -v gap >/dev/null 2>&1; then
    echo "== data/cartan.g"
    gap -q -b data/cartan.g </dev/null || failed=1
fi
[ "$failed" -eq 0 ]
