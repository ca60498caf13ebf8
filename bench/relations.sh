#!/bin/sh
# Checks that both sides of each relation have equal matrices, through the built program: for each script of bench/relations.
#
#   sh bench/relations.sh
#
# In each script the `matrix` lines stand in pairs, the two sides of one relation. Where python3 is there, the whole output is also
# compared with what bench/relations.py works out from the definitions. The scripts of A_2 and G_2 over five are cases of the gate too, in
# crates/test_transcripts/stdin: that they and their replies are still the same is checked first.
set -eu
here=$(cd "$(dirname "$0")" && pwd)
top=$(dirname "$here")
rooms=$(mktemp -d)
trap 'rm -rf "$rooms"' EXIT

# counts the pairs whose replies differ: each `module` reply tells the rows of a reply
differing() {
    awk 'NR == FNR { if ($1 == "matrix") order[++matrices] = $2; next }
        $1 == "module" { rows[$2] = $3; next }
        $1 == "loaded" { next }
        { if (at == 0) { reply++; left = rows[order[reply]]; text = "" }
          text = text $0 "\n"; at++
          if (at == left) { at = 0; if (reply % 2) first = text; else { pairs++; if (text != first) bad++ } } }
        END { if (reply != matrices) bad++; printf "%d %d\n", pairs, bad }' "$1" "$2"
}

# the lines with a mark, of the case with this name
lines_of() {
    awk -v name="case $1" -v mark="$2 " '$0 == name { inside = 1; next } inside && $0 == "" { exit }
        inside && index($0, mark) == 1 { print substr($0, 3) }' "$top/crates/test_transcripts/stdin"
}

. "$here/program.sh"
if command -v python3 >/dev/null 2>&1; then python3 "$here/relations.py" "$rooms/worked" >/dev/null; fi
failed=0
for name in A2 G2; do
    lines_of "relations of $name over 5" '>' >"$rooms/script"
    cmp "$here/relations/${name}_5.lie" "$rooms/script" || failed=1
    if [ -f "$rooms/worked/${name}_5.out" ]; then
        lines_of "relations of $name over 5" '<' >"$rooms/replies"
        cmp "$rooms/worked/${name}_5.out" "$rooms/replies" || failed=1
    fi
done
for script in "$here"/relations/*.lie; do
    name=$(basename "$script" .lie)
    "$PROGRAM" run <"$script" >"$rooms/out" || failed=1
    set -- $(differing "$script" "$rooms/out")
    [ "$2" = 0 ] || failed=1
    worked=
    if [ -f "$rooms/worked/$name.out" ]; then
        if cmp -s "$rooms/worked/$name.out" "$rooms/out"; then worked=', as worked out'; else worked=', OTHER THAN WORKED OUT' failed=1; fi
    fi
    echo "$name: $1 relations, $2 with unequal sides$worked"
done
exit $failed
