# What the measurements share: the data, their lines up to `load`, words, and the lines of figures (figure.py). It is read by a script
# that sets `here` and `top`.
rooms=$(mktemp -d)
trap 'rm -rf "$rooms"' EXIT
trap 'exit 130' INT TERM HUP

# name, prime, generator, positive roots, lines, and the rows of the Cartan matrix
types='
G2 5 2 6 40000 2,-1 -3,2
B3 5 2 9 20000 2,-1,0 -1,2,-2 0,-1,2
A5 5 2 15 10000 2,-1,0,0,0 -1,2,-1,0,0 0,-1,2,-1,0 0,0,-1,2,-1 0,0,0,-1,2
F4 5 2 24 10000 2,-1,0,0 -1,2,-2,0 0,-1,2,-1 0,0,-1,2
E6 5 2 36 5000 2,0,-1,0,0,0 0,2,0,-1,0,0 -1,0,2,-1,0,0 0,-1,-1,2,-1,0 0,0,0,-1,2,-1 0,0,0,0,-1,2
E8 2 1 120 2000 2,0,-1,0,0,0,0,0 0,2,0,-1,0,0,0,0 -1,0,2,-1,0,0,0,0 0,-1,-1,2,-1,0,0,0 0,0,0,-1,2,-1,0,0 0,0,0,0,-1,2,-1,0 0,0,0,0,0,-1,2,-1 0,0,0,0,0,0,-1,2
'

# the lines up to `load` of a prime, a generator, and rows: these as simple roots, unit vectors as simple coroots
datum() {
    prime=$1 generator=$2
    shift 2
    printf 'field %d 1 0 %d\ndatum %d %d\n' "$prime" "$generator" $# $#
    for row in "$@"; do printf 'root %s\n' "$(echo "$row" | tr ',' ' ')"; done
    for i in $(seq $#); do
        awk -v i="$i" -v n=$# 'BEGIN { printf "coroot"; for (k = 1; k <= n; k++) printf " %d", k == i; print "" }'
    done
    printf 'load\n'
}

# those of E_8 over the field of two elements
e8() {
    # shellcheck disable=SC2046 # the rows are several words
    datum 2 1 $(echo "$types" | sed -n 's/^E8 2 1 120 [0-9]* //p')
}

# `form` lines of so many letters each: a root element of any root, a Weyl representative or its inverse, or a torus element
words() {
    awk -v roots="$1" -v prime="$2" -v rank="$3" -v lines="$4" -v letters="$5" 'BEGIN {
        srand(11)
        for (n = 0; n < lines; n++) {
            line = "form"
            for (k = 1; k <= letters; k++) {
                kind = int(3 * rand())
                if (kind == 0) letter = sprintf("x%s%d(%d)", rand() < 0.5 ? "-" : "", 1 + int(roots * rand()), 1 + int((prime - 1) * rand()))
                else if (kind == 1) letter = sprintf("n%d%s", 1 + int(rank * rand()), rand() < 0.5 ? "\047" : "")
                else {
                    letter = "h("
                    for (j = 1; j <= rank; j++) letter = letter (j > 1 ? "," : "") (1 + int((prime - 1) * rand()))
                    letter = letter ")"
                }
                line = line " " letter
            }
            print line
        }
    }'
}

# the first word, so many times, one a line
repeated() { awk -v line="$1" -v lines="$2" 'BEGIN { for (n = 0; n < lines; n++) print line }'; }

# whether a name is among those that are given behind it; each is, where none is given
is_asked() {
    [ $# -gt 1 ] || return 0
    asked=$1
    shift
    for it; do [ "$it" != "$asked" ] || return 0; done
    return 1
}

# a figure of the program, by files in the room: what, the lines before, the lines, those that are taken off, and those that end the run, if there are any
ours() { python3 "$here/figure.py" lie "$1" --head "$rooms/$2" --lines "$rooms/$3" --less "$rooms/$4" ${5:+--tail "$rooms/$5"} -- "$PROGRAM" run; }

# a figure of GAP, where GAP names it: what, the line that makes the factors (products.g), how many of them it makes, and how often all are multiplied
theirs() {
    [ -n "${GAP:-}" ] || return 0
    printf 'Read("products.g");\n%s;\nProducts();\n' "$2" >"$rooms/gap_head"
    repeated 'Products();' "$4" >"$rooms/gap_lines"
    repeated 'Empty();' "$4" >"$rooms/gap_less"
    set -- "$1" --each "$3" --head "$rooms/gap_head" --lines "$rooms/gap_lines" --less "$rooms/gap_less"
    (cd "$here" && python3 figure.py GAP "$@" -- "$GAP" -q -b --quitonbreak)
}
