#!/bin/sh
# Measures the program beside GAP 4.12 and LiE 2.2.2, where they are installed (the Debian packages gap-core and lie), and prints one table.
#
#   sh bench/all.sh                          all that these scripts measure: collection.sh, dense.sh, weyl.sh, constants.sh, and form.sh over G2
#   sh bench/all.sh collection.sh dense.sh   some of them
#   PROGRAM=.. DENSE=.. GAP=.. LIE=..        other programs than the built one, bench_dense, gap and lie; GAP and LIE may be empty, for none
#   RUNS=1 PART=100 sh bench/all.sh          one run and a hundredth of the lines, to see that everything is there
#
# A time is the processor's, in microseconds, and the least of five runs: in each, that of many lines, less that of what isn't the thing itself. A ratio
# above 1 is marked by `!`. Instructions are counted by valgrind, where it is installed; the machine's other work doesn't change them. The lines of
# the scripts go to standard error as they come. The status is 1 where one of the scripts fails.
set -u
here=$(cd "$(dirname "$0")" && pwd) || exit 1
top=$(dirname "$here")
. "$here/program.sh"
GAP=${GAP-$(command -v gap)} LIE=${LIE-$(command -v lie)}
export GAP LIE
if command -v valgrind >/dev/null && command -v vgdb >/dev/null; then export INSTRUCTIONS="${INSTRUCTIONS-1}"; fi
lines=$(mktemp) || exit 1
trap 'rm -f "$lines"' EXIT
trap 'exit 130' INT TERM HUP

[ $# -gt 0 ] || set -- collection.sh dense.sh weyl.sh constants.sh form.sh
for script; do
    group=
    [ "$script" != form.sh ] || group=G2
    # shellcheck disable=SC2086 # a word or none
    { sh "$here/$script" $group || echo "failed $script"; } | tee -a "$lines" >&2
done

awk '
    $1 == "failed" { failed = 1; next }
    {
        who = $1
        what = $0
        sub(/^[^ ]+ +/, "", what)
        figures = what
        sub(/: .*/, "", what)
        sub(/.*: /, "", figures)
        split(figures, figure, " ")
        if (who == "lie") { order[++n] = what; time[what] = figure[1]; count[what] = figure[3] }
        else { peer[what] = who; peer_time[what] = figure[1]; peer_count[what] = figure[3] }
    }
    function ratio(a, b) { return a == "" || b + 0 == 0 ? "" : sprintf("%.2f%s", a / b, a > 1.0 * b ? " !" : "") }
    END {
        print "| One | microseconds | peer | its microseconds | ratio | instructions | its instructions | ratio |"
        print "|---|---:|---|---:|---:|---:|---:|---:|"
        for (i = 1; i <= n; i++) {
            what = it = order[i]
            # no peer has the form of a word
            sub(/^form of/, "matrix of dimension 7 of", it)
            printf "| %s | %s | %s | %s | %s | %s | %s | %s |\n", what, time[what], peer[it], peer_time[it], ratio(time[what], peer_time[it]), count[what], peer_count[it], ratio(count[what], peer_count[it])
        }
        exit failed
    }' "$lines"
