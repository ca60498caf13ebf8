#!/bin/sh
# Times the audit of adjoint modules by the crate lie_identities, through the program test_audits.
#
#   sh bench/audit.sh               the named data of rank up to six, E_7 and E_8
#   sh bench/audit.sh E_8           one of them
#   AUDITS=PROGRAM sh bench/audit.sh ..  through this program, in place of the one that `rt run` proves and builds
#
# Each figure is the user time of a run, which makes the datum, its constants, the module and its signs too, the least of three.
set -eu
top=$(cd "$(dirname "$0")/.." && pwd)

# the row of a named datum, answered
answered() {
    printf 'adjoint: %s\n' "$1" | "$AUDITS"
}

# the time of that in user mode, in seconds, the least of three
least() {
    for _ in 1 2 3; do
        # shellcheck disable=SC2016 # the inner shell has the words
        sh -c 'printf "adjoint: %s\n" "$1" | "$0" >/dev/null; times' "$AUDITS" "$1" | tail -1 | awk -F'[ms]' '{ print 60 * $1 + $2 }'
    done | sort -n | head -1
}

if [ -z "${AUDITS:-}" ]; then
    (cd "$top/crates/test_audits" && rt run </dev/null >/dev/null 2>&1)
    AUDITS=$top/crates/test_audits/out/test_audits
fi
if [ $# -eq 0 ]; then
    set -- A_1 A_2 B_2 G_2 A_3 B_3 C_3 A_4 B_4 C_4 D_4 F_4 A_5 B_5 C_5 D_5 A_6 B_6 C_6 D_6 E_6 E_7 E_8
fi
for name; do
    printf '%s: %s s\n' "$(answered "$name")" "$(least "$name")"
done
