#!/bin/sh
# Measures the structure constants of E_8, through the built program, and GAP's full table of them beside it, in the same order of roots and with
# the same signs.
#
#   sh bench/constants.sh
#   GAP=gap sh bench/constants.sh             with GAP 4.12 (the Debian package `gap-core`), where it is installed
#
# The program's figure is that of a line `collect` before `load`: the constants, and also the terms of the commutators, the adjoint module, signs and
# braid values. The datum is made before, behind the last line `coroot`. GAP's is that of the table alone (lie_data.g).
set -eu
here=$(cd "$(dirname "$0")" && pwd)
top=$(dirname "$here")
. "$here/program.sh"
. "$here/data.sh"

e8 | grep -v load >"$rooms/head"
echo 'collect 1' >"$rooms/lines"
: >"$rooms/less"
echo 'load' >"$rooms/tail"
ours 'structure constants, E8' head lines less tail
if [ -n "${GAP:-}" ]; then
    echo 'Read("lie_data.g");' >"$rooms/head"
    echo 'LieData("E", 8);;' >"$rooms/lines"
    cd "$here" && python3 figure.py GAP 'structure constants, E8' --head "$rooms/head" --lines "$rooms/lines" -- "$GAP" -q -b --quitonbreak
fi
