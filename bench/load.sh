#!/bin/sh
# Times `load`, by time and memory, through the built program: E_8, E_7, SL_3, G_2 and all named data, beside their limits.
#
#   sh bench/load.sh             all of them
#   sh bench/load.sh E_8 A_8     some, over two and over three elements
set -eu
here=$(cd "$(dirname "$0")" && pwd)
top=$(dirname "$here")
. "$here/program.sh"
exec python3 "$here/load.py" "$@"
