#!/bin/sh
# Times a tensor product of dimension 256, its dual and a table of 20,000 entries, through the built program, and the memory of 16 modules.
#
#   sh bench/products.sh
#
# It needs python3 and Linux's /proc.
set -eu
here=$(cd "$(dirname "$0")" && pwd)
top=$(dirname "$here")
. "$here/program.sh"
exec python3 "$here/products.py" "$@"
