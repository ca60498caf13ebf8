#!/bin/sh
# Times `reduce` blocks of matrices of random words, through the built program, and tells whether each is reduced to the form of its word.
#
#   sh bench/reduce.sh
#
# It needs python3 and Linux's /proc.
here=$(cd "$(dirname "$0")" && pwd)
top=$(dirname "$here")
. "$here/program.sh"
exec python3 "$here/reduce.py"
