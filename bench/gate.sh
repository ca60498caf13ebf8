#!/bin/sh
# The processor time of the gate, crate by crate: runs `rt ci` at the top of the repository and watches the processes that it starts.
#
#   sh bench/gate.sh             prints the table, in processor seconds; what `rt ci` says goes to standard error
#   sh bench/gate.sh --write     puts it into bench/README.md too
#   sh bench/gate.sh COMMAND ..  watches another command in place of `rt ci`
#
# It takes as long as `rt ci`, and wants a machine with nothing else running. It needs python3 and Linux's /proc.
exec python3 "$(dirname "$0")/gate.py" "$@"
