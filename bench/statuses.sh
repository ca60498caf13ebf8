#!/bin/sh
# Runs the built program so that it ends with each status that a script can bring about, and compares the status, what stands on
# standard error, and what was written.
#
#   sh bench/statuses.sh
#
# Each case that differs is told, and then the script ends with 1. Status 6 needs a machine that refuses memory: it is brought about by a
# limit on the memory of the process.
set -u
here=$(cd "$(dirname "$0")" && pwd)
top=$(dirname "$here")
. "$here/program.sh"
room=$(mktemp -d)
trap 'rm -rf "$room"' EXIT
usage='usage: lie run | lie check | lie demo <n>'
failed=0 cases=0

# compares the status of a case, and its output and standard error in the room, with those that are wanted; the texts are given
# without their last line feed
told() {
    name=$1 got=$2 status=$3 output=$4 error=$5
    cases=$((cases + 1))
    if [ "$got" != "$status" ]; then
        echo "$name: status $got, not $status"
        failed=1
    fi
    for part in output error; do
        if [ "$part" = output ]; then wanted=$output; else wanted=$error; fi
        if [ -n "$wanted" ]; then printf '%s\n' "$wanted"; fi >"$room/wanted"
        if ! cmp -s "$room/wanted" "$room/$part"; then
            echo "$name: $part is"
            head -c 300 "$room/$part"
            echo "$name: $part should be"
            cat "$room/wanted"
            failed=1
        fi
    done
}

# a case: its name, the script, the status, output and standard error that are wanted, then the words of the command line
case_of() {
    name=$1 script=$2 status=$3 output=$4 error=$5
    shift 5
    printf "$script" | "$PROGRAM" "$@" >"$room/output" 2>"$room/error"
    told "$name" $? "$status" "$output" "$error"
}

torus='field 5 1 0 2\ndatum 1 0\nload\n'
loaded='loaded 5 1 0 1'

case_of done "$torus" 0 "$loaded" '' run
case_of 'a refused line' "${torus}fomr\n" 1 "$loaded
refused 4 command 1" '' run
case_of 'a refused line in a check' "${torus}fomr\n" 0 "$loaded" '' check
case_of 'a refused field' 'field 4 1 0 3\n' 3 'refused 1 generator 2' '' run
case_of 'the empty input' '' 3 'refused 0 end' '' check

case_of 'no words' "$torus" 2 '' "$usage"
case_of 'another word' "$torus" 2 '' "$usage" walk
case_of 'two words' "$torus" 2 '' "$usage" run run
case_of 'an empty word' "$torus" 2 '' "$usage" ''
case_of 'a word with a blank' "$torus" 2 '' "$usage" 'run '
case_of 'a demonstration with a leading zero' "$torus" 2 '' "$usage" demo 01
case_of 'a word that is no UTF-8' "$torus" 2 '' "$usage" "$(printf '\377')"
case_of 'a second word that is no UTF-8' "$torus" 2 '' "$usage" run "$(printf 'a\200')"

# a folder can be opened and not read
"$PROGRAM" run <"$top/examples" >"$room/output" 2>"$room/error"
told 'a folder as input' $? 4 '' 'lie: read fault'
"$PROGRAM" run <&- >"$room/output" 2>"$room/error"
told 'a closed input' $? 4 '' 'lie: read fault'

# a device that is always full
if [ -w /dev/full ]; then
    : >"$room/output"
    printf "$torus" | "$PROGRAM" run >/dev/full 2>"$room/error"
    told 'a full device' $? 5 '' 'lie: write fault'
fi
: >"$room/output"
printf "$torus" | "$PROGRAM" run >&- 2>"$room/error"
told 'a closed output' $? 5 '' 'lie: write fault'

# about the size of the input, which is kept whole
lines_of() { { printf "$torus"; head -c "$1" /dev/zero | tr '\0' '\n'; }; }
lines_of 16777187 | (ulimit -v 20000 && exec "$PROGRAM" run) >"$room/output" 2>"$room/error"
told 'little memory' $? 6 '' 'lie: no memory'

lines_of 16777187 | "$PROGRAM" run >"$room/output" 2>"$room/error"
told '16777216 bytes' $? 0 "$loaded" ''
lines_of 16777188 | "$PROGRAM" run >"$room/output" 2>"$room/error"
told '16777217 bytes' $? 7 '' 'lie: input too long'
lines_of 16777188 | "$PROGRAM" check >"$room/output" 2>"$room/error"
told '16777217 bytes in a check' $? 7 '' 'lie: input too long'

# what the program wrote stays where nobody takes what it says of a failure
printf "$torus" | "$PROGRAM" walk >"$room/output" 2>&-
got=$?
: >"$room/error"
told 'a closed standard error' "$got" 2 '' ''

echo "$cases cases"
exit $failed
