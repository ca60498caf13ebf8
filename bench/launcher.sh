#!/bin/sh
# Tests the launcher ./lie and ./prove on a copy of the sources, with a stand-in for rt that builds at once and proves nothing, so that it takes seconds
# and the program needn't be built.
#
#   sh bench/launcher.sh
#
# A source whose bytes change, one that comes, one that goes, and another list of crates make the program that was built one of other sources: then
# ./prove --current ends with 1, and ./lie says so and makes an unproved run. A source whose time alone changes doesn't, and the new time is kept.
# ./prove that was stopped goes on where it stood. Words, input and status pass through. Ten starts take at most two seconds in all; of five such
# measurements the best one counts, for the machine may have other work.
set -u
top=$(cd "$(dirname "$0")/.." && pwd) || exit 1
room=$(mktemp -d) || exit 1
trap 'rm -rf "$room"' EXIT
trap 'exit 130' INT TERM HUP
copy=$room/copy
mkdir "$room/bin" "$copy"
(cd "$top" && tar -cf - --exclude=out lie prove HANDLES crates.txt crates examples/torus.lie) | (cd "$copy" && tar -xf -) || exit 1

# what stands in for the kit: `rt lib`, `rt run` of the program, `rt try`
cat >"$room/bin/rt" <<'END'
#!/bin/sh
echo "$1 ${PWD##*/}" >>"$ROOM/rt.log"
case $1 in
lib) [ "${PWD##*/}" != "${STOP_AT-}" ] || sleep 60 ;;
run)
    cat >/dev/null
    mkdir -p out
    cp "$ROOM/program" out/lie_cli
    ;;
try)
    cat >/dev/null
    echo 'an unproved reply'
    echo 'run=ended status=3 proved=no' >&2
    exit 3
    ;;
esac
END
cat >"$room/program" <<'END'
#!/bin/sh
echo "words: $*"
cat
exit 5
END
chmod +x "$room/bin/rt" "$room/program"
ROOM=$room PATH=$room/bin:$PATH
export ROOM PATH

checks=0 failed=0
expect() {
    checks=$((checks + 1))
    if [ "$2" != "$3" ]; then
        printf 'launcher: %s: %s, not %s\n' "$1" "$2" "$3"
        failed=$((failed + 1))
    fi
}
current() {
    "$copy/prove" --current
    echo $?
}
# output, standard error and status of a start
start() {
    printf 'a line\n' | "$copy/lie" "$@" >"$room/output" 2>"$room/error"
    status=$?
}
is_proved() {
    expect "$1: --current" "$(current)" 0
    start run
    expect "$1: ./lie writes" "$(cat "$room/output")" 'words: run
a line'
    expect "$1: ./lie says" "$(cat "$room/error")" ''
    expect "$1: status of ./lie" "$status" 5
}
is_unproved() {
    expect "$1: --current" "$(current)" 1
    start run
    expect "$1: ./lie writes" "$(cat "$room/output")" 'an unproved reply'
    expect "$1: ./lie says" "$(cut -c 1-21 "$room/error")" 'lie: an unproved run,'
    expect "$1: status of ./lie" "$status" 3
}
stamp=$copy/crates/lie_cli/out/prove.stamp
source=$copy/crates/lie_base/specs/Lib.antt

is_unproved 'nothing is built'

# ./prove is stopped at a crate, and then proves the rest
middle=lie_letters
(STOP_AT=$middle exec "$copy/prove") >"$room/output" 2>&1 &
prove=$!
while ! grep -q "^lib $middle\$" "$room/rt.log"; do sleep 0.1; done
kill -TERM "$prove"
wait "$prove"
expect 'a stopped ./prove ends with' $? 130
expect 'a stopped ./prove says' "$(tail -n 1 "$room/output" | sed 's/.*: stopped/stopped/')" 'stopped: ./prove goes on from here'
is_unproved 'a stopped ./prove'
"$copy/prove" >"$room/output" 2>&1
expect './prove ends with' $? 0
is_proved 'all is built'
start a 'b c' ''
expect 'words' "$(head -n 1 "$room/output")" 'words: a b c '
start
expect 'without words ./lie says where the documents are' "$(cut -c 1-5 "$room/error")" 'lie: '

# a touched source is seen, and the program stays that of its sources
kept=$(head -n 1 "$stamp")
touch -d '2001-02-03 04:05:06' "$source"
is_proved 'a touched source'
expect 'the time of a touched source is kept' "$([ "$(head -n 1 "$stamp")" != "$kept" ] && echo yes)" yes

# a changed source of the same size, a new one, one that is gone, other crates; and back
cp "$source" "$room/kept"
tr 'a-z' 'b-za' <"$room/kept" >"$source"
is_unproved 'a changed source'
cp "$room/kept" "$source"
is_proved 'the source as it was'
echo >"$copy/crates/lie_base/specs/New.antt"
is_unproved 'a new source'
rm "$copy/crates/lie_base/specs/New.antt" "$source"
is_unproved 'a source that is gone'
cp "$room/kept" "$source"
is_proved 'all sources again'
cp "$copy/crates.txt" "$room/crates.txt"
sed 's/^lie_cli:/lie_cli: lie_gen/' "$room/crates.txt" >"$copy/crates.txt"
is_unproved 'another list of crates'
cp "$room/crates.txt" "$copy/crates.txt"
touch "$copy/crates/test_cases/src/lib.rt" && echo >>"$copy/crates/test_cases/src/lib.rt"
is_proved 'a changed crate that the program does not stand on'
mv "$copy/crates/lie_cli/out/lie_cli" "$room/away"
is_unproved 'a program that is gone'
mv "$room/away" "$copy/crates/lie_cli/out/lie_cli"

# ten starts; milliseconds
best=
for _ in 1 2 3 4 5; do
    began=$(date +%s%N)
    for _ in 1 2 3 4 5 6 7 8 9 10; do start run; done
    took=$((($(date +%s%N) - began) / 1000000))
    if [ -z "$best" ] || [ "$took" -lt "$best" ]; then best=$took; fi
done
expect 'ten starts take at most two seconds' "$([ "$best" -le 2000 ] && echo yes)" yes
echo "launcher: $checks checks, $failed failed; ten starts took $best ms"
[ "$failed" -eq 0 ]
