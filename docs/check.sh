#!/bin/sh
# Checks the documents against the sources, outside the gate; it needs python3.
#
#   sh docs/check.sh            what stands in files: a few seconds
#   sh docs/check.sh ./lie      and runs each session of README.md and docs/TOUR.md, and draws the pictures again, through this program
top=$(cd "$(dirname "$0")/.." && pwd) || exit 1
cd "$top" || exit 1
failed=0
for script in 'statement.py --check' proved.py layers.py links.py blocks.py; do
    echo "== docs/$script"
    # (words of a script's own)
    # shellcheck disable=SC2086
    python3 docs/$script || failed=1
done
echo "== data/make.py --check"
python3 data/make.py --check || failed=1
if [ $# -gt 0 ]; then
    echo "== docs/blocks.py --run"
    python3 docs/blocks.py --run "$@" || failed=1
    echo "== docs/pictures.py --check"
    python3 docs/pictures.py --check "$1" || failed=1
fi
exit $failed
