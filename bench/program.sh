# Names the program that a script of this folder runs, and is read by it behind `top`: PROGRAM where it is set, else the built one, which
# ./prove proves and builds where it isn't.
if [ -n "${PROGRAM:-}" ]; then
    PROGRAM=$(realpath "$PROGRAM") || exit 70
else
    "$top/prove" >&2 || exit 70
    PROGRAM=$top/crates/lie_cli/out/lie_cli
fi
export PROGRAM
