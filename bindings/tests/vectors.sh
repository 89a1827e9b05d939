# The vectors of the folder LUZHANEM_VECTORS, through C, C++ and Python (Rust reads them itself).
. "$(dirname "$0")/lib.sh"
if [ -z "${LUZHANEM_VECTORS:-}" ]; then
    echo "skipped: LUZHANEM_VECTORS names no folder"
    exit 77
fi
lists=
for level in 11 13 10 14; do lists="$lists $LUZHANEM_VECTORS/calls/level-$level.txt"; done
"$BUILD/replay_c" vectors $lists || fail "C"
"$BUILD/replay_cpp" vectors $lists || fail "C++"
python="env PYTHONPATH=$SOURCE/python LUZHANEM_LIBRARY=$BUILD/libluzhanem.so python3 $SOURCE/python/tests/replay.py"
command -v python3 >/dev/null && { $python vectors $lists || fail "Python"; }
for input in "$LUZHANEM_VECTORS"/traces/*.stdin; do
    want=${input%.stdin}.stdout8
    for program in "$BUILD/replay_c" "$BUILD/replay_cpp"; do
        $program trace <"$input" | cmp - "$want" || fail "$program $input"
    done
    command -v python3 >/dev/null && { $python trace <"$input" | cmp - "$want" || fail "Python $input"; }
done
true
