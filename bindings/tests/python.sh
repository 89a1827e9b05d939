# The tests of the Python package, and the sample trace.
. "$(dirname "$0")/lib.sh"
needs python3
export PYTHONPATH=$SOURCE/python LUZHANEM_LIBRARY=$BUILD/libluzhanem.so PYTHONDONTWRITEBYTECODE=1
python3 -m unittest discover -s "$SOURCE/python/tests" || fail "unittest"
python3 "$SOURCE/python/tests/replay.py" trace <"$root/samples/afternoon.trace" | cmp - "$root/samples/afternoon.txt" || fail "the sample trace"
# Beside itself, and by nothing: what it says then.
cp -r "$SOURCE/python/luzhanem" "$work/luzhanem"
cp "$BUILD/libluzhanem.so" "$work/luzhanem/libluzhanem.so"
env -u LUZHANEM_LIBRARY PYTHONPATH="$work" python3 -c 'import luzhanem; luzhanem.Store().begin(0)' || fail "the library beside the package"
LUZHANEM_LIBRARY=$work/none.so python3 -c 'import luzhanem' 2>&1 | grep -q 'ImportError.*LUZHANEM_LIBRARY' || fail "no library, and no word"
mypy=$(command -v mypy || true)
if python3 -c 'import mypy' 2>/dev/null; then mypy="python3 -m mypy"; fi
[ -z "$mypy" ] || $mypy --strict --cache-dir="$work/mypy" "$SOURCE/python/luzhanem" || fail "mypy"
