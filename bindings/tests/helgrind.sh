# Helgrind is silent about eight tasks under one lock, and reports races when the lock is left out.
. "$(dirname "$0")/lib.sh"
needs valgrind
needs gcc
races="valgrind -q --tool=helgrind --error-exitcode=9"
gcc -std=c11 -O2 -g $tests "$SOURCE/tests/threads.c" "$BUILD/libluzhanem.a" -o "$work/threads"
$races "$work/threads" 100 || fail "a race under the lock"
gcc -std=c11 -O2 -g -DWITHOUT_LOCK $tests "$SOURCE/tests/threads.c" "$BUILD/libluzhanem.a" -o "$work/unlocked"
timeout 60 $races "$work/unlocked" 3 >"$work/out" 2>&1 && fail "no race reported without the lock"
grep -q 'Possible data race' "$work/out" || fail "no race reported without the lock"
