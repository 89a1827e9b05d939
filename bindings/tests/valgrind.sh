# Bad input and recording under valgrind's memcheck, which sees the proved object too; and a fault that it must report.
. "$(dirname "$0")/lib.sh"
needs valgrind
needs gcc
check="valgrind -q --error-exitcode=9"
for test in images recording; do
    sed 's/4000; i++/200; i++/; s/20000; i++/500; i++/; s/round < 300/round < 20/; s/> 300 \&\& undone > 30/> 20/
        s/refused > 2000 \&\& taken > 100/refused > 50/; s/many > 100 .*refusals > 50/many > 1/' \
        "$SOURCE/tests/$test.c" >"$work/$test.c"
    gcc -std=c11 -O1 -g $tests -I"$SOURCE/tests" "$work/$test.c" "$BUILD/libluzhanem.a" -o "$work/$test"
    $check "$work/$test" || fail "$test"
done
sed 's/200000; i++/4000; i++/; s/accepted > 20000 .*refused\[19\] > 100/accepted > 400/' \
    "$SOURCE/tests/bad_input.c" >"$work/bad_input.c"
gcc -std=c11 -O1 -g $tests -I"$SOURCE/tests" "$work/bad_input.c" "$BUILD/libluzhanem.a" -o "$work/bad_input"
$check "$work/bad_input" || fail "bad_input"
printf '%s\n' '#include "luzhanem.h"' '#include <stdlib.h>' \
    'int main(void) { return luzhanem_check(malloc(3000)) == 7; }' >"$work/past.c"
gcc -std=c11 -w $tests "$work/past.c" "$BUILD/libluzhanem.a" -o "$work/past"
if $check "$work/past" >/dev/null 2>&1; then fail "a read past the end was not reported"; fi
