# Bad input, images, lines and the classes under the address and undefined behaviour sanitizers.
. "$(dirname "$0")/lib.sh"
needs gcc
needs g++
sanitizers="-fsanitize=address,undefined -fno-sanitize-recover=all -g -O1"
echo 'int main(void) { return 0; }' >"$work/none.c"
if ! gcc $sanitizers "$work/none.c" -o "$work/none" 2>/dev/null; then
    echo "skipped: the sanitizers' libraries are not on this machine"
    exit 77
fi
for file in "$SOURCE"/src/*.c; do
    gcc -std=c11 $sanitizers $tests -c "$file" -o "$work/$(basename "$file").o"
done
for test in calls bad_input images recording; do
    gcc -std=c11 $sanitizers $tests "$SOURCE/tests/$test.c" "$work"/*.o "$BUILD"/proved/*.o -o "$work/$test"
    "$work/$test" || fail "$test"
done
g++ -std=c++17 $sanitizers $tests "$SOURCE/tests/store.cpp" "$work"/*.o "$BUILD"/proved/*.o -o "$work/classes"
"$work/classes" || fail "classes"
# They report: a byte past a store's end.
printf '%s\n' '#include "luzhanem.h"' '#include <stdlib.h>' \
    'int main(void) { luzhanem_store *s = malloc(sizeof *s - 3); return luzhanem_check(s) + s->unused_[1]; }' >"$work/past.c"
gcc -std=c11 -w $sanitizers $tests "$work/past.c" "$work"/*.o "$BUILD"/proved/*.o -o "$work/past"
if "$work/past" >/dev/null 2>&1; then fail "a read past the end was not reported"; fi
