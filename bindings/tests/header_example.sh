# The ten lines at the head of luzhanem.h compile, and do what they say.
. "$(dirname "$0")/lib.sh"
needs gcc
{
    echo '#include "luzhanem.h"'
    echo '#include <stdio.h>'
    echo '#include <string.h>'
    echo 'int main(void) {'
    sed -n '/^ \*     static luzhanem_store s;/,/^ \*$/ s/^ \* //p' "$SOURCE/include/luzhanem.h" | tee "$work/lines"
    echo '    return r != 0 || luzhanem_length(&s, 3) != 13 || memcmp(luzhanem_file(&s, 3), "14:02 jingle\n", 13);'
    echo '}'
} >"$work/example.c"
[ "$(wc -l <"$work/lines")" = 10 ] || fail "not ten lines"
gcc -std=c11 -Wall -Wextra -Werror -I"$SOURCE/include" "$work/example.c" "$BUILD/libluzhanem.a" -o "$work/example"
"$work/example" || fail "another result"
