# The shared library shows the functions of luzhanem.h and nothing else; its stack is not executable, its soname has the 0.
. "$(dirname "$0")/lib.sh"
needs nm
needs readelf
sed -n 's/^[a-z].*[ *]\(luzhanem_[a-z_]*\)(.*/\1/p' "$SOURCE/include/luzhanem.h" | sort >"$work/header"
nm -D --defined-only "$BUILD/libluzhanem.so" | sed -n 's/.* T //p' | sed 's/@.*//' | sort >"$work/library"
nm -D --defined-only "$BUILD/libluzhanem.so" | grep -v ' [TA] ' && fail "more than functions is visible"
[ "$(wc -l <"$work/header")" -ge 40 ] || fail "the header's functions were not found"
diff "$work/header" "$work/library" || fail "header (<) and library (>) differ"
readelf -d "$BUILD/libluzhanem.so" | grep -q 'SONAME.*\[libluzhanem.so.0\]' || fail "another soname"
readelf -d "$BUILD/libluzhanem.so" | grep -q TEXTREL && fail "text relocations"
readelf -lW "$BUILD/libluzhanem.so" | grep -q 'GNU_STACK.* RW ' || fail "an executable stack"
echo "$(wc -l <"$work/header") functions"
