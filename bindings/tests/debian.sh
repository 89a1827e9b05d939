# The Debian packages: cpack makes them, lintian accepts them, and a program builds from what is in them.
. "$(dirname "$0")/lib.sh"
needs cpack
needs dpkg-deb
needs dpkg-shlibdeps
"$CMAKE" -S "$SOURCE" -B "$work/deb" -DCMAKE_INSTALL_PREFIX=/usr -DBUILD_TESTING=OFF \
    -DLUZHANEM_PROVED="$(sed -n 's/^LUZHANEM_PROVED:PATH=//p' "$BUILD/CMakeCache.txt")" >"$work/log" || fail "$(cat "$work/log")"
"$CMAKE" --build "$work/deb" >"$work/log" || fail "$(cat "$work/log")"
(cd "$work/deb" && cpack) >"$work/log" 2>&1 || fail "$(cat "$work/log")"
for package in libluzhanem0 libluzhanem-dev; do
    deb=$(echo "$work"/deb/${package}_0.1.0_*.deb)
    [ -f "$deb" ] || fail "$package was not made"
    dpkg-deb -x "$deb" "$work/to"
    dpkg-deb -f "$deb" Package Version Depends
done
lib=$(dirname "$(find "$work/to" -name libluzhanem.so.0.1.0)")
gcc -std=c11 -D_POSIX_C_SOURCE=200809L -pthread "$SOURCE/examples/two_tasks.c" -I"$work/to/usr/include" -L"$lib" -lluzhanem -o "$work/user"
LD_LIBRARY_PATH=$lib "$work/user" || fail "a program from the packages"
needs lintian
lintian --allow-root --fail-on error,warning "$work"/deb/*.deb || fail "lintian"
