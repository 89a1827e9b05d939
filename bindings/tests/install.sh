# Installs into an empty folder, then builds and runs a program by pkg-config and one by find_package, shared and static.
. "$(dirname "$0")/lib.sh"
needs pkg-config
"$CMAKE" --install "$BUILD" --prefix "$work/to" >"$work/log" || fail "$(cat "$work/log")"
export PKG_CONFIG_PATH
PKG_CONFIG_PATH=$(dirname "$(find "$work/to" -name luzhanem.pc)")
lib=$(dirname "$PKG_CONFIG_PATH")
gcc -std=c11 -D_POSIX_C_SOURCE=200809L -pthread "$SOURCE/examples/two_tasks.c" $(pkg-config --cflags --libs luzhanem) -o "$work/shared"
LD_LIBRARY_PATH=$lib "$work/shared" || fail "the program by pkg-config"
ldd "$work/shared" | grep -q 'libluzhanem.so.0' || fail "it is not linked to the shared library"
[ "$(pkg-config --modversion luzhanem)" = 0.1.0 ] || fail "another version"
mkdir "$work/user"
cat >"$work/user/CMakeLists.txt" <<'END'
cmake_minimum_required(VERSION 3.18)
project(user C CXX)
find_package(luzhanem 0.1 REQUIRED)
find_package(Threads REQUIRED)
foreach(library luzhanem luzhanem_static)
    add_executable(with_${library} two_tasks.c)
    target_compile_definitions(with_${library} PRIVATE _POSIX_C_SOURCE=200809L)
    target_link_libraries(with_${library} luzhanem::${library} Threads::Threads)
endforeach()
END
cp "$SOURCE/examples/two_tasks.c" "$work/user"
"$CMAKE" -S "$work/user" -B "$work/built" -DCMAKE_PREFIX_PATH="$work/to" >"$work/log" || fail "$(cat "$work/log")"
"$CMAKE" --build "$work/built" >"$work/log" || fail "$(cat "$work/log")"
"$work/built/with_luzhanem" && "$work/built/with_luzhanem_static" || fail "a program by find_package"
