# Every C and C++ file compiles without a warning, with gcc and with clang; each header alone, by each standard.
. "$(dirname "$0")/lib.sh"
needs gcc
needs g++
cp "$SOURCE/tests/replay.c" "$work/replay.cpp"

compile() { # C compiler, C++ compiler
    for file in "$SOURCE"/src/*.c "$SOURCE"/tests/*.c "$SOURCE"/examples/*.c; do
        "$1" -std=c11 $warnings $tests -fsyntax-only "$file" || fail "$1 $file"
    done
    for file in "$SOURCE"/tests/*.cpp "$work"/*.cpp; do
        "$2" -std=c++17 $warnings $tests -fsyntax-only "$file" || fail "$2 $file"
    done
    "$1" -std=c11 $warnings -fsyntax-only -x c "$SOURCE/include/luzhanem.h" || fail "$1: luzhanem.h as C11"
    for standard in 17 20; do
        for header in luzhanem.h luzhanem.hpp; do
            "$2" -std=c++$standard $warnings -fsyntax-only -x c++ "$SOURCE/include/$header" || fail "$2: $header as C++$standard"
        done
    done
}

compile gcc g++
echo "gcc: no warning"
needs clang
needs clang++
compile clang clang++
echo "clang: no warning"
