# What the scripts share. SOURCE is bindings/, BUILD the folder of cmake; a script works in a folder of its own.
set -eu
work=$(mktemp -d)
trap 'rm -rf "$work"' EXIT
warnings="-Wall -Wextra -Wpedantic -Werror"
tests="-D_POSIX_C_SOURCE=200809L -pthread -I$SOURCE/include"
root=$SOURCE/..

fail() {
    echo "failed: $*"
    exit 1
}

# Ends the script as skipped unless the program is on this machine.
needs() {
    command -v "$1" >/dev/null && return
    echo "skipped: $1 is not on this machine"
    exit 77
}
