# luzhanem_replay_line reads lines as the proved program `replay` does: its stored run, the sample, and lines that are nearly
# right, which the twin makes.
. "$(dirname "$0")/lib.sh"
if [ ! -x "$REPLAY" ]; then
    echo "skipped: $REPLAY is not there (tools/proved replay builds it)"
    exit 77
fi
held() {
    "$REPLAY" <"$1" >"$work/answers" 2>/dev/null || fail "replay ended with $?"
    "$BUILD/replay_lines" "$work/answers" <"$1" | tail -n 5
    [ "${PIPESTATUS[0]}" = 0 ] || fail "$1"
}
held "$root/crates/replay/stdin"
{ cat "$root/samples/evening.log"; for i in 1 2 3 4 5; do grep -v '^V' "$root/samples/evening.log"; done; } >"$work/sample"
held "$work/sample"
needs cargo
make() { cargo run --offline --locked --release --quiet --manifest-path "$root/twin/Cargo.toml" -- "$@"; }
make --make-lines 7 100000 >"$work/lines"
held "$work/lines"
make --make-log 7 100000 >"$work/log"
held "$work/log"
