# A day of eight threads, recorded and replayed by `replay` without a difference; then the time that recording takes.
. "$(dirname "$0")/lib.sh"
"$BUILD/day" "$work/block" "$work/log"
if [ -x "$REPLAY" ]; then
    "$REPLAY" "$work/block" <"$work/log" >"$work/answers" 2>"$work/said" || fail "replay ended with $?"
    [ ! -s "$work/said" ] || fail "replay: $(cat "$work/said")"
    [ "$(grep -c '^=' "$work/log")" = "$(wc -l <"$work/answers")" ] || fail "not every call was answered"
    # It would have said so: one answer changed.
    sed '5000,6000 s/^= ok 0$/= ok 1/' "$work/log" >"$work/changed"
    "$REPLAY" "$work/block" <"$work/changed" 2>&1 >/dev/null | grep -q 'answers differ' || fail "a changed answer was not seen"
    "$REPLAY" <"$work/log" 2>&1 >/dev/null | grep -q 'differ' || fail "another start was not seen"
    echo "replayed: $(wc -l <"$work/answers") answers, no difference"
else
    echo "$REPLAY is not there (tools/proved replay builds it)"
    exit 77
fi
"$BUILD/day" time || fail "recording costs more than 2 x"
