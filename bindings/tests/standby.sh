# A standby that follows `tail -F` of a log through a pipe ends with the files of the store that was recorded.
. "$(dirname "$0")/lib.sh"
log=$work/day.log
: >"$log"
mkfifo "$work/pipe"
"$BUILD/standby" <"$work/pipe" >"$work/shown" &
standby=$!
tail -n +1 -F "$log" >"$work/pipe" 2>/dev/null &
tail=$!
for line in V1 'F0 1 2 3 4 5 6 7 0 1 2 3 4 5 6 7' '= ok' B1 '= ok' 'W1 0 hello' '= ok' '# noon' 'C1 720' '= ok 0'; do
    echo "$line" >>"$log"
    sleep 0.02
done
sleep 1.5
kill "$tail"
wait "$standby" || fail "the standby ended with $?"
grep -qx 'file 0: 5 bytes: 68656c6c6f' "$work/shown" || fail "$(cat "$work/shown")"
echo b0 | "$BUILD/standby" 2>/dev/null >&2 && fail "a bad line was taken"
head -c 9000 /dev/zero | tr '\0' '#' | "$BUILD/standby" >/dev/null 2>&1 && fail "a line that is too long was taken"
true
