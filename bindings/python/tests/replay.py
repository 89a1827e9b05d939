"""Replays traces and vectors: replay.py trace <TRACE, replay.py vectors FILE..."""
import re
import sys

from luzhanem import GetFilePointer, Read, Refused, Seek, State, Store, Write


def read(s, t, d, n, room):
    """A Read of n bytes into a buffer of `room`: refusal 7 is raised here, where the library has no such case."""
    if n > room:
        if t <= 7 and d <= 15 and s.state(t) == State.OPEN:
            raise Refused(-7)
        n = 0
    return s.read(t, d, n)


def octet_of(transactions):
    return sum(1 << t for t in transactions)


# ---- traces

FORMS = re.compile(rb"(?:([BCA])(\d)|(P)(\d) (\d{1,5})|([SR])(\d) (\d{1,5}) (\d{1,5})|(W)(\d) (\d{1,5}) (.*))", re.S)

TRACE = {
    b"B": lambda s, t: s.begin(int(t)),
    b"A": lambda s, t: s.abort(int(t)),
    b"C": lambda s, t: octet_of(s.commit(int(t), 0)),
    b"P": lambda s, t, d: s.get_file_pointer(int(t), int(d)),
    b"S": lambda s, t, d, n: s.seek(int(t), int(d), int(n)),
    b"R": lambda s, t, d, n: read(s, int(t), int(d), int(n), 4096).hex(),
    b"W": lambda s, t, d, data: s.write(int(t), int(d), data),
}


def answer_line(s, line):
    """What the program `trace` prints for a line."""
    form = FORMS.fullmatch(line) if len(line) <= 128 else None
    if not form:
        return "17"
    kind, *words = [group for group in form.groups() if group is not None]
    try:
        answer = TRACE[kind](s, *words)
    except Refused as e:
        return str(int(e.refusal))
    return "ok" if answer in (None, "") else f"ok {answer}"


def trace(data):
    s = Store()
    lines = data.split(b"\n")
    if not lines[-1]:
        lines.pop()
    return "".join(answer_line(s, line) + "\n" for line in lines)


# ---- vectors


def octets(text):
    """`hh*n` is n bytes hh; pieces are joined by `.`; `-` is none."""
    pieces = [] if text == "-" else [piece.partition("*") for piece in text.split(".")]
    return b"".join(bytes.fromhex(pairs) * int(n or 1) for pairs, _, n in pieces)


def shown(data):
    return data.hex() or "-"


KINDS = {"seek": Seek, "write": Write, "pointer": GetFilePointer, "read": Read}


def script(text):
    calls = [] if text == "-" else [call.split(":") for call in text.split(",")]
    return [KINDS[kind](*map(int, numbers)) for kind, *numbers in calls]


def answer_read(s, t, d, n, buffer):
    buffer = octets(buffer)
    data = read(s, int(t), int(d), int(n), len(buffer))
    return f"given {len(data)} {shown(data + buffer[len(data):])}"


def answer_places(s, t, f, buffer):
    buffer, places = octets(buffer), s.places(int(t), int(f))
    data = b"".join(n.to_bytes(2, "big") for place in places for n in place)
    if len(data) > len(buffer):
        raise Refused(-16)
    return f"pairs {len(places)} {shown(data + buffer[len(data):])}"


def answer_best(s, transactions, minute, budget):
    numbers = [] if transactions == "-" else map(int, transactions.split(","))
    o = s.best_order(numbers, int(minute), int(budget))
    return f"order {','.join(map(str, o.order))} grants {o.grants} gap {o.gap} tried {o.tried}"


def answer_dispatch(s, scripts, data, reader, minute):
    scripts = [] if scripts == "none" else [script(text) for text in scripts.split("|")]
    d = s.dispatch(scripts, octets(data), int(minute), octets(reader))
    ends = ",".join(str(int(end or 0)) for end in d.ended) or "-"
    return f"ran {ends} commits {d.commits} reader {shown(d.reader)}"


CALLS = {
    "begin": lambda s, t: s.begin(int(t)),
    "abort": lambda s, t: s.abort(int(t)),
    "seek": lambda s, t, d, n: s.seek(int(t), int(d), int(n)),
    "pointer": lambda s, t, d: f"offset {s.get_file_pointer(int(t), int(d))}",
    "write": lambda s, t, d, data: s.write(int(t), int(d), octets(data)),
    "read": answer_read,
    "commit": lambda s, t, minute: f"granted {octet_of(s.commit(int(t), int(minute)))}",
    "places": answer_places,
    "window": lambda s, f, start, end: s.set_window(int(f), int(start), int(end)),
    "undo": lambda s: s.undo(),
    "best": answer_best,
    "dispatch": answer_dispatch,
}


def same(a, b):
    """Replies are the same, however their bytes are written."""
    x, y = a.split(" "), b.split(" ")
    is_bytes = re.compile(r"[0-9a-f.*-]+").fullmatch
    return len(x) == len(y) and all(p == q or (is_bytes(p) and octets(p) == octets(q)) for p, q in zip(x, y))


LEFT = {
    "files": lambda s, words: s.save()[552:33320] == b"".join(map(octets, words)),
    "undo": lambda s, words: s.save()[33320:] == b"".join(map(octets, words)),
    "offsets": lambda s, words: [s.offset(d) for d in range(16)] == list(map(int, words)),
    "lengths": lambda s, words: [s.length(f) for f in range(8)] == list(map(int, words)),
}


def right(stores, line):
    """Whether a line of a list holds: a call with its reply, or what the list leaves. `fresh` makes a new store."""
    if line.startswith(" "):
        kind, *words = line.split()
        return LEFT[kind](stores[-1], words)
    call, want = line.split(" -> ")
    kind, *words = call.split(" ")
    try:
        if kind == "fresh":
            stores.append(Store(list(map(int, words))))
            return want == "done"
        have = CALLS[kind](stores[-1], *words) or "done"
    except Refused as e:
        have = f"refused {e.refusal:d}"
    return same(have, want)


def vectors(path):
    """How many lines there are, and how many are wrong."""
    stores, lines, wrong = [], 0, 0
    for number, line in enumerate(open(path), 1):
        line = line.rstrip("\n")
        if not line:
            continue
        lines += 1
        if not right(stores, line):
            wrong += 1
            print(f"{path}:{number}: {line[:100]}")
    return lines, wrong


def main():
    if sys.argv[1] == "trace":
        sys.stdout.write(trace(sys.stdin.buffer.read()))
        return 0
    results = [vectors(path) for path in sys.argv[2:]]
    passed, failed = sum(lines - wrong for lines, wrong in results), sum(wrong for _, wrong in results)
    print(f"{passed} passed, {failed} failed")
    return failed != 0 or passed == 0


if __name__ == "__main__":
    sys.exit(main())
