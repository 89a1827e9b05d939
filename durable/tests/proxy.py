"""proxy.py LISTEN SERVER STATEMENT TIMES request|answer: a proxy before a PostgreSQL server that loses messages.

The first TIMES executions of a prepared statement whose text starts with STATEMENT are lost: with `request` the server never
gets them, with `answer` the client never gets their answer, and then both connections are closed. All else goes through. A line
is printed once it listens, and one for each loss.
"""
from __future__ import annotations

import socket
import struct
import sys
import threading

listen, server, statement, times, what = int(sys.argv[1]), int(sys.argv[2]), sys.argv[3].encode(), int(sys.argv[4]), sys.argv[5]
lock = threading.Lock()


def take(s: socket.socket, n: int) -> bytes:
    data = b""
    while len(data) < n:
        more = s.recv(n - len(data))
        if not more:
            raise ConnectionError
        data += more
    return data


def message(s: socket.socket) -> bytes:
    head = take(s, 5)
    return head + take(s, struct.unpack("!I", head[1:])[0] - 4)


def close(*sockets: socket.socket) -> None:
    for s in sockets:
        try:
            s.shutdown(socket.SHUT_RDWR)
        except OSError:
            pass


class Connection:
    """Messages of the client are looked at; answers are passed on until one is to be lost."""

    def __init__(self, client: socket.socket) -> None:
        self.client, self.to = client, socket.create_connection(("127.0.0.1", server))
        self.lost = threading.Event()
        for s in (self.client, self.to):
            s.setsockopt(socket.IPPROTO_TCP, socket.TCP_NODELAY, 1)
        threading.Thread(target=self.requests, daemon=True).start()
        threading.Thread(target=self.answers, daemon=True).start()

    def loses(self) -> bool:
        global times
        with lock:
            times -= 1
            if times >= 0:
                print("lost", flush=True)
            return times >= 0

    def requests(self) -> None:
        names: dict[bytes, bytes] = {}
        try:
            first = take(self.client, 4)  # the startup packet has no type
            self.to.sendall(first + take(self.client, struct.unpack("!I", first)[0] - 4))
            while True:
                m = message(self.client)
                if m[:1] == b"P":
                    name, text = m[5:].split(b"\0")[:2]
                    names[name] = text
                if m[:1] == b"B" and names.get(m[5:].split(b"\0")[1], b"").startswith(statement) and self.loses():
                    if what == "request":
                        break
                    self.lost.set()
                self.to.sendall(m)
        except OSError:
            pass
        close(self.client, self.to)

    def answers(self) -> None:
        try:
            while True:
                m = message(self.to)
                if not self.lost.is_set():
                    self.client.sendall(m)
                elif m[:1] == b"Z":  # the server has ended it
                    break
        except OSError:
            pass
        close(self.client, self.to)


door = socket.create_server(("127.0.0.1", listen))
print("listens", flush=True)
while True:
    Connection(door.accept()[0])
