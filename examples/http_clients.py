"""Clients that drive http_hello: python3 http_clients.py PORT [PROCESS [slow]]. PROCESS is the server's, whose descriptors are
counted. With 'slow' the server was begun with --idle 2, and clients are too slow. Each case ends with a line 'NAME: passed' or
'NAME: failed'."""

import os
import random
import socket
import sys
import threading
import time

PORT = int(sys.argv[1])
PROCESS = sys.argv[2] if len(sys.argv) > 2 else None
LIMIT = 8192


def connect():
    client = socket.create_connection(("127.0.0.1", PORT), timeout=10)
    client.setsockopt(socket.IPPROTO_TCP, socket.TCP_NODELAY, 1)
    return client


class Reader:
    """Reads the answers of a connection, one after another."""

    def __init__(self, client):
        self.client = client
        self.bytes = b""

    def more(self):
        came = self.client.recv(65536)
        self.bytes += came
        return came != b""

    def answer(self, bodiless=False):
        """The status, the fields and the text of the next answer; None at the end."""
        while b"\r\n\r\n" not in self.bytes:
            if not self.more():
                assert self.bytes == b"", self.bytes
                return None
        head, self.bytes = self.bytes.split(b"\r\n\r\n", 1)
        lines = head.decode().split("\r\n")
        fields = dict(line.lower().split(": ", 1) for line in lines[1:])
        size = 0 if bodiless else int(fields["content-length"])
        while len(self.bytes) < size:
            assert self.more(), "the text is cut off"
        text, self.bytes = self.bytes[:size], self.bytes[size:]
        assert lines[0].startswith("HTTP/1.1 "), lines[0]
        return int(lines[0].split(" ")[1]), fields, text.decode()

    def at_end(self):
        try:
            return self.bytes == b"" and not self.more()
        except ConnectionResetError:
            # (what comes behind a head that closes isn't read)
            return True


def request(method="GET", target="/", version="1.1", fields=("Host: here",)):
    return "\r\n".join([f"{method} {target} HTTP/{version}", *fields, "", ""]).encode()


def hello(number):
    return f"hello, this is request {number} of this connection\n"


def speak(data):
    """Sends these bytes in one go; answers the connection's reader."""
    client = connect()
    client.sendall(data)
    return Reader(client)


def refused(data, status):
    """These bytes are answered with this status alone, and the connection is closed."""
    reader = speak(data)
    got, fields, _ = reader.answer()
    assert got == status, (got, status)
    assert fields["connection"] == "close"
    assert reader.at_end()


def everything(client):
    """All bytes up to the end."""
    came = b""
    while True:
        more = client.recv(65536)
        if not more:
            return came
        came += more


def keeps_alive():
    client = connect()
    reader = Reader(client)
    for number in range(1, 21):
        client.sendall(request())
        status, fields, text = reader.answer()
        assert (status, text) == (200, hello(number)), (status, text)
        assert fields["connection"] == "keep-alive"


def pipelined():
    many = 300
    reader = speak(request() * many)
    for number in range(1, many + 1):
        assert reader.answer()[2] == hello(number)
    reader.client.sendall(request() + request(target="/x") + request(fields=("Host: here", "Connection: close")) + request())
    assert reader.answer()[2] == hello(many + 1)
    assert reader.answer()[0] == 404
    status, fields, _ = reader.answer()
    assert (status, fields["connection"]) == (200, "close")


def statuses():
    reader = speak(request(target="/nothing") + request(method="DELETE") + request())
    assert reader.answer()[0] == 404
    status, fields, _ = reader.answer()
    assert (status, fields["allow"]) == (405, "get, head")
    assert reader.answer()[2] == hello(3)


def head_method():
    reader = speak(request(method="HEAD") + request() + request(method="HEAD", target="/x") + request())
    status, fields, _ = reader.answer(bodiless=True)
    assert (status, fields["content-length"]) == (200, str(len(hello(1))))
    assert reader.answer()[2] == hello(2)
    assert reader.answer(bodiless=True)[0] == 404
    assert reader.answer()[2] == hello(4)


def bad_heads():
    for head in [
        b"GET\r\n\r\n",
        b"GET / HTTP/2.0\r\n\r\n",
        b"GET / HTTP/1.1\r\nHost : here\r\n\r\n",
        b"GET / HTTP/1.1\r\nHost: a\r\n folded\r\n\r\n",
        b"\r\n\r\n",
        b"\x16\x03\x01\n\n",
        request(fields=()),
        request(fields=("Host: a", "Host: b")),
        request(fields=("Host: a", "Content-Length: x")),
        request(fields=("Host: a", "Content-Length: 0", "Content-Length: 1")),
        request(fields=("Host: a", "Content-Length: 0", "Transfer-Encoding: chunked")),
        request(fields=("Host: a", *(f"X-{k}: y" for k in range(64)))),
    ]:
        refused(head, 400)
    # (64 fields are not too many)
    assert speak(request(fields=("Host: a", *(f"X-{k}: y" for k in range(63))))).answer()[0] == 200


def content():
    refused(request(method="POST", fields=("Host: a", "Content-Length: 3")) + b"abc", 413)
    refused(request(method="POST", fields=("Host: a", "Transfer-Encoding: chunked")) + b"0\r\n\r\n", 501)
    assert speak(request(method="POST", fields=("Host: a", "Content-Length: 0"))).answer()[0] == 405


def long_heads():
    filled = request(fields=("Host: a", "X: "))
    just = request(fields=("Host: a", "X: " + "x" * (LIMIT - len(filled))))
    assert len(just) == LIMIT
    assert speak(just + just).answer()[0] == 200
    refused(b"x" * LIMIT, 431)
    refused(just[:-2] + b"x\r\n\r\n", 431)


def old_version():
    reader = speak(request(version="1.0", fields=()))
    status, fields, text = reader.answer()
    assert (status, fields["connection"], text) == (200, "close", hello(1))
    assert reader.at_end()
    reader = speak(request(version="1.0", fields=("Connection: keep-alive",)) * 2)
    assert reader.answer()[1]["connection"] == "keep-alive"
    assert reader.answer()[2] == hello(2)


def line_feeds():
    reader = speak(b"\r\n" + request() + b"\nGET / HTTP/1.1\nHost: a\n\n" + request())
    for number in range(1, 4):
        assert reader.answer()[2] == hello(number)


def cut_anywhere():
    """A request that is cut at each byte gives the same answers, as do bytes one by one and random pieces."""
    whole = request(target="/x", fields=("Host: here", "Accept: */*")) + request(fields=("Host: here", "Connection: close"))
    asked = connect()
    asked.sendall(whole)
    wanted = everything(asked)
    assert wanted.startswith(b"HTTP/1.1 404 ") and b"HTTP/1.1 200 " in wanted

    def told(pieces):
        client = connect()
        for piece in pieces:
            client.sendall(piece)
            time.sleep(0.002)
        return everything(client)

    cuts = [[whole[:at], whole[at:]] for at in range(1, len(whole))]
    cuts.append([whole[at : at + 1] for at in range(len(whole))])
    draw = random.Random(7)
    for _ in range(20):
        places = sorted(draw.sample(range(1, len(whole)), draw.randint(2, 9)))
        cuts.append([whole[a:b] for a, b in zip([0, *places], [*places, len(whole)])])
    for pieces in cuts:
        assert told(pieces) == wanted, pieces


def half_close():
    client = connect()
    client.sendall(request() * 3)
    client.shutdown(socket.SHUT_WR)
    assert everything(client).count(b"HTTP/1.1 200 OK") == 3


def all_at_once():
    """100 clients, each with requests of its own on one connection, some pipelined."""
    wrong = []

    def client_of(index):
        try:
            draw = random.Random(index)
            client = connect()
            reader = Reader(client)
            number = 0
            for _ in range(20):
                many = draw.randint(1, 5)
                targets = [draw.choice(["/", "/", "/x"]) for _ in range(many)]
                client.sendall(b"".join(request(target=target) for target in targets))
                for target in targets:
                    number += 1
                    status, _, text = reader.answer()
                    if target == "/":
                        assert (status, text) == (200, hello(number)), (status, text)
                    else:
                        assert status == 404
            client.close()
        except Exception as error:  # noqa: BLE001
            wrong.append(error)

    threads = [threading.Thread(target=client_of, args=(index,)) for index in range(100)]
    for thread in threads:
        thread.start()
    for thread in threads:
        thread.join(20)
    assert not wrong, wrong[0]


def come_and_go():
    """300 connections one after another, some that end in the middle of a head."""
    for index in range(300):
        client = connect()
        if index % 3 == 0:
            client.sendall(request()[:10])
        else:
            client.sendall(request())
            assert Reader(client).answer()[2] == hello(1)
        client.close()


def too_slow():
    """A head that doesn't come whole within two seconds is answered 408, also where its bytes come one by one; a client that
    sends nothing is let go without a word, and one that goes on with whole heads is kept."""
    begun, silent, dripping, busy = connect(), connect(), connect(), Reader(connect())
    begun.sendall(request()[:20])
    since = time.monotonic()
    for number in range(1, 41):
        if number <= 14:
            dripping.sendall(request()[number - 1 : number])
        busy.client.sendall(request())
        assert busy.answer()[2] == hello(number)
        time.sleep(0.07)
    assert time.monotonic() - since > 2.5
    for client in (begun, dripping):
        reader = Reader(client)
        status, fields, _ = reader.answer()
        assert (status, fields["connection"]) == (408, "close"), status
        assert reader.at_end()
    assert everything(silent) == b""


def descriptors():
    return len(os.listdir(f"/proc/{PROCESS}/fd"))


CASES = [
    keeps_alive, pipelined, statuses, head_method, bad_heads, content, long_heads, old_version, line_feeds, cut_anywhere,
    half_close, all_at_once, come_and_go,
]
if "slow" in sys.argv[3:]:
    CASES = [too_slow]


def run(case):
    try:
        case()
        print(f"{case.__name__}: passed", flush=True)
    except Exception as error:  # noqa: BLE001
        print(f"  {type(error).__name__}: {error}", flush=True)
        print(f"{case.__name__}: failed", flush=True)


def none_left():
    """No descriptor is left behind."""
    for _ in range(100):
        if descriptors() <= BEFORE:
            return
        time.sleep(0.05)
    assert False, (descriptors(), BEFORE)


if PROCESS:
    BEFORE = descriptors()
for case in CASES:
    run(case)
if PROCESS:
    run(none_left)
