"""Servers of one misbehaviour each, on real sockets: what the program prints of a copy to each of them."""

import hashlib
import hmac
import socket
import struct
import threading
import time
from concurrent.futures import ThreadPoolExecutor
from datetime import datetime, timezone
from typing import Callable, NamedTuple

from lines import SKEWED, STORED, WRONG_SIGNATURE, Outcome, lost, refused, unknown
from programs import LARGE, line_of
from service import KEYS

SMALL, BIG = "small.txt", "large.bin"
FILES = {SMALL: b"hello\n", BIG: LARGE}
SECRET = KEYS["AWS_SECRET_ACCESS_KEY"]

# ---- what a server does with one connection


def take_head(peer):
    """The head of a request, and what came behind it."""
    got = b""
    while b"\r\n\r\n" not in got:
        piece = peer.recv(65_536)
        if not piece:
            raise ConnectionError("the request ended in its head")
        got += piece
    head, _, rest = got.partition(b"\r\n\r\n")
    return head.decode(), rest


def field(head, name):
    for line in head.split("\r\n")[1:]:
        if line.lower().startswith(name + ":"):
            return line.partition(":")[2].strip()
    raise ConnectionError("the request has no " + name)


def take_request(peer, piece=65_536, rest_before=lambda at: None):
    """The head of a whole request, whose body has to have the length and the SHA-256 that its head states."""
    head, body = take_head(peer)
    parts, at, length = [body], len(body), int(field(head, "content-length"))
    while at < length:
        rest_before(at)
        parts.append(peer.recv(min(piece, length - at)))
        if not parts[-1]:
            raise ConnectionError("the request ended in its body")
        at += len(parts[-1])
    if hashlib.sha256(b"".join(parts)).hexdigest() != field(head, "x-amz-content-sha256"):
        raise ConnectionError("the body is another one")
    return head


def hold(peer):
    """Keeps the connection open until the other side closes it."""
    while peer.recv(65_536):
        pass


def close(peer):
    """Closes the connection: with bytes of the request unread, the system resets it."""


def reset(peer):
    """Resets the connection in place of closing it."""
    peer.setsockopt(socket.SOL_SOCKET, socket.SO_LINGER, struct.pack("ii", 1, 0))


def says(answer, then=hold, take=take_request):
    """Takes the request and says this."""

    def serve(peer):
        take(peer)
        peer.sendall(answer)
        then(peer)

    return serve


def says_early(answer, then=close):
    """Says this right behind the head of the request, and takes no body."""
    return says(answer, then, take_head)


def dribbles(answer, seconds=0.0005, size=1, then=hold):
    """Says this so many bytes at a time, with a pause before each."""

    def serve(peer):
        take_request(peer)
        for at in range(0, len(answer), size):
            time.sleep(seconds)
            peer.sendall(answer[at : at + size])
        then(peer)

    return serve


def resets_in_request(peer):
    take_head(peer)
    peer.recv(65_536)
    reset(peer)


def reads_slowly(peer):
    take_request(peer, 8_192, lambda at: time.sleep(0.001))
    peer.sendall(EMPTY)
    hold(peer)


def reads_with_pauses(peer):
    """Twice reads nothing for 40 seconds, a MiB apart."""
    pauses = [1 << 20, 2 << 20]

    def rest_before(at):
        if pauses and at >= pauses[0]:
            pauses.pop(0)
            time.sleep(40)

    take_request(peer, 65_536, rest_before)
    peer.sendall(EMPTY)
    hold(peer)


def reads_nothing(peer):
    time.sleep(180)


def in_turn(*answers):
    """Says these to the first requests, one to each, over as many connections as they come on."""
    left = list(answers)

    def serve(peer):
        while left:
            take_request(peer)
            peer.sendall(left.pop(0))
        hold(peer)

    return serve


def closes_first(answer):
    """Closes the first connection behind its request, and says this on the next."""
    opened = []

    def serve(peer):
        opened.append(peer)
        take_request(peer)
        if len(opened) > 1:
            peer.sendall(answer)
            hold(peer)

    return serve


def keyed(key, text):
    return hmac.new(key, text.encode(), hashlib.sha256).digest()


def signature(head, secret):
    """The signature of a request without a query (Amazon S3 API Reference, "Authenticating Requests")."""
    method, path, _ = head.partition("\r\n")[0].split(" ")
    said = field(head, "authorization").removeprefix("AWS4-HMAC-SHA256 ").split(", ")
    credential, names = said[0].partition("=")[2], said[1].partition("=")[2]
    scope = credential.partition("/")[2]
    fields = "".join(f"{name}:{field(head, name)}\n" for name in names.split(";"))
    canonical = "\n".join([method, path, "", fields, names, field(head, "x-amz-content-sha256")])
    digest = hashlib.sha256(canonical.encode()).hexdigest()
    key = ("AWS4" + secret).encode()
    for part in scope.split("/"):
        key = keyed(key, part)
    return keyed(key, f"AWS4-HMAC-SHA256\n{field(head, 'x-amz-date')}\n{scope}\n{digest}").hex()


def looks(secret, ahead=0):
    """A service that knows one secret, and whose clock is so many seconds ahead; it allows for 15 minutes."""

    def serve(peer):
        head = take_request(peer)
        date = datetime.strptime(field(head, "x-amz-date"), "%Y%m%dT%H%M%SZ").replace(tzinfo=timezone.utc)
        if abs(time.time() + ahead - date.timestamp()) > 15 * 60:
            peer.sendall(TOO_SKEWED)
        elif not field(head, "authorization").endswith("Signature=" + signature(head, secret)):
            peer.sendall(NO_MATCH)
        else:
            peer.sendall(EMPTY)
        hold(peer)

    return serve


class Server:
    """Listens on a free port of the loopback and serves each connection in a thread of its own."""

    def __init__(self, serve):
        self.serve = serve
        self.opened = 0
        self.last = None
        self.listener = socket.socket()
        # Small, so that a large request does not fit into the system's buffers.
        self.listener.setsockopt(socket.SOL_SOCKET, socket.SO_RCVBUF, 65_536)
        self.listener.bind(("127.0.0.1", 0))
        self.listener.listen(16)
        self.port = self.listener.getsockname()[1]

    def __enter__(self):
        self.thread = threading.Thread(target=self.accept, daemon=True)
        self.thread.start()
        return self

    def __exit__(self, *_):
        """One more connection is the last: those that waited were accepted before it."""
        with socket.socket() as last:
            last.bind(("127.0.0.1", 0))
            self.last = last.getsockname()
            last.connect(("127.0.0.1", self.port))
            self.thread.join()
        self.listener.close()

    def accept(self):
        while True:
            peer, address = self.listener.accept()
            if address == self.last:
                peer.close()
                return
            self.opened += 1
            threading.Thread(target=self.converse, args=(peer,), daemon=True).start()

    def converse(self, peer):
        with peer:
            peer.setsockopt(socket.IPPROTO_TCP, socket.TCP_NODELAY, 1)
            try:
                self.serve(peer)
            except OSError:
                pass  # the program was first to leave, or its request was no good one


class DeafServer(Server):
    """A port that has a listener and accepts nothing: its queue is full, so the system drops what comes."""

    def __init__(self, serve):
        super().__init__(serve)
        self.listener.listen(0)
        self.queued = []

    def __enter__(self):
        for _ in range(16):
            client = socket.socket()
            client.setblocking(False)
            client.connect_ex(("127.0.0.1", self.port))
            self.queued.append(client)
        return self

    def __exit__(self, *_):
        for client in [*self.queued, self.listener]:
            client.close()


# ---- what they say


def head(status, *fields, version="1.1"):
    return "\r\n".join([f"HTTP/{version} {status}", *fields, "", ""]).encode()


def chunked(status, *lines):
    """An answer whose body is these lines, as they stand."""
    return head(status, "transfer-encoding: chunked") + b"".join(lines)


OK = "200 OK"


def padded(size):
    """The head of a success, of exactly so many bytes."""
    least = len(head(OK, "content-length: 0", "x-pad: "))
    return head(OK, "content-length: 0", "x-pad: " + "a" * (size - least))


def with_lines(count):
    """The head of a success with so many header lines."""
    return head(OK, "content-length: 0", *[f"x-{i}: {i}" for i in range(count - 1)])


FORBIDDEN = "403 Forbidden"
EMPTY = head(OK, "content-length: 0")


def error(code, message):
    return f"<?xml version='1.0'?>\n<Error><Code>{code}</Code><Message>{message}</Message></Error>".encode()


def denies(document, status=FORBIDDEN):
    return head(status, f"content-length: {len(document)}") + document


ERROR = error("AccessDenied", "Access Denied.")
ERROR_CHUNK = b"%x\r\n%s\r\n" % (len(ERROR), ERROR)
HELLO = b"5\r\nhello\r\n"
END = b"0\r\n\r\n"
DENIED = denies(ERROR)
DENIED_CHUNKED = chunked(FORBIDDEN, ERROR_CHUNK, END)
REFUSED = refused(403, "AccessDenied", "Access Denied.")
TOO_SKEWED = denies(error("RequestTimeTooSkewed", SKEWED))
BUSY = denies(error("SlowDown", "Reduce your rate."), "503 Slow Down")
NO_MATCH = denies(error("SignatureDoesNotMatch", WRONG_SIGNATURE))
FULL = head(FORBIDDEN, "content-length: 65536") + b"a" * 65_536


class Row(NamedTuple):
    """One server, how a copy to it ends, how many connections that opens, how many seconds it may take, and how often it
    tries."""

    name: str
    serve: Callable[[socket.socket], None]
    outcome: Outcome
    file: str = SMALL
    opened: int = 1
    host: str = "127.0.0.1"
    server: type = Server
    seconds: int = 40
    attempts: int = 1


FAILED, EARLY = lost("connection failed"), lost("connection ended early")
NOT_HTTP, BAD_LENGTH, BAD_CHUNK = lost("not HTTP"), lost("bad length"), lost("bad chunk")
HEAD_LONG, BODY_LONG = lost("head too long"), lost("body too long")

# A server that closes a kept connection between two requests comes with the first command that makes two.
ROWS = [
    Row("a plain success", says(EMPTY), STORED),
    Row("a plain success, by name", says(EMPTY), STORED, host="localhost"),
    Row("a plain refusal", says(DENIED), REFUSED),
    # closing and resetting
    Row("closes without an answer", says(b"", close), EARLY),
    Row("closes in the head", says(b"HTTP/1.1 2", close), EARLY),
    Row("closes in the body", says(head(OK, "content-length: 9") + b"abc", close), EARLY),
    Row("resets without an answer", says(b"", reset), FAILED),
    Row("resets in the head", says(b"HTTP/1.1 2", reset), FAILED),
    Row("resets in the body", says(head(OK, "content-length: 9") + b"abc", reset), FAILED),
    Row("resets behind a whole answer", says(EMPTY, reset), STORED),
    Row("resets in the request", resets_in_request, FAILED, BIG),
    Row("connection: close", says(head(OK, "content-length: 0", "connection: close"), close), STORED),
    Row("connection: close, and holds it", says(head(OK, "content-length: 0", "connection: close")), STORED),
    # speed
    Row("reads slowly", reads_slowly, STORED, BIG),
    Row("a byte at a time", dribbles(DENIED), REFUSED),
    Row("a byte at a time, chunked", dribbles(DENIED_CHUNKED), REFUSED),
    # refusals before the body is read
    Row("403 behind the head, then closes", says_early(DENIED), REFUSED, BIG),
    Row("413 behind the head, then closes", says_early(head("413 Too Large", "content-length: 0")), refused(413), BIG),
    Row("307 behind the head, then closes", says_early(head("307 Elsewhere", "content-length: 0")), refused(307), BIG),
    Row("403 in chunks behind the head, then closes", says_early(DENIED_CHUNKED), REFUSED, BIG),
    Row("403 behind the head, then reads on", says_early(DENIED, hold), REFUSED, BIG),
    Row("200 behind the head, then closes", says_early(EMPTY), FAILED, BIG),
    Row("503 behind the head, then closes", says_early(head("503 Busy", "content-length: 0")), FAILED, BIG),
    Row("no HTTP behind the head, then closes", says_early(b"go away\r\n"), FAILED, BIG),
    # chunks
    Row("a success in chunks", says(chunked(OK, END)), STORED),
    Row("a refusal in chunks", says(DENIED_CHUNKED), REFUSED),
    Row("a refusal in chunks, closed", says(DENIED_CHUNKED, close), REFUSED),
    Row("chunks with extensions", says(chunked(OK, b"5;a=b\r\nhello\r\n", b"0;last\r\n\r\n")), STORED),
    Row("chunks with trailers", says(chunked(OK, HELLO, b"0\r\nx-a: b\r\nx-c: d\r\n\r\n")), STORED),
    Row("a chunk size that is no number", says(chunked(OK, b"five\r\nhello\r\n", END)), BAD_CHUNK),
    Row("a chunk without its line end", says(chunked(OK, b"5\r\nhello, hello\r\n", END)), BAD_CHUNK),
    Row("a chunk line without an end", says(chunked(OK, b"5;" + b"a" * 2_000)), BAD_CHUNK),
    Row("trailers without an end", says(chunked(OK, b"0\r\n" + b"x-a: b\r\n" * 200)), BAD_CHUNK),
    Row("a chunk cut short", says(chunked(OK, b"5\r\nhel"), close), EARLY),
    Row("no last chunk", says(chunked(OK, HELLO), close), EARLY),
    Row("no line behind the last chunk", says(chunked(OK, HELLO, b"0\r\n"), close), EARLY),
    Row("more chunks than an error may have", says(chunked(FORBIDDEN, b"10001\r\n" + b"a" * 65_537)), BODY_LONG),
    # lengths
    Row("two lengths that differ", says(head(OK, "content-length: 0", "content-length: 5")), BAD_LENGTH),
    Row("two lengths that agree", says(head(OK, "content-length: 0", "content-length: 00")), STORED),
    Row("a length that is no number", says(head(OK, "content-length: none")), BAD_LENGTH),
    Row("a length beside chunks", says(head(OK, "content-length: 5", "transfer-encoding: chunked") + END), BAD_LENGTH),
    Row("another transfer coding", says(head(OK, "transfer-encoding: gzip"), close), BAD_LENGTH),
    Row("more bytes than an error may have", says(head(FORBIDDEN, "content-length: 65537")), BODY_LONG),
    Row("as many bytes as an error may have", says(FULL), refused(403)),
    Row("more bytes than an error may have, without a length", says(head(FORBIDDEN) + b"a" * 65_537), BODY_LONG),
    Row("8,388,608 bytes behind a success", says(head(OK, "content-length: 8388608") + bytes(8_388_608)), STORED),
    Row("8,388,609 bytes behind a success", says(head(OK, "content-length: 8388609")), BODY_LONG),
    Row("bytes behind the answer", says(EMPTY + b"HTTP/1.1 500 No\r\n\r\n"), STORED),
    Row("no length, to the end", says(head(OK) + b"hello", close), STORED),
    Row("no length, HTTP/1.0", says(head(OK, version="1.0"), close), STORED),
    Row("no length, HTTP/1.0, reset", says(head(OK, version="1.0"), reset), FAILED),
    # heads
    Row("a head of 65,536 bytes", says(padded(65_536)), STORED),
    Row("a head of 65,537 bytes", says(padded(65_537)), HEAD_LONG),
    Row("65,537 bytes of a head without an end", says(padded(65_539)[:65_537]), HEAD_LONG),
    Row("65,535 bytes of a head, then closes", says(padded(65_539)[:65_535], close), EARLY),
    Row("100 header lines", says(with_lines(100)), STORED),
    Row("101 header lines", says(with_lines(101)), NOT_HTTP),
    Row("bytes that are not HTTP", says(b"hello, this is no answer\r\n\r\n"), NOT_HTTP),
    Row("a banner of another protocol", says(b"SSH-2.0-OpenSSH_9.2\r\n"), NOT_HTTP),
    # statuses
    Row("100 and then 200", says(head("100 Continue") + EMPTY), NOT_HTTP),
    Row("204 without a length", says(head("204 No Content")), STORED),
    Row("304 with a length", says(head("304 Not Modified", "content-length: 9")), refused(304)),
    Row("412", says(head("412 Precondition Failed", "content-length: 0")), refused(412)),
    Row("500", says(head("500 No", "content-length: 0")), lost("status 500")),
    Row("503", says(head("503 Busy", "content-length: 0")), lost("status 503")),
    Row("a status of two digits", says(head("20 OK", "content-length: 0")), NOT_HTTP),
    # attempts
    Row("503 twice, and then 200", in_turn(BUSY, BUSY, EMPTY), STORED, attempts=3),
    Row("503 three times", in_turn(BUSY, BUSY, BUSY), refused(503, "SlowDown", "Reduce your rate."), attempts=3),
    Row("503 and then 403", in_turn(BUSY, DENIED), REFUSED, attempts=3),
    Row("closes the first connection, and then 200", closes_first(EMPTY), STORED, opened=2, attempts=3),
    Row(
        "closes the first connection, and then 403",
        closes_first(DENIED),
        unknown("AccessDenied", "Access Denied."),
        opened=2,
        attempts=3,
    ),
    Row("closes every connection", says(b"", close), EARLY, opened=3, attempts=3),
    # keys and clocks
    Row("the right secret", looks(SECRET), STORED),
    Row("a wrong secret", looks("wrong"), refused(403, "SignatureDoesNotMatch", WRONG_SIGNATURE)),
    Row("a clock an hour ahead", looks(SECRET, 3_600), refused(403, "RequestTimeTooSkewed", SKEWED)),
    Row("a clock an hour behind", looks(SECRET, -3_600), refused(403, "RequestTimeTooSkewed", SKEWED)),
    Row("a clock ten minutes behind", looks(SECRET, -600), STORED),
]

# These wait for the program's limit of 60 seconds, or stay below it. Where a write took some bytes before it gave up,
# the next one waits once more; the system's buffers take some twice.
SLOW_ROWS = [
    Row("accepts no connection", hold, FAILED, opened=0, server=DeafServer, seconds=75),
    Row("is silent", says(b""), FAILED, seconds=75),
    Row("is silent in the head", says(b"HTTP/1.1 200 OK\r\n"), FAILED, seconds=75),
    Row("is silent in the body", says(head(OK, "content-length: 9") + b"abc"), FAILED, seconds=75),
    Row("reads nothing", reads_nothing, FAILED, BIG, seconds=200),
    Row("403 behind the head, then reads nothing", says_early(DENIED, reads_nothing), REFUSED, BIG, seconds=200),
    Row("answers in three pieces, 27 seconds apart", dribbles(EMPTY, 27, 13), STORED, seconds=100),
    Row("reads with two pauses of 40 seconds", reads_with_pauses, STORED, BIG, seconds=100),
]


def try_row(runs, row, env):
    """What the program showed, what was due, and how many connections were opened."""
    uri = "s3://backups/" + row.file
    with row.server(row.serve) as server:
        shown = runs.copy(row.file, uri, f"http://{row.host}:{server.port}", env, seconds=row.seconds)
    return shown, row.outcome.shown(row.file, uri), server.opened


def try_rows(checks, runs, rows=ROWS, at_once=4):
    for name, content in FILES.items():
        runs.write(name, content)
    env = {attempts: {**KEYS, **runs.tries(attempts)} for attempts in {row.attempts for row in rows}}
    with ThreadPoolExecutor(at_once) as pool, runs:
        for row, (shown, due, opened) in zip(rows, pool.map(lambda row: try_row(runs, row, env[row.attempts]), rows)):
            text = line_of(shown) if shown == due else f"{line_of(shown)}, and due was {line_of(due)}"
            checks.check(f"{row.name}: status and line", shown == due, text)
            checks.check(f"{row.name}: connections", opened == row.opened, str(opened))


def try_slow_rows(checks, runs):
    try_rows(checks, runs, SLOW_ROWS, len(SLOW_ROWS))
