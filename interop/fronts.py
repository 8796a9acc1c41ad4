"""Fronts of a service: each misbehaves at first, and then hands on what comes, both ways."""

import contextlib
import socket
import threading
import urllib.parse
from typing import Callable, NamedTuple

from hostile import BUSY, Server, take_request
from lines import STORED
from programs import line_of

CONTENT = b"through a front\n"


def copy(source, target):
    """Hands on what one side sends, and then that it sends no more."""
    with contextlib.suppress(OSError):
        while piece := source.recv(65_536):
            target.sendall(piece)
        target.shutdown(socket.SHUT_WR)


def hand_on(peer, address):
    with socket.create_connection(address) as service:
        back = threading.Thread(target=copy, args=(service, peer), daemon=True)
        back.start()
        copy(peer, service)
        back.join()


def busy_twice(address):
    """Answers the first two requests with 503 and SlowDown, over as many connections as they come on."""
    left = [BUSY, BUSY]

    def serve(peer):
        while left:
            take_request(peer)
            peer.sendall(left.pop())
        hand_on(peer, address)

    return serve


def hangs_up_first(address):
    """Closes the first connection behind its request."""
    opened = []

    def serve(peer):
        opened.append(peer)
        if len(opened) > 1:
            hand_on(peer, address)
        else:
            take_request(peer)

    return serve


class Front(NamedTuple):
    """A front, the key of the object that is stored through it, and how many connections that opens."""

    name: str
    serve: Callable
    key: str
    opened: int


FRONTS = [
    Front("a front that is busy twice", busy_twice, "front-busy.txt", 1),
    Front("a front that closes the first connection", hangs_up_first, "front-closed.txt", 2),
]


def try_fronts(checks, runs, service, client, bucket):
    """A file is stored by the third attempt at most, once, with its bytes."""
    runs.write("front.txt", CONTENT)
    url = urllib.parse.urlsplit(service.url)
    for front in FRONTS:
        uri = f"s3://{bucket}/{front.key}"
        with Server(front.serve((url.hostname, url.port))) as server:
            env = {**service.keys, **runs.tries(3)}
            shown = runs.copy("front.txt", uri, f"http://127.0.0.1:{server.port}", env)
        checks.check(f"{front.name}: status and line", shown == STORED.shown("front.txt", uri), line_of(shown))
        checks.check(f"{front.name}: connections", server.opened == front.opened, str(server.opened))
        stored = client.get_object(Bucket=bucket, Key=front.key)["Body"].read()
        checks.check(f"{front.name}: bytes", stored == CONTENT, f"{len(stored)} bytes")
