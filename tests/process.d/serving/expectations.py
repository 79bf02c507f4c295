"""Clients that send a body only after they are told to go on, over a registry without mirrors."""

import socket
import sys

from client import check, post, response

port = int(sys.argv[1])
EMPTY = response(200, '{"mirrors":[]}')
REFUSED = response(409, '{"answer":"refused","number":5}')
BODY = b'{"key":"k1","words":["forget","gm0"]}'
GO_ON = b"HTTP/1.1 100 Continue\r\n\r\n"


def receive(connection, count):
    """So many bytes, or fewer if no more come for a while or at all."""
    found = b""
    try:
        while len(found) < count:
            some = connection.recv(count - len(found))
            if not some:
                break
            found += some
    except TimeoutError:
        pass
    return found


def tell(name, head, first, body, last):
    """Sends a head, expects what comes then, sends a body, and expects the rest."""
    with socket.create_connection(("127.0.0.1", port), timeout=20) as connection:
        connection.sendall(head)
        connection.settimeout(20 if first else 0.5)
        check(f"{name}: before the body", receive(connection, len(first) or 1), first)
        connection.settimeout(20)
        if body:
            connection.sendall(body)
        check(f"{name}: the response", receive(connection, 1 << 20), last)


def head(*fields, length=len(BODY)):
    return post(b"", *fields, length=length)


tell("a client that waits", head("Expect: 100-continue"), GO_ON, BODY, REFUSED)
tell("in capitals", head("EXPECT: 100-Continue"), GO_ON, BODY, REFUSED)
tell("one that doesn't wait", head(), b"", BODY, REFUSED)
tell("one that expects something else", head("Expect: 200-ok"), b"", BODY, REFUSED)
tell("a body that is too long", head("Expect: 100-continue", length=131_073), response(413), b"", b"")
tell("a length that is none", head("Expect: 100-continue", length="x"), response(400), b"", b"")
tell("a GET", b"GET /status HTTP/1.1\r\nExpect: 100-continue\r\n\r\n", EMPTY, b"", b"")
tell("a body that is there already", head("Expect: 100-continue") + BODY, REFUSED, b"", b"")
