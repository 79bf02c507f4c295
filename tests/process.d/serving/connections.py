"""Clients that are slow, that go away, and that send much, one after the other."""

import socket
import struct
import sys
import time

from client import ask, check, post, response

port = int(sys.argv[1])
REFUSED = response(409, '{"answer":"refused","number":5}')
EMPTY = response(200, '{"mirrors":[]}')
request = post('{"key":"k1","words":["forget","gm0"]}')
status = b"GET /status HTTP/1.1\r\n\r\n"


def connect():
    return socket.create_connection(("127.0.0.1", port), timeout=30)


def leave(connection):
    """Breaks the connection off, so that the other side gets an error."""
    connection.setsockopt(socket.SOL_SOCKET, socket.SO_LINGER, struct.pack("ii", 1, 0))
    connection.close()


# ---- clients that go away
for sent in [b"", b"GET /sta", request[:-5], request, status]:
    connection = connect()
    connection.sendall(sent)
    leave(connection)
    check(f"a request behind a client that left after {len(sent)} bytes", ask(port, [status]), EMPTY)
connection = connect()
connection.sendall(request)
connection.recv(10)
leave(connection)
check("a request behind a client that left in mid-answer", ask(port, [request]), REFUSED)

# ---- clients that are slow
silent = connect()
dripping = connect()
begun = time.monotonic()
quick = connect()
quick.sendall(status)
for byte in status[:10]:
    try:
        dripping.sendall(bytes([byte]))
    except OSError:
        break
    time.sleep(0.1)
answer = b""
while True:
    some = quick.recv(65536)
    if not some:
        break
    answer += some
took = time.monotonic() - begun
check("a request behind a silent client and one that stops", answer, EMPTY)
print("ok it had its answer in time" if 9 < took < 23 else f"failed it had its answer in time: after {took:.1f} seconds")
for name, connection in [("the silent client", silent), ("the one that stops", dripping)]:
    check(f"{name} is told nothing", connection.recv(100), b"")
    connection.close()
quick.close()

# ---- clients that connect ahead of time, and send nothing
ahead = [connect() for _ in range(3)]
begun = time.monotonic()
check("a request behind three that send nothing", ask(port, [status]), EMPTY)
took = time.monotonic() - begun
print("ok they had two seconds each" if 5 < took < 20 else f"failed they had two seconds each: {took:.1f} seconds")
for connection in ahead:
    check("each of them is told nothing", connection.recv(100), b"")
    connection.close()

# ---- clients that go on sending
for name, first, wanted in [
    ("a length that is too large", post("", length=140_000), response(413)),
    ("a target that there isn't", post("", length=140_000).replace(b"/commands", b"/elsewhere"), response(404)),
    ("a request that is none", b"GET\r\n\r\n", response(400)),
]:
    check(f"{name}, and 10 MB more", ask(port, [first, b"x" * 10_000_000]), wanted)
