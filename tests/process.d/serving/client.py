"""Requests over a socket of one's own, as the tests make them, and what they expect."""

import socket
import sys
import time

PHRASES = {
    200: "OK",
    400: "Bad Request",
    404: "Not Found",
    405: "Method Not Allowed",
    409: "Conflict",
    413: "Payload Too Large",
}
ERRORS = {
    400: '{"error":"bad request"}',
    404: '{"error":"not found"}',
    405: '{"error":"method not allowed"}',
    413: '{"error":"too large"}',
}


def ask(port, pieces, ends=True, pause=0.02):
    """Sends these pieces one after another, and answers all that comes back."""
    with socket.create_connection(("127.0.0.1", port), timeout=20) as connection:
        connection.setsockopt(socket.IPPROTO_TCP, socket.TCP_NODELAY, 1)
        for number, piece in enumerate(pieces):
            if number:
                time.sleep(pause)
            connection.sendall(piece)
        if ends:
            connection.shutdown(socket.SHUT_WR)
        answer = b""
        while True:
            some = connection.recv(65536)
            if not some:
                return answer
            answer += some


def response(status, body=None, allow=None):
    """The bytes of a response."""
    body = (ERRORS[status] if body is None else body).encode()
    lines = [
        f"HTTP/1.1 {status} {PHRASES[status]}",
        "Content-Type: application/json",
        f"Content-Length: {len(body)}",
        *([f"Allow: {allow}"] if allow else []),
        "Connection: close",
        "",
        "",
    ]
    return "\r\n".join(lines).encode() + body


def post(body, *fields, length=None):
    """The bytes of a POST of a command."""
    body = body if isinstance(body, bytes) else body.encode()
    length = len(body) if length is None else length
    lines = ["POST /commands HTTP/1.1", f"Content-Length: {length}", *fields, "", ""]
    return "\r\n".join(lines).encode() + body


def shown(answer):
    return repr(answer[:200] if isinstance(answer, bytes) else answer)


def check(name, answer, wanted):
    """Prints whether an answer is the one that is wanted."""
    if answer == wanted:
        print(f"ok {name}")
    else:
        print(f"failed {name}: {shown(answer)}, and not {shown(wanted)}")


if __name__ == "__main__":
    with open(sys.argv[2], "rb") as file:
        sys.stdout.buffer.write(ask(int(sys.argv[1]), [file.read()]))
