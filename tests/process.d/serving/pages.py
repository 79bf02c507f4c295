"""Requests that web pages send, with the fields that their browsers add, and requests of programs."""

import socket
import sys

from client import ask, check, response

port = int(sys.argv[1])
pages_are_served = sys.argv[2] == "any"

COMMAND = b'{"key":"k1","words":["forget","gm0"]}'
FORBIDDEN = (
    b"HTTP/1.1 403 Forbidden\r\nContent-Type: application/json\r\nContent-Length: 27\r\n"
    b"Connection: close\r\n\r\n"
    b'{"error":"not from a page"}'
)
MIRRORS = response(200, '{"mirrors":[]}')


def get(*fields, target=b"/status"):
    lines = [b"GET " + target + b" HTTP/1.1", *fields, b"", b""]
    return b"\r\n".join(lines)


def post(*fields, length=len(COMMAND), body=COMMAND):
    lines = [b"POST /commands HTTP/1.1", *fields, b"Content-Length: %d" % length, b"", b""]
    return b"\r\n".join(lines) + body


def page(name, request, else_answer):
    """Checks a request that is turned away, unless those of pages are answered."""
    check(name, ask(port, [request]), else_answer if pages_are_served else FORBIDDEN)


def program(name, request, answer=MIRRORS):
    """Checks a request that is answered in either case."""
    check(name, ask(port, [request]), answer)


# Each of the fields by itself.
page("Origin", get(b"Origin: http://elsewhere.example"), MIRRORS)
page("Origin null", get(b"Origin: null"), MIRRORS)
page("Origin without a value", get(b"Origin:"), MIRRORS)
page("origin in other letters", get(b"oRiGiN: http://127.0.0.1:8080"), MIRRORS)
for site in b"cross-site", b"same-site", b"same-origin", b"NONE", b"", b"none, none":
    page(f"Sec-Fetch-Site {site.decode()!r}", get(b"Sec-Fetch-Site: " + site), MIRRORS)
page("sec-fetch-site in other letters", get(b"SEC-FETCH-SITE: cross-site"), MIRRORS)
page("a second one", get(b"Sec-Fetch-Site: none", b"Sec-Fetch-Site: cross-site"), MIRRORS)
program("Sec-Fetch-Site none", get(b"Sec-Fetch-Site: none"))
program("the same with white space", get(b"Sec-Fetch-Site: \t none \t"))
program("other fields", get(b"Referer: http://elsewhere.example", b"X-Origin: a", b"Origin-X: a"))

# Hosts: a name with a dot that is no address is one that somebody else may have made one of this machine.
HOSTS_OF_PAGES = [
    b"elsewhere.example",
    b"elsewhere.example:8080",
    b"localhost.",
    b"127.0.0.1.elsewhere.example",
    b"127.0.0.1:",
    b"127.0.0.1:65536",
    b"127.0.0.256",
    b"127.1.1",
    b"0127.0.0.1",
    b"user@127.0.0.1",
    b"127.0.0.1, elsewhere.example",
    b"[::1].elsewhere.example",
    b"[::1]]",
    b"[elsewhere.example]",
    b"[]",
    b"local host",
    b"localhost/",
    b"\xe4\xbe\x8b",
]
for host in HOSTS_OF_PAGES:
    page(f"Host {host!r}", get(b"Host: " + host), MIRRORS)
HOSTS_OF_PROGRAMS = [
    b"localhost",
    b"LOCALHOST:8080",
    b"office-7_b:1",
    b"127.0.0.1",
    b"127.0.0.1:8080",
    b"10.1.2.3:80",
    b"[::1]",
    b"[::1]:80",
    b"[fe80::1:2]",
    b"[::ffff:127.0.0.1]:80",
    b"",
]
for host in HOSTS_OF_PROGRAMS:
    program(f"Host {host!r}", get(b"Host: " + host))
program("no Host", get())
program("two hosts", get(b"Host: localhost", b"host: 127.0.0.1"))
page("two hosts, the second of a page", get(b"Host: localhost", b"hOST: a.b"), MIRRORS)

# It comes after a head that can't be read, and before all else.
origin = b"Origin: null"
program("a head that can't be read", b"GET /status\r\nOrigin: null\r\n\r\n", response(400))
program("a head of 65 fields", get(origin, *[b"a: b"] * 64), response(400))
page("another target", get(origin, target=b"/elsewhere"), response(404))
page("another method", post(origin).replace(b"/commands", b"/status"), response(405, allow="GET"))
page("a body that is too long", post(origin, length=131073), response(413))
page("chunks", post(origin, b"Transfer-Encoding: chunked"), response(400))
page("a body that is cut", post(origin, body=COMMAND[:9]), response(400))
page("no call", post(origin, body=b"text=" + COMMAND[5:]), response(400))
refused = response(409, '{"answer":"refused","number":5}')
page("a form of text/plain", post(b"Content-Type: text/plain", origin), refused)
program("a command of a program", post(), refused)

# Nothing after the head of a page is needed for a target that takes no body.
with socket.create_connection(("127.0.0.1", port), timeout=20) as connection:
    connection.sendall(get(origin))
    answer = b""
    while some := connection.recv(4096):
        answer += some
check("a page that waits for its answer", answer, MIRRORS if pages_are_served else FORBIDDEN)
