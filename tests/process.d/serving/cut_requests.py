"""Requests that are cut after each byte, and of which each read and each write of the server fails once, and after each byte.

    cut_requests.py PROGRAM PRELOADED FOLDER
"""

import os
import shutil
import subprocess
import sys

import client
from four_requests import AGAIN, ASKED, BAD, DONE, LOOKS, NONE, get

program, preloaded, work = sys.argv[1:4]
bench = os.path.join(work, "bench")
images, registry = os.path.join(bench, "images"), os.path.join(bench, "registry")
count_file = os.path.join(work, "count")
counts = {"cuts": 0, "reads": 0, "writes": 0, "bytes": 0}
wrong = []


def put(labelled):
    shutil.rmtree(bench, ignore_errors=True)
    os.makedirs(images)
    for name in ["a.img", "b.img"]:
        with open(os.path.join(images, name), "wb") as file:
            file.write(name[:1].encode() * 1536 + bytes(512))
    if labelled:
        serve([ASKED])


def ask(port, request):
    try:
        return client.ask(port, [request])
    except OSError:
        # the connection was broken
        return b""


def serve(requests, **more):
    """What these requests are answered, each over a connection of its own, and how the server ended."""
    words = [program, "serve", "--registry", registry, "--shelf", images, "--port", "0", "--count", str(len(requests))]
    pipes = {"stdin": subprocess.DEVNULL, "stdout": subprocess.PIPE, "stderr": subprocess.PIPE}
    environment = {**os.environ, "LD_PRELOAD": preloaded, **more}
    with subprocess.Popen(words, env=environment, **pipes) as server:
        port = int(server.stdout.readline().rsplit(b":", 1)[1])
        answers = [ask(port, request) for request in requests]
        _, complaints = server.communicate(timeout=30)
        # The registry is new in some of the runs.
        complaints = complaints.removeprefix(f"a new registry was made at {registry}\n".encode())
        return answers, (server.returncode, complaints)


def check(title, found, wanted):
    if found != wanted:
        wrong.append(f"{title}: {found!r}, and not {wanted!r}"[:700])


def cut(title, request, answer, labelled):
    """Whatever is cut is a bad request, and does nothing; the whole one after that is answered as ever."""
    put(labelled)
    pieces = [request[:behind] for behind in range(len(request))]
    counts["cuts"] += len(pieces)
    looked = [] if labelled else [get("/status")]
    found, ended = serve([*pieces, *looked, request])
    check(f"{title}, cut", found[: len(pieces)], [BAD] * len(pieces))
    check(f"{title}, behind those that were cut", found[len(pieces) :], [*([NONE] if looked else []), answer])
    check(f"{title}, cut: the server's end", ended, (0, b""))


def calls_of(request):
    """How many reads a connection with this request takes, and how many writes, with the one that says where it listens."""
    serve([request], PIECE="32", COUNT=count_file)
    with open(count_file, encoding="ascii") as file:
        return [int(number) for number in file.read().split()]


def fail(title, request, answer, again, labelled):
    """Each read and each write of the connection fails once: the next connection is answered as ever."""
    put(labelled)
    reads, writes = calls_of(request)
    for kind, first, last in [("READ", 1, reads), ("WRITE", 2, writes)]:
        for number in range(first, last + 1):
            counts[f"{kind.lower()}s"] += 1
            put(labelled)
            at = f"{title}, {kind.lower()} {number} of {last} fails"
            found, ended = serve([request, request], PIECE="32", **{f"FAIL_{kind}": str(number)})
            check(f"{at}: a beginning", answer.startswith(found[0]), True)
            # a request whose answer can't be written was carried out
            wanted = again if kind == "WRITE" or found[0] == answer else answer
            check(f"{at}: behind it", found[1], wanted)
            check(f"{at}: the server's end", ended, (0, b""))


def fail_after_each_byte(title, request, answer, again, labelled):
    """The reads of each connection fail after a byte more than those of the one before: nothing is answered or done until all
    are read, and nothing is read after that. Then the writes fail so: what was to be told was done, and stays."""
    for call, told in [
        ("READS", [*[b""] * len(request), answer]),
        ("WRITES", [again[:room] for room in range(len(again) + 1)]),
    ]:
        put(labelled)
        counts["bytes"] += len(told) - 1
        found, ended = serve([request] * len(told), **{f"CUT_{call}": "yes"})
        for room, (answered, wanted) in enumerate(zip(found, told)):
            check(f"{title}, {call.lower()} that fail after {room} bytes", answered, wanted)
        check(f"{title}, {call.lower()} that fail after each byte: the server's end", ended, (0, b""))


cut("a label", ASKED, DONE, False)
fail("a label", ASKED, DONE, AGAIN, False)
fail_after_each_byte("a label", ASKED, DONE, AGAIN, False)
for asked, told in LOOKS:
    name = asked.split()[1].decode()
    cut(name, asked, told, True)
    fail(name, asked, told, told, True)
    fail_after_each_byte(name, asked, told, told, True)
numbers = ", ".join(f"{number} {kind}" for kind, number in counts.items())
name = f"requests, cut and with a call that fails ({numbers})"
print(f"failed {name}: {len(wrong)} times, the first: {wrong[0]}" if wrong else f"ok {name}", flush=True)
