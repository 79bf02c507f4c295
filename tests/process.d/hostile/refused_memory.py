"""Runs of the program in which one call for memory is refused, each in turn.

    refused_memory.py PROGRAM PRELOADED FOLDER MOST

A line says how many calls were refused, and how many the run with ample memory makes: all of them are refused, or MOST, which
are chosen by a fixed seed. With PART=K/N in the environment it is each Nth of these, from the Kth on.
"""

import os
import re
import socket
import subprocess
import sys

from bench_folder import Bench
from refused_calls import MEMORY, RefusedCalls, lines_before_fault, shown

bench = Bench(sys.argv[1], sys.argv[3])
calls = RefusedCalls(bench, sys.argv[2], int(sys.argv[4]))
LINES = [
    "k1 label --mid 7 --did 1 gm0 a.img", "k2 insert --did 2 gm0 b.img", "k1 label --mid 7 --did 1 gm0 a.img",
    "k9 destroy gm9", "k1 destroy gm0", "k8 paint", "k3 advance gm0 b.img", "k/1 forget gm0",
]
ANSWERS = [
    "k1 ok 1", "k2 ok 2", "k1 repeated 1", "k9 refused 5", "k1 refused 3", "k8 refused 1",
    "k3 ok 3 copied 3 of 3", "? refused 2",
]


def put_back():
    bench.put_back("kept")


def recovered(wanted):
    """What is wrong with the bench after the next opening, if anything."""
    ended = calls.run(["recover"])
    if ended[0] != 0 or not re.fullmatch(r"recovered [0-9]+\n", ended[1]) or ended[2]:
        return f"the next opening: {shown(ended)}"
    return None if wanted in (None, bench.contents_of_images()) else "the next opening leaves other images"


def answered_again(lines, answers, wanted):
    """What is wrong with the answers to the same lines after that, if anything."""
    ended = calls.run(["batch"], lines)
    told = ended[1].split("\n")[:-1]
    again = [re.sub(r"ok ([0-9]+).*", r"repeated \1", answer) for answer in answers]
    if len(told) != len(lines) or any(it not in both for it, both in zip(told, zip(answers, again))):
        return f"the same lines again: {shown(ended)}"
    return None if bench.contents_of_images() == wanted else "the same lines again leave other images"


def look(name, words, keeps_registry=False, **place):
    """A command that only looks tells the same or a fault, and changes no image; nor the registry, if it is to keep that."""

    def run(**more):
        return calls.run(words, **place, **more)

    def files():
        return bench.contents() if keeps_registry else bench.contents_of_images()

    put_back()
    ample = run()
    lines = ample[1].split("\n")[:-1]
    put_back()
    before = files()

    def judge(ended):
        if ended != ample and lines_before_fault(ended, lines, ample[2]) not in (0, len(lines)):
            return shown(ended)
        return None if files() == before else "a file is another"

    calls.try_each(name, put_back, run, judge, lambda ended: ended == ample and ended[0] < 2)


def redo():
    """A recovery that has something to carry out: it ends well, or is ended by the next."""

    def run(**more):
        return calls.run(["recover"], **more)

    put_back()
    ample = run()
    wanted = bench.contents_of_images()

    def judge(ended):
        if ended != ample and lines_before_fault(ended, ["recovered 2"]) is None:
            return shown(ended)
        if ended == ample and bench.contents_of_images() != wanted:
            return "other images"
        return recovered(wanted)

    calls.try_each("a recovery of two writes", put_back, run, judge, lambda ended: ended == (0, "recovered 2\n", ""))


def several(name, words):
    """A command that hands in several: it ends well or with the fault, and the same words lead to the same images."""

    def run(**more):
        return calls.run(words, **more)

    put_back()
    run()
    wanted = bench.contents_of_images()

    def judge(ended):
        if ended[0] != 0 and (ended[0] != 3 or MEMORY not in ended[2].splitlines(keepends=True)):
            return shown(ended)
        again = run()
        if again[0] != 0:
            return f"the same words again: {shown(again)}"
        return None if bench.contents_of_images() == wanted else "the same words again leave other images"

    calls.try_each(name, put_back, run, judge, lambda ended: ended[0] == 0)


def batch():
    """A batch: each line is answered as ever, or with the fault that ends it; and again after that."""

    def run(**more):
        return calls.run(["batch"], LINES, **more)

    put_back()
    ample = run()
    wanted = bench.contents_of_images()

    def judge(ended):
        if ended != ample and lines_before_fault(ended, ANSWERS) is None:
            return shown(ended)
        return recovered(None) or answered_again(LINES, ANSWERS, wanted)

    calls.try_each("a batch", put_back, run, judge, lambda ended: ended[1].split("\n")[:-1] == ANSWERS)


BODY = b'{"key":"k1","words":["label","--mid","7","--did","1","gm0","a.img"]}'
REQUEST = b"POST /commands HTTP/1.1\r\nContent-Length: %d\r\n\r\n%s" % (len(BODY), BODY)


def response(status, body):
    head = b"HTTP/1.1 %s\r\nContent-Type: application/json\r\nContent-Length: %d\r\nConnection: close\r\n\r\n"
    return head % (status, len(body)) + body


RIGHT = response(b"200 OK", b'{"answer":"ok","seq":1}')
WITH_FAULT = response(b"503 Service Unavailable", b'{"fault":1}')


def answer_of(port):
    """What the request is answered, or the beginning of that if the server is gone."""
    answer = b""
    try:
        with socket.create_connection(("127.0.0.1", port), timeout=20) as connection:
            connection.sendall(REQUEST)
            connection.shutdown(socket.SHUT_WR)
            while some := connection.recv(65536):
                answer += some
    except OSError:
        # what came until then tells
        pass
    return answer


def serve_one(**more):
    """What one request is answered, what the server complained, and how it ended."""
    words = [bench.program, "serve", "--registry", bench.registry, "--shelf", bench.images, "--port", "0", "--count", "1"]
    pipes = {"stdin": subprocess.DEVNULL, "stdout": subprocess.PIPE, "stderr": subprocess.PIPE}
    environment = {**os.environ, **calls.preloaded, **more}
    with subprocess.Popen(words, env=environment, **pipes) as server:
        line = server.stdout.readline()
        listening = re.fullmatch(rb"listening on 127\.0\.0\.1:([0-9]+)\n", line)
        answer = answer_of(int(listening[1])) if listening else b""
        rest, complaints = server.communicate(timeout=30)
    # The registry is new.
    complaints = complaints.decode().removeprefix(f"a new registry was made at {bench.registry}\n")
    return line + rest, answer, complaints, server.returncode


def is_served(told, answer, complaints, status):
    # A request that memory is wanting to take ends its connection alone, without an answer.
    if answer in (b"", RIGHT) and (complaints, status) == ("", 0):
        return True
    if status != 3 or complaints != MEMORY or (told and not told.endswith(b"\n")):
        return False
    return answer in (b"", RIGHT, WITH_FAULT)


def serve():
    """A request: its answer, or the fault for which the server ends; and the same command after that."""
    put_back()
    serve_one()
    wanted = bench.contents_of_images()

    def judge(served):
        if not is_served(*served):
            return str(served)
        return recovered(None) or answered_again(LINES[:1], ANSWERS[:1], wanted)

    calls.try_each("a request", put_back, serve_one, judge, lambda served: served[1:] == (RIGHT, "", 0))


bench.keep("kept")
batch()
serve()
# the mirror that the batch makes
put_back()
calls.run(["batch"], LINES)
bench.keep("kept")
with open(os.path.join(bench.images, "c.img"), "wb") as file:
    file.write(bytes(2048))
bench.keep("kept")
several("a replacement", ["replace", "--quiet", "--key", "r", "gm0", "b.img", "c.img"])
with open(os.path.join(bench.work, "loader.bin"), "wb") as file:
    file.write(bytes(range(256)) * 6)
LOADER = os.path.join(bench.work, "loader.bin")
several("a write", ["write", "--quiet", "--key", "w", "--first", "0", "--file", LOADER, "gm0"])
for command in ["status", "list", "audit"]:
    look(command, [command])
look("taste", ["taste"], registry=False)
look("dump", ["dump", "a.img"], registry=False)
# the bench that stopped in the middle of a removal
bench.put_back("pending")
bench.keep("kept")
redo()
look("pending", ["pending"], True)
look("pending without a folder of images", ["pending"], True, shelf=False)
for command in ["status", "list", "audit"]:
    look(f"{command} --read-only", [command, "--read-only"], True)
