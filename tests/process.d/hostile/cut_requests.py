"""The four requests that are worked out by hand, cut after one of their bytes, each by a server of its own.

    cut_requests.py PROGRAM FOLDER SERVING STRIDE

SERVING is the folder of the scripts that ask a server. STRIDE is how many bytes stand between two cuts.
"""

import os
import random
import socket
import subprocess
import sys

sys.path.insert(0, sys.argv[3])
from bench_folder import Bench
from client import ask
from four_requests import AGAIN, ASKED, BAD, DONE, LOOKS
from plain_bench import Records

bench, stride = Bench(sys.argv[1], sys.argv[2]), int(sys.argv[4])
rng = random.Random(13)
counts, wrong = [], []


def go_away(port, request):
    """Sends this and goes, whatever is answered."""
    with socket.create_connection(("127.0.0.1", port), timeout=20) as connection:
        connection.sendall(request)


def serve(visit, count):
    """Has a server visited that ends after so many connections: what the visit finds, and how the server ended."""
    place = ["--registry", bench.registry, "--shelf", bench.images, "--port", "0", "--count", str(count)]
    pipes = {"stdin": subprocess.DEVNULL, "stdout": subprocess.PIPE, "stderr": subprocess.PIPE}
    with subprocess.Popen([bench.program, "serve", *place], **pipes) as server:
        found = visit(int(server.stdout.readline().rsplit(b":", 1)[1]))
        _, complaints = server.communicate(timeout=30)
    return found, (server.returncode, complaints)


def state():
    return Records(bench.registry, os.path.join(bench.work, "scratch")).rows(), bench.contents_of_images()


def check(title, found, wanted):
    if found != wanted:
        wrong.append(f"{title}: {found!r}, and not {wanted!r}"[:700])


def visit(port, request, after):
    """A client who goes away after so many bytes, one who ends there, and one who sends all: what the second and the third are
    answered, and whether a file is another before the third comes."""
    before = bench.contents()
    go_away(port, request[:after])
    ended = ask(port, [request[:after]])
    return ended, bench.contents() == before, ask(port, [request])


def cut(title, request, answer, again):
    """What is cut is a bad request, and changes nothing; the whole one after it is answered as ever."""
    bench.put_back("kept")
    serve(lambda port: ask(port, [request]), 1)
    wanted = state()
    afters = range(rng.randrange(stride), len(request) + 1, stride)
    counts.append(len(afters))
    for after in afters:
        bench.put_back("kept")
        is_whole = after == len(request)
        found, ended = serve(lambda port: visit(port, request, after), 3)
        told = (again, answer == again, again) if is_whole else (BAD, True, answer)
        check(f"{title}, cut after {after} bytes", found, told)
        check(f"{title}, cut after {after} bytes: the server's end", ended, (0, b""))
        check(f"{title}, cut after {after} bytes: what is left", state() == wanted, True)


bench.make(["a.img", "b.img"], 4)
assert bench.run(["recover"]) == (0, "recovered 0\n", "")
bench.keep("kept")
cut("a label", ASKED, DONE, AGAIN)
bench.put_back("kept")
assert serve(lambda port: ask(port, [ASKED]), 1) == (DONE, (0, b""))
bench.keep("kept")
for request, answer in LOOKS:
    cut(request.split()[1].decode(), request, answer, answer)
name = f"four requests, cut ({' + '.join(map(str, counts))} times)"
print(f"failed {name}: {len(wrong)} times, the first: {wrong[0]}" if wrong else f"ok {name}", flush=True)
