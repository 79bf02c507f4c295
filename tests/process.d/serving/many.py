"""Hands the lines of a batch in, each by a connection of its own, and prints the answers as a batch does.

    many.py PORT LINES [COUNT PROCESS]

With COUNT and PROCESS that process is killed once so many lines are answered and the next one is sent.
"""

import json
import os
import signal
import socket
import sys

from client import ask, post


def request(line):
    key, *words = line.split()
    return key, post(json.dumps({"key": key, "words": words}))


def told(key, response):
    answer = json.loads(response.split(b"\r\n\r\n", 1)[1])
    number = answer["number" if answer["answer"] == "refused" else "seq"]
    copied = f" copied {answer['copied']} of {answer['of']}" if "copied" in answer else ""
    return f"{key} {answer['answer']} {number}{copied}"


port = int(sys.argv[1])
with open(sys.argv[2], encoding="utf-8") as file:
    lines = file.read().splitlines()
count, process = (int(sys.argv[3]), int(sys.argv[4])) if len(sys.argv) > 3 else (len(lines), None)
for line in lines[:count]:
    name, content = request(line)
    print(told(name, ask(port, [content])), flush=True)
if process is not None:
    with socket.create_connection(("127.0.0.1", port), timeout=20) as connection:
        connection.sendall(request(lines[count])[1])
        os.kill(process, signal.SIGKILL)
