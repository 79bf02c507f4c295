"""A server whose log goes into a pipe that nobody reads."""

import fcntl
import os
import re
import subprocess
import sys

from client import ask, check, response

program, registry, shelf = sys.argv[1:]
COUNT = 40
UNREAD = 30
EMPTY = response(200, '{"mirrors":[]}')

words = ["serve", "--registry", registry, "--shelf", shelf, "--port", "0", "--count", str(COUNT), "--log"]
server = subprocess.Popen([program, *words], stdout=subprocess.PIPE, stderr=subprocess.PIPE)
log = server.stderr.fileno()
fcntl.fcntl(log, 1031, 4096)  # F_SETPIPE_SZ: a pipe of one page
port = int(server.stdout.readline().rsplit(b":", 1)[1])
logged = b""
for number in range(COUNT):
    check(f"request {number}", ask(port, [b"GET /status HTTP/1.1\r\n\r\n"]), EMPTY)
    if number >= UNREAD - 1:
        logged += os.read(log, 65536)
while some := os.read(log, 65536):
    logged += some
check("it ends as ever", server.wait(timeout=20), 0)
lines = logged.decode().splitlines()
check("the registry is new", lines.pop(0), f"a new registry was made at {registry}")
lost = [int(line.split()[0]) for line in lines if line.endswith(" lines lost")]
whole = [line for line in lines if re.fullmatch(r"\w{3}, \d\d \w{3} \d{4} [\d:]{8} GMT GET /status 200 14", line)]
check("each line is whole, or says how many were lost", len(whole) + len(lost), len(lines))
check("each connection is logged or counted as lost", len(whole) + sum(lost), COUNT)
check("some were lost, and that is said once", len(lost) == 1 and lost[0] > 0, True)
