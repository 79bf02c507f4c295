"""A request in two pieces, cut after each of its bytes; and one whose sender doesn't end its side."""

import sys
from concurrent.futures import ThreadPoolExecutor

from client import ask, check, post, response

port = int(sys.argv[1])
request = post('{"key":"k1","words":["forget","gm0"]}')
wanted = response(409, '{"answer":"refused","number":5}')
with ThreadPoolExecutor(4) as pool:
    answers = list(pool.map(lambda at: ask(port, [request[:at], request[at:]]), range(1, len(request))))
wrong = [at for at, answer in enumerate(answers, 1) if answer != wanted]
print(f"failed a request in two pieces: cut behind {wrong}" if wrong else "ok a request in two pieces")
check("a request whose sender waits for the answer", ask(port, [request], ends=False), wanted)
check("bytes one by one", ask(port, [bytes([byte]) for byte in request], pause=0.001), wanted)
long = post("x" * 131_072, length=131_072)
check("a long body whose sender waits", ask(port, [long[:100], long[100:]], ends=False), response(400))
