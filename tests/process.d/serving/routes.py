"""Each route, over a mirror gm0 that this labels on a.img, beside an image b.img without metadata."""

import sys

from bodies import EMPTY, LABEL, MIRROR, SECTOR, STATUS
from client import ask, check, post, response

port = int(sys.argv[1])


def get(target, method="GET"):
    return ask(port, [f"{method} {target} HTTP/1.1\r\nHost: here\r\n\r\n".encode()])


TWO = (
    '{"mirrors":[{"components":[{"name":"a.img","state":"ACTIVE"},{"name":"b.img",'
    '"state":"SYNCHRONIZING"}],"name":"gm0","state":"DEGRADED"}]}'
)

check("no mirrors", get("/status"), response(200, EMPTY))
check("a mirror that there isn't", get("/mirrors/gm0"), response(404))
check("a last sector that is no metadata", get("/providers/a.img/metadata"), response(404, '{"decode":1}'))
check("a label", ask(port, [post(LABEL)]), response(200, '{"answer":"ok","seq":1}'))
check("the same label again", ask(port, [post(LABEL)]), response(200, '{"answer":"repeated","seq":1}'))
check("the mirrors", get("/status"), response(200, STATUS))
check("the mirror", get("/mirrors/gm0"), response(200, MIRROR))
check("its last sector", get("/providers/a.img/metadata"), response(200, SECTOR))
check("the last sector of an image that there isn't", get("/providers/d.img/metadata"), response(404))

OTHER = LABEL.replace("gm0", "gm1")
check("another command under that key", ask(port, [post(OTHER)]), response(409, '{"answer":"refused","number":3}'))
NO_WORDS = '{"key":"k1","words":[]}'
check("no words", ask(port, [post(NO_WORDS)]), response(409, '{"answer":"refused","number":1}'))
NO_KEY = '{"key":"k/1","words":["forget","gm0"]}'
check("a key that is none", ask(port, [post(NO_KEY)]), response(409, '{"answer":"refused","number":2}'))
INSERT = '{"key":"k2","words":["insert","--did","2","gm0","b.img"]}'
check("an insert", ask(port, [post(INSERT)]), response(200, '{"answer":"ok","seq":2}'))
check("two components", get("/status"), response(200, TWO))
ADVANCE = '{"key":"k3","words":["advance","gm0","b.img"]}'
check("an advance", ask(port, [post(ADVANCE)]), response(200, '{"answer":"ok","copied":3,"of":3,"seq":3}'))

for target in [
    "/status?x=1", "/status/", "/", "/mirrors/", "/mirrors/gm%30", "/mirrors/sixteen-letters0",
    "/mirrors/gm0/", "/mirrors/ä", "/providers/a.img", "/providers//metadata", "/providers/a.img/metadata/",
    "/command", "/commands/", "http://127.0.0.1/status", "*", "/../../etc/passwd", "/mirrors/..%2f..",
]:
    check(f"the target {target}", get(target), response(404))
    check(f"the target {target}, by another method", get(target, "DELETE"), response(404))
check("GET of the commands", get("/commands"), response(405, allow="POST"))
for target in ["/status", "/mirrors/gm0", "/mirrors/gm7", "/providers/a.img/metadata"]:
    for method in ["POST", "HEAD", "DELETE", "get"]:
        check(f"{method} of {target}", get(target, method), response(405, allow="GET"))
