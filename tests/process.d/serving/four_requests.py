"""The four requests that are worked out by hand, a label and the three looks at its mirror, and what each is answered."""

from bodies import EMPTY, LABEL, MIRROR, SECTOR, STATUS
from client import post, response


def get(target):
    return f"GET {target} HTTP/1.1\r\nHost: here\r\n\r\n".encode()


ASKED = post(LABEL)
DONE, AGAIN = response(200, '{"answer":"ok","seq":1}'), response(200, '{"answer":"repeated","seq":1}')
BAD, NONE = response(400), response(200, EMPTY)
# What the mirror is asked for, and what it is answered.
LOOKS = [
    (get("/status"), response(200, STATUS)),
    (get("/mirrors/gm0"), response(200, MIRROR)),
    (get("/providers/a.img/metadata"), response(200, SECTOR)),
]
