"""Requests over HTTP made by a generator with a fixed seed, each answered by the first check that it doesn't pass.

    requests.py PORT COUNT SERVING

The bench has the mirror gm0 on a.img, with two components' room, and an image b.img without metadata. SERVING is the folder
of the scripts that ask a server.
"""

import random
import re
import sys

port, count = int(sys.argv[1]), int(sys.argv[2])
sys.path.insert(0, sys.argv[3])
from client import ask, response

rng = random.Random(2616)
STATUS = '{"mirrors":[{"components":[{"name":"a.img","state":"ACTIVE"}],"name":"gm0","state":"COMPLETE"}]}'
MIRROR = (
    '{"all":1,"balance":"load","components":[{"did":1,"flags":0,"hardcoded":false,"name":"a.img",'
    '"offset":0,"priority":0,"provsize":2048,"state":"ACTIVE","syncid":1}],"flags":0,"genid":0,'
    '"mediasize":1536,"mid":7,"name":"gm0","slice":4096,"state":"COMPLETE","syncid":1}'
)
# a target, the method that it takes, and what that is answered
ROUTES = {
    b"/status": (b"GET", response(200, STATUS)),
    b"/mirrors/gm0": (b"GET", response(200, MIRROR)),
    b"/mirrors/gm7": (b"GET", response(404)),
    b"/mirrors/-": (b"GET", response(404)),
    b"/providers/b.img/metadata": (b"GET", response(404, '{"decode":1}')),
    b"/providers/d.img/metadata": (b"GET", response(404)),
    b"/commands": (b"POST", None),
}
NO_ROUTES = [
    b"/", b"*", b"/Status", b"/status/", b"/status?", b"/status#a", b"//status", b"/status/gm0", b"/mirrors", b"/mirrors/",
    b"/mirrors/gm0/", b"/mirrors/gm%30", b"/mirrors/sixteen-letters0", b"/mirrors/../status", b"/mirrors/a/b", b"/providers/",
    b"/providers/b.img", b"/providers/b.img/metadata/", b"/providers//metadata", b"/providers/b.img/Metadata", b"/commands/",
    b"/commands?key=k1", b"commands", b"http://127.0.0.1/status", b"/" + b"x" * 2000, b"/%2e%2e/", b"/status;a", b"/mirrors/'",
]
METHODS = [b"GET", b"GET", b"POST", b"POST", b"POST", b"HEAD", b"DELETE", b"PUT", b"get", b"OPTIONS", b"X-Y_Z!", b"CONNECT"]
NO_METHODS = [b"", b"G(T", b"G\x00T", b"G\xc4T", b"GET,", b"G\x7fT", b'"GET"', b"{"]
NO_VERSIONS = [b"", b"HTTP/2.0", b"HTTP/1.2", b"http/1.1", b"HTTP/1.1x", b"HTTP/1", b"HTTP/11", b"HTTP /1.1", b"HTP/1.1"]
NO_FIELDS = [
    b"a", b": b", b"a b: c", b"a : b", b"a\x00: b", b"a: \x01", b"(a): b", b"a: \x7f", b"a\xff: b", b"a, b: c", b"[: a",
]
NO_LENGTHS = [b"", b"+5", b"-5", b"5x", b"0x5", b"5 5", b"5,5", b"00000000037", b"five", b"3.7e1", b"\xb2", b"1_0", b"'5'"]
REPEATED = response(200, '{"answer":"repeated","seq":1}')
ENCODINGS = [b"Transfer-Encoding: chunked", b"transfer-encoding:", b"TRANSFER-ENCODING: x"]
# a body, and what it is answered
COMMANDS = [
    (b'{"key":"k9","words":["forget","gm9"]}', response(409, '{"answer":"refused","number":5}')),
    (b'{"words":["forget","gm9"],"key":"k9"}', response(409, '{"answer":"refused","number":5}')),
    (b' {"key" :\t"k9",\r\n"words": ["forget" , "gm9"] }\n', response(409, '{"answer":"refused","number":5}')),
    (b'{"key":"k9","words":["clear","b.img"]}', response(409, '{"answer":"refused","number":29}')),
    (b'{"key":"k9","words":["clear","d.img"]}', response(409, '{"answer":"refused","number":8}')),
    (b'{"key":"k9","words":["remove","gm0","a.img"]}', response(409, '{"answer":"refused","number":17}')),
    (b'{"key":"k1","words":["label","--mid","7","--did","1","gm0","a.img"]}', REPEATED),
    (b'{"key":"k1","words":["label","--did=1","--mid=007","gm0","a.img"]}', REPEATED),
    (b'{"key":"k1","words":["forget","gm0"]}', response(409, '{"answer":"refused","number":3}')),
    (b'{"key":"k/9","words":["forget","gm9"]}', response(409, '{"answer":"refused","number":2}')),
    (b'{"key":"","words":["forget","gm9"]}', response(409, '{"answer":"refused","number":2}')),
    (b'{"key":"k9","words":[]}', response(409, '{"answer":"refused","number":1}')),
    (b'{"key":"k9","words":["forget gm9"]}', response(409, '{"answer":"refused","number":1}')),
    (b'{"key":"k\\u0039","words":["forget","gm9"]}', response(409, '{"answer":"refused","number":5}')),
    (b'{"key":"\\ud83d\\ude00","words":["\\u0000","\\n"]}', response(409, '{"answer":"refused","number":1}')),
]
NO_BODIES = [
    b"", b" ", b"null", b"7", b"[]", b"{}", b'"k9"', b'{"key":"k9"}', b'{"words":[]}', b'{"key":7,"words":[]}',
    b'{"key":"k9","words":"forget"}', b'{"key":"k9","words":[7]}', b'{"key":"k9","words":[["a"]]}',
    b'{"key":"k9","words":[null]}',
    b'{"key":"k9","words":[],"more":1}', b'{"Key":"k9","words":[]}', b'{"key":"k9","words":[]}}', b'{"key":"k9","words":[],}',
    b'{"key":"k9","words":["a",]}', b"{'key':'k9','words':[]}", b'{"key":"k9" "words":[]}', b'{"key":"\xff","words":[]}',
    b'{"key":"\\ud800","words":[]}', b'{"key":"k\n9","words":[]}', b'{"key":"k9","words":[' + b"[" * 3000, b"[" * 60_000,
    b"\xef\xbb\xbf" + b'{"key":"k9","words":[]}', b'{"key":"k9","words":[]} x', b'{"key":"k9","words":{}}', b'\x00{}',
]
LETTERS = b"abcdefghijklmnopqrstuvwxyzABCDEFGHIJKLMNOPQRSTUVWXYZ0123456789"


def field():
    """A field that no check is about."""
    name = b"x-" + bytes(rng.choices(LETTERS, k=rng.randint(1, 12)))
    value = bytes(rng.choices(range(32, 127), k=rng.randrange(30)))
    return name + b":" + rng.choice([b"", b" ", b"\t "]) + value


def one_of(good, bad, odds=0.06):
    """One of the good, or by these odds one of the bad; and whether it is good."""
    return (rng.choice(bad), False) if rng.random() < odds else (rng.choice(good), True)


def body_and_length():
    """The fields and the body of a POST, and what it is answered."""
    body, answer = rng.choice(COMMANDS) if rng.random() < 0.6 else (rng.choice(NO_BODIES), response(400))
    kind = rng.random()
    length = b"Content-Length: %d" % len(body)
    if kind < 0.06:
        return [], body, response(400)
    if kind < 0.1:
        return [length, length], body, response(400)
    if kind < 0.16:
        return [b"Content-Length: " + rng.choice(NO_LENGTHS)], body, response(400)
    if kind < 0.2:
        return [b"Content-Length: %d" % rng.choice([131_073, 199_999, 4_294_967_296, 9_999_999_999])], body, response(413)
    if kind < 0.24:
        return [b"Content-Length: %d" % (len(body) + rng.randint(1, 9))], body, response(400)
    if kind < 0.3:
        return [length, rng.choice(ENCODINGS)], body, response(400)
    if kind < 0.4:
        return [b"cOntent-lENgth:\t%010d " % len(body)], body + b"x" * rng.choice([1, 5000]), answer
    return [length], body, answer


def request():
    """The bytes of a request, and what it is answered."""
    method, knows_method = one_of(METHODS, NO_METHODS)
    target, knows_target = one_of(list(ROUTES), NO_ROUTES, 0.2)
    version, knows_version = one_of([b"HTTP/1.1", b"HTTP/1.1", b"HTTP/1.0"], NO_VERSIONS)
    fields, body, answer = body_and_length() if method == b"POST" else ([], b"x" * rng.choice([0, 0, 7]), None)
    fields += [field() for _ in range(rng.choice([0, 0, 1, 2, 5]))]
    if rng.random() < 0.05:
        fields += [b"a: b"] * (rng.choice([63, 64, 65, 200]) - len(fields))
    bad_field = rng.random() < 0.06
    if bad_field:
        fields.append(rng.choice(NO_FIELDS))
    rng.shuffle(fields)
    if rng.random() < 0.02:
        fields.append(b"x: " + b"y" * rng.choice([8100, 9000, 70_000]))
    end = rng.choice([b"\r\n", b"\r\n", b"\r\n", b"\n"])
    head = end.join([b" ".join([method, target, version]), *fields, b"", b""])
    if bad_field or not (knows_method and knows_version) or len(fields) > 64 or len(head) > 8192:
        return head + body, response(400)
    if not knows_target:
        return head + body, response(404)
    takes, told = ROUTES[target]
    if method != takes:
        return head + body, response(405, allow=takes.decode())
    return head + body, told or answer


SHAPE = re.compile(
    rb"HTTP/1\.1 (200 OK|400 Bad Request|404 Not Found|405 Method Not Allowed|409 Conflict|413 Payload Too Large)\r\n"
    rb"Content-Type: application/json\r\nContent-Length: ([0-9]+)\r\n(Allow: (?:GET|POST)\r\n)?Connection: close\r\n\r\n"
    rb'(\{"(?:answer|error|mirrors|all|decode)":.*\})'
)


def is_whole(answer):
    found = SHAPE.fullmatch(answer)
    return bool(found) and int(found[2]) == len(found[4]) and found[1].startswith(b"405") == bool(found[3])


def changed(asked):
    """The request with some bytes that are others, more, or gone; or cut."""
    asked = bytearray(asked)
    if rng.random() < 0.2:
        return bytes(asked[: rng.randrange(len(asked) + 1)])
    for _ in range(rng.randint(1, 4)):
        at = rng.randrange(len(asked) + 1)
        asked[at : at + rng.randrange(2)] = rng.randbytes(rng.randrange(2))
    return bytes(asked)


wrong, kinds = [], {}
for turn in range(count):
    asked, wanted = request()
    if rng.random() < 0.2:
        asked, wanted = changed(asked), None
    try:
        answer = ask(port, [asked])
    except OSError as error:
        answer = str(error).encode()
    kind = "left open" if wanted is None else wanted.split(b" ")[1].decode()
    kinds[kind] = kinds.get(kind, 0) + 1
    if answer != wanted and not (wanted is None and is_whole(answer)):
        wrong.append(f"{asked[:300]!r} was answered {answer[:200]!r}, and not {wanted and wanted[:200]!r}")
        if len(wrong) == 20:
            break
told = ", ".join(f"{number} {kind}" for kind, number in sorted(kinds.items()))
title = f"{count} requests ({told})"
print(f"failed {title}: {len(wrong)} times, the first: {wrong[0]}" if wrong else f"ok {title}")
