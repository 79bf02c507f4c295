"""Requests that aren't as they are to be, check by check, over a registry without mirrors."""

import sys

from client import ask, check, post, response

port = int(sys.argv[1])
EMPTY = response(200, '{"mirrors":[]}')
REFUSED = response(409, '{"answer":"refused","number":5}')
NO_COMMAND = response(409, '{"answer":"refused","number":1}')
BODY = '{"key":"k1","words":["forget","gm0"]}'


def tell(name, request, wanted):
    check(name, ask(port, [request]), wanted)


def head(*fields, line="GET /status HTTP/1.1", end="\r\n"):
    return end.join([line, *fields, "", ""]).encode()


# ---- heads
tell("no field", head(), EMPTY)
tell("64 fields", head(*["a: b"] * 64), EMPTY)
tell("65 fields", head(*["a: b"] * 65), response(400))
room = 8192 - len(head("a: "))
tell("a head of 8,192 bytes", head("a: " + "b" * room), EMPTY)
tell("a head of 8,193 bytes", head("a: " + "b" * (room + 1)), response(400))
tell("a head of a million bytes", head("a: " + "b" * 1_000_000), response(400))
tell("bare line feeds", head("a: b", end="\n"), EMPTY)
tell("empty lines before it", b"\r\n\r\n" + head(), EMPTY)
tell("HTTP/1.0", head(line="GET /status HTTP/1.0"), EMPTY)
for line in [
    "GET /status HTTP/2.0", "GET /status HTTP/1.2", "GET /status", "GET  /status HTTP/1.1", "/status HTTP/1.1",
    "GET /sta tus HTTP/1.1", "G(T /status HTTP/1.1", "", "GET /status HTTP/1.1 x",
]:
    tell(f"the line '{line}'", head(line=line) + b"GET", response(400))
for field in ["a", ": b", "a b: c", "a : b", "a\x00: b", "a: \x01"]:
    tell(f"the field {field!r}", head(field), response(400))
tell("nothing", b"", response(400))
tell("a head that is cut", head()[:-2], response(400))
tell("a target that isn't UTF-8", b"GET /\xff HTTP/1.1\r\n\r\n", response(400))
tell("a GET with fields of a body", head("Content-Length: x", "Transfer-Encoding: chunked"), EMPTY)
tell("bytes behind a GET", head() + b"x" * 100_000, EMPTY)

# ---- the length of a body
tell("a command", post(BODY), REFUSED)
tell("names of fields in any case", post(BODY).replace(b"Content-Length", b"cOnTENT-lENGTH"), REFUSED)
tell("bytes behind a body", post(BODY) + b"x" * 100_000, REFUSED)
tell("no length", head(line="POST /commands HTTP/1.1") + BODY.encode(), response(400))
tell("two lengths", post(BODY, f"Content-Length: {len(BODY)}"), response(400))
for length in ["", "+5", "-5", "5x", "0x5", "5 5", "5,5", "00000000037", "11111111111", "five", "3.7e1"]:
    tell(f"the length '{length}'", post(BODY, length=length), response(400))
tell("spaces round a length", post(BODY, length=f" \t{len(BODY)} \t"), REFUSED)
tell("a length with zeros before it", post(BODY, length=f"{len(BODY):010}"), REFUSED)
wide = BODY.replace(",", "," + " " * (131_072 - len(BODY)), 1)
tell("a body of 131,072 bytes", post(wide), REFUSED)
tell("a length of 131,073", post(BODY, length=131_073), response(413))
tell("a length of 9,999,999,999", post(BODY, length=9_999_999_999), response(413))
tell("a body of 131,073 bytes", post(wide + " "), response(413))
tell("an encoding", post(BODY, "Transfer-Encoding: chunked"), response(400))
tell("an encoding beside a length that is too large", post(BODY, "TRANSFER-encoding: x", length=140_000), response(400))
tell("a body that is cut", post(BODY)[:-1], response(400))
tell("no body", post(BODY)[: -len(BODY)], response(400))
tell("an empty body", post(""), response(400))

# ---- what is in it
for body in [
    "[]", "null", "7", '"k1"', "{}", '{"key":"k1"}', '{"words":["forget","gm0"]}', "{" + BODY, BODY + "}",
    BODY.replace("}", ',"more":1}'), BODY.replace('"k1"', "7"), BODY.replace('"k1"', "null"), BODY.replace("key", "Key"),
    '{"key":"k1","words":"forget gm0"}', '{"key":"k1","words":["forget",7]}', '{"key":"k1","words":[["forget"],"gm0"]}',
    '{"key":"k1","words":{"forget":"gm0"}}', BODY.replace('"k1"', '"k1'), BODY.replace("gm0", "gm\\x30"),
    '{"key":"k1","words":' + "[" * 200 + "]" * 200 + "}", BODY.replace('"k1"', "'k1'"), BODY.replace("]", ",]"),
]:
    tell(f"the body {body[:60]}", post(body), response(400))
tell("a body that isn't UTF-8", post(BODY.encode().replace(b"gm0", b"gm\xff")), response(400))
tell("a key twice", post('{"key":7,"key":"k1","words":["forget","gm0"]}'), REFUSED)
tell("members in another order", post('{"words":["forget","gm0"],"key":"k1"}'), REFUSED)
tell("space between", post(' { "key" : "k1" ,\r\n "words" : [ "forget" , "gm0" ] } '), REFUSED)
tell("escapes", post(BODY.replace("gm0", "\\u0067m0")), REFUSED)
tell("words with spaces", post('{"key":"k1","words":["forget gm0"]}'), NO_COMMAND)
tell("a word that is empty", post('{"key":"k1","words":["forget",""]}'), NO_COMMAND)
tell("a word that is no text of a shell", post('{"key":"k1","words":["forget","$(reboot)"]}'), NO_COMMAND)
tell("a word that is a statement", post("{\"key\":\"k1\",\"words\":[\"forget\",\"'; DROP TABLE mirrors\"]}"), NO_COMMAND)
tell("a thousand words", post('{"key":"k1","words":[' + ",".join(['"a"'] * 1000) + "]}"), NO_COMMAND)
