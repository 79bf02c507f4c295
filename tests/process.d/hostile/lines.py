"""Lines of a batch made by a generator with a fixed seed, each answered as a plain model answers it.

    lines.py PROGRAM BENCH COUNT

The bench has the mirror gm0 on a.img, which the first line makes under the key k1, and nothing else: every other line is
refused, or repeats the first one.
"""

import os
import random
import re
import subprocess
import sys

import formats

program, bench, count = sys.argv[1], sys.argv[2], int(sys.argv[3])
rng = random.Random(811)
FIRST = b"k1 label --mid 7 --did 1 gm0 a.img"
NUMBER = ("number", 0, 2**32 - 1)
SWITCH = ("word", b"on", b"off")
BALANCE = ("word", b"load", b"prefer", b"round-robin", b"split")
LABEL = ("label",)
PRIORITY = ("number", 0, 255)
SLICE = ("number", 1, 2**32 - 1)
# command: the options that it must have, those that it may have, how many names at least, and at most
COMMANDS = {
    b"label": ({b"mid": NUMBER, b"did": NUMBER},
               {b"balance": BALANCE, b"slice": SLICE, b"autosync": SWITCH, b"failsync": SWITCH, b"hardcode": SWITCH}, 2, 2),
    b"insert": ({b"did": NUMBER}, {b"priority": PRIORITY, b"hardcode": SWITCH}, 2, 2),
    b"remove": ({}, {}, 2, 2), b"deactivate": ({}, {}, 2, 2), b"activate": ({}, {}, 2, 2), b"forget": ({}, {}, 1, 1),
    b"rebuild": ({}, {}, 2, 2),
    b"configure": ({}, {b"balance": BALANCE, b"slice": SLICE, b"autosync": SWITCH, b"failsync": SWITCH,
                        b"hardcode": SWITCH, b"prov": LABEL, b"priority": PRIORITY}, 1, 1),
    b"clear": ({}, {}, 1, 1), b"destroy": ({}, {}, 1, 1), b"lost": ({}, {}, 2, 10**9), b"advance": ({}, {}, 2, 2),
    b"adopt": ({}, {}, 2, 10**9),
}


def value_of(kind, text):
    """The value that a text says, or None."""
    if kind[0] == "number":
        said = int(text) if re.fullmatch(rb"\+?[0-9]+", text) else -1
        return said if kind[1] <= said <= kind[2] else None
    if kind[0] == "word":
        return text if text in kind[1:] else None
    return text if formats.is_label(text) else None


def parse(words):
    """A command: its word, its options and its names. Or None, if the words are no command."""
    if not words or words[0] not in COMMANDS:
        return None
    wanted, more, least, most = COMMANDS[words[0]]
    options, names, rest, names_alone = {}, [], list(words[1:]), False
    while rest:
        word = rest.pop(0)
        if names_alone or not word.startswith(b"-") or word == b"-":
            names.append(word)
        elif word == b"--":
            names_alone = True
        elif not word.startswith(b"--"):
            return None
        else:
            name, equals, text = word[2:].partition(b"=")
            kind = {**wanted, **more}.get(name)
            if kind is None or name in options:
                return None
            if not equals:
                if not rest or (rest[0].startswith(b"-") and rest[0] != b"-"):
                    return None
                text = rest.pop(0)
            options[name] = value_of(kind, text)
            if options[name] is None:
                return None
    if not least <= len(names) <= most or not all(map(formats.is_label, names)) or not wanted.keys() <= options.keys():
        return None
    if words[0] == b"configure" and (b"prov" in options) != (b"priority" in options):
        return None
    defaults = {b"balance": b"load", b"slice": 4096, b"autosync": b"on", b"failsync": b"on", b"hardcode": b"off"}
    if words[0] == b"label":
        options = {**defaults, **options}
    return words[0], options, names


FIRST_COMMAND = parse(FIRST.split()[1:])


def refusal(command):
    """The least refusal of a command under a key of its own."""
    word, options, names = command
    if word == b"label":
        return 6 if names[0] == b"gm0" else 7 if options[b"mid"] == 7 else 8
    if word == b"adopt":
        return 6 if names[0] == b"gm0" else 8
    if word == b"clear":
        return 8
    return 5


def answer(line):
    """What the model answers to a line; None if it says nothing of it, and nothing if it has no answer."""
    if len(line) > 131_072:
        return b"? refused 1"
    try:
        line.decode("utf-8")
    except UnicodeDecodeError:
        return b"? refused 1"
    pieces = [piece for piece in line.split(b" ") if piece]
    if not pieces:
        return b""
    key = pieces[0] if formats.is_key(pieces[0]) else b"?"
    command = parse(pieces[1:])
    if command is None:
        return key + b" refused 1"
    if key == b"?":
        return b"? refused 2"
    if key == b"k1":
        return b"k1 repeated 1" if command == FIRST_COMMAND else b"k1 refused 3"
    if command[0] in (b"label", b"adopt", b"clear"):
        return key + b" refused %d" % refusal(command)
    # of gm0 itself the model knows too little
    return key + b" refused 5" if command[2][0] != b"gm0" else None


# ---- the generator
NUMBERS = [b"0", b"7", b"+7", b"007", b"4294967295", b"4294967296", b"18446744073709551616", b"-1", b"", b"+", b"0x7",
           b"7.0", b"255", b"256", b"1e3", b"99999999999999999999999999", b"\xd9\xa7", b"--7"]
WORDS = [b"on", b"off", b"ON", b"true", b"load", b"Load", b"none", b"prefer", b"split", b"round-robin", b"-", b"--", b"-h",
         b"--help", b"--version", b"help", b"=", b"--=", b"--mid=", b"-m", b"'", b'"', b"$(reboot)", b";", b"..", b"/", b"*"]
KEYS = [b"k1", b"k2", b"K1", b"a" * 32, b"a" * 33, b"k/1", b".", b"-", b"_", b"k\xc3\xa4", b"0", b"--", b"\x00"]


def name():
    return rng.choice([b"gm1", b"none.img", b"gm2", b"x" * 15, b"x" * 16, b"-gm1", b"-", b"a/b", b"label", b".", b"..",
                       bytes(rng.choice(formats.LETTERS) for _ in range(rng.randint(1, 16)))])


def value(kind):
    if rng.random() < 0.2:
        return rng.choice(NUMBERS + WORDS)
    if kind[0] == "number":
        return rng.choice([b"0", b"1", b"7", b"+8", b"009", b"%d" % kind[2], b"%d" % (kind[2] + 1), b"%d" % kind[1]])
    return rng.choice(kind[1:]) if kind[0] == "word" else name()


def option(name, kind):
    text = value(kind)
    return [b"--" + name + b"=" + text] if rng.random() < 0.3 else [b"--" + name, text]


def nearly_command():
    """The words of a command, mostly with something that is wrong."""
    word = rng.choice(list(COMMANDS))
    wanted, more, least, most = COMMANDS[word]
    chosen = [[it] for it in [name() for _ in range(min(most, least + rng.choice([0, 0, 0, 0, 1, -1])))]]
    chosen += [option(it, kind) for it, kind in wanted.items() if rng.random() < 0.97]
    chosen += [option(it, kind) for it, kind in more.items() if rng.random() < 0.3]
    if rng.random() < 0.1:
        chosen.append(rng.choice(chosen) if chosen else [b"--"])
    if rng.random() < 0.1:
        chosen.append([rng.choice(WORDS)])
    if rng.random() < 0.05:
        chosen.append(option(*rng.choice([(b"mid", NUMBER), (b"prov", LABEL), (b"priority", PRIORITY), (b"port", NUMBER)])))
    rng.shuffle(chosen)
    return [word, *[it for words in chosen for it in words]]


def spaced(pieces):
    return b"".join(piece + b" " * rng.choice([1, 1, 1, 2, 3]) for piece in pieces)


def changed(line):
    """The line with some bytes that are others, more, or gone."""
    line = bytearray(line)
    for _ in range(rng.randint(1, 3)):
        at = rng.randrange(len(line) + 1)
        kind = rng.randrange(3)
        if kind == 0:
            line[at:at] = bytes([rng.randrange(256)])
        elif kind == 1:
            del line[at : at + 1]
        elif at < len(line):
            line[at] = rng.randrange(256)
    return bytes(line)


def long_line():
    """A line of about 131,072 bytes."""
    length = 131_072 + rng.choice([-1, 0, 0, 1, 1, 2, 500, 5000])
    kind = rng.randrange(4)
    if kind == 0:
        return b"k9 " + b"x" * (length - 3)
    if kind == 1:
        return b"k9 forget gm1".ljust(length)
    if kind == 2:
        return b"k9 forget gm1".rjust(length)
    return (b"k9 lost gm1" + b" b.img" * 25_000)[:length]


def same_again():
    """The first line, by other words of the same or nearly the same."""
    words = [[b"--mid", rng.choice([b"7", b"007", b"+7", b"8"])], [b"--did=1"], [b"gm0"], [b"a.img"]]
    words += [it for it in [[b"--balance", b"load"], [b"--slice", b"4096"], [b"--hardcode=off"]] if rng.random() < 0.3]
    names = words.pop(2), words.pop(2)
    rng.shuffle(words)
    words.insert(rng.randrange(len(words) + 1), names[0])
    words.append(names[1])
    return spaced([b"k1", b"label", *[it for some in words for it in some]])


def line():
    kind = rng.random()
    if kind < 0.1:
        made = rng.randbytes(rng.randrange(60))
    elif kind < 0.103:
        made = long_line()
    elif kind < 0.25:
        made = same_again()
    elif kind < 0.3:
        made = spaced(rng.choices(KEYS + WORDS + NUMBERS, k=rng.randrange(6)))
    else:
        made = spaced([rng.choice(KEYS), *nearly_command()])
        made = made if rng.random() < 0.6 else made.rstrip()
    made = changed(made) if rng.random() < 0.15 else made
    return b" " * rng.choice([0, 0, 0, 1]) + made.replace(b"\n", b"")


def run(lines):
    words = ["batch", "--registry", os.path.join(bench, "registry"), "--shelf", os.path.join(bench, "images")]
    return subprocess.run([program, *words], input=b"\n".join(lines), capture_output=True, timeout=120)


lines = [FIRST, *[line() for _ in range(count)], b"last forget gm1"]
wanted = [b"k1 ok 1", *[answer(it) for it in lines[1:]]]
done = run(lines)
told = done.stdout.split(b"\n")
wrong, at = [], 0
for asked, expected in zip(lines, wanted):
    if expected == b"":
        continue
    found = told[at] if at < len(told) else b"nothing"
    at += 1
    pieces = [piece for piece in asked.split(b" ") if piece]
    if expected is None:
        expected = found if re.fullmatch(re.escape(pieces[0]) + rb" refused [0-9]+", found) else b"a refusal"
    if found != expected:
        wrong.append(f"{asked[:200]!r} was answered {found!r}, and not {expected!r}")
if told[at:] != [b""]:
    wrong.append(f"it printed {len(told) - at - 1} lines more")
if done.returncode != 1 or done.stderr != f"a new registry was made at {os.path.join(bench, 'registry')}\n".encode():
    wrong.append(f"it ended with {done.returncode}, {done.stderr[:200]!r}")
kinds = {}
for it in wanted:
    kind = "nothing" if it == b"" else "left open" if it is None else it.split(b" ", 1)[1].decode()
    kinds[kind] = kinds.get(kind, 0) + 1
title = f"{count} lines: {', '.join(f'{number} {kind}' for kind, number in sorted(kinds.items()))}"
print(f"failed {title}: {len(wrong)} times, the first: {wrong[0]}" if wrong else f"ok {title}")
