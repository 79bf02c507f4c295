"""Each call on a file of `sync`, `replace`, `mend`, `write`, `scrub`, `check`, `pending`, `log`, `taste` and looks with --read-only,
which fails once.

    each_call.py PROGRAM PRELOADED FOLDER

A run whose call fails ends with a fault, or does all of its work. What only looks changes nothing, or, if it recovers
first, no more than that does. After a `sync`, a `replace`, a `mend` or a `write` that failed the same words make of the images
what they make if nothing fails. Lines that repeat a command make no call on an image.
"""

import sys

from bench_folder import Bench

program, preloaded, work = sys.argv[1:4]
place = Bench(program, work)
SECTORS = 301
TASTE = ["taste"]
LOG = ["log"]
FAULTS = ["gmbench: F2 store\n", "gmbench: F3 disk\n", "gmbench: input or output\n"]
wrong = []


def run(words, lines=b"", **more):
    return place.run(words, lines, shelf=words != LOG, registry=words != TASTE, LD_PRELOAD=preloaded, **more)


def images_of(found):
    return {name: content for name, content in found.items() if name.startswith("images/")}


def make_bench():
    """gm0 of a.img, b.img and c.img, of which b.img has the data and c.img lacks two stretches."""
    place.make(["a.img", "b.img", "c.img"], SECTORS)
    place.hand_in([
        "label --mid 7 --did 1 gm0 a.img", "insert --did 2 gm0 b.img", "advance gm0 b.img", "advance gm0 b.img",
        "insert --did 3 gm0 c.img",
    ])


def calls_of(words):
    run(words, WITHIN=place.folder + "/", COUNT=place.count_file)
    return place.count()


def try_each(name, words, begins_with, behind):
    """Fails each call in turn, and looks at what is there after that."""
    global wrong
    place.put_back(begins_with)
    well = run(words)
    whole = place.contents()
    place.put_back(begins_with)
    total = calls_of(words)
    faults = 0
    for call in range(1, total + 1):
        place.put_back(begins_with)
        title = f"{name}, call {call} of {total}"
        status, told, complaint = run(words, WITHIN=place.folder + "/", FAIL=str(call))
        if status == 3:
            faults += 1
            # Commands that explain themselves say more after it.
            if not any(line in FAULTS for line in complaint.splitlines(keepends=True)):
                wrong.append(f"{title}: it complains {complaint!r}")
        elif (status, told) != well[:2]:
            wrong.append(f"{title}: status {status}, {told!r}, and not {well!r}")
        behind(title, whole)
    if faults == 0:
        wrong.append(f"{name}: no call is told of")
    shown = f"each call of {name} fails ({total} calls, {faults} told of)"
    print(f"failed {shown}: {len(wrong)} times, the first: {wrong[0]}" if wrong else f"ok {shown}", flush=True)
    wrong = []


def is_as_kept(kept):
    """Nothing is changed: neither an image nor the registry, and nothing new lies beside them."""
    before = place.contents(kept)

    def behind(title, _):
        if place.contents() != before:
            wrong.append(f"{title}: something is changed")

    return behind


def images_stay(title, whole):
    """What recovers first and then looks leaves the images as it would by itself, once it is run again."""
    run(["recover"])
    if images_of(place.contents()) != images_of(whole):
        wrong.append(f"{title}: an image is changed")


def is_filled_again(title, whole):
    """Another sync does the rest."""
    status, _, complaint = run(["sync", "--quiet"])
    if status != 0:
        wrong.append(f"{title}: again it ends with {status}, {complaint!r}")
    if images_of(place.contents()) != images_of(whole):
        wrong.append(f"{title}: an image is another")
    audited = run(["audit"])
    if audited != (0, "", ""):
        wrong.append(f"{title}: an audit says {audited!r}")


def is_done_again(words):
    """The same words do the rest."""

    def behind(title, whole):
        status, _, complaint = run(words)
        if status != 0:
            wrong.append(f"{title}: again it ends with {status}, {complaint!r}")
        if images_of(place.contents()) != images_of(whole):
            wrong.append(f"{title}: an image is another")

    return behind


def is_mended_again(words):
    """What is pending is carried out, though the image isn't what a stop leaves, and the same words do the rest."""
    again = is_done_again(words)

    def behind(title, whole):
        status, _, complaint = run(["recover", "--unchecked"])
        if status != 0:
            wrong.append(f"{title}: a recovery ends with {status}, {complaint!r}")
        again(title, whole)

    return behind


def asks_no_image(begins_with, rows):
    """Lines are answered so, though the first call on an image would fail, and change nothing."""
    place.put_back(begins_with)
    lines, told = ["".join(f"{row[part]}\n" for row in rows) for part in (0, 1)]
    ended = run(["batch"], lines.encode(), WITHIN=place.images + "/", FAIL="1", COUNT=place.count_file)
    if ended != (1, told, "") or place.count() != 0:
        wrong.append(f"{ended!r} after {place.count()} calls, and not {told!r}")
    before, after = place.contents(begins_with), place.contents()
    if images_of(after) != images_of(before) or after["registry"] != before["registry"]:
        wrong.append("something is changed")
    shown = f"{len(rows)} lines that repeat a command, or other words under its key, make no call on an image"
    print(f"failed {shown}: {wrong[0]}" if wrong else f"ok {shown}", flush=True)
    wrong.clear()


make_bench()
place.keep("made")
asks_no_image("made", [
    ("k0 label --mid 7 --did 1 gm0 a.img", "k0 repeated 1"),
    ("k0 label --did 1 --mid 7 --slice 4096 gm0 a.img", "k0 repeated 1"),
    ("k0 destroy gm0", "k0 refused 3"),
    ("k0 label --mid 8 --did 1 gm0 a.img", "k0 refused 3"),
    ("k0 gm0 a.img", "k0 refused 1"),
    ("k3 advance gm0 b.img", "k3 repeated 4"),
    ("k3 advance gm0 c.img", "k3 refused 3"),
    ("k4 insert --priority 0 --did 3 gm0 c.img", "k4 repeated 5"),
])
# The first call that fails after the command was accepted.
for nth in range(1, 40):
    place.put_back("made")
    run(["do", "--unchecked", "k6", "advance", "gm0", "c.img"], WITHIN=place.images + "/", FAIL=str(nth))
    if run(["pending"])[1] != "":
        break
place.keep("stopped")
assert run(["pending"])[1] != "", "nothing is pending"
LOOKS = (["pending"], LOG, TASTE, ["status", "--read-only"], ["list", "--read-only"], ["audit", "--read-only"], ["check", "--data", "--quiet"])
for look in LOOKS:
    try_each(" ".join(look), look, "stopped", is_as_kept("stopped"))
try_each("scrub", ["scrub", "--quiet"], "made", images_stay)
try_each("scrub behind a stop", ["scrub", "--quiet"], "stopped", images_stay)
try_each("sync", ["sync", "--quiet"], "made", is_filled_again)
try_each("sync behind a stop", ["sync", "--quiet"], "stopped", is_filled_again)
place.put_back("made")
with open(place.images + "/d.img", "wb") as file:
    file.write(bytes(SECTORS * 512))
with open(place.folder + "/loader.bin", "wb") as file:
    file.write(bytes(range(256)) * 2 * 130)
place.keep("with a spare")
REPLACE = ["replace", "--quiet", "--key", "r", "gm0", "b.img", "d.img"]
try_each("replace", REPLACE, "with a spare", is_done_again(REPLACE))
place.put_back("with a spare")
run(["sync", "--quiet"])
place.keep("filled")
WRITE = ["write", "--quiet", "--key", "w", "--first", "3", "--file", place.folder + "/loader.bin", "gm0"]
try_each("write", WRITE, "filled", is_done_again(WRITE))
place.put_back("filled")
with open(place.images + "/b.img", "r+b") as file:
    file.seek((SECTORS - 1) * 512)
    file.write(b"X")
place.keep("spoiled")
MEND = ["mend", "--quiet", "--key", "m", "b.img"]
try_each("mend", MEND, "spoiled", is_mended_again(MEND))
