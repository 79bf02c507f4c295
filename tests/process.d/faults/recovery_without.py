"""Losses in rows: what `recover --without` answers and leaves of a command that was stopped, and why it is refused.

    recovery_without.py PROGRAM STOPPING COUNTING FOLDER

STOPPING and COUNTING are libraries that are preloaded: one stops writes, and the other counts all calls on a file.
A row begins over a.img, b.img and c.img. Lines of a batch are handed in, under k1 and so on: the last one is stopped after it
was accepted, before anything of it is written. Then some images are gone. All that is expected is worked out by hand.
"""

import os
import re
import sys

from bench_folder import Bench
from formats import MAGIC, encode, padded

program, stopping, counting, work = sys.argv[1:5]
place = Bench(program, work)

LAST = 2**32 - 1
FIRST, SECOND, THIRD = [10, 11, 12], [20, 21, 22], [30, 31, 32]
PATCHED = [10, 60, 12]

LABEL = "label --mid 7 --did 1 gm0 a.img"
INSERT = "insert --did 2 gm0 b.img"
ADVANCE = "advance gm0 b.img"
DEACTIVATING = [LABEL, INSERT, ADVANCE, "deactivate gm0 b.img"]
ADVANCING = [LABEL, INSERT, ADVANCE]
INSERTING = [LABEL, INSERT]
REMOVING = [LABEL, INSERT, "remove gm0 b.img"]
# c.img is ACTIVE too, and b.img the third.
FILLING = [LABEL, "insert --did 2 gm0 c.img", "advance gm0 c.img", "insert --did 3 gm0 b.img", ADVANCE]
PATCHING = [*FILLING, f"patch --first 1 --data {'3c' * 512} gm0"]
REMOVING_THIRD = [LABEL, INSERT, "insert --did 3 gm0 c.img", "remove gm0 c.img"]
LOSING = [LABEL, INSERT, "lost gm0 b.img"]
LOSING_TWO = [LABEL, INSERT, "insert --did 3 gm0 c.img", "lost gm0 b.img c.img"]
ADOPTING = ["adopt gm0 a.img b.img"]
ADVANCING_ADOPTED = [*ADOPTING, ADVANCE]

A_OF_TWO = "gm0             DEGRADED 1/2\n  a.img           ACTIVE\n"
B_AND_C = "gm0             DEGRADED 2/3\n  b.img           ACTIVE\n  c.img           ACTIVE\n"
INACTIVE = "gm0             DEGRADED 1/2\n  a.img           ACTIVE\n  b.img           INACTIVE\n"


def last_sector(did, total, genid, syncid):
    """What a component of gm0 tells that is in sync and was put there without further words."""
    return encode({
        "magic": MAGIC, "version": 4, "name": padded(b"gm0"), "mid": 7, "did": did, "all": total, "genid": genid,
        "syncid": syncid, "priority": 0, "slice": 4096, "balance": 2, "mediasize": 1536, "sectorsize": 512,
        "sync_offset": 0, "mflags": 0, "dflags": 0, "provider": bytes(16), "provsize": 2048,
    })


def image(data, last=bytes(512)):
    """An image whose sectors of data are of these bytes each."""
    return b"".join(bytes([byte]) * 512 for byte in data) + last


BARE = {"a.img": image(FIRST), "b.img": image(SECOND), "c.img": image(THIRD)}
# a.img and b.img tell that they are a mirror of two whose genid is the greatest there is.
OF_THE_LAST_GENID = {
    **BARE, "a.img": image(FIRST, last_sector(1, 2, LAST, 1)), "b.img": image(SECOND, last_sector(2, 2, LAST, 1)),
}
# An advance fills such an image in two stretches.
LONG = {name: bytes([7]) * 512 * 257 + bytes(512) for name in BARE}

# Losses that are accepted, while a command is stopped: its lines, the images that are gone, whether an opening carried the
# command out before that; the loss and its answer; what a status shows then, and what the images hold.
A_IS_LEFT = {"a.img": image(FIRST, last_sector(1, 2, 1, 1))}
LOSSES = [
    ("an image that was to be INACTIVE", DEACTIVATING, "b.img", False, "b.img k5", "k5 ok 5\nrecovered 2\n",
     A_OF_TWO, {"a.img": image(FIRST, last_sector(1, 2, 1, 2))}),
    ("the source of an image, which is filled from the next one", FILLING, "a.img", False, "a.img k6",
     "k6 ok 6\nrecovered 2\n", B_AND_C,
     {"b.img": image(FIRST, last_sector(3, 3, 1, 1)), "c.img": image(FIRST, last_sector(2, 3, 1, 1))}),
    ("an image that was to be patched, as the others are", PATCHING, "a.img", False, "a.img k7",
     "k7 ok 7\nrecovered 9\n", B_AND_C,
     {"b.img": image(PATCHED, last_sector(3, 3, 1, 2)), "c.img": image(PATCHED, last_sector(2, 3, 1, 2))}),
    ("an image that was to be filled", ADVANCING, "b.img", False, "b.img k4", "k4 ok 4\nrecovered 2\n",
     A_OF_TWO, A_IS_LEFT),
    ("an image that was to be added", INSERTING, "b.img", False, "b.img k3", "k3 ok 3\nrecovered 2\n",
     A_OF_TWO, A_IS_LEFT),
    ("an image of which nothing is pending", INSERTING, "b.img", True, "b.img k3", "k3 ok 3\nrecovered 0\n",
     A_OF_TWO, A_IS_LEFT),
    ("an image beside one that is wiped, as it was to be", REMOVING_THIRD, "b.img", False, "b.img k5",
     "k5 ok 5\nrecovered 3\n", A_OF_TWO, {**A_IS_LEFT, "c.img": image(THIRD)}),
    ("an image that a command lost, and is there", LOSING, "", False, "b.img k3", "k3 repeated 3\nrecovered 1\n",
     A_OF_TWO, A_IS_LEFT),
    ("an image that a command lost, and is gone", LOSING, "b.img", False, "b.img k3",
     "k3 repeated 3\nrecovered 1\n", A_OF_TWO, A_IS_LEFT),
]

# Openings that wait for an image: the lines, the images that are gone, whether it is without one, and the first it waits for.
WAITS = [
    (DEACTIVATING, "b.img", "", "b.img"),
    (FILLING, "a.img", "", "a.img"),
    (PATCHING, "a.img", "", "a.img"),
    (REMOVING, "b.img", "", "b.img"),
    (REMOVING_THIRD, "b.img c.img", "b.img k5", "c.img"),
]

# Losses that are refused, by the least number that applies: the images and the lines, and in each row the provider and the
# key with bars around, the images that are gone, and the number.
REFUSALS = [
    # Both are ACTIVE until b.img is INACTIVE, which is pending.
    ("a deactivation", BARE, DEACTIVATING, """
        b.img || b.img | 2
        b.img || | 2
        c.img || c.img | 2
        a.img || a.img b.img | 2
        b.img |k 5| b.img | 2
        b.img |k4| b.img | 3
        b.img |k4| | 3
        c.img |k4| c.img | 3
        a.img |k4| a.img | 3
        b.img |k3| a.img b.img | 3
        a.img |k5| a.img b.img | 8
        b.img |k5| a.img b.img | 8
        b.img |k5| a.img | 8
        c.img |k5| c.img | 12
        c.img |k5| | 12
        c.img |k5| a.img b.img c.img | 12
        a.img |k5| a.img | 17
        a.img |k5| | 17
        b.img |k5| | 32
        b.img |k5| c.img | 32"""),
    # The whole copy from a.img is pending, so that b.img counts as ACTIVE.
    ("an advance", BARE, ADVANCING, """
        a.img || a.img | 2
        a.img |k3| a.img | 3
        a.img |k4| a.img b.img | 8
        a.img |k4| a.img | 27
        a.img |k4| | 27
        b.img |k4| | 32"""),
    # The first of two stretches is pending, after which b.img isn't ACTIVE yet.
    ("an advance that begins", LONG, ADVANCING, """
        a.img |k4| a.img b.img | 8
        a.img |k4| a.img | 17
        a.img |k4| | 17
        b.img |k4| | 32"""),
    # b.img is no component any more, and is to be wiped.
    ("a removal", BARE, REMOVING, """
        b.img |k3| b.img | 3
        b.img |k4| b.img | 12
        b.img |k4| | 12
        a.img |k4| a.img b.img | 17"""),
    # A loss of two isn't one of either.
    ("a loss of two", BARE, LOSING_TWO, """
        b.img |k4| b.img c.img | 3
        c.img |k4| b.img c.img | 3
        b.img |k5| b.img c.img | 12"""),
    # The mirror's genid can't rise.
    ("an adoption", OF_THE_LAST_GENID, ADOPTING, """
        b.img |k1| b.img | 3
        b.img |k2| a.img b.img | 8
        a.img |k2| a.img | 17
        b.img |k2| b.img | 24
        b.img |k2| | 24"""),
    # The same, while the copy from a.img is pending.
    ("an advance of what was adopted", OF_THE_LAST_GENID, ADVANCING_ADOPTED, """
        a.img |k3| a.img | 24
        a.img |k3| | 24"""),
]

wrong = []


def check(title, found, wanted):
    if found != wanted:
        wrong.append(f"{title}: {found!r}, and not {wanted!r}"[:700])


def tell(name):
    """Prints the line of a test, which fails if anything was found to be wrong since the last one."""
    print(f"failed {name}: {wrong[0]}" if wrong else f"ok {name}", flush=True)
    wrong.clear()


def run(words, lines="", **more):
    return place.run(words, lines.encode(), **{"LD_PRELOAD": stopping, **more})


def lose(loss):
    """What comes of a loss, which is a provider and a key. The calls on images are counted."""
    provider, key = loss.split(" ", 1)
    counted = {"LD_PRELOAD": counting, "WITHIN": place.images + "/", "COUNT": place.count_file}
    return run(["recover", "--without", provider, "--key", key], **counted)


def images():
    return {name: bytes(content) for name, content in place.contents_of_images().items()}


def put_stopped(first, lines):
    """A bench with these images, of which these lines are carried out, and the last is accepted alone."""
    place.begin(first)
    ended = run(["batch"], "".join(f"k{number} {line}\n" for number, line in enumerate(lines[:-1], 1)))
    check("the lines before", (ended[0], ended[2]), (0, ""))
    before = images()
    key = f"k{len(lines)}"
    ended = run(["batch"], f"{key} {lines[-1]}\n", STOPPED=place.images + "/", STOP="1")
    check("the last line is stopped", ended, (3, f"{key} fault 3\n", place.disk_fault()))
    check("nothing of it is written", images(), before)
    place.keep("stopped")


def take_away(names):
    for name in names.split():
        os.remove(os.path.join(place.images, name))


def kept():
    """Each byte of the bench, but for a log that is shorter than a page."""
    found = place.contents()
    if len(found.get("registry-wal", b"")) < 2048:
        found.pop("registry-wal", None)
    return found


def try_loss(name, lines, gone, is_carried_out, loss, answer, shown, held):
    put_stopped(BARE, lines)
    if is_carried_out:
        check("an opening", run(["recover"]), (0, "recovered 2\n", ""))
    take_away(gone)
    check("the loss", lose(loss), (0, answer, ""))
    check("it is counted what it does to images", place.count() > 0, True)
    left = {name: content for name, content in images().items() if name in held}
    check("what the images hold", left, held)
    key, said = answer.split()[0], answer.split()[2]
    check("the same again", lose(loss), (0, f"{key} repeated {said}\nrecovered 0\n", ""))
    check("an opening behind it", run(["recover"]), (0, "recovered 0\n", ""))
    check("a status", run(["status"]), (0, shown, ""))
    check("the images then", {name: content for name, content in images().items() if name in held}, left)
    tell(f"a loss of {name}: {answer.splitlines()}")


def try_wait(lines, gone, loss, absent):
    put_stopped(BARE, lines)
    take_away(gone)
    before = kept()
    ended = lose(loss) if loss else run(["recover"])
    check("the opening", ended, (3, "", f"gmbench: F5 absent {absent}\n"))
    check("nothing is written", kept() == before, True)
    given_up = f", of which {loss.split()[0]} is given up" if loss else ""
    tell(f"an opening amid {lines[-1].split()[0]} waits for {absent} without {gone}{given_up}")


def try_refusal(row):
    """A row, over the bench that was stopped."""
    provider, key, gone, number = [part.strip() for part in row.split("|")]
    place.put_back("stopped")
    take_away(gone)
    before = kept()
    # Of each image that is named the file is opened. As often as it is named, it is looked at whether something else uses
    # it, it is synced, and its last sector is read.
    pending = run(["pending"], shelf=False)[1]
    named = [name for name in re.findall(r"[\w-]+\.img", pending) if name in images()]
    settling = len(set(named)) + 3 * len(named)
    shown = "?" if number == "2" else key
    check(f"'{row.strip()}'", lose(f"{provider} {key}"), (1, f"{shown} refused {number}\n", ""))
    check(f"'{row.strip()}' only settles images, and looks at them", place.count(), settling)
    check(f"'{row.strip()}' writes nothing", kept() == before, True)


for row in LOSSES:
    try_loss(*row)
for row in WAITS:
    try_wait(*row)
for command, first, lines, rows in REFUSALS:
    put_stopped(first, lines)
    of_it = rows.strip().splitlines()
    for row in of_it:
        try_refusal(row)
    tell(f"the least refusal is answered beside {command}, and nothing is written: {len(of_it)} losses")

# What is pending is carried out if the image is there.
put_stopped(BARE, DEACTIVATING)
check("the loss", lose("b.img k5"), (1, "k5 refused 32\n", ""))
check("an opening", run(["recover"]), (0, "recovered 2\n", ""))
check("a status", run(["status"]), (0, INACTIVE, ""))
check("another opening", run(["recover"]), (0, "recovered 0\n", ""))
tell("an image that is there is still written")
