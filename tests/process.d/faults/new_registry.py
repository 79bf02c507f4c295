"""A registry that is made, and a log that is emptied, stopped before each write and sync of their files.

    new_registry.py PROGRAM PRELOADED FOLDER

However the making is stopped, a look without an opening changes nothing, and the next opening makes the registry or finds it
made: it holds nothing, has pages of 2,048 bytes and takes a command. The images stay as they were until then.

A log is emptied at the end of a run, and by the opening after a run that was killed. However that is stopped, a look takes what
is left for a registry and its log, and the next opening goes on.
"""

import os
import sys

from bench_folder import Bench

program, preloaded, work = sys.argv[1:4]
place = Bench(program, work)
FAULTS = ["gmbench: F1 memory\n", "gmbench: F2 store\n", "gmbench: F3 disk\n"]
LABEL = b"k1 label --mid 7 --did 1 gm0 a.img\n"
# How long a log is that holds nothing.
EMPTY = 41
wrong = []


def opening(words, lines, done, **more):
    ended = place.run(words, lines, LD_PRELOAD=preloaded, **more)
    # A batch that fails opens the registry once more, and says what is pending if that fails too.
    killed, failed = ended[0] < 0, ended[0] == 3 and ended[2].removeprefix("metadata of a.img\n") in FAULTS
    if not (killed or failed or ended[0] == 0 and ended[1] in done and not ended[2]):
        wrong.append(f"an opening with {more}: {ended!r}"[:600])
    return ended


def recover(**more):
    return opening(["recover"], b"", ["recovered 0\n", "recovered 1\n"], **more)


def label(**more):
    return opening(["batch"], LABEL, ["k1 ok 1\n", "k1 repeated 1\n"], **more)


def page_bytes():
    with open(place.registry, "rb") as file:
        return int.from_bytes(file.read(18)[16:], "big")


def log_bytes():
    log = place.registry + "-wal"
    return os.path.getsize(log) if os.path.exists(log) else 0


def compare(title, expected):
    wrong.extend(f"{title}, {what}: {found!r}"[:600] for what, (found, wanted) in expected.items() if found != wanted)


def tell(shown, stops):
    """Says what was shown by so many stops, or the first that was wrong."""
    shown = f"{shown} ({stops} stops)"
    if stops == 0:
        wrong.append("no call is stopped")
    print(f"failed {shown}: {len(wrong)} times, the first: {wrong[0]}" if wrong else f"ok {shown}", flush=True)
    wrong.clear()


def stop_the_making():
    images = place.contents_of_images()
    stops = 0
    for title in place.stops(recover, place.registry, "a registry that is made"):
        stops += 1
        left = place.contents()
        look = place.run(["status", "--read-only"])
        if look != (0, "no mirrors\n", "") and (look[0], look[2]) not in [(3, fault) for fault in FAULTS]:
            wrong.append(f"{title}, a look: {look!r}"[:600])
        compare(title, {
            "what a look leaves": (place.contents(), left),
            "the next opening": (recover(), (0, "recovered 0\n", "")),
            "the pages": (page_bytes(), 2048),
            "the images": (place.contents_of_images(), images),
            "a command": (place.run(["batch"], LABEL), (0, "k1 ok 1\n", "")),
        })
    tell("a registry is made by the opening after each stop of its making", stops)


def stop_the_emptying(run, kept):
    """Stops a run that empties the log; keeps a bench whose log has most under the name `logged`."""
    stops, longest = 0, EMPTY
    for title in place.stops(run, place.registry, kept):
        stops += 1
        if log_bytes() > longest:
            longest = log_bytes()
            place.keep("logged")
        look = place.run(["pending"], shelf=False)
        compare(title, {
            "a look": ((look[0], look[2]), (0, "")),
            "the next opening": (recover()[0], 0),
            "a command": (label()[0], 0),
            "a check": (place.run(["check"])[0], 0),
        })
    tell(f"a registry opens after each stop of {kept}", stops)
    return longest


place.make(["a.img"], 9)
place.keep("before")
stop_the_making()
place.put_back("before")
recover()
place.keep("before")
longest = stop_the_emptying(label, "a batch")
if longest > EMPTY:
    place.put_back("logged")
    place.keep("before")
    stop_the_emptying(recover, "an opening over a log with commands")
else:
    print("failed a batch that is stopped leaves commands in the log: it has none", flush=True)
