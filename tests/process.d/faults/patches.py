"""Patches that are stopped anywhere, and what each image claims then.

    patches.py PROGRAM PRELOADED FOLDER

A batch with two patches and a deactivate between them is stopped before each of its writes and syncs of an image, and before
each of any file, the registry's among them. What each image claims is held against the data that its syncid tells. Then the
next opening leaves the images as after so many commands as are registered, and the same lines again lead to the end.
"""

import os
import sys

from bench_folder import Bench
from formats import decode
from plain_bench import DIRTY_FLAG, INACTIVE, Records

program, preloaded, work = sys.argv[1:4]
place = Bench(program, work)
NAMES = ["a.img", "b.img", "c.img"]
SECTORS, DATA = 5, 4 * 512
BEFORE = [
    "label --mid 7 --did 1 gm0 a.img", "insert --did 2 gm0 b.img", "advance gm0 b.img", "insert --did 3 gm0 c.img",
    "advance gm0 c.img",
]
FIRST, SECOND = bytes(range(256)) * 4, b"\xa5" * 512
SCRIPT = [
    f"patch --first 1 --data {FIRST.hex()} gm0", "deactivate gm0 b.img", f"patch --first 2 --data {SECOND.hex()} gm0",
]
LINES = "".join(f"p{number} {command}\n" for number, command in enumerate(SCRIPT)).encode()
wrong = []


def check(title, found, wanted):
    if found != wanted:
        wrong.append(f"{title}: {found!r}, and not {wanted!r}"[:600])


def laid_over(data, first, sectors):
    return data[: first * 512] + sectors + data[first * 512 + len(sectors) :]


def run(lines=b"", words=("batch",), **more):
    return place.run(list(words), lines, LD_PRELOAD=preloaded, **more)


def images():
    return {name: bytes(image) for name, image in place.contents_of_images().items()}


def records():
    return Records(place.registry, os.path.join(work, "scratch"))


def check_claims(title, lists):
    """Whether each image has the data that it claims: those of after the last command if it has the syncid of then, else
    those of before; one that says DIRTY or INACTIVE claims none."""
    registered = records()
    count = len(registered.commands) - len(BEFORE)
    before, after = lists[max(count - 1, 0)], lists[count]
    for name, image in images().items():
        said = decode(image[-512:])
        if said["dflags"] & (DIRTY_FLAG | INACTIVE):
            continue
        data = after if said["syncid"] == registered.mirrors["gm0"]["syncid"] else before
        if image[:DATA] != data:
            wrong.append(f"{title}: {name} claims data that it lacks")


def stop_each(within, kept, lists, ends):
    """Stops the batch before each write and sync of files whose path begins so: how many stops that are."""
    stops = 0
    for title in place.stops(lambda **how: run(LINES, **how), within, kept):
        stops += 1
        check_claims(title, lists)
        check(f"{title}: the next opening", run(words=["recover"])[0], 0)
        check_claims(f"{title}, recovered", lists)
        count = len(records().commands) - len(BEFORE)
        check(f"{title}: {count} commands were done", images() == ends[count], True)
        status, told, complaint = run(LINES)
        check(f"{title}: again", (status, len(told.splitlines()), complaint), (0, len(SCRIPT), ""))
        check(f"{title}: it comes to the end", images() == ends[-1], True)
    return stops


place.make(NAMES, SECTORS)
place.hand_in(BEFORE, LD_PRELOAD=preloaded)
place.keep("before")
data = images()["a.img"][:DATA]
patched = laid_over(data, 1, FIRST)
lists = [data, patched, patched, laid_over(patched, 2, SECOND)]
ends = [images()]
for number, command in enumerate(SCRIPT):
    check(command[:20], run(f"p{number} {command}\n".encode()), (0, f"p{number} ok {len(BEFORE) + number + 1}\n", ""))
    ends.append(images())
for name, image in ends[-1].items():
    check(f"the data of {name}", image[:DATA] == (patched if name == "b.img" else lists[-1]), True)
stops = [stop_each(place.images + "/", "the images", lists, ends), stop_each(place.folder + "/", "all files", lists, ends)]
name = f"patches that are stopped {stops[0]} times at calls of the images, and {stops[1]} times at calls of all files"
print(f"failed {name}: {len(wrong)} times, the first: {wrong[0]}" if wrong else f"ok {name}", flush=True)
