"""Replacements that are stopped anywhere, and go on.

    replacements.py PROGRAM PRELOADED FOLDER

An image takes another one's place, which is there or gone. That is stopped before each of its writes and syncs of an image,
and before each of any file, the registry's among them. Then an image that was there is in the mirror still, unless the new one
is ACTIVE and has the mirror's data. The same words under the same key lead to the same images as if nothing had stopped, and
an image of another mirror stays as it is.
"""

import os
import sys

from bench_folder import Bench
from plain_bench import INACTIVE, SYNCHRONIZING, Records

program, preloaded, work = sys.argv[1:4]
place = Bench(program, work)
NAMES = ["a.img", "b.img", "c.img", "d.img"]
SECTORS, DATA = 4, 3 * 512
BEFORE = [
    "label --mid 7 --did 1 gm0 a.img", "insert --did 2 gm0 b.img", "advance gm0 b.img", "label --mid 8 --did 1 gm1 d.img",
]
WORDS = ["replace", "--key", "r", "--force", "--quiet", "gm0", "b.img", "c.img"]
wrong = []


def check(title, found, wanted):
    if found != wanted:
        wrong.append(f"{title}: {found!r}, and not {wanted!r}"[:600])


def run(words, **more):
    return place.run(words, LD_PRELOAD=preloaded, **more)


def images():
    return {name: bytes(image) for name, image in place.contents_of_images().items()}


def is_active(component):
    return component is not None and not component["dflags"] & (SYNCHRONIZING | INACTIVE)


def check_kept(title, data, was_there):
    """Whether nothing was taken away before what replaces it was there."""
    components = Records(place.registry, os.path.join(work, "scratch")).components
    check(f"{title}: a.img is ACTIVE", is_active(components.get("a.img")), True)
    new = is_active(components.get("c.img"))
    if was_there:
        check(f"{title}: one of the two is ACTIVE", new or is_active(components.get("b.img")), True)
    found = images()
    check(f"{title}: a.img has the data", found["a.img"][:DATA] == data, True)
    if new:
        check(f"{title}: c.img has the data", found["c.img"][:DATA] == data, True)
    return found


def stop_each(within, kept, data, ended, was_there):
    """Stops a replacement before each write and sync of files whose path begins so: how many stops that are."""
    stops = 0
    for title in place.stops(lambda **how: run(WORDS, **how), within, kept):
        stops += 1
        check(f"{title}: the next opening", run(["recover"])[0], 0)
        found = check_kept(title, data, was_there)
        check(f"{title}: the other mirror", found["d.img"] == ended["d.img"], True)
        status, told, _ = run(WORDS)
        check(f"{title}: again", (status, len(told.splitlines())), (0, 3 if was_there else 4))
        check(f"{title}: it comes to the end", images() == ended, True)
    return stops


def replace(what, was_there):
    """Stops a replacement of an image that is there, or gone, wherever it can be."""
    place.make(NAMES, SECTORS)
    place.hand_in(BEFORE, LD_PRELOAD=preloaded)
    if not was_there:
        os.remove(os.path.join(place.images, "b.img"))
    place.keep("before")
    data = images()["a.img"][:DATA]
    answers = (
        "r ok 5\ngm0 c.img ACTIVE\nr.2 ok 7\n" if was_there else "r ok 5\nr.2 ok 6\nr.3 ok 7\ngm0 c.img ACTIVE\n"
    )
    check(f"{what} is replaced", run(WORDS)[:2], (0, answers))
    ended = check_kept(what, data, False)
    records = Records(place.registry, os.path.join(work, "scratch"))
    check(f"{what}: the components", sorted(records.components), ["a.img", "c.img", "d.img"])
    check(f"{what}: the mirror is whole", records.mirrors["gm0"]["total"], 2)
    return [
        stop_each(place.images + "/", f"the images, {what}", data, ended, was_there),
        stop_each(place.folder + "/", f"all files, {what}", data, ended, was_there),
    ]


there, gone = replace("an image that is there", True), replace("an image that is gone", False)
name = (
    f"replacements that are stopped {there[0] + gone[0]} times at calls of the images, and {there[1] + gone[1]} times at "
    "calls of all files"
)
print(f"failed {name}: {len(wrong)} times, the first: {wrong[0]}" if wrong else f"ok {name}", flush=True)
