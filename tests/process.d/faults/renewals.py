"""A registry that is renewed, stopped before each call that changes a file of the bench, by a fault and by a kill.

    renewals.py PROGRAM PRELOADED FOLDER

After each stop a whole registry has the name, the old one or the new one, with the same mirrors, and the images have every
byte that they had. The same words then finish what is left or begin anew, and leave no part of a registry.
"""

import os
import sqlite3
import sys

from bench_folder import Bench

program, preloaded, work = sys.argv[1:4]
place = Bench(program, work)
wrong = []


def renew(**more):
    return place.run(["renew"], LD_PRELOAD=preloaded, **more)


def commands_in(path):
    """How many commands a registry has, as SQLite's own library reads it."""
    connection = sqlite3.connect(f"file:{path}?mode=ro&immutable=1", uri=True)
    try:
        return connection.execute("SELECT count(*) FROM commands").fetchone()[0]
    finally:
        connection.close()


def files_beside():
    """What lies beside the images: the registry's file and others."""
    return sorted(name for name in os.listdir(place.folder) if name != "images")


def expect(title, what, found, wanted):
    if found != wanted:
        wrong.append(f"{title}, {what}: {found!r}, and not {wanted!r}"[:600])


place.make(["a.img", "b.img", "c.img", "d.img"], 601)
place.hand_in([
    "label --mid 7 --did 1 --balance round-robin gm0 a.img", "insert --did 2 --priority 3 gm0 b.img", "advance gm0 b.img",
    "label --mid 8 --did 1 --hardcode on gm1 c.img", "insert --did 4 gm1 d.img", "advance gm1 d.img", "advance gm1 d.img",
    "advance gm1 d.img", "deactivate gm1 d.img", "patch --first 3 --data " + "5a" * 512 + " gm1",
])
place.keep("before")
listed = place.run(["list"])
assert listed[0] == 0 and listed[1].count("Mirror:") == 2, listed
images = place.contents_of_images()
OLD, NEW = 10, 2
stops = 0
for title in place.stops(renew, place.folder, "a renewal"):
    stops += 1
    expect(title, "the images", place.contents_of_images() == images, True)
    look = place.run(["list", "--read-only"])
    expect(title, "what the registry says", look, listed)
    expect(title, "the images after a look", place.contents_of_images() == images, True)
    again = renew()
    expect(title, "the same words again", again[0], 0)
    expect(title, "the mirrors then", place.run(["list"]), listed)
    expect(title, "the images then", place.contents_of_images() == images, True)
    expect(title, "an audit then", place.run(["audit"]), (0, "", ""))
    expect(title, "its commands then", commands_in(place.registry), NEW)
    kept = [name for name in files_beside() if name not in ("registry", "registry-wal")]
    if kept not in (["registry.1"], ["registry.1", "registry.2"]):
        wrong.append(f"{title}, what lies beside it: {kept!r}")
    else:
        expect(title, "the commands of the old one", commands_in(os.path.join(place.folder, "registry.1")), OLD)
shown = f"a registry is renewed after each stop of that ({stops} stops)"
if stops == 0:
    wrong.append("no call is stopped")
print(f"failed {shown}: {len(wrong)} times, the first: {wrong[0]}" if wrong else f"ok {shown}", flush=True)
