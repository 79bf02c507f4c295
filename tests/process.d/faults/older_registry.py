"""An opening that carries a registry of the first schema over, stopped at each write and sync, and the next one stopped too.

    older_registry.py PROGRAM PRELOADED FOLDER BENCH

After each two stops an opening that isn't stopped comes to the images and the records of one that never was.
"""

import os
import shutil
import sqlite3
import sys

from bench_folder import Bench
from plain_bench import Records

program, preloaded, work, given = sys.argv[1:5]
place = Bench(program, work)
wrong = []
stops = 0


def check(title, found, wanted):
    if found != wanted:
        wrong.append(f"{title}: {found!r}, and not {wanted!r}"[:600])


def recover(**more):
    return place.run(["recover"], LD_PRELOAD=preloaded, **more)


def stopped(call, **more):
    return recover(STOPPED=place.folder + "/", STOP=str(call), **more)


def calls():
    recover(STOPPED=place.folder + "/", COUNT=place.count_file)
    return place.count()


def left():
    """The images, and the records of a registry of the second schema."""
    scratch = os.path.join(work, "scratch")
    return {name: bytes(image) for name, image in place.contents_of_images().items()}, Records(place.registry, scratch).rows()


def schema():
    """The number that the registry has, read beside its log."""
    copy = os.path.join(work, "copy")
    shutil.rmtree(copy, ignore_errors=True)
    shutil.copytree(place.folder, copy)
    connection = sqlite3.connect(os.path.join(copy, "registry"))
    numbers = connection.execute("SELECT schema_no FROM about").fetchall()
    tables = connection.execute("SELECT count(*) FROM sqlite_schema WHERE type = 'table'").fetchall()
    connection.close()
    return numbers[0][0], tables[0][0]


shutil.rmtree(place.folder, ignore_errors=True)
shutil.copytree(given, place.folder)
place.keep("before")
check("an opening", recover(), (0, "recovered 2\n", ""))
wanted = left()
place.put_back("before")
total = calls()
for first in range(1, total + 1):
    for kill in ({}, {"KILL": "yes"}):
        place.put_back("before")
        stopped(first, **kill)
        stops += 1
        if schema() not in [(1, 5), (2, 6)]:
            wrong.append(f"stopped at call {first}: the schema is {schema()}")
        place.keep("stopped")
        # The second stop is at every third call, from another one on after each first.
        again = calls()
        for second in range(1 + first % 3, again + 1, 3):
            place.put_back("stopped")
            stopped(second, **kill)
            stops += 1
            title = f"stopped at call {first} of {total}, then at {second} of {again}{', killed' if kill else ''}"
            if schema() not in [(1, 5), (2, 6)]:
                wrong.append(f"{title}: the schema is {schema()}")
            check(f"{title}: an opening", recover()[0], 0)
            check(f"{title}: what is left", left() == wanted, True)
name = f"a registry that is carried over, stopped at each of {total} calls, and twice ({stops} stops)"
print(f"failed {name}: {len(wrong)} times, the first: {wrong[0]}" if wrong else f"ok {name}", flush=True)
