"""Registries that somebody else edited: rows that say no state, and tables that are others.

    records_of_no_state.py PROGRAM FOLDER FIRST

FIRST is a registry of the first schema. After each edit every opening says F6, and changes no byte of the registry or of an
image. Without an edit the rows are those of a state, which is shown and carried out as worked out by hand.
"""

import os
import shutil
import sqlite3
import sys

from bench_folder import Bench
from formats import MAGIC, encode, padded

program, work, first_schema = sys.argv[1:4]
place = Bench(program, work)

# gm0 with three components, of which one is copied to; gm1 with one; gm2 with three, of which one takes no part.
ROWS = """
INSERT INTO mirrors VALUES ('gm2', 9, 16, 4294967295, 2, 1, 4, 512, 3);
INSERT INTO mirrors VALUES ('gm0', 7, 3, 0, 1, 4096, 2, 1536, 2);
INSERT INTO mirrors VALUES ('gm1', 8, 1, 1, 0, 4294967295, 0, 536869888, 0);
INSERT INTO components VALUES ('a.img', 'gm0', 1, 1, 0, 0, 0, 0, 2048);
INSERT INTO components VALUES ('b.img', 'gm0', 2, 1, 255, 512, 6, 1, 2560);
INSERT INTO components VALUES ('c.img', 'gm0', 4294967295, 1, 5, 0, 2, 0, 2048);
INSERT INTO components VALUES ('d.img', 'gm1', 1, 0, 0, 0, 0, 1, 536870912);
INSERT INTO components VALUES ('e.img', 'gm2', 1, 2, 0, 0, 0, 0, 1024);
INSERT INTO components VALUES ('f.img', 'gm2', 2, 2, 0, 0, 0, 0, 1024);
INSERT INTO components VALUES ('g.img', 'gm2', 3, 1, 0, 0, 8, 0, 1024);
INSERT INTO commands VALUES ('k1', 1, 'destroy gm9', 0, 0);
INSERT INTO commands VALUES ('k3', 3, 'advance gm0 b.img', 1048576, 1048576);
INSERT INTO commands VALUES ('k2', 2, 'destroy gm8', 0, 0);
INSERT INTO intents VALUES (2, 1, 'b.img', '', 0, 0);
INSERT INTO intents VALUES (1, 3, 'b.img', 'a.img', 1, 3);
INSERT INTO intents VALUES (3, 2, 'x.img', '', 0, 0);
"""
# What a status shows of them.
SHOWN = """\
gm0             DEGRADED 1/3
  a.img           ACTIVE
  b.img           SYNCHRONIZING 1 of 3
  c.img           SYNCHRONIZING 0 of 3
gm1             COMPLETE 1/1
  d.img           ACTIVE
gm2             DEGRADED 2/16
  e.img           ACTIVE
  f.img           ACTIVE
  g.img           INACTIVE
"""

# Edits of the mirrors and components among those rows.
RECORDS = [
    "UPDATE components SET dflags = 4 WHERE prov = 'a.img'",
    "UPDATE components SET dflags = 1 WHERE prov = 'a.img'",
    "UPDATE components SET dflags = -1 WHERE prov = 'a.img'",
    "UPDATE components SET dflags = 8 WHERE prov = 'b.img'",
    "UPDATE components SET did = 4294967296 WHERE prov = 'c.img'",
    "UPDATE components SET did = -1 WHERE prov = 'c.img'",
    "UPDATE components SET priority = 256 WHERE prov = 'a.img'",
    "UPDATE components SET syncid = 2 WHERE prov = 'a.img'",
    "UPDATE components SET hard = 2 WHERE prov = 'a.img'",
    "UPDATE components SET sync_offset = 100 WHERE prov = 'b.img'",
    "UPDATE components SET sync_offset = 1536 WHERE prov = 'b.img'",
    "UPDATE components SET provsize = 1536 WHERE prov = 'c.img'",
    "UPDATE components SET provsize = 2047 WHERE prov = 'c.img'",
    "UPDATE components SET provsize = 536871424 WHERE prov = 'd.img'",
    "UPDATE components SET prov = 'a/img' WHERE prov = 'c.img'",
    "UPDATE components SET prov = '' WHERE prov = 'c.img'",
    "UPDATE components SET mirror = 'gm1' WHERE prov = 'c.img'",
    "UPDATE mirrors SET genid = 4294967296 WHERE name = 'gm2'",
    "UPDATE mirrors SET total = 17 WHERE name = 'gm2'",
    "UPDATE mirrors SET total = 2 WHERE name = 'gm0'",
    "UPDATE mirrors SET balance = 5 WHERE name = 'gm0'",
    "UPDATE mirrors SET mflags = 4 WHERE name = 'gm0'",
    "UPDATE mirrors SET mediasize = 0 WHERE name = 'gm2'",
    "UPDATE mirrors SET mediasize = 1024 WHERE name = 'gm2'",
    "INSERT INTO mirrors VALUES ('gm3', 10, 1, 0, 1, 4096, 2, 1536, 0)",
]

# Edits of what is pending there, and of the commands.
OTHERS = [
    "UPDATE intents SET kind = 9 WHERE ord = 2",
    "UPDATE intents SET prov = 'y.img' WHERE ord = 2",
    "UPDATE intents SET prov = 'a.img' WHERE ord = 3",
    "UPDATE intents SET source = 'a.img' WHERE ord = 2",
    "UPDATE intents SET end_sector = 4 WHERE ord = 1",
    "UPDATE intents SET source = 'b.img' WHERE ord = 1",
    "UPDATE intents SET source = 'c.img' WHERE ord = 1",
    "UPDATE intents SET source = 'e.img' WHERE ord = 1",
    "UPDATE intents SET ord = 5 WHERE ord = 1",
    "UPDATE intents SET ord = 4 WHERE ord = 3",
    "INSERT INTO intents VALUES (4, 3, 'c.img', 'a.img', 0, 3); INSERT INTO intents VALUES (5, 1, 'c.img', '', 0, 0)",
    "INSERT INTO intents VALUES (4, 4, 'a.img', '', 0, 0)",
    "INSERT INTO intents VALUES (4, 4, 'b.img', '', 0, 0); INSERT INTO intents VALUES (5, 1, 'b.img', '', 0, 0)",
    "DELETE FROM intents; INSERT INTO intents VALUES (1, 4, 'a.img', '', 0, 0); "
        "INSERT INTO intents VALUES (2, 5, 'a.img', '', 1, 2); INSERT INTO intents VALUES (3, 1, 'a.img', '', 0, 0)",
    "UPDATE commands SET seq = 4 WHERE seq = 3",
    "UPDATE commands SET seq = 4 WHERE seq = 2",
    "UPDATE commands SET seq = 0 WHERE seq = 2",
    "UPDATE commands SET seq = -1 WHERE seq = 1",
    "UPDATE commands SET seq = 100001 WHERE seq = 3",
    "UPDATE commands SET seq = 9223372036854775807 WHERE seq = 3",
    "DELETE FROM commands WHERE seq = 1",
    "DELETE FROM commands WHERE seq = 2",
]

# In place of those intents: two sectors are laid over a.img from sector 1 on. Their bytes are 1,024 letters.
PATCH = f"""
DELETE FROM intents;
INSERT INTO intents VALUES (1, 4, 'a.img', '', 0, 0);
INSERT INTO intents VALUES (2, 5, 'a.img', '', 1, 3);
INSERT INTO intents VALUES (3, 1, 'a.img', '', 0, 0);
INSERT INTO patches VALUES (1, x'{'61' * 1024}');
"""

# Edits of that, of which the first four leave so many bytes.
PATCHES = [
    "UPDATE patches SET bytes = substr(bytes, 1, 0)",
    "UPDATE patches SET bytes = substr(bytes, 1, 512)",
    "UPDATE patches SET bytes = substr(bytes, 1, 1023)",
    f"UPDATE patches SET bytes = x'{'61' * 1536}'",
    "DELETE FROM patches",
    "DELETE FROM intents",
    "DELETE FROM intents WHERE ord = 3",
    "UPDATE intents SET first_sector = 2, end_sector = 4 WHERE ord = 2",
    "UPDATE intents SET end_sector = 1 WHERE ord = 2",
    "UPDATE intents SET source = 'e.img' WHERE ord = 2",
    "UPDATE intents SET end_sector = 1 WHERE ord = 1",
    "UPDATE intents SET kind = 6 WHERE ord = 2",
    "UPDATE intents SET prov = 'b.img'",
    "UPDATE intents SET ord = 9 WHERE ord = 1; UPDATE intents SET ord = 1 WHERE ord = 2; "
        "UPDATE intents SET ord = 2 WHERE ord = 9",
    "INSERT INTO intents VALUES (4, 3, 'b.img', 'a.img', 1, 3); INSERT INTO intents VALUES (5, 1, 'b.img', '', 0, 0)",
    "INSERT INTO intents VALUES (4, 4, 'e.img', '', 0, 0); INSERT INTO intents VALUES (5, 5, 'e.img', '', 0, 1); "
        "INSERT INTO intents VALUES (6, 1, 'e.img', '', 0, 0)",
]

# Edits of the tables of a registry with one command, and of the number of their schema.
TABLES = [
    "UPDATE about SET schema_no = 3",
    "UPDATE about SET schema_no = 1",
    "DELETE FROM about",
    "DROP TABLE intents",
    "DROP TABLE patches",
    "CREATE TABLE other(a INTEGER) STRICT",
    "CREATE INDEX by_total ON mirrors(total)",
    """DROP TABLE intents; CREATE TABLE intents(ord INTEGER PRIMARY KEY, kind INTEGER NOT NULL, prov TEXT NOT NULL,
  source TEXT NOT NULL, first_sector INTEGER NOT NULL, end_sector INTEGER NOT NULL, more INTEGER) STRICT""",
]

# Statements that make another store: with a table of somebody else's, and with one of the six tables alone.
FOREIGN = [
    "CREATE TABLE note(a INTEGER) STRICT",
    """CREATE TABLE mirrors(name TEXT PRIMARY KEY NOT NULL, mid INTEGER NOT NULL UNIQUE,
  total INTEGER NOT NULL, genid INTEGER NOT NULL, syncid INTEGER NOT NULL, slice INTEGER NOT NULL,
  balance INTEGER NOT NULL, mediasize INTEGER NOT NULL, mflags INTEGER NOT NULL) STRICT""",
]

UNREADABLE = (3, "", "gmbench: F6 registry unreadable\n")
OPENINGS = [["recover"], ["status"], ["list"], ["audit"], ["batch"], ["status", "--read-only"]]
# How many sectors each image has. d.img is too long to be put there, and nothing needs it.
SECTORS = {"a.img": 4, "b.img": 5, "c.img": 4, "e.img": 2, "f.img": 2, "g.img": 2, "x.img": 4}

wrong = []


def check(title, found, wanted):
    if found != wanted:
        wrong.append(f"{title}: {found!r}, and not {wanted!r}"[:700])


def tell(name):
    """Prints the line of a test, which fails if anything was found to be wrong since the last one."""
    print(f"failed {name}: {len(wrong)} times, the first: {wrong[0]}" if wrong else f"ok {name}", flush=True)
    wrong.clear()


def edit(*statements):
    """Runs statements over the registry by SQLite."""
    connection = sqlite3.connect(place.registry)
    for each in statements:
        connection.executescript(each)
    connection.close()


def rows():
    """The rows of all tables as SQLite finds them; none of a table that isn't there."""
    connection = sqlite3.connect(place.registry)
    made = [name for (name,) in connection.execute("SELECT name FROM sqlite_schema WHERE type = 'table'")]
    found = {table: sorted(connection.execute(f"SELECT * FROM {table}").fetchall()) for table in made}
    connection.close()
    return {"patches": [], **found}


def images():
    return {name: bytes(content) for name, content in place.contents_of_images().items()}


def left():
    """Each byte of the bench, but for a log that is shorter than a page."""
    found = place.contents()
    if len(found.get("registry-wal", b"")) < 2048:
        found.pop("registry-wal", None)
    return found


def begin(*statements):
    """A new registry after these, over images of which each byte is the letter of its name, in capitals."""
    place.begin({name: name[:1].upper().encode() * 512 * count for name, count in SECTORS.items()})
    check("a new registry", place.run(["recover"]), (0, "recovered 0\n", ""))
    edit(*statements)


def are_left(kind, edits):
    """Tries each edit of the bench that was kept."""
    for each in edits:
        place.put_back("kept")
        edit(each)
        before = left()
        for words in OPENINGS:
            check(f"'{each}', {' '.join(words)}", place.run(words, b"k9 forget gm0\n"), UNREADABLE)
        check(f"'{each}' is left", left() == before, True)
    tell(f"each of {len(edits)} edits of {kind} is F6, and changes no byte")


def must_be_carried_out(changed):
    """An opening carries three writes out, which leave these images so, and no other one changed."""
    wanted = {**images(), **changed}
    # No stop left these images as they are.
    check("an opening", place.run(["recover", "--unchecked"]), (0, "recovered 3\n", ""))
    check("what it carries out", images(), wanted)


# The copied sectors of b.img, and its metadata; x.img is wiped.
COPIED = {
    "b.img": b"B" * 512 + b"A" * 1024 + b"B" * 512 + encode({
        "magic": MAGIC, "version": 4, "name": padded(b"gm0"), "mid": 7, "did": 2, "all": 3, "genid": 0, "syncid": 1,
        "priority": 255, "slice": 4096, "balance": 2, "mediasize": 1536, "sectorsize": 512, "sync_offset": 512,
        "mflags": 2, "dflags": 6, "provider": padded(b"b.img"), "provsize": 2560,
    }),
    "x.img": b"X" * 1536 + bytes(512),
}
# The patched sectors of a.img, and its metadata.
LAID = {
    "a.img": b"A" * 512 + b"a" * 1024 + encode({
        "magic": MAGIC, "version": 4, "name": padded(b"gm0"), "mid": 7, "did": 1, "all": 3, "genid": 0, "syncid": 1,
        "priority": 0, "slice": 4096, "balance": 2, "mediasize": 1536, "sectorsize": 512, "sync_offset": 0,
        "mflags": 2, "dflags": 0, "provider": bytes(16), "provsize": 2048,
    }),
}
LOOK = ["status", "--read-only"]

begin(ROWS)
place.keep("kept")
check("a look", place.run(LOOK), (0, SHOWN, "3 writes are pending\n"))
must_be_carried_out(COPIED)
check("a status", place.run(["status"]), (0, SHOWN, ""))
tell("rows of a state are shown, and carried out")
are_left("mirrors and components", RECORDS)
are_left("intents and commands", OTHERS)

begin(ROWS, PATCH)
place.keep("kept")
check("a look", place.run(LOOK), (0, SHOWN, "3 writes are pending\n"))
must_be_carried_out(LAID)
tell("rows of a patch are carried out")
are_left("a patch", PATCHES)
place.put_back("kept")
for second in ["INSERT INTO patches VALUES (1, x'00')", "INSERT INTO patches VALUES (2, x'00')"]:
    try:
        edit(second)
        wrong.append(f"'{second}' is taken")
    except sqlite3.IntegrityError:
        pass
tell("the tables take one record of bytes")

begin()
check("a command", place.run(["batch"], b"k1 label --mid 7 --did 1 gm0 a.img\n")[1], "k1 ok 1\n")
place.keep("kept")
are_left("tables", TABLES)
place.forget_registry()
place.keep("kept")
are_left("a store without tables", FOREIGN)

# A registry of the first schema with these rows is carried over, though an image is away.
begin()
place.forget_registry()
shutil.copyfile(first_schema, place.registry)
edit("DELETE FROM intents; DELETE FROM commands; DELETE FROM components; DELETE FROM mirrors", ROWS)
before = rows()
check("its number", before["about"], [(1, 1)])
os.rename(os.path.join(place.images, "x.img"), os.path.join(work, "x.img"))
check("an opening without x.img", place.run(["recover", "--unchecked"]), (3, "", "gmbench: F5 absent x.img\n"))
check("its rows then", rows(), {**before, "about": [(1, 2)]})
check("a look", place.run(LOOK), (0, SHOWN, "3 writes are pending\n"))
os.rename(os.path.join(work, "x.img"), os.path.join(place.images, "x.img"))
must_be_carried_out(COPIED)
tell("a registry of the first schema keeps the rows, and is carried out")
