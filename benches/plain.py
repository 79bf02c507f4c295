#!/usr/bin/env python3
"""The durable steps of `gmbench batch` in plain Python: what gmbench is measured against.

    benches/plain.py --registry FILE --shelf DIR [--fdatasync] <lines

Takes the lines label, insert, remove, destroy, advance and patch, and answers each with `KEY ok SEQ` before it reads the next. For
each it

1. writes the records, the intents and the key in one transaction of SQLite, which is synced, and of a patch the bytes;
2. writes the last sector of each image that an intent names, and syncs that image; an advance reads a stretch of both
   images before, writes it whole if it differs, and syncs the image; a patch marks the image dirty, writes the bytes
   and then the last sector, and syncs the image after each;
3. empties the intents and the bytes in a second transaction.

An image is synced by fsync, or as gmbench does it, by fdatasync. What a run that stopped left pending is carried out first.
It tests little: that the key is new, the mirror known, and an image a component or not; a line that is no command ends it.
gmbench refuses much more, and holds the folder: for keeping mirrors this script is no substitute.
"""
import argparse
import hashlib
import os
import sqlite3
import struct
import sys

SECTOR = 512
BALANCES = {"round-robin": 1, "load": 2, "split": 3, "prefer": 4}
SYNCHRONIZING = 2
DIRTY_FLAG = 1
# What an intent does: metadata or zeros into the last sector of its image, a stretch of another one, metadata with DIRTY,
# or the bytes of a patch.
META, CLEAR, COPY, DIRTY, PATCH = 1, 2, 3, 4, 5
# How many sectors a stretch has at most.
STRETCH = 256

# The tables and keys that gmbench has, so that as many trees are written.
TABLES = """
CREATE TABLE IF NOT EXISTS mirrors(name TEXT PRIMARY KEY NOT NULL, mid INTEGER NOT NULL UNIQUE,
  total INTEGER NOT NULL, genid INTEGER NOT NULL, syncid INTEGER NOT NULL, slice INTEGER NOT NULL,
  balance INTEGER NOT NULL, mediasize INTEGER NOT NULL, mflags INTEGER NOT NULL);
CREATE TABLE IF NOT EXISTS components(prov TEXT PRIMARY KEY NOT NULL, mirror TEXT NOT NULL,
  did INTEGER NOT NULL, syncid INTEGER NOT NULL, priority INTEGER NOT NULL, sync_offset INTEGER NOT NULL,
  dflags INTEGER NOT NULL, hard INTEGER NOT NULL, provsize INTEGER NOT NULL, UNIQUE (mirror, did));
CREATE TABLE IF NOT EXISTS intents(ord INTEGER PRIMARY KEY, kind INTEGER NOT NULL, prov TEXT NOT NULL,
  source TEXT NOT NULL, first_sector INTEGER NOT NULL, end_sector INTEGER NOT NULL);
CREATE TABLE IF NOT EXISTS commands(call_key TEXT PRIMARY KEY NOT NULL, seq INTEGER NOT NULL UNIQUE,
  words TEXT NOT NULL, copied INTEGER NOT NULL, of_total INTEGER NOT NULL);
CREATE TABLE IF NOT EXISTS patches(one INTEGER PRIMARY KEY CHECK (one = 1), bytes BLOB NOT NULL);
"""

# The intents in their order, with the fields of the sector that each writes; those of a CLEAR are NULL, since its
# component is gone.
PENDING = """
SELECT i.kind, i.prov, i.source, i.first_sector, i.end_sector, m.name, m.mid, c.did, m.total, m.genid, c.syncid, c.priority, m.slice, m.balance, m.mediasize,
  c.sync_offset, m.mflags, c.dflags, c.hard, c.provsize
FROM intents i LEFT JOIN components c ON c.prov = i.prov LEFT JOIN mirrors m ON m.name = c.mirror ORDER BY i.ord
"""

# The fields up to the MD5, GEOM_MIRROR version 4, the lowest byte of a number first: 119 bytes.
FIELDS = struct.Struct("<16sI16sIIBIIBIBQIQQQ16sQ")


class Refused(Exception):
    """A line that isn't carried out, by the number that docs/REFERENCE.md gives to the reason."""

    def __init__(self, number):
        super().__init__(number)
        self.number = number


class Shelf:
    """The images of a folder, each opened at its first use."""

    def __init__(self, folder, sync):
        self.folder = folder
        self.sync = sync
        self.opened = {}

    def file(self, prov):
        if prov not in self.opened:
            try:
                self.opened[prov] = os.open(os.path.join(self.folder, prov), os.O_RDWR)
            except FileNotFoundError:
                raise Refused(8) from None
        return self.opened[prov]

    def size(self, prov):
        return os.fstat(self.file(prov)).st_size

    def write_last(self, prov, sector):
        file = self.file(prov)
        os.pwrite(file, sector, self.size(prov) - SECTOR)
        self.sync(file)

    def lay(self, prov, first, sectors):
        file = self.file(prov)
        os.pwrite(file, sectors, first * SECTOR)
        self.sync(file)

    def copy(self, source, target, first, end):
        length, place = (end - first) * SECTOR, first * SECTOR
        file = self.file(target)
        wanted = os.pread(self.file(source), length, place)
        if os.pread(file, length, place) != wanted:
            os.pwrite(file, wanted, place)
        self.sync(file)


def sector_of(prov, fields, more_flags=0):
    """The sector of metadata: the fields, with these flags of the component besides, their MD5, and zeros."""
    name, *numbers, mediasize, offset, mflags, dflags, hard, provsize = fields
    provider = prov.encode() if hard else b""
    said = FIELDS.pack(b"GEOM::MIRROR", 4, name.encode(), *numbers, mediasize, SECTOR, offset, mflags,
                       dflags | more_flags, provider, provsize)
    return (said + hashlib.md5(said).digest()).ljust(SECTOR, b"\0")


def mirror_named(store, name):
    found = store.execute("SELECT syncid FROM mirrors WHERE name = ?", (name,)).fetchone()
    if found is None:
        raise Refused(5)
    return found


def check_free(store, prov):
    if store.execute("SELECT 1 FROM components WHERE prov = ?", (prov,)).fetchone():
        raise Refused(9)


def switch(options, name, default):
    return {"on": 1, "off": 0}[options.get(name, default)]


def put_component(store, name, prov, options, syncid, dflags, size):
    row = (prov, name, int(options["did"]), syncid, int(options.get("priority", 0)), 0, dflags,
           switch(options, "hardcode", "off"), size)
    store.execute("INSERT INTO components VALUES (?, ?, ?, ?, ?, ?, ?, ?, ?)", row)


def put_intent(store, kind, prov, source="", first=0, end=0):
    store.execute("INSERT INTO intents (kind, prov, source, first_sector, end_sector) VALUES (?, ?, ?, ?, ?)",
                  (kind, prov, source, first, end))


def put_intents(store, kind, name):
    """An intent for each component of the mirror."""
    store.execute("INSERT INTO intents (kind, prov, source, first_sector, end_sector) "
                  "SELECT ?, prov, '', 0, 0 FROM components WHERE mirror = ? ORDER BY prov", (kind, name))


def label(store, shelf, options, name, prov):
    if store.execute("SELECT 1 FROM mirrors WHERE name = ?", (name,)).fetchone():
        raise Refused(6)
    check_free(store, prov)
    size = shelf.size(prov)
    flags = 1 - switch(options, "autosync", "on") + 2 * (1 - switch(options, "failsync", "on"))
    row = (name, int(options["mid"]), 1, 0, 1, int(options.get("slice", 4096)),
           BALANCES[options.get("balance", "load")], size - SECTOR, flags)
    store.execute("INSERT INTO mirrors VALUES (?, ?, ?, ?, ?, ?, ?, ?, ?)", row)
    put_component(store, name, prov, options, 1, 0, size)
    put_intent(store, META, prov)


def insert(store, shelf, options, name, prov):
    (syncid,) = mirror_named(store, name)
    check_free(store, prov)
    put_component(store, name, prov, options, syncid, SYNCHRONIZING, shelf.size(prov))
    store.execute("UPDATE mirrors SET total = total + 1 WHERE name = ?", (name,))
    put_intents(store, META, name)


def remove(store, shelf, options, name, prov):
    mirror_named(store, name)
    if store.execute("DELETE FROM components WHERE prov = ? AND mirror = ?", (prov, name)).rowcount == 0:
        raise Refused(12)
    store.execute("UPDATE mirrors SET total = total - 1 WHERE name = ?", (name,))
    put_intent(store, CLEAR, prov)
    put_intents(store, META, name)


def destroy(store, shelf, options, name):
    mirror_named(store, name)
    put_intents(store, CLEAR, name)
    store.execute("DELETE FROM components WHERE mirror = ?", (name,))
    store.execute("DELETE FROM mirrors WHERE name = ?", (name,))


def advance(store, shelf, options, name, prov):
    mirror_named(store, name)
    (total,) = store.execute("SELECT mediasize / 512 FROM mirrors WHERE name = ?", (name,)).fetchone()
    found = store.execute("SELECT sync_offset / 512, dflags FROM components WHERE prov = ? AND mirror = ?",
                          (prov, name)).fetchone()
    if found is None:
        raise Refused(12)
    first, dflags = found
    if not dflags & SYNCHRONIZING:
        raise Refused(22)
    (source,) = store.execute("SELECT prov FROM components WHERE mirror = ? AND dflags = 0 AND prov <> ? "
                              "ORDER BY priority DESC, prov LIMIT 1", (name, prov)).fetchone()
    end = min(first + STRETCH, total)
    said = (0, 0) if end == total else (dflags, end * SECTOR)
    store.execute("UPDATE components SET dflags = ?, sync_offset = ? WHERE prov = ?", (*said, prov))
    put_intent(store, COPY, prov, source, first, end)
    put_intent(store, META, prov)
    return end, total


def patch(store, shelf, options, name):
    (syncid,) = mirror_named(store, name)
    first, sectors = int(options["first"]), bytes.fromhex(options["data"])
    (total,) = store.execute("SELECT mediasize / 512 FROM mirrors WHERE name = ?", (name,)).fetchone()
    members = store.execute("SELECT prov, dflags FROM components WHERE mirror = ? ORDER BY prov", (name,)).fetchall()
    if any(dflags & SYNCHRONIZING for _, dflags in members):
        raise Refused(30)
    if first + len(sectors) // SECTOR > total:
        raise Refused(31)
    store.execute("UPDATE mirrors SET syncid = ? WHERE name = ?", (syncid + 1, name))
    store.execute("UPDATE components SET syncid = ? WHERE mirror = ? AND dflags = 0", (syncid + 1, name))
    for prov, dflags in members:
        if dflags == 0:
            put_intent(store, DIRTY, prov)
            put_intent(store, PATCH, prov, "", first, first + len(sectors) // SECTOR)
            put_intent(store, META, prov)
    store.execute("INSERT INTO patches VALUES (1, ?)", (sectors,))


COMMANDS = {
    "label": label, "insert": insert, "remove": remove, "destroy": destroy, "advance": advance, "patch": patch,
}


def change(store, shelf, words):
    """Carries a command out on the records; of an advance, how many of how many sectors are held after it."""
    options, names, rest = {}, [], iter(words[1:])
    for word in rest:
        if word.startswith("--"):
            options[word[2:]] = next(rest)
        else:
            names.append(word)
    return COMMANDS[words[0]](store, shelf, options, *names) or (0, 0)


def accept(store, shelf, key, words):
    """Writes the records, the intents and the key of a command, and answers its line."""
    line = " ".join(words)
    found = store.execute("SELECT seq, words FROM commands WHERE call_key = ?", (key,)).fetchone()
    if found is not None:
        if found[1] != line:
            raise Refused(3)
        return f"{key} repeated {found[0]}"
    copied, total = change(store, shelf, words)
    (seq,) = store.execute("SELECT COALESCE(MAX(seq), 0) + 1 FROM commands").fetchone()
    store.execute("INSERT INTO commands VALUES (?, ?, ?, ?, ?)", (key, seq, line, copied, total))
    return f"{key} ok {seq} copied {copied} of {total}" if total else f"{key} ok {seq}"


def carry_out(store, shelf):
    """Writes what is pending to the images, and forgets it."""
    pending = store.execute(PENDING).fetchall()
    for kind, prov, source, first, end, *fields in pending:
        if kind == COPY:
            shelf.copy(source, prov, first, end)
        elif kind == PATCH:
            (sectors,) = store.execute("SELECT bytes FROM patches").fetchone()
            shelf.lay(prov, first, sectors)
        elif kind == CLEAR:
            shelf.write_last(prov, bytes(SECTOR))
        else:
            shelf.write_last(prov, sector_of(prov, fields, DIRTY_FLAG if kind == DIRTY else 0))
    if pending:
        store.execute("BEGIN IMMEDIATE")
        store.execute("DELETE FROM intents")
        store.execute("DELETE FROM patches")
        store.execute("COMMIT")


def answer(store, shelf, key, words):
    store.execute("BEGIN IMMEDIATE")
    try:
        told = accept(store, shelf, key, words)
        store.execute("COMMIT")
    except Refused as refusal:
        store.execute("ROLLBACK")
        return f"{key} refused {refusal.number}"
    carry_out(store, shelf)
    return told


def main():
    parser = argparse.ArgumentParser(description="The durable steps of `gmbench batch` in plain Python.")
    parser.add_argument("--registry", required=True)
    parser.add_argument("--shelf", required=True)
    parser.add_argument("--fdatasync", action="store_true", help="sync images by fdatasync, and not by fsync")
    words = parser.parse_args()

    # Without a level of isolation no transaction begins but those that are begun here.
    store = sqlite3.connect(words.registry, isolation_level=None)
    store.execute("PRAGMA journal_mode = WAL")
    store.execute("PRAGMA synchronous = FULL")
    store.executescript(TABLES)
    shelf = Shelf(words.shelf, os.fdatasync if words.fdatasync else os.fsync)
    carry_out(store, shelf)
    for line in sys.stdin:
        key, *command = line.split() or [None]
        if key is not None:
            # One write, so that a reader has the whole line at once.
            sys.stdout.write(answer(store, shelf, key, command) + "\n")
            sys.stdout.flush()
    store.close()


if __name__ == "__main__":
    main()
