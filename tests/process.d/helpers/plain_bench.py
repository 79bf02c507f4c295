"""A bench read plainly: the records of a registry as SQLite finds them, and what commands and writes that are pending make.

Nothing here is taken from gmbench's own code: it is written from the description of the tables, the sectors and the commands.
"""

import os
import shutil
import sqlite3

from formats import MAGIC, encode, padded

META, CLEAR, COPY, DIRTY, PATCH = 1, 2, 3, 4, 5
DIRTY_FLAG, SYNCHRONIZING, INACTIVE = 1, 2, 8
GREATEST = 2**32 - 1
SECTOR = 512


class Records:
    """The rows of a registry: mirrors by name, components by provider, commands by key, the intents in their order, and the
    bytes that are to be laid."""

    def __init__(self, registry, scratch):
        for end in ("", "-wal"):
            if os.path.exists(registry + end):
                shutil.copyfile(registry + end, scratch + end)
        connection = sqlite3.connect(scratch)
        connection.row_factory = sqlite3.Row
        # without tables, or without a file, nothing is registered yet
        is_made = connection.execute("SELECT * FROM sqlite_master").fetchone()
        rows = {}
        for table, order in [("mirrors", "name"), ("components", "prov"), ("intents", "ord"), ("commands", "seq")]:
            found = connection.execute(f"SELECT * FROM {table} ORDER BY {order}") if is_made else []
            rows[table] = [dict(row) for row in found]
        self.patches = [row["bytes"] for row in connection.execute("SELECT bytes FROM patches")] if is_made else []
        connection.close()
        for end in ("", "-wal", "-shm"):
            if os.path.exists(scratch + end):
                os.remove(scratch + end)
        self.mirrors = {row["name"]: row for row in rows["mirrors"]}
        self.components = {row["prov"]: row for row in rows["components"]}
        self.commands = {row["call_key"]: row for row in rows["commands"]}
        self.intents = [{name: row[name] for name in row if name != "ord"} for row in rows["intents"]]

    def rows(self):
        """All of it, to be compared."""
        return self.mirrors, self.components, self.commands, self.intents, self.patches

    def components_of(self, mirror):
        return [row for _, row in sorted(self.components.items()) if row["mirror"] == mirror]

    def source_of(self, target, mirror):
        """The component from which another one of its mirror is filled, or None."""
        active = [
            (-row["priority"], row["prov"])
            for row in self.components_of(mirror)
            if not row["dflags"] & (SYNCHRONIZING | INACTIVE) and row["prov"] != target
        ]
        return min(active)[1] if active else None

    def last_sector(self, provider, more_flags=0):
        """The metadata of a component, as its last sector is to hold them, with these flags besides."""
        component = self.components[provider]
        mirror = self.mirrors[component["mirror"]]
        name = provider.encode()
        return encode({
            **{field: mirror[field] for field in ["mid", "genid", "slice", "balance", "mediasize", "mflags"]},
            **{field: component[field] for field in ["did", "syncid", "priority", "sync_offset", "provsize"]},
            "dflags": component["dflags"] | more_flags,
            "magic": MAGIC,
            "version": 4,
            "sectorsize": SECTOR,
            "all": mirror["total"],
            "name": padded(mirror["name"].encode()),
            "provider": padded(name) if component["hard"] else bytes(16),
        })

    def carry_out(self, images):
        """Writes to images, by their names, what is pending."""
        for intent in self.intents:
            image = images[intent["prov"]]
            part = slice(intent["first_sector"] * SECTOR, intent["end_sector"] * SECTOR)
            if intent["kind"] == COPY:
                image[part] = images[intent["source"]][part]
            elif intent["kind"] == PATCH:
                image[part] = self.patches[0]
            elif intent["kind"] == CLEAR:
                image[-SECTOR:] = bytes(SECTOR)
            else:
                image[-SECTOR:] = self.last_sector(intent["prov"], DIRTY_FLAG if intent["kind"] == DIRTY else 0)
        self.intents, self.patches = [], []


def meta(provider):
    return {"kind": META, "prov": provider, "source": "", "first_sector": 0, "end_sector": 0}


def refusals_of_loss(records, provider, sizes):
    """The numbers for which an image isn't given up, over images of these sizes in bytes; its key is new."""
    if provider not in records.components:
        return [12] + ([32] if provider in sizes else [])
    name = records.components[provider]["mirror"]
    others = [row for row in records.components_of(name) if row["prov"] != provider]
    copies = [it for it in records.intents if it["kind"] == COPY and it["source"] == provider]
    tests = [
        (8, any(sizes.get(row["prov"]) != row["provsize"] for row in others)),
        (17, all(row["dflags"] & (SYNCHRONIZING | INACTIVE) for row in others)),
        (24, records.mirrors[name]["genid"] == GREATEST),
        (27, any(next_source(records, it["prov"], name, provider) is None for it in copies)),
        (32, provider in sizes),
    ]
    return [number for number, applies in tests if applies]


def next_source(records, target, mirror, lost):
    """The component from which one is filled once another is lost, or None."""
    kept = records.components.pop(lost)
    source = records.source_of(target, mirror)
    records.components[lost] = kept
    return source


def lose(records, provider, key):
    """Takes a component out that is lost, and makes what is pending go on without it."""
    name = records.components.pop(provider)["mirror"]
    records.mirrors[name]["genid"] += 1
    remaining = [it for it in records.intents if it["prov"] != provider]
    for intent in remaining:
        if intent["source"] == provider:
            intent["source"] = records.source_of(intent["prov"], name)
    if all(it["kind"] != PATCH for it in remaining):
        records.patches = []
    records.intents = remaining + [meta(row["prov"]) for row in records.components_of(name)]
    words, number = f"lost {name} {provider}", len(records.commands) + 1
    records.commands[key] = {"call_key": key, "seq": number, "words": words, "copied": 0, "of_total": 0}
    return number
