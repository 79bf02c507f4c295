"""A registry that was damaged, opened by the program; what it tells of one that it takes is held against what SQLite reads.

    damaged_registry.py PROGRAM BENCH STRIDE NAME

STRIDE is how many bytes stand between two that are changed, each in a run of its own; with PART=K/N in the environment it is
each Nth of these, from the Kth on. NAME is said of the bench. An image may
change if SQLite finds a write of it that is pending.
"""

import os
import random
import re
import shutil
import sqlite3
import subprocess
import sys

program, bench, stride, title = sys.argv[1], sys.argv[2], int(sys.argv[3]), sys.argv[4]
rng = random.Random(77)
registry, images = os.path.join(bench, "registry"), os.path.join(bench, "images")
FAULTS = {b"gmbench: F2 store\n": "F2", b"gmbench: F6 registry unreadable\n": "F6"}
BALANCES = ["none", "round-robin", "load", "split", "prefer"]


def read(path):
    with open(path, "rb") as file:
        return file.read()


sound = read(registry)
page = int.from_bytes(sound[16:18], "big")
kept = {name: read(os.path.join(images, name)) for name in sorted(os.listdir(images))}


def put(content):
    for name in os.listdir(bench):
        if name.startswith("registry"):
            os.remove(os.path.join(bench, name))
    with open(registry, "wb") as file:
        file.write(content)


def put_images_back():
    for name, content in kept.items():
        with open(os.path.join(images, name), "wb") as file:
            file.write(content)


def flags(value, names):
    return ",".join(name for bit, name in enumerate(names) if value >> bit & 1) or "NONE"


def state(component, mirror):
    if component["dflags"] & 8:
        return "INACTIVE"
    if component["dflags"] & 2:
        return "STALE" if mirror["mflags"] & 1 and not component["dflags"] & 4 else "SYNCHRONIZING"
    return "ACTIVE"


def listed(mirror, components):
    """What a list says of a mirror."""
    active = sum(state(it, mirror) == "ACTIVE" for it in components)
    lines = [f"Mirror: {mirror['name']}", f"State: {'COMPLETE' if active == mirror['total'] else 'DEGRADED'}"]
    lines += [f"Mid: {mirror['mid']}", f"All: {mirror['total']}", f"Genid: {mirror['genid']}"]
    lines += [f"Syncid: {mirror['syncid']}", f"Balance: {BALANCES[mirror['balance']]}", f"Slice: {mirror['slice']}"]
    lines += [f"Flags: {flags(mirror['mflags'], ['NOAUTOSYNC', 'NOFAILSYNC'])}", f"Mediasize: {mirror['mediasize']}"]
    lines += [f"Components: {len(components)}"]
    for it in components:
        its = flags(it["dflags"], ["DIRTY", "SYNCHRONIZING", "FORCE_SYNC", "INACTIVE"])
        lines += [f"- {it['prov']}", f"  State: {state(it, mirror)}", f"  Did: {it['did']}"]
        lines += [f"  Priority: {it['priority']}", f"  Syncid: {it['syncid']}", f"  Flags: {its}"]
        lines += [f"  Offset: {it['sync_offset']}", f"  Provsize: {it['provsize']}"]
        lines += [f"  Hardcoded: {'yes' if it['hard'] else 'no'}"]
    return "".join(f"{line}\n" for line in lines)


def list_of(connection):
    """What a list would say of the rows."""
    mirrors = connection.execute("SELECT * FROM mirrors ORDER BY name").fetchall()
    rows = connection.execute("SELECT * FROM components ORDER BY prov").fetchall()
    blocks = [listed(it, [row for row in rows if row["mirror"] == it["name"]]) for it in mirrors]
    return "\n".join(blocks).encode() or b"no mirrors\n"


def pending_in(connection):
    """The images of which a write is pending by the rows."""
    return {row["prov"] for row in connection.execute("SELECT prov FROM intents").fetchall()}


def by_sqlite(content, question):
    """What is answered of the rows that SQLite finds; None if it finds none, for whatever reason."""
    copy = os.path.join(bench, "copy")
    with open(copy, "wb") as file:
        file.write(content)
    try:
        with sqlite3.connect(copy) as connection:
            connection.row_factory = sqlite3.Row
            return question(connection)
    except (sqlite3.Error, IndexError, UnicodeError, TypeError):
        return None
    finally:
        connection.close()
        for name in os.listdir(bench):
            if name.startswith("copy"):
                os.remove(os.path.join(bench, name))


def run(command):
    words = [program, command, "--registry", registry, "--shelf", images]
    return subprocess.run(words, stdin=subprocess.DEVNULL, capture_output=True, timeout=30)


counts = {"F2": 0, "F5": 0, "F6": 0, "taken": 0, "taken, and SQLite reads none": 0}


def images_changed():
    """The images that have changed since, which are put back."""
    found = [name for name, content in kept.items() if read(os.path.join(images, name)) != content]
    if found:
        put_images_back()
    return found


def fault_of(done):
    """The fault with which a run ended, and nothing else; None if it ended otherwise."""
    if done.returncode != 3 or done.stdout:
        return None
    if re.fullmatch(rb"gmbench: F5 absent [A-Za-z0-9._-]{1,15}\n", done.stderr):
        return "F5"
    return FAULTS.get(done.stderr)


def open_it(content, command):
    """What is wrong with how the program takes such a registry, if anything."""
    put(content)
    done = run(command)
    told = f"status {done.returncode}, {done.stdout[:200]!r}, {done.stderr[:100]!r}"
    changed = images_changed()
    fault = fault_of(done)
    if changed and (fault or not set(changed) <= (by_sqlite(content, pending_in) or set())):
        return f"{changed} changed: {told}"
    if fault:
        counts[fault] += 1
        return None
    if done.returncode != 0 or done.stderr:
        return told
    counts["taken"] += 1
    if command == "recover":
        return None if re.fullmatch(rb"recovered [0-9]+\n", done.stdout) else told
    if command == "status":
        return None
    wanted = by_sqlite(content, list_of)
    if wanted is None:
        counts["taken, and SQLite reads none"] += 1
        return None
    return None if done.stdout == wanted else f"SQLite reads {wanted[:300]!r}: {told}"


def tell(name, wrong, tried):
    told = ", ".join(f"{number} {kind}" for kind, number in counts.items() if number)
    name = f"{title}: {name} ({tried}: {told})"
    print(f"failed {name}: {len(wrong)} times, the first: {wrong[0]}" if wrong else f"ok {name}", flush=True)
    for kind in counts:
        counts[kind] = 0


def try_all(name, damaged):
    wrong, tried = [], 0
    for where, content in damaged:
        command = "list" if tried % 8 else ["recover", "status"][tried // 8 % 2]
        found = open_it(content, command)
        wrong += [f"{where}, {command}: {found}"] if found else []
        tried += 1
    tell(name, wrong, tried)


def changed_bytes():
    part, parts = map(int, os.environ.get("PART", "1/1").split("/"))
    start = rng.randrange(stride) + (part - 1) * stride
    for at in range(start, len(sound), parts * stride):
        other = (sound[at] ^ rng.choice([1, 128, 255, rng.randrange(1, 256)])) or 0
        yield f"byte {at} is {other} in place of {sound[at]}", sound[:at] + bytes([other]) + sound[at + 1 :]


def lost_pages():
    for at in range(0, len(sound), page):
        number = at // page + 1
        yield f"page {number} is zeros", sound[:at] + bytes(page) + sound[at + page :]
        yield f"page {number} is gone", sound[:at] + sound[at + page :]
        yield f"page {number} is the first", sound[:at] + sound[:page] + sound[at + page :]


def cuts():
    for at in range(0, len(sound), 512):
        yield f"cut at {at}", sound[:at]


if run("list").stdout != by_sqlite(sound, list_of):
    print(f"failed {title}: a registry that is sound isn't what SQLite reads")
put_images_back()
try_all("a byte that is another", changed_bytes())
try_all("pages that are gone, zeros, or another", lost_pages())
try_all("a file that is cut at each 512 bytes", cuts())
put(sound)
