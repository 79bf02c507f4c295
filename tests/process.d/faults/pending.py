"""What is pending after each command that was killed, and what is looked at without an opening.

    pending.py PROGRAM PRELOADED FOLDER

Each command is killed before each of its writes and syncs of an image, so that the registry's log lies beside it. What
`pending` prints then is held against a plain reading of the registry and of the images, and against what `recover` does;
`status`, `list` and `audit` with --read-only against those without, once that is done. None of them changes a byte. Then one
image after the other is blank, away or longer.
"""

import os
import sys

from bench_folder import Bench
from each_command import COMMANDS, FILLED, NAMES
from formats import decode
from plain_bench import CLEAR, COPY, DIRTY, META, PATCH, Records

program, preloaded, work = sys.argv[1:4]
place = Bench(program, work)
run = place.run
SECTORS = 4
counts = {"stops": 0, "lines": 0, "images": 0}
wrong = []


def check(title, found, wanted):
    if found != wanted:
        wrong.append(f"{title}: {found!r}, and not {wanted!r}"[:600])


def put_before(lines):
    """A bench after these lines; after none, the images of FILLED without their registry."""
    place.make(NAMES, SECTORS)
    place.hand_in(lines or FILLED, LD_PRELOAD=preloaded)
    if lines is None:
        place.forget_registry()


def said(sector, mirrors, cleared):
    """What a last sector says of these mirrors, or of an image that is to be cleared and so may be no component's any more."""
    found = decode(sector)
    if isinstance(found, int):
        return "no metadata"
    mids = {row["name"].encode(): row["mid"] for row in mirrors}
    return "member" if mids.get(found["name"], found["mid"] if cleared else None) == found["mid"] else "another"


def standing(records, name, cleared):
    """How an image stands to what is registered and pending."""
    path = os.path.join(place.images, name)
    component = None if cleared else records.components.get(name)
    if not os.path.exists(path) or (component and os.path.getsize(path) != component["provsize"]):
        return "absent"
    with open(path, "rb") as file:
        sector = file.read()[-512:]
    if component is None:
        return "zero" if sector == bytes(512) else said(sector, records.mirrors.values(), True)
    if sector == records.last_sector(name):
        return "as registered"
    return said(sector, [records.mirrors[component["mirror"]]], False)


def lines_of(records, shelf):
    """What `pending` is to print."""
    text = ""
    for intent in records.intents:
        name, source = intent["prov"], intent["source"]
        first, end = intent["first_sector"], intent["end_sector"]
        stands = standing(records, name, intent["kind"] == CLEAR)
        if intent["kind"] == COPY:
            text += f"copy {end - first} sectors of {source} to {name} from {first}"
            stands = f"{source} {standing(records, source, False)}, {name} {stands}"
        elif intent["kind"] == PATCH:
            text += f"patch {end - first} sectors of {name} from {first}"
        else:
            text += {META: f"metadata of {name}", CLEAR: f"clear {name}", DIRTY: f"mark {name} dirty"}[intent["kind"]]
        text += f": {stands}\n" if shelf else "\n"
    return text


def amiss(records):
    """The components that an audit is to list."""
    names = [name for name in sorted(records.components) if standing(records, name, False) != "as registered"]
    return "".join(f"{name}\n" for name in names)


def look(title):
    """All that is looked at, which changes nothing."""
    records = Records(place.registry, os.path.join(work, "scratch"))
    before = place.contents()
    for shelf in (True, False):
        status, told, complaints = run(["pending"], shelf=shelf)
        # Which images no stop leaves so is another test's.
        told = "".join(line for line in told.splitlines(True) if "isn't what the stop left" not in line)
        check(f"{title}: pending", (status, told, complaints), (0, lines_of(records, shelf), ""))
    pending = len(records.intents)
    told = {0: "", 1: "1 write is pending\n"}.get(pending, f"{pending} writes are pending\n")
    texts = {}
    for command in ("status", "list"):
        status, texts[command], complaint = run([command, "--read-only"])
        check(f"{title}: {command} ends", (status, complaint), (0, told))
    listed = amiss(records)
    check(f"{title}: audit", run(["audit", "--read-only"]), (1 if listed else 0, listed, told))
    check(f"{title}: not a byte is changed", place.contents(), before)
    counts["lines"] += pending
    return pending, texts


def recovered(title, pending, texts):
    """What `recover` then does is what was pending, and what was shown of the registry stays."""
    check(f"{title}: recover", run(["recover"]), (0, f"recovered {pending}\n", ""))
    check(f"{title}: nothing is pending", run(["pending"]), (0, "", ""))
    for command, text in texts.items():
        check(f"{title}: {command} behind that", run([command]), (0, text, ""))
    check(f"{title}: audit behind that", run(["audit", "--read-only"]), (0, "", ""))


def spoil(name, how):
    """An image that is blank, or away, or has another size."""
    path = os.path.join(place.images, name)
    if how == "away":
        os.remove(path)
    elif how == "longer":
        with open(path, "ab") as file:
            file.write(bytes(512))
    else:
        with open(path, "wb") as file:
            file.write(bytes(SECTORS * 512))


def try_command(command, lines):
    put_before(lines)
    place.keep("before")
    line = f"p1 {command}\n".encode()
    run(["batch"], line, LD_PRELOAD=preloaded, STOPPED=place.images + "/", COUNT=place.count_file)
    total = place.count()
    for first in range(1, total + 1):
        title = f"'{command}', killed at call {first} of {total}"
        counts["stops"] += 1
        place.put_back("before")
        run(["batch"], line, LD_PRELOAD=preloaded, STOPPED=place.images + "/", STOP=str(first), KILL="yes")
        check(f"{title}: it leaves a log", os.path.exists(place.registry + "-wal"), True)
        place.keep("stopped")
        pending, texts = look(title)
        if pending == 0:
            wrong.append(f"{title}: nothing is pending")
        recovered(title, pending, texts)
        for name in NAMES if first == 1 else []:
            for how in ("blank", "away", "longer"):
                place.put_back("stopped")
                spoil(name, how)
                look(f"{title}, {name} {how}")
                counts["images"] += 1


for words, before, _ in COMMANDS:
    try_command(words, before)
    told = ", ".join(f"{number} {kind}" for kind, number in counts.items())
    name = f"what is pending behind a command that was killed: {words.split()[0]} ({told})"
    print(f"failed {name}: {len(wrong)} times, the first: {wrong[0]}" if wrong else f"ok {name}", flush=True)
    counts = dict.fromkeys(counts, 0)
    wrong = []
