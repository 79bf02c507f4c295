"""Last sectors made by a generator with a fixed seed, shown by the program: `taste` over folders of a thousand images, and
`dump` of some; held against formats.py.

    sectors.py PROGRAM FOLDER TASTED DUMPED
"""

import os
import random
import subprocess
import sys

import formats

program, work = sys.argv[1:3]
tasted, dumped = int(sys.argv[3]), int(sys.argv[4])
rng = random.Random(20251125)
folder = os.path.join(work, "sectors")
os.mkdir(folder)
LIMITS = {1: [0, 1, 254, 255], 4: [0, 1, 2**31, 2**32 - 1], 8: [0, 1, 511, 512, 2**63, 2**64 - 1]}
PLACES = [at * 8 + bit for at in range(512) for bit in range(8)]


def label(least=1):
    return bytes(rng.choice(formats.LETTERS) for _ in range(rng.randint(least, 15)))


def sound():
    """The fields of a sector that says something, among a few mirrors."""
    return {
        "magic": formats.MAGIC, "version": rng.choice([2, 3, 4]), "name": formats.padded(rng.choice([b"gm0", b"gm1", b"-", label(12)])),
        "mid": rng.choice([0, 7, 8]), "did": rng.randrange(2**32), "all": rng.randrange(256),
        "genid": rng.choice([0, 1, 2]), "syncid": rng.choice([1, 2, 2**32 - 1]), "priority": rng.randrange(256),
        "slice": rng.randrange(2**32), "balance": rng.randrange(5), "mediasize": rng.randrange(2**20) * 512,
        "sectorsize": 512, "sync_offset": rng.randrange(2**20) * 512, "mflags": rng.choice([0, 1, 0, 1, 2, 3]),
        "dflags": rng.choice([0, 0, 1, 2, 6, rng.randrange(16)]), "provider": bytes(16), "provsize": 0,
    }


def whole(said):
    return formats.encode(said)


def flipped(said):
    """One bit is another, and the hash is as it was."""
    sector = bytearray(formats.encode(said))
    at = rng.choice(PLACES[: (formats.hashed(said["version"]) + 16) * 8]) if rng.random() < 0.9 else rng.choice(PLACES)
    sector[at // 8] ^= 1 << at % 8
    return bytes(sector)


def at_limits(said):
    for name, _, size in rng.sample(formats.FIELDS, rng.randint(1, 6)):
        if name not in ("version", "sectorsize", "balance"):
            said[name] = rng.choice(LIMITS[size])
    said["balance"] = rng.choice([0, 4, 4, 5, 255]) if rng.random() < 0.2 else said["balance"]
    said["mflags"] &= 3 if rng.random() < 0.8 else 2**64 - 1
    said["dflags"] &= 15 if rng.random() < 0.8 else 2**64 - 1
    return formats.encode(said)


def no_name(field):
    """A field of 16 bytes that is no label with zeros after it."""
    kind = rng.randrange(5)
    if kind == 0:
        return bytes(rng.choice(formats.LETTERS) for _ in range(16))
    if kind == 1:
        return bytes(16)
    if kind == 2:
        return bytes([0]) + label()[:1] + bytes(14)
    if kind == 3:
        return formats.padded(label()[:8]) [:15] + b"x"
    text = bytearray(formats.padded(label()))
    text[rng.randrange(16)] = rng.choice([b for b in range(1, 256) if b not in formats.LETTERS])
    return bytes(text)


def wrong(said):
    """Fields that are wrong, with the hash that they have: one of them, or several."""
    names = ["magic", "version", "name", "provider", "balance", "mflags", "dflags", "sectorsize"]
    for name in rng.sample(names, rng.choice([1, 1, 1, 2, 3])):
        if name == "magic":
            magic = bytearray(formats.MAGIC)
            magic[rng.randrange(16)] ^= 1 << rng.randrange(8)
            said[name] = bytes(magic)
        elif name in ("name", "provider"):
            said[name] = no_name(said[name])
        elif name == "version":
            said[name] = rng.choice([0, 1, 5, 2**32 - 1, 2 << 8, 3 << 8, 4 << 8])
        elif name == "balance":
            said[name] = rng.randint(5, 255)
        elif name == "sectorsize":
            said[name] = rng.choice([0, 511, 513, 1024, 4096, 2**32 - 1, 2 << 24])
        else:
            said[name] = 1 << rng.randrange(64)
    return formats.encode(said)


def renamed(said):
    """The fields of one version under the number of another, with the hash of either."""
    sector = bytearray(formats.encode(said))
    sector[16] = rng.choice([1, 2, 3, 4, 5])
    return bytes(sector) if rng.random() < 0.5 else formats.rehashed(sector)


def noise(said):
    """Any bytes, after the name of the format or not; or a sector with any rest."""
    kind = rng.randrange(4)
    if kind == 0:
        return bytes(512)
    if kind == 1:
        return rng.randbytes(512)
    if kind == 2:
        return formats.rehashed(formats.MAGIC + rng.randbytes(496))
    end = formats.hashed(said["version"]) + 16
    return formats.encode(said)[:end] + rng.randbytes(512 - end)


MAKERS = [whole, whole, whole, flipped, flipped, at_limits, at_limits, wrong, wrong, renamed, noise]


def image(name):
    """The bytes of an image of this name: no sector, or one to four."""
    said = sound()
    count = rng.choice([1, 1, 2, 4])
    said["provsize"] = rng.choice([0, count * 512, count * 512, count * 512 + 512, rng.randrange(2**64)])
    said["provider"] = rng.choice([bytes(16), bytes(16), formats.padded(name), formats.padded(label())])
    if rng.random() < 0.005:
        return b""
    return bytes((count - 1) * 512) + rng.choice(MAKERS)(said)


def put(name, content):
    with open(os.path.join(folder, name.decode()), "wb") as file:
        file.write(content)


def run(*words):
    done = subprocess.run([program, *words, "--shelf", folder], stdin=subprocess.DEVNULL, capture_output=True, timeout=60)
    return done.stdout.decode(), done.returncode, done.stderr


def differs(told, wanted):
    """The first line that is another one."""
    for number, (one, other) in enumerate(zip(told.split("\n"), wanted.split("\n"))):
        if one != other:
            return f"line {number} is {one!r}, and not {other!r}"
    return "it is longer or shorter"


def check_taste(images):
    told, status, complaints = run("taste")
    wanted, ends = formats.taste([(name, content[-512:] or None, len(content)) for name, content in images])
    if (told, status, complaints) == (wanted, ends, b""):
        return None
    return f"status {status}, '{complaints[:100]}', {differs(told, wanted)}"


def check_dump(name, content):
    told, status, complaints = run("dump", name.decode())
    wanted, ends = formats.dump(content[-512:]) if content else ("refused 28\n", 1)
    if (told, status, complaints) == (wanted, ends, b""):
        return None
    return f"{content[-512:].hex()}: status {status}, {differs(told, wanted)}"


def tell(name, wrong):
    print(f"failed {name}: {len(wrong)} times, the first: {wrong[0]}" if wrong else f"ok {name}", flush=True)


def version_of(sector):
    said = formats.decode(sector) if sector else 28
    return None if isinstance(said, int) else said["version"]


names = [f"{number:03d}-{label()[:8].decode()}".encode() for number in range(1000)]
wrong_tastes, wrong_dumps, counts, versions = [], [], {}, {}
for turn in range(tasted // 1000):
    images = [(name, image(name)) for name in names]
    for name, content in images:
        put(name, content)
        fault = formats.decode(content[-512:]) if content else 28
        fault = fault if isinstance(fault, int) else 0
        counts[fault] = counts.get(fault, 0) + 1
        version = version_of(content[-512:])
        versions[version] = versions.get(version, 0) + 1
    found = check_taste(images)
    wrong_tastes += [f"in turn {turn}, {found}"] if found else []
    for name, content in rng.sample(images, dumped * 1000 // tasted):
        found = check_dump(name, content)
        wrong_dumps += [found] if found else []
tell(f"a taste of {tasted} last sectors", wrong_tastes)
tell(f"a dump of {dumped // (tasted // 1000) * (tasted // 1000)} of them", wrong_dumps)
few = [fault for fault in range(9) if counts.get(fault, 0) < tasted // 1000]
tell(f"they have each fault, and none: {sorted(counts.items())}", [f"few have the faults {few}"] if few else [])
few = [version for version in formats.VERSIONS if versions.get(version, 0) < tasted // 10]
told = sorted((version, count) for version, count in versions.items() if version)
tell(f"a tenth at least is read in each version: {told}", [f"few have the versions {few}"] if few else [])
