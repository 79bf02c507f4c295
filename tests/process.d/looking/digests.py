"""Last sectors whose digests were worked out beside the program, from the table of the sector.

    digests.py PROGRAM PRELOADED FOLDER

Each digest here is the MD5 of the fields of a sector, as `dump` prints it. They were computed once, by hand, from the places
and sizes of the fields; neither the program nor what the other tests share had a part in that.
"""

import os
import subprocess
import sys

from bench_folder import Bench
from formats import encode, padded

program, preloaded, work = sys.argv[1:4]
place = Bench(program, work)

# A mirror gm0 with mid 7, slice 4096 and balance load, of images that hold it from their first sector on.
LABELLED_258 = "c1ade6788682d76de79fffdd04b95fad"
GREATEST_SYNCID = {"a.img": "26494aa6bea1f00c3141499ba085a982", "b.img": "ca488b00ec634c22275638ff411f76ff"}
DIRTY = "15448087"


def check(title, found, wanted):
    print(f"ok {title}" if found == wanted else f"failed {title}: {found!r}, and not {wanted!r}"[:600], flush=True)


def dump(name):
    """What a dump prints, by the names of its lines."""
    words = [program, "dump", "--shelf", place.images, name]
    done = subprocess.run(words, capture_output=True, timeout=30, check=True)
    return dict(line.split(": ", 1) for line in done.stdout.decode().splitlines())


def sector(**fields):
    said = {
        "magic": b"GEOM::MIRROR" + bytes(4), "version": 4, "name": padded(b"gm0"), "mid": 7, "did": 1, "all": 1, "genid": 0,
        "syncid": 1, "priority": 0, "slice": 4096, "balance": 2, "mediasize": 1536, "sectorsize": 512, "sync_offset": 0,
        "mflags": 0, "dflags": 0, "provider": bytes(16), "provsize": 2048,
    }
    return encode({**said, **fields})


def put(name, data, last):
    with open(os.path.join(place.images, name), "wb") as file:
        file.write(data + last)


# An image of 258 sectors that is labelled.
place.make(["a.img"], 258)
place.hand_in(["label --mid 7 --did 1 gm0 a.img"])
check("the digest of an image of 258 sectors", dump("a.img")["md5"], LABELLED_258)

# Two whole images of a mirror whose syncid can't rise.
place.make([], 4)
place.forget_registry()
for did, name in enumerate(GREATEST_SYNCID, 1):
    put(name, b"x" * 1536, sector(did=did, all=2, syncid=4294967295))
check("an adoption at the greatest syncid", place.run(["batch"], b"k1 adopt gm0 a.img b.img\n"), (0, "k1 ok 1\n", ""))
for name, digest in GREATEST_SYNCID.items():
    check(f"the digest of {name} at the greatest syncid", dump(name)["md5"], digest)
check("it can't rise", place.run(["batch"], b"k2 deactivate gm0 b.img\n"), (1, "k2 refused 23\n", ""))
for name, digest in GREATEST_SYNCID.items():
    check(f"{name} is unchanged", dump(name)["md5"], digest)

# A patch that is stopped between its two writes of metadata: the image says DIRTY.
place.make(["a.img", "b.img"], 4)
place.forget_registry()
place.hand_in(["label --mid 7 --did 1 gm0 a.img", "insert --did 2 gm0 b.img", "advance gm0 b.img"])
place.keep("filled")
found = set()
for call in range(1, 9):
    place.put_back("filled")
    lines = f"p patch --first 0 --data {'a5' * 512} gm0\n".encode()
    place.run(["batch"], lines, LD_PRELOAD=preloaded, STOPPED=os.path.join(place.images, "a.img"), STOP=str(call))
    said = dump("a.img")
    if said["dflags"] == "DIRTY":
        found.add(said["md5"][:8])
check("the digest of an image that says DIRTY", found, {DIRTY})

# A sector that is the whole image, and one with the greatest mediasize that sectors of 512 bytes have.
put("c.img", b"", sector())
check("an image of one sector", dump("c.img")["name"], "gm0")
put("d.img", b"y" * 512, sector(mediasize=18446744073709551104))
check("the greatest mediasize", dump("d.img")["mediasize"], "18446744073709551104")
