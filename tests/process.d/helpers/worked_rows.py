"""The rows of commands that are worked out by hand: the images of each, its lines, and what they are answered."""

import formats
from plain_bench import GREATEST


def plain(sectors, other=None):
    """Data of which the sector at place i has the byte i + 1 throughout, but for the last byte of one."""
    parts = [bytearray([(place + 1) % 256]) * 512 for place in range(sectors)]
    if other is not None:
        parts[other][511] ^= 1
    return b"".join(parts)


def claiming(did, genid, syncid, version=4, all=2):
    """The last sector of a component of gm0 in sync, whose mirror has two or so many."""
    return formats.encode({
        "magic": formats.MAGIC, "version": version, "name": formats.padded(b"gm0"), "mid": 7, "did": did, "all": all,
        "genid": genid, "syncid": syncid, "priority": 0, "slice": 4096, "balance": 2, "mediasize": 1536,
        "sectorsize": 512, "sync_offset": 0, "mflags": 0, "dflags": 0, "provider": bytes(16), "provsize": 2048,
    })


BARE, LAST = bytes(512), GREATEST
# a word of a row, the name of the image that it stands for, and its bytes
IMAGES = {
    "a": ("a.img", plain(3) + BARE), "b": ("b.img", bytes([200]) * 1536 + BARE), "c": ("c.img", plain(1) + BARE),
    "short-c": ("c.img", BARE), "d": ("d.img", bytes(2048)), "long-a": ("a.img", plain(257) + BARE),
    "long-b": ("b.img", plain(257, 256) + BARE), "last-a": ("a.img", plain(3) + claiming(1, 0, LAST)),
    "last-b": ("b.img", plain(3) + claiming(2, 0, LAST)), "claiming-a": ("a.img", plain(3) + claiming(1, 0, 1)),
    "unequal-b": ("b.img", plain(3, 2) + claiming(2, 0, 1)), "left-a": ("a.img", plain(3) + claiming(1, 1, 1)),
    "lost-b": ("b.img", plain(3) + claiming(2, 0, 1)), "claiming-b": ("b.img", plain(3) + claiming(2, 0, 1)),
    "second-a": ("a.img", plain(3) + claiming(1, 0, 1, version=2)),
    "second-alone": ("a.img", plain(3) + claiming(1, 0, 1, version=2, all=1)),
    "third-b": ("b.img", plain(3, 2) + claiming(2, 0, 1, version=3)),
}


def worked_rows(path):
    """Of each row in this file what it shows, the words of its images, its lines, and what they are answered."""
    with open(path, encoding="utf-8") as file:
        table = file.read().split('pub(super) const ROWS: &str = "', 1)[1].rsplit('";', 1)[0]
    # a line that goes on in the next
    table = table.replace("\\\n", "")
    for row in table.split("\n= "):
        shows, words, lines, found = [part.strip() for part in row.removeprefix("= ").split("|")]
        answers = found.split("\nwith")[0].split("\n") if not found.startswith("with") else []
        yield shows, [word for word in words.split() if word != "taste"], lines, answers


def images_of(words):
    """The bytes of these images by their names."""
    return dict(IMAGES[word] for word in words)


def told(answers):
    return "".join(f"{answer}\n" for answer in answers)


def answered(lines):
    """Of these lines those that are answered."""
    return [line for line in lines if line.split()]


def refuses(answers):
    """The status of a batch with these answers."""
    return int(any(" refused " in answer for answer in answers))
