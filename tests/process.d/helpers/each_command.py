"""Benches for each of the fourteen commands, after which it writes to images."""

NAMES = ["a.img", "b.img", "c.img", "d.img", "e.img", "f.img"]

# gm0 with two images that have the data and one that lacks some, gm1 with two that have the data, and d.img beside them.
FILLED = [
    "label --mid 7 --did 1 gm0 a.img", "insert --did 2 gm0 b.img", "advance gm0 b.img",
    "insert --did 3 --priority 4 gm0 c.img", "label --mid 8 --did 1 --hardcode on gm1 e.img",
    "insert --did 2 gm1 f.img", "advance gm1 f.img",
]
# The bytes of two sectors, as digits.
DIGITS = (bytes(range(256)) * 4).hex()
# For each command the lines before it, and the images that it names or that its mirror has.
COMMANDS = [
    ("label --mid 9 --did 1 gm9 d.img", FILLED, "abd"),
    ("insert --did 4 gm0 d.img", FILLED, "abcd"),
    ("remove gm0 b.img", FILLED, "abc"),
    ("deactivate gm0 b.img", FILLED, "abc"),
    ("activate gm0 b.img", FILLED + ["deactivate gm0 b.img"], "abc"),
    ("forget gm0", FILLED + ["lost gm0 c.img"], "abc"),
    ("rebuild gm0 b.img", FILLED, "abc"),
    ("configure --balance prefer --priority 9 --prov b.img gm0", FILLED, "abc"),
    ("clear d.img", FILLED + ["insert --did 4 gm0 d.img", "lost gm0 d.img"], "abd"),
    ("destroy gm0", FILLED, "abc"),
    ("lost gm0 b.img", FILLED, "abc"),
    ("advance gm0 c.img", FILLED, "abc"),
    ("adopt gm0 a.img b.img c.img", None, "abc"),
    (f"patch --first 1 --data {DIGITS} gm1", FILLED, "ef"),
]
