#!/usr/bin/env python3
"""Prints commands for `gmbench batch` that keep a folder of four images busy.

    benches/lines.py N [FIRST]

N lines, from the FIRST one on (1 if it isn't given). All lines together are one endless input, in which each line is
accepted if those before it were: so an input can be handed in by parts. Line K has the key kK. The folder has the
images a.img, b.img, c.img and d.img, of one size and blank at the beginning.
"""
import sys

# A round makes a mirror, changes its components, and drops it. Its length divides neither 100 nor 1000, so that an input
# of so many lines ends in the middle of one, with something on the images.
ROUND = (
    "label --mid {turn} --did 1 --balance {balance} --slice {size} --failsync {switch} gm0 a.img",
    "insert --did 2 gm0 b.img",
    "remove gm0 b.img",
    "insert --did 3 --priority {priority} gm0 b.img",
    "insert --did 4 --hardcode on gm0 c.img",
    "remove gm0 b.img",
    "insert --did 5 --hardcode {switch} gm0 b.img",
    "insert --did 6 gm0 d.img",
    "remove gm0 c.img",
    "remove gm0 d.img",
    "destroy gm0",
)
BALANCES = ("load", "prefer", "round-robin", "split")


def line(number):
    turn, step = divmod(number - 1, len(ROUND))
    command = ROUND[step].format(
        turn=turn,
        balance=BALANCES[turn % len(BALANCES)],
        size=4096 + turn,
        priority=turn % 256,
        switch=("on", "off")[turn % 2],
    )
    return f"k{number} {command}"


def main():
    count = int(sys.argv[1])
    first = int(sys.argv[2]) if len(sys.argv) > 2 else 1
    for number in range(first, first + count):
        print(line(number))


if __name__ == "__main__":
    main()
