"""Each command, stopped before each of its writes and syncs, and then each image lost for good.

    lost_images.py PROGRAM PRELOADED FOLDER

What `recover --without` answers and leaves is held against a plain reading of the registry and of the rules. Then that call
is stopped itself, at each of its writes and syncs: the next opening and the same call again lead to the same.
"""

import os
import sys

from bench_folder import Bench
from each_command import COMMANDS, FILLED, NAMES
from plain_bench import Records, lose, refusals_of_loss

program, preloaded, work = sys.argv[1:4]
place = Bench(program, work)
KEY = "z1"
GONE = "F5 absent"

counts = {"benches": 0, "done": 0, "refused": 0, "stops": 0}
wrong = []


def run(words, lines=b"", **more):
    return place.run(words, lines, LD_PRELOAD=preloaded, **more)


def give_up(provider, **more):
    return run(["recover", "--without", provider, "--key", KEY], **more)


def calls_of(act, within):
    """How many writes and syncs of files whose path begins so an act makes."""
    act(STOPPED=within, COUNT=place.count_file)
    return place.count()


def records():
    return Records(place.registry, os.path.join(work, "scratch"))


def put_before(lines):
    """A bench after these lines; after none, the images of FILLED without their registry."""
    place.make(NAMES, 4)
    place.hand_in(lines or FILLED, LD_PRELOAD=preloaded)
    if lines is None:
        place.forget_registry()


def check(title, found, wanted):
    if found != wanted:
        wrong.append(f"{title}: {found!r}, and not {wanted!r}"[:600])
    return found == wanted


def check_bench(title, wanted, wanted_images):
    """Whether the registry and the images are these."""
    check(f"{title}: registry", records().rows(), wanted.rows())
    found = place.contents_of_images()
    for name in sorted(found.keys() | wanted_images.keys()):
        if found.get(name) != wanted_images.get(name):
            wrong.append(f"{title}: {name} is another")


def refused(title, provider, least, pending):
    """An image that isn't given up: nothing is written, and once it is there again what was pending is carried out."""
    counts["refused"] += 1
    before = records().rows(), place.contents_of_images()
    check(title, give_up(provider), (1, f"{KEY} refused {least}\n", ""))
    check(f"{title}: nothing is written", (records().rows(), place.contents_of_images()), before)
    place.put_back("stopped")
    check(f"{title}: it is there again", run(["recover"]), (0, f"recovered {pending}\n", ""))


def given_up(title, provider, wanted, wanted_images, number, pending):
    """An image that is given up: the answer, the registry and the images, what the next openings do."""
    counts["done"] += 1
    check(title, give_up(provider), (0, f"{KEY} ok {number}\nrecovered {pending}\n", ""))
    check_bench(title, wanted, wanted_images)
    check(f"{title}: an opening", run(["recover"]), (0, "recovered 0\n", ""))
    check(f"{title}: again", give_up(provider), (0, f"{KEY} repeated {number}\nrecovered 0\n", ""))
    check_bench(f"{title}: again", wanted, wanted_images)


def stopped_within(title, provider, wanted, wanted_images, number):
    """The same stopped at each of its writes and syncs, to registry and images, then an opening, then the same again."""
    total = calls_of(lambda **more: give_up(provider, **more), place.folder + "/")
    for call in range(1, total + 1):
        counts["stops"] += 1
        at = f"{title}, stopped at call {call} of {total}"
        place.put_back("lost")
        status, told, complaint = give_up(provider, STOPPED=place.folder + "/", STOP=str(call))
        was_told = f"{KEY} ok {number}\n" in told
        if status != 3 and not was_told:
            wrong.append(f"{at}: status {status}, {told!r}, {complaint!r}")
        status, _, complaint = run(["recover"])
        if status != 0 and (was_told or GONE not in complaint):
            wrong.append(f"{at}: the next opening ends with {status}, {complaint!r}")
        status, told, complaint = give_up(provider)
        answers = [f"{KEY} repeated {number}\n"] + ([] if was_told else [f"{KEY} ok {number}\n"])
        if status != 0 or not told.startswith(tuple(answers)):
            wrong.append(f"{at}: again it ends with {status}, {told!r}, {complaint!r}")
        check_bench(at, wanted, wanted_images)


def lose_each(command, first, named):
    """A bench that was stopped: each image is lost, one at a time."""
    for provider in NAMES:
        place.put_back("stopped")
        os.remove(os.path.join(place.images, provider))
        place.keep("lost")
        counts["benches"] += 1
        title = f"'{command}', stopped at call {first}, without {provider}"
        wanted, wanted_images = records(), place.contents_of_images()
        pending = len(wanted.intents)
        numbers = refusals_of_loss(wanted, provider, {name: len(image) for name, image in wanted_images.items()})
        if numbers:
            refused(title, provider, min(numbers), pending)
            continue
        number = lose(wanted, provider, KEY)
        wanted.carry_out(wanted_images)
        given_up(title, provider, wanted, wanted_images, number, pending)
        if first == 1 and provider[0] in named:
            place.put_back("lost")
            stopped_within(title, provider, wanted, wanted_images, number)


def try_command(command, lines, named):
    """A command that is stopped before each write and sync of an image, after its acceptance."""
    put_before(lines)
    place.keep("before")
    line = f"p1 {command}\n".encode()
    total = calls_of(lambda **more: run(["batch"], line, **more), place.images + "/")
    for first in range(1, total + 1):
        place.put_back("before")
        stopped = run(["batch"], line, STOPPED=place.images + "/", STOP=str(first))
        check(f"'{command}', stopped at call {first}", stopped, (3, "p1 fault 3\n", place.disk_fault()))
        place.keep("stopped")
        lose_each(command, first, named)
    if total == 0:
        wrong.append(f"'{command}' wrote nothing")


for words, before, letters in COMMANDS:
    try_command(words, before, letters)
    told = ", ".join(f"{number} {kind}" for kind, number in counts.items())
    name = f"an image lost while something is pending: {words.split()[0]} ({told})"
    print(f"failed {name}: {len(wrong)} times, the first: {wrong[0]}" if wrong else f"ok {name}", flush=True)
    counts = dict.fromkeys(counts, 0)
    wrong = []
