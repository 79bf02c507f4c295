"""The rows of commands that are worked out by hand, as batches: cut after each byte, and with each read and write failing.

    rows.py PROGRAM PRELOADED FOLDER ROWS STRIDE

ROWS is the file of the rows. STRIDE is how many bytes stand between two cuts of which each is a run of its own.
"""

import os
import random
import shutil
import subprocess
import sys

from plain_bench import Records
from worked_rows import answered, images_of, refuses, told, worked_rows

program, preloaded, work, stride = sys.argv[1], sys.argv[2], sys.argv[3], int(sys.argv[5])
rng = random.Random(11)
bench = os.path.join(work, "bench")
images, registry = os.path.join(bench, "images"), os.path.join(bench, "registry")
scratch, count_file = os.path.join(work, "scratch"), os.path.join(work, "count")
BROKEN = "gmbench: input or output\n"
counts = {"cuts": 0, "reads": 0, "writes": 0}
wrong = []


def put(words):
    shutil.rmtree(bench, ignore_errors=True)
    os.makedirs(images)
    for name, content in images_of(words).items():
        with open(os.path.join(images, name), "wb") as file:
            file.write(content)


def run(text, **more):
    words = [program, "batch", "--registry", registry, "--shelf", images]
    environment = {**os.environ, "LD_PRELOAD": preloaded, **more}
    done = subprocess.run(words, input=text.encode(), capture_output=True, timeout=30, env=environment)
    # The registry is new in some of the runs.
    complaints = done.stderr.decode().removeprefix(f"a new registry was made at {registry}\n")
    return done.returncode, done.stdout.decode(), complaints


def state():
    """What is registered, and what the images hold; nothing if there is no registry."""
    found = {}
    for name in sorted(os.listdir(images)):
        with open(os.path.join(images, name), "rb") as file:
            found[name] = file.read()
    return Records(registry, scratch).rows() if os.path.exists(registry) else None, found


def check(title, found, wanted):
    if found != wanted:
        wrong.append(f"{title}: {found!r}, and not {wanted!r}"[:700])


def cut(title, words, text, answers, behind):
    """The text cut after so many bytes: whole lines are answered as ever, and what is after them is a line of its own."""
    counts["cuts"] += 1
    *whole, part = text[:behind].split("\n")
    before = answers[: len(answered(whole))]
    put(words)
    found = run(text[:behind])
    left = state()
    if not part.split():
        check(f"{title}, cut behind {behind}", found, (refuses(before), told(before), ""))
        return
    answer = found[1].removeprefix(told(before)).removesuffix("\n")
    if text[behind : behind + 1] in ("", "\n"):
        before = [*before, answers[len(before)]]
        check(f"{title}, without the line feed behind {behind}", found, (refuses(before), told(before), ""))
    elif " refused " in answer and "\n" not in answer:
        put(words)
        run("".join(f"{line}\n" for line in whole))
        check(f"{title}, cut behind {behind}", (found[0], left), (1, state()))
    else:
        # other words, such as a name fewer
        put(words)
        check(f"{title}, cut behind {behind}", (found, left), (run(text[:behind] + "\n"), state()))


def rest(title, text, answers, done, again):
    """The lines after those that were answered, and first the one that was done and not told, if there is one."""
    lines = answered(text.split("\n"))[done:]
    wanted = answers[done:]
    if again and " ok " in wanted[0]:
        wanted = [" ".join(wanted[0].replace(" ok ", " repeated ").split()[:3]), *wanted[1:]]
    found = run("".join(f"{line}\n" for line in lines))
    check(f"{title}, and what was left", found, (refuses(wanted), told(wanted), ""))


def calls(words, text):
    put(words)
    run(text, PIECE="16", COUNT=count_file)
    with open(count_file, encoding="ascii") as file:
        return [int(number) for number in file.read().split()]


def fail(title, words, text, answers):
    """Each read of the input fails once, and each write of an answer."""
    reads, writes = calls(words, text)
    for number in range(1, reads + 1):
        counts["reads"] += 1
        put(words)
        found = run(text, PIECE="16", FAIL_READ=str(number))
        done = len(answered(text[: 16 * (number - 1)].split("\n")[:-1]))
        check(f"{title}, read {number} fails", found, (3, told(answers[:done]), BROKEN))
        rest(f"{title}, read {number} fails", text, answers, done, False)
    for number in range(1, writes + 1):
        counts["writes"] += 1
        put(words)
        found = run(text, FAIL_WRITE=str(number))
        # what wasn't written at once may be by the end
        late = (3, told(answers[:number]), BROKEN)
        check(f"{title}, write {number} fails", found, late if found == late else (3, told(answers[: number - 1]), BROKEN))
        rest(f"{title}, write {number} fails", text, answers, number - 1, True)


for row, (shows, words, lines, answers) in enumerate(worked_rows(sys.argv[4])):
    text = f"{lines}\n" if lines else ""
    put(words)
    check(shows, run(text), (refuses(answers), told(answers), ""))
    for behind in range(rng.randrange(stride), len(text) + 1, stride):
        cut(shows, words, text, answers, behind)
    fail(shows, words, text, answers)
numbers = ", ".join(f"{number} {kind}" for kind, number in counts.items())
name = f"{row + 1} rows, cut and with a call that fails ({numbers})"
print(f"failed {name}: {len(wrong)} times, the first: {wrong[0]}" if wrong else f"ok {name}", flush=True)
