"""Runs at a bench in each of which one call for memory is refused, by a library that is preloaded into the program."""

import os
import random

# What is complained of wherever memory is wanting: neither the store nor the streams make another fault of it.
MEMORY = "gmbench: F1 memory\n"
# What some commands say after it, if there is memory for that.
SENTENCE = "F1: the system gave no more memory\n"


def shown(ended):
    """How a run ended, in short."""
    status, printed, complaints = ended
    return f"status {status}, {printed[-200:]!r}, {complaints[:200]!r}"


def lines_before_fault(ended, lines, complained=""):
    """How many of these lines a run printed before want of memory ended it; None if it ended otherwise. The next line may be
    the fault's own."""
    if ended[0] != 3 or ended[2].removesuffix(SENTENCE) not in (MEMORY, complained + MEMORY):
        return None
    for count in range(len(lines) + 1):
        before = "".join(f"{line}\n" for line in lines[:count])
        faults = [f"{line.split()[0]} fault 1\n" for line in lines[count : count + 1]]
        if ended[1] in (before, *[before + fault for fault in faults]):
            return count
    return None


class RefusedCalls:
    """Which calls are refused of those that a run with ample memory makes: all of them, or `most`, which are chosen by a fixed
    seed. With PART=K/N in the environment it is each Nth of these, from the Kth on."""

    def __init__(self, bench, preloaded, most):
        self.bench, self.most = bench, most
        self.mark = os.path.join(bench.work, "mark")
        self.preloaded = {"LD_PRELOAD": preloaded, "REFUSED": self.mark}
        self.random = random.Random(5)
        self.part, self.parts = map(int, os.environ.get("PART", "1/1").split("/"))

    def run(self, words, lines=(), **more):
        """Runs a command at the bench, which is handed these lines."""
        return self.bench.run(words, "".join(f"{line}\n" for line in lines).encode(), **self.preloaded, **more)

    def chosen(self, total, after):
        numbers = range(1, total + 1)
        later = numbers[after:] if total - after >= self.most else numbers
        some = numbers if total <= self.most else sorted(self.random.sample(later, self.most))
        return some[self.part - 1 :: self.parts]

    def count(self, run):
        """How a run ends with ample memory, and how many calls it makes."""
        ended = run(COUNT=self.bench.count_file)
        return ended, self.bench.count()

    def refuse(self, number, run):
        """How a run ends of which this call is refused, and whether it came to that."""
        if os.path.exists(self.mark):
            os.remove(self.mark)
        ended = run(REFUSE=str(number))
        return ended, os.path.exists(self.mark)

    def try_each(self, name, put, run, judge, is_right, after=0):
        """Refuses each call in turn, of a run over what `put` puts there; if only some are chosen, then of those after so many.
        `judge` says what is wrong with how it ended and with what it left, and `is_right` whether it ends well with ample
        memory."""
        put()
        ample, total = self.count(run)
        count, wrong = 0, [] if is_right(ample) else [f"with ample memory: {ample}"]
        for number in self.chosen(total, after):
            put()
            ended, is_refused = self.refuse(number, run)
            count += is_refused
            found = judge(ended)
            wrong += [f"call {number}: {found}"] if found else []
        if count == 0:
            wrong.append("none was refused")
        title = f"{name}, {count} of {total} calls for memory refused"
        print(f"failed {title}: {len(wrong)} times, the first: {wrong[0]}" if wrong else f"ok {title}", flush=True)
