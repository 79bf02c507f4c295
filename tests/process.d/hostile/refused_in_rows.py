"""The rows of commands that are worked out by hand, and each command by itself, as batches in which one call for memory is
refused, each in turn.

    refused_in_rows.py PROGRAM PRELOADED FOLDER ROWS MOST

ROWS is the file of the rows. Of each batch all calls are refused, or MOST, which are chosen by a fixed seed. With PART=K/N in
the environment it is each Nth of these, from the Kth on.
"""

import os
import sys

from bench_folder import Bench
from each_command import COMMANDS, FILLED, NAMES
from plain_bench import Records
from refused_calls import RefusedCalls, lines_before_fault, shown
from worked_rows import answered, images_of, refuses, told, worked_rows

bench = Bench(sys.argv[1], sys.argv[3])
calls = RefusedCalls(bench, sys.argv[2], int(sys.argv[5]))
scratch = os.path.join(sys.argv[3], "scratch")
# A line that is refused otherwise once what follows in its row is done: the mid that its image tells is a mirror's then.
REFUSED_LATER = {"k1 adopt gm1 a.img": "k1 refused 7"}


class State:
    """What is registered, what the images hold, and the bytes of the registry's own file."""

    def __init__(self):
        self.records, self.images = Records(bench.registry, scratch), bench.contents_of_images()
        self.file = bench.contents().get("registry", b"")

    def is_same(self, other):
        return self.records.rows() == other.records.rows() and self.images == other.images

    def is_unsettled(self, other):
        """Whether it is the other, but that the last command is still to be settled."""
        is_pending = self.records.intents and not other.records.intents
        return is_pending and self.records.rows()[:3] == other.records.rows()[:3] and self.images == other.images


class Lines:
    """Lines for a batch with their answers, over a bench that `put` puts there, and what that holds before each line and after
    the last one."""

    def __init__(self, put, lines, answers):
        self.put, self.lines, self.answers = put, lines, answers
        self.whole = (refuses(answers), told(answers), "")
        put()
        self.makes_registry = not os.path.exists(bench.registry)
        _, self.calls_without_lines = calls.count(lambda **more: calls.run(["batch"], **more))
        self.states = [State(), *[self.state_after(count + 1) for count in range(len(lines))]]

    def run(self, **more):
        return calls.run(["batch"], self.lines, **more)

    def state_after(self, count):
        self.put()
        calls.run(["batch"], self.lines[:count])
        return State()

    def answers_again(self, commands):
        """What the lines are answered once these commands were accepted, by their keys."""
        for line, answer in zip(self.lines, self.answers):
            key, verdict, number = answer.split()[:3]
            if line.split()[0] not in commands:
                yield REFUSED_LATER.get(line, answer) if commands else answer
            elif verdict == "refused":
                # another command under a key that was taken, which only words and key themselves come before
                yield f"{key} refused {min(int(number), 3)}"
            else:
                yield f"{key} repeated {number}"

    def judge(self, ended):
        """What is wrong with how a batch ended, with what it left, or with what comes after it."""
        done = len(self.lines) if ended == self.whole else lines_before_fault(ended, self.answers)
        return shown(ended) if done is None else self.judge_left(done, ended)

    def judge_left(self, done, ended):
        """The same of a batch that answered so many lines: the next one was accepted, or it left nothing."""
        left, before = State(), self.states[done]
        stands = done + (len(left.records.commands) > len(before.records.commands))
        # the line that was refused memory was to settle what the one before it did
        waits = stands == done and left.is_unsettled(before)
        if stands == done and not waits and not left.is_same(before):
            return f"line {done + 1} was not accepted, but left something: {shown(ended)}"
        # the registry that a batch makes may be there in part until it comes to a line
        is_made = ended[1] != "" or not self.makes_registry
        if stands == done and not waits and is_made and left.file != before.file:
            return f"line {done + 1} was not accepted, but the file is another: {shown(ended)}"
        if stands == len(self.states) or left.records.rows()[:3] != self.states[stands].records.rows()[:3]:
            return f"line {done + 1} was accepted, and registered something else: {shown(ended)}"
        opened = calls.run(["recover"])
        if opened != (0, f"recovered {len(left.records.intents)}\n", ""):
            return f"the next opening: {shown(opened)}"
        if not State().is_same(self.states[stands]):
            return f"the next opening leaves something else after line {stands}"
        return self.judge_again(left.records.commands)

    def judge_again(self, commands):
        """What is wrong with the same lines once more, if these were accepted."""
        again = list(self.answers_again(commands))
        ended = self.run()
        if ended != (refuses(again), told(again), ""):
            return f"the same lines again: {shown(ended)}"
        return None if State().is_same(self.states[-1]) else "the same lines again leave something else"


def try_lines(name, put, lines, answers):
    batch = Lines(put, lines, answers)
    calls.try_each(name, put, batch.run, batch.judge, lambda ended: ended == batch.whole, batch.calls_without_lines)


def try_row(shows, words, lines, answers):
    images = images_of(words)
    try_lines(shows, lambda: bench.begin(images), answered(lines.split("\n")), answers)


def try_command(command, before):
    """A command by itself, over a bench that these lines make; without any, over the images of one whose registry is gone."""
    bench.make(NAMES, 4)
    bench.hand_in(before or FILLED, **calls.preloaded)
    if before is None:
        bench.forget_registry()
    bench.keep("kept")
    name = command.split()[0]
    answer = f"z1 ok {len(before or []) + 1}" + (" copied 3 of 3" if name == "advance" else "")
    try_lines(f"{name} by itself", lambda: bench.put_back("kept"), [f"z1 {command}"], [answer])


for row in worked_rows(sys.argv[4]):
    try_row(*row)
for command, before, _ in COMMANDS:
    try_command(command, before)
