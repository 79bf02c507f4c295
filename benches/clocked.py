#!/usr/bin/env python3
"""Runs a batch, checks its answers, and prints how many seconds a command took.

    benches/clocked.py N FIRST COMMAND [WORD..] <lines

Starts the command over the lines of its own standard input, those of `benches/lines.py N FIRST`, at least 2. Each is to
be answered as `kK ok K`, nothing else is to be printed, and the command is to end with 0. The time is that from the
first answer to the last, divided by the N - 1 commands between them: neither the start of a program nor what it does at
its opening and its end is in it.
"""
import subprocess
import sys
import time


def main():
    count, first, command = int(sys.argv[1]), int(sys.argv[2]), sys.argv[3:]
    answers, moments = [], []
    # The command is started from here, so that the clock is at hand before the first answer comes.
    with subprocess.Popen(command, stdout=subprocess.PIPE) as batch:
        for answer in batch.stdout:
            moments.append(time.monotonic())
            answers.append(answer)
    if batch.returncode != 0:
        sys.exit(f"clocked: it ended with {batch.returncode}")
    wanted = [b"k%d ok %d\n" % (number, number) for number in range(first, first + count)]
    if answers != wanted:
        wrong = next((given for given, right in zip(answers, wanted) if given != right), b"none")
        sys.exit(f"clocked: {len(answers)} answers to {count} lines, the first that is wrong: {wrong.decode().rstrip()}")
    print(f"{(moments[-1] - moments[0]) / (count - 1):.9f}")


if __name__ == "__main__":
    main()
