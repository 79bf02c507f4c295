"""Types what the pages show, and compares what is printed.

    sessions.py PROGRAM TOP

A session is in an indented block: a line after `$ ` is typed, `> ` goes on with it, and the other lines are printed, on
standard output or standard error. The sessions of a page follow each other, in a folder that is empty at first.
"""

import os
import re
import shutil
import signal
import subprocess
import sys
import tempfile

PAGES = ("README.md", "docs/USE.md", "docs/REFERENCE.md")
# How long the sessions of a page may take.
SECONDS = 120
# What a command of a session may want beside the program, and a machine may lack.
OTHERS = ("curl",)


class Typed:
    """A command, the line that it stands in, and what is to be printed."""

    def __init__(self, number, text):
        self.number = number
        self.text = text
        self.printed = []


def typed_in(page):
    """The commands of a page's sessions, in their order."""
    found, inside = [], False
    with open(page, encoding="utf-8") as file:
        for number, line in enumerate(file, 1):
            if not line.startswith("    "):
                inside = inside and not line.strip()
                continue
            line = line[4:].rstrip("\n")
            if line.startswith("$ "):
                found.append(Typed(number, line[2:]))
                inside = True
            elif inside and line.startswith("> ") and not found[-1].printed:
                found[-1].text += "\n" + line[2:]
            elif inside:
                found[-1].printed.append(line)
    return found


def script_of(commands, mark):
    """A script that types all, with a line after each command that nothing else prints."""
    lines = ["exec 2>&1"]
    for command in commands:
        lines += [command.text, f"printf '%s\\n' '{mark}'"]
    return "\n".join(lines) + "\n"


def run(program, commands):
    """What each command prints, in a folder where `gmbench` is the program."""
    with tempfile.TemporaryDirectory() as folder:
        bin_folder, work = os.path.join(folder, "bin"), os.path.join(folder, "work")
        os.mkdir(bin_folder)
        os.mkdir(work)
        shutil.copy(program, os.path.join(bin_folder, "gmbench"))
        mark = "-- behind a command --"
        kept = {name: value for name, value in os.environ.items() if not name.startswith("GMBENCH_")}
        shell = subprocess.Popen(
            ["sh", "-c", script_of(commands, mark)],
            cwd=work,
            env={**kept, "PATH": f"{bin_folder}:{os.environ['PATH']}"},
            stdin=subprocess.DEVNULL,
            stdout=subprocess.PIPE,
            start_new_session=True,
        )
        try:
            output, _ = shell.communicate(timeout=SECONDS)
        except subprocess.TimeoutExpired:
            os.killpg(shell.pid, signal.SIGKILL)
            output, _ = shell.communicate()
        return output.decode("utf-8", "replace").split(mark + "\n")


def lacking(commands):
    """The first program that a session wants and this machine lacks, if any."""
    for name in OTHERS:
        if any(re.search(rf"\b{name}\b", it.text) for it in commands) and not shutil.which(name):
            return name
    return None


def try_page(program, top, page):
    commands = typed_in(os.path.join(top, page))
    if not commands:
        print(f"failed {page}: it shows no session")
        return
    name = lacking(commands)
    if name:
        print(f"skipped {page}: there is no {name} here")
        return
    printed = run(program, commands)
    for at, command in enumerate(commands):
        name = f"{page}:{command.number}: {command.text.splitlines()[0]}"
        if at >= len(printed) - 1:
            print(f"failed {name}: it didn't come to its end")
            return
        if printed[at].splitlines() == command.printed:
            print(f"ok {name}")
        else:
            told = printed[at].rstrip("\n").replace("\n", " / ")
            print(f"failed {name}: it printed '{told}'")


def main():
    program, top = sys.argv[1:3]
    for page in PAGES:
        try_page(program, top, page)


main()
