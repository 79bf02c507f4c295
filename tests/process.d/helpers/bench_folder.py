"""A bench in a folder of its own, at which a test in Python runs the program: images, a registry, and copies of both."""

import os
import shutil
import subprocess


class Bench:
    """The folder `bench` of a work folder, with `images` and `registry` in it."""

    def __init__(self, program, work):
        self.program, self.work = program, work
        self.folder = os.path.join(work, "bench")
        self.images, self.registry = os.path.join(self.folder, "images"), os.path.join(self.folder, "registry")
        self.count_file = os.path.join(work, "count")

    def run(self, words, lines=b"", shelf=True, registry=True, **environment):
        """Runs a command with these variables: its status, what it prints and what it complains of."""
        place = [*(["--registry", self.registry] if registry else []), *(["--shelf", self.images] if shelf else [])]
        done = subprocess.run(
            [self.program, words[0], *place, *words[1:]], input=lines, capture_output=True, timeout=30,
            env={**os.environ, **environment},
        )
        # The registry is new in some of the runs.
        complaints = done.stderr.decode().removeprefix(f"a new registry was made at {self.registry}\n")
        return done.returncode, done.stdout.decode(), complaints

    def disk_fault(self):
        """What a batch complains of if an image fails, and goes on failing: what is pending, and the fault."""
        return self.run(["pending"], shelf=False)[1] + "gmbench: F3 disk\n"

    def count(self):
        """The number that a preloaded library wrote at the end of the last run."""
        with open(self.count_file, encoding="ascii") as file:
            return int(file.read())

    def stops(self, run, within, kept):
        """Stops a run before each write and sync of files whose path begins so, by a fault and by a kill, from the bench
        that was kept: tells after each how it was stopped."""
        self.put_back("before")
        run(STOPPED=within, COUNT=self.count_file)
        total = self.count()
        for call in range(1, total + 1):
            for kill in ({}, {"KILL": "yes"}):
                self.put_back("before")
                run(STOPPED=within, STOP=str(call), **kill)
                yield f"stopped at call {call} of {total} of {kept}{', killed' if kill else ''}"

    def begin(self, images):
        """A bench without a registry, with these images: their bytes by their names."""
        shutil.rmtree(self.folder, ignore_errors=True)
        os.makedirs(self.images)
        for name, content in images.items():
            with open(os.path.join(self.images, name), "wb") as file:
                file.write(content)

    def make(self, names, sectors):
        """The same with images of so many sectors, each of its own letter but for the last sector, which is zeros."""
        self.begin({name: name[:1].encode() * (sectors - 1) * 512 + bytes(512) for name in names})

    def hand_in(self, commands, **environment):
        """Has commands carried out, each under a key of its own."""
        text = "".join(f"k{number} {command}\n" for number, command in enumerate(commands))
        ended = self.run(["batch"], text.encode(), **environment)
        assert ended[0] == 0, ended

    def forget_registry(self):
        for end in ("", "-wal"):
            if os.path.exists(self.registry + end):
                os.remove(self.registry + end)

    def keep(self, name):
        shutil.rmtree(os.path.join(self.work, name), ignore_errors=True)
        shutil.copytree(self.folder, os.path.join(self.work, name))

    def put_back(self, name):
        shutil.rmtree(self.folder, ignore_errors=True)
        shutil.copytree(os.path.join(self.work, name), self.folder)

    def contents(self, kept=None):
        """Every byte of the bench, or of what was kept under a name: each file of images, registry and whatever lies beside."""
        top = self.folder if kept is None else os.path.join(self.work, kept)
        found = {}
        for folder, _, names in os.walk(top):
            for name in names:
                with open(os.path.join(folder, name), "rb") as file:
                    found[os.path.relpath(os.path.join(folder, name), top)] = file.read()
        return found

    def contents_of_images(self):
        """The bytes of each image, by its name, to be written to."""
        found = {}
        for name in sorted(os.listdir(self.images)):
            with open(os.path.join(self.images, name), "rb") as file:
                found[name] = bytearray(file.read())
        return found
