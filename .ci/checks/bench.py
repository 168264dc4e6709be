"""A folder of files twice: as the program leaves them on the disk, and as the reference program has them in memory.

Each call is made by both. Status, output and the bytes of all files have to be the same, and standard error empty.
"""

import os
import pathlib
import subprocess

import hstore


class Difference(Exception):
    """The program did something else than the reference program."""


def first_difference(found, wanted):
    """Where bytes differ first from those that were wanted, and what stands there."""
    at = len(os.path.commonprefix([found, wanted]))
    line = max(found.rfind(b"\n", 0, at) + 1, at - 60)
    where = f"at byte {at} (line {found.count(10, 0, at) + 1}, block {at // 4096}, byte {at % 4096})"
    return f"{where}: {found[line : at + 60]!r}, wanted {wanted[line : at + 60]!r}"


class Bench:
    """The files of a case. Without a program only the reference program works on them."""

    def __init__(self, folder, program=None, counter=None):
        self.folder, self.program, self.counter = folder, program, counter
        self.files = {}
        self.counted = None  # the writes and syncs of the last call
        self.story = []  # the calls that were made

    def put(self, name, content):
        """Makes a file, or gives it other bytes."""
        self.files[name] = content
        if self.program:
            pathlib.Path(self.folder, name).write_bytes(content)

    def copy(self, name, new):
        """copy FILE NEWFILE"""
        self.put(new, self.files[name])

    def same(self, name, other):
        """same FILE FILE: raises a difference where two files differ."""
        if self.files[name] != self.files[other]:
            raise Difference(f"{name} and {other} are not the same")

    def call(self, *words, source=b""):
        """Makes a call by both, and returns its outcome, where they agree."""
        self.story.append(f"{' '.join(words)[:200]}{f' <<< {source[:200]!r}' * bool(source)}")
        outcome = self.by_reference(list(words), source)
        if self.program:
            try:
                self.compare(self.by_program(words, source), outcome)
            except Difference as difference:
                raise Difference(f"{self.story[-1]}: {difference}") from None
        return outcome

    def by_reference(self, words, source):
        """The outcome by the reference program, which changes the files in memory."""
        name, *rest = [os.path.normpath(word) for word in words[:1]] + words[1:] or [""]
        other = os.path.normpath(rest[1]) if len(rest) == 2 and rest[0] == "mirror" else None
        if any("\ud800" <= letter <= "\udfff" for letter in "".join(words)):  # bytes that are no UTF-8
            return hstore.Outcome(2)
        if other == name:
            return hstore.Outcome(12)
        outcome = hstore.call(rest, self.files.get(name), source, self.files.get(other))
        new = {name: outcome.image, other: outcome.other}
        self.files.update({file: content for file, content in new.items() if content is not None})
        return outcome

    def by_program(self, words, source):
        """What the program does. Where that can be, its writes and syncs are counted."""
        log = self.folder + ".calls"
        counting = {"LD_PRELOAD": self.counter, "CALLS_LOG": log} if self.counter else {}
        options = {"cwd": self.folder, "env": {**os.environ, **counting}, "timeout": 300}
        done = subprocess.run([self.program, *words], input=source, capture_output=True, **options)
        if self.counter:
            made = pathlib.Path(log).read_text(encoding="ascii")
            os.remove(log)
            self.counted = made.count("write"), made.count("sync")
        return done

    def compare(self, done, outcome):
        """Raises the first difference between what the program did and the outcome."""
        if done.returncode != outcome.status:
            raise Difference(f"the status is {done.returncode}, wanted {outcome.status}")
        if done.stdout != outcome.output:
            raise Difference(f"it prints something else {first_difference(done.stdout, outcome.output)}")
        if done.stderr:
            raise Difference(f"it writes {done.stderr[:100]!r} to standard error")
        found = {it.name: it.read_bytes() for it in pathlib.Path(self.folder).iterdir()}
        for name in sorted({*self.files, *found}):
            if found.get(name) != self.files.get(name):
                where = first_difference(found.get(name, b"no file"), self.files.get(name, b"no file"))
                raise Difference(f"the file {name} differs {where}")
