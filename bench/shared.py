"""What the scripts that measure share: programs and tools, images and files, timed calls, and rounds with their ratios.

Timed work runs by turns, in as many rounds as are fixed beforehand. Of a ratio the middle one of all rounds is printed, with
the least and the greatest; that of the least times of all rounds, since whoever else uses the machine changes these less; and
that of the times in the middle; each by the clock and by the time of a processor.
"""
import argparse
import atexit
import collections
import functools
import os
import re
import resource
import shutil
import statistics
import subprocess
import sys
import tempfile
import time
from typing import NamedTuple

try:
    import sqlite3
except ImportError:
    sqlite3 = None

BLOCK, MEBIBYTE, FILE_BYTES = 4096, 1 << 20, 200
HERE = os.path.dirname(os.path.abspath(__file__))
with open(HERE + "/../docs/SCRIPT.md", encoding="utf-8") as stated:
    LARGEST = int(re.search(r"^\| SLOTS \| 1 to ([0-9,]+) ", stated.read(), re.M)[1].replace(",", ""))
PLACES = {"on a disk": HERE + "/out", "in memory": "/dev/shm"}
KINDS = {"clock": "by the clock", "processor": "of a processor"}
CHANGES = ("write", "sync", "fsync")
TOOLS = {"tar cf": lambda archive, tree: ["tar", "cf", archive, "-C", tree, "."],
         "sqlite3 -Ac": lambda archive, tree: ["sqlite3", archive, "-Ac", tree],
         "mksquashfs": lambda archive, tree: ["mksquashfs", tree, archive, "-quiet"]}
say = functools.partial(print, flush=True)


def program_of(name):
    """A program of the repository, which is built where it has to be."""
    return subprocess.run([HERE + "/../bin/program", name], check=True, stdout=subprocess.PIPE, text=True).stdout.strip()


@functools.cache
def tool(name):
    """A tool beside this file, compiled into a folder that goes at the end."""
    folder = tempfile.mkdtemp(dir=PLACES["in memory"])
    atexit.register(shutil.rmtree, folder)
    library = ["-shared", "-fPIC", "-ldl"] if name == "calls" else []
    subprocess.run(["cc", "-O2", "-o", f"{folder}/{name}", f"{HERE}/{name}.c", *library], check=True)
    return f"{folder}/{name}"


def keep_to_one_processor():
    os.sched_setaffinity(0, {max(os.sched_getaffinity(0))})


def measure(text, parts, rounds=15, **more):
    """Measures the parts that the words of a script name, or all. Each gets the program with a folder, and the words: how
    many rounds, and options with what they are where none is given; the name of a program is that of the repository's."""
    options = {"program": "store_main", **more}
    parser = argparse.ArgumentParser(description=text, formatter_class=argparse.RawDescriptionHelpFormatter)
    parser.add_argument("--rounds", type=int, default=rounds)
    for name in options:
        parser.add_argument("--" + name)
    parser.add_argument("parts", nargs="*", help=", ".join(parts))
    words = parser.parse_args()
    for name, default in options.items():
        if getattr(words, name) is None:
            setattr(words, name, program_of(default) if default.endswith("_main") else default)
    words.parts = words.parts or list(parts)
    if not set(words.parts) <= set(parts):
        parser.error(f"the parts are {', '.join(parts)}")
    for part in words.parts:
        with room(getattr(words, "folder", "in memory")) as folder:
            parts[part](Bench(words.program, folder), words)


def room(place):
    """A folder that goes in the end, on a disk, in memory, or in a folder that is given."""
    os.makedirs(PLACES.get(place, place), exist_ok=True)
    return tempfile.TemporaryDirectory(dir=PLACES.get(place, place))


class Took(NamedTuple):
    """How many microseconds something took, by the clock and of a processor."""

    clock: float
    processor: float


def processor_time():
    return sum(resource.getrusage(resource.RUSAGE_CHILDREN)[:2])


def timed(*commands, source=os.devnull, sink=os.devnull, wanted=0, env=None):
    """What commands took, of which each reads what the one before it writes."""
    with open(source, "rb") as given, open(sink, "wb") as taken:
        processor, clock = processor_time(), time.perf_counter()
        running = []
        for words in commands:
            output = taken if words is commands[-1] else subprocess.PIPE
            running.append(subprocess.Popen(words, stdin=given, stdout=output, stderr=subprocess.DEVNULL, env=env))
            given = running[-1].stdout
        for one in running[:-1]:
            one.stdout.close()
        ended = [one.wait() for one in running]
        clock, processor = time.perf_counter() - clock, processor_time() - processor
    if ended != [0] * (len(commands) - 1) + [wanted]:
        sys.exit(f"{sys.argv[0]}: {commands} ended with {ended}")
    return Took(clock * 1e6, processor * 1e6)


def read(path, blocks=None):
    """What one read of a file takes, or of its first blocks, block by block."""
    return timed(["dd", f"if={path}", "of=/dev/null", f"bs={BLOCK}", *([f"count={blocks}"] if blocks else [])])


def most_memory(words, source=os.devnull, wanted=0):
    """The most memory, in KiB, that a command was seen to hold. It is asked for again and again until the command ends."""
    held = 0
    with open(source, "rb") as given, subprocess.Popen(words, stdin=given, stdout=subprocess.DEVNULL) as running:
        while running.poll() is None:
            try:
                told = [line for line in lines_of(f"/proc/{running.pid}/status") if line.startswith("VmHWM:")]
                is_begun = lines_of(f"/proc/{running.pid}/cmdline")[0].split("\0")[0] == words[0]
            except (OSError, IndexError):
                continue
            held = int(told[0].split()[1]) if told and is_begun else held
    if running.returncode != wanted:
        sys.exit(f"{sys.argv[0]}: {words} ended with {running.returncode}")
    return held


def name_of(name):
    return name if isinstance(name, str) else ": ".join(map(str, name))


class Rounds:
    """What pieces of work took, a time of each for each round; and what is made of them."""

    def __init__(self):
        self.found = collections.defaultdict(list)

    def add(self, name, took):
        self.found[name].append(took)

    def made(self, of, kind):
        """What a function makes of the times, by their names: in each round, of the least ones, of those in the middle."""
        columns = {name: [getattr(took, kind) for took in found] for name, found in self.found.items()}
        rows = [{name: column[at] for name, column in columns.items()} for at in range(min(map(len, columns.values())))]
        rows += [{name: choose(column) for name, column in columns.items()} for choose in (min, statistics.median)]
        *each, least, middle = (of({name: max(took, 0.1) for name, took in row.items()}) for row in rows)
        return each, least, middle

    def ratio(self, what, of, wanted=None, places=2):
        """Prints a ratio."""
        told = []
        for kind, name in KINDS.items():
            each, least, middle = self.made(of, kind)
            numbers = (statistics.median(each), min(each), max(each), least, middle)
            told.append("{} ({} to {}) x {}, {} by the least times, {} by those in the middle".format(
                *(f"{it:.{places}f}" for it in numbers[:3]), name, *(f"{it:.{places}f}" for it in numbers[3:])))
        say(f"    {what}{f', where at most {wanted} is wanted' if wanted else ''}: {'; '.join(told)}")

    def to(self, name, floor, wanted=None, places=2):
        """Prints the ratio of one piece of work to another one, where there are both."""
        if name in self.found and floor in self.found:
            self.ratio(f"{name_of(name)} to {name_of(floor)}", lambda of: of[name] / of[floor], wanted, places)

    def time(self, what, of, unit="ms"):
        """Prints a time, in milliseconds or microseconds."""
        told = []
        for kind, name in KINDS.items():
            each, least, _ = self.made(lambda row: of(row) / (1000 if unit == "ms" else 1), kind)
            told.append(f"{statistics.median(each):.2f} {unit} {name} ({least:.2f} by the least times)")
        say(f"    {what}: {', '.join(told)}")

    def all_times(self):
        """Prints the time of each piece of work."""
        for name in self.found:
            self.time(name_of(name), lambda of, name=name: of[name])


class Image:
    """Where the areas of an image of so many slots lie, in bytes."""

    def __init__(self, slots):
        self.slots, self.gate, self.marks = slots, BLOCK, 2 * BLOCK
        self.shadow = self.marks + -(-(slots + 1) // BLOCK) * BLOCK
        self.table = self.shadow + slots * BLOCK
        self.length = self.table + slots * BLOCK

    def commit(self, slots):
        """The writes of a commit of these slots, between each two syncs."""
        journal = [write for slot in slots for write in ((self.shadow + slot * BLOCK, BLOCK), (self.marks + slot, 1))]
        return [journal, [(self.gate, 1)], [(self.table + slot * BLOCK, BLOCK) for slot in slots], [(self.gate, 1)], journal]

    def commit_calls(self, changed):
        """The calls of a commit of so many first slots."""
        return [call for group in self.commit(range(changed)) for call in (*(f"write {at} {len_}" for at, len_ in group), "sync")]


def kind(call):
    return call.split()[0]


def count(calls, *kinds):
    return sum(kind(call) in kinds for call in calls)


def writes_between(calls):
    """The writes of calls, sorted between each two syncs."""
    groups = [[]]
    for call in calls:
        if kind(call) == "write":
            groups[-1].append(tuple(map(int, call.split()[1:])))
        elif kind(call) in ("sync", "fsync"):
            groups.append([])
    return [sorted(group) for group in groups]


def lines_of(path):
    with open(path, encoding="utf-8", errors="replace") as file:
        return file.read().splitlines()


class Bench:
    """A program, and a folder in which images lie."""

    def __init__(self, program, folder):
        self.program, self.room = os.path.abspath(program), folder

    def path(self, name):
        return os.path.join(self.room, name)

    def gone(self, name):
        """A path at which nothing stands."""
        path = self.path(name)
        if os.path.isdir(path):
            shutil.rmtree(path)
        elif os.path.exists(path):
            os.remove(path)
        return path

    def write(self, name, lines):
        """A file of these lines, as a path."""
        with open(self.path(name), "w", encoding="ascii") as file:
            file.writelines(line + "\n" for line in lines)
        return self.path(name)

    def format(self, name, slots, word="format", seed="0" * 64, height=4, draw="sha256"):
        """A new image, of the version that the word makes, as a path."""
        image = self.gone(name)
        timed([self.program, image, word, str(slots), str(height), draw, seed])
        return image

    def copy(self, image, name="image"):
        """A copy of an image, of which nothing waits to be written."""
        copy = shutil.copyfile(image, self.path(name))
        with open(copy, "rb+") as file:
            os.fsync(file.fileno())
        return copy

    def run(self, image, script=os.devnull, replies=os.devnull, log=None, words=("run",), wanted=0):
        """Carries a script out, or other words, and answers what that took. A log gets the calls of the device."""
        env = {**os.environ, "CALLS_LOG": log, "LD_PRELOAD": tool("calls")} if log else None
        return timed([self.program, image, *words], source=script, sink=replies, env=env, wanted=wanted)

    def made(self, name, slots, lines, word="format"):
        """An image behind lines, of which none is refused."""
        image, replies = self.format(name, slots, word), self.path("replies")
        self.run(image, self.write("script", lines), replies)
        if lines_of(replies) != ["ok"] * len(lines):
            sys.exit(f"{sys.argv[0]}: a command was refused")
        return image

    def bare(self, image, calls):
        """Makes the calls on an image, and answers what that took."""
        told = subprocess.run([tool("bare"), self.write("bare.log", calls), image], check=True, stdout=subprocess.PIPE, text=True)
        return Took(*map(float, told.stdout.split()))

    def all_calls(self, image, script=os.devnull, words=("run",)):
        """The calls that the program makes on a copy of an image."""
        self.run(self.copy(image, "counted"), script, self.path("replies"), self.path("log"), words)
        return lines_of(self.path("log"))

    def calls(self, image, lines, words=("run",)):
        """Carries lines out on a copy of an image: the calls between each two replies, without the opening's; the replies."""
        opening = len(self.all_calls(image, words=words))
        lists = [[]]
        for call in self.all_calls(image, self.write("script", lines), words)[opening:]:
            if call == "reply":
                lists.append([])
            else:
                lists[-1].append(call)
        if lists.pop():
            sys.exit(f"{sys.argv[0]}: calls that no reply follows")
        return lists, lines_of(self.path("replies"))

    def pages(self, image):
        """How many pages an image has."""
        self.run(image, replies=self.path("replies"), words=("check",))
        return int(lines_of(self.path("replies"))[0].split()[1])


def counts(values):
    return f"{statistics.mean(values):.1f} on the average, {statistics.median(values):g} in the middle, {max(values)} at most"


def tell_calls(image, lists, what="command"):
    """Says how many calls of the device commands make, each of which has a list of them."""
    changed, wrong = [], 0
    for calls in lists:
        groups = writes_between(calls)
        changed.append(sum(length == 1 for _, length in groups[0]))
        slots = [at - image.marks for at, length in groups[0] if length == 1]
        wrong += "fsync" in calls or groups not in ([[]], [*map(sorted, image.commit(slots)), []])
    reads = [[int(call.split()[1]) for call in calls if kind(call) == "read"] for calls in lists]
    say(f"    slots that a {what} changes: {counts(changed)}")
    say(f"    5d + 2 writes and 5 syncs a {what}, {sum(count(calls, *CHANGES) for calls in lists)} calls in all: "
        + (f"not so for {wrong} {what}s" if wrong else "just these"))
    say(f"    reads of a {what}: {counts(list(map(len, reads)))}; of different places {counts([len(set(it)) for it in reads])}; "
        f"outside the table {sum(at < image.table for places in reads for at in places)}")


def digits(number):
    """The bytes of a file, in hexadecimal digits, which tell its number."""
    return f"{number:08x}" * (FILE_BYTES // 4)


def tree_script(commands, files=9):
    """So many commands that make directories, each with so many files."""
    for number in range(commands):
        folder, file = divmod(number, files + 1)
        yield f"make /box{folder:03d}" if file == 0 else f"write /box{folder:03d}/{file} 0 {digits(number)}"


def into_database(bench, rows, at_once):
    """What it takes to put names with their bytes into a new database of sqlite3, so many a transaction, each of which is
    synced."""
    bench.gone("database-journal")
    database = sqlite3.connect(bench.gone("database"), isolation_level=None)
    database.execute("PRAGMA synchronous = FULL")
    database.execute("CREATE TABLE files (path TEXT PRIMARY KEY, content BLOB) WITHOUT ROWID")
    clock, processor = time.perf_counter(), time.process_time()
    for first in range(0, len(rows), at_once):
        database.execute("BEGIN")
        database.executemany("INSERT INTO files VALUES (?, ?)", rows[first:first + at_once])
        database.execute("COMMIT")
    took = Took((time.perf_counter() - clock) * 1e6, (time.process_time() - processor) * 1e6)
    database.close()
    return took


def full_image(bench, slots):
    """An image with a page in each slot: of ten directories each."""
    image = bench.format("full", slots, height=1, draw="ruler")
    bench.run(image, bench.write("listing", [f"make /{number:07}" for number in range(10 * slots)]), words=("load",))
    return image


def files_of(count_of, size):
    """Files by name with their bytes, in the order of a dump, at most a thousand in a directory."""
    width = len(str(max(count_of - 1, 1) // 1000))
    return {f"d{number // 1000:0{width}}/f{number % 1000:03}": bytes((number * 31 + at * 7) % 251 for at in range(size))
            for number in range(count_of)}


def listing_of(files):
    """The lines of the dump of these files."""
    above = ""
    for name, found in files.items():
        if above != (above := name.split("/")[0]):
            yield f"make /{above}"
        yield from (f"write /{name} {at} {found[at:at + 2048].hex() or '-'}" for at in range(0, max(len(found), 1), 2048))


def archive(took, bench, tree):
    """What other tools take to make an archive of a folder, where they are there."""
    for name, words in TOOLS.items():
        if shutil.which(words("", "")[0]):
            took.add(name, timed(words(bench.gone("archive"), tree)))


def spread(folder, files):
    """Makes the files in a folder."""
    for name, found in files.items():
        os.makedirs(os.path.join(folder, os.path.dirname(name)), exist_ok=True)
        with open(os.path.join(folder, name), "wb") as file:
            file.write(found)
    return folder
