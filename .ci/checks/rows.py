"""Rows: calls on files, in the form of the examples of docs/SCRIPT.md.

    == TITLE of the row: what it shows           begins a row, in an empty folder; `--` begins a comment
    $ hstore IMAGE WORDS.. < FILE   # STATUS     a call; its standard input is FILE, or the lines with `>`
    > LINE                     => REPLY; REPLY   a line of its standard input
    >- LINE                                      the last one, with no LF after it
    any other line                               what the call prints, whole
    @ DIRECTIVE ..                               see the methods `do_..` of Run, and `copy` and `same` of Bench

ZERO is the seed of 64 digits 0, COUNTED the seed 000102..1f. `[5a * 256]` is `5a` 256 times, and `[hex 0d]` a byte that
can't be typed. `> [N from 1 to 9: make /x{N:03}] => ok` gives nine lines.

    == table: title | script                     begins a table: the lines of a row, in which fields may have places,
    > {script}                                   `{name}`, and a row for each line of fields that follows
    | two directories | make /a => ok, make /b   a comma and a blank part fields: their line is there once for each
                                                 part, and not where the field is empty or left out at the end

STATUS, `=> REPLY` and what is printed may be left out: then they are what the reference program says. Program and
reference are compared after each call in any case, and what is written has to be so of both.
"""

import collections
import hashlib
import itertools
import os
import re
import shlex
from dataclasses import dataclass, field

import hstore
import images
from checks.bench import Difference

EACH = [(word, b"") for word in ("check", "scrub", "run", "upgrade", "dump", "load")]
EACH += [("run", b"list /q\n"), ("session", b"begin\nask 0 list /\n")]
PLACE = re.compile(r"\{(?!N\})(\w+)\}")


# A call: its words, the file that it reads, its status, its lines of input, and what it prints, line by line.
Call = collections.namedtuple("Call", "words reads status inputs printed")
# Lines of standard input that are one line of a row, each with the reply that is stated for it, or None.
Input = collections.namedtuple("Input", "at lines replies ended")


@dataclass
class Row:
    """A row. If whole, what it does not state is not there. A line is a place in the file, a text, and its template. A step is
    a line, a directive or `call`, and its words."""
    file: str
    at: int
    title: str
    whole: bool = False
    fields: dict = field(default_factory=dict)
    lines: list = field(default_factory=list)
    steps: list = field(default_factory=list)

    def renewed(self, edits):
        """The lines of the file that are others by the edits of lines of the row: those, or the fields that give them."""
        new, fields = {}, dict(self.fields)
        for number, text in edits.items():
            at, _, form = self.lines[number]
            if names := PLACE.findall(form):
                texts = [it for of, line in enumerate(self.lines) if line[0] == at for it in edits.get(of, [line[1]])]
                pattern = PLACE.sub("(.*)", re.sub(r"([^\w\s{}])", r"\\\1", form))
                found = [re.fullmatch(pattern, re.sub(" +=> ", " => ", it)) for it in texts]
                if all(found):
                    fields |= zip(names, (", ".join(part) for part in zip(*(it.groups() for it in found))))
            else:
                new[at] = text
        line = re.sub(r"\|  (?=\|)", "| ", "| " + " | ".join(fields.values())).rstrip(" |")
        return new if fields == self.fields else {**new, self.at: [line]}


def expand(text):
    """The text with the seeds, the bytes that can't be typed, and all that is repeated written out."""
    text = text.replace("ZERO", "0" * 64).replace("COUNTED", bytes(range(32)).hex())
    text = re.sub(r"\[hex ([0-9a-f]+)\]", lambda it: bytes.fromhex(it[1]).decode("latin-1"), text)
    while (new := re.sub(r"\[([^][]*) \* (\d+)\]", lambda it: it[1] * int(it[2]), text)) != text:
        text = new
    return text


def expand_lines(text):
    """The lines that a line stands for: one, or one for each number of its range."""
    ranged = re.fullmatch(r"\[N from (\d+) to (\d+): (.*)\]", text)
    if not ranged:
        return [expand(text)]
    numbers = range(int(ranged[1]), int(ranged[2]) + 1)
    return [expand(re.sub(r"\{N:?(\w*)\}", lambda it: format(n, it[1]), ranged[3])) for n in numbers]


def shortened(text):
    """The text with one or two letters that come 16 times and more written as `[5a * 256]`."""
    return re.sub(r"(.|..)\1{15,}", lambda it: f"[{it[1]} * {len(it[0]) // len(it[1])}]", text)


def replies_of(printed):
    """Cuts printed lines into replies. A listing goes on to its `end`; after `conflict K` come two answers."""
    reply, answers = [], 1
    for line in printed:
        reply.append(line)
        answers = 2 if line.startswith("conflict ") else answers - (line[:2] not in ("d ", "f ", "a "))
        if not answers:
            yield "; ".join(reply)
            reply, answers = [], 1


def call_of(text):
    text, status = re.fullmatch(r"(.*?)(?: # *(\d+) *)?", text).groups()
    words = [os.fsdecode(word.encode("latin-1")) for word in shlex.split(expand(text))[1:]]
    words, reads = (words[:-2], words[-1]) if words[-2:-1] == ["<"] else (words, "")
    return Call(words, reads, status, [], [])


def input_of(at, text, ended):
    text, stated, reply = text.partition("=> ") if re.search("(^| )=> ", text) else (text, "", "")
    lines = expand_lines(text.rstrip(" ") if stated else text)
    replies = expand_lines(reply) if stated else [None]
    return Input(at, lines, replies * len(lines) if len(replies) == 1 else replies, ended)


def add_line(row, at, line, form=""):
    """Adds a line of a file to a row."""
    number, (begins, _, rest) = len(row.lines), line.partition(" ")
    row.lines.append((at, line, form))
    if begins == "$":
        row.steps.append((number, "call", [call_of(rest)]))
    elif begins == "@":
        name, *words = expand(rest.strip()).split(" ")
        row.steps.append((number, name, words))
    elif begins in (">", ">-"):
        row.steps[-1][2][0].inputs.append(input_of(number, rest, begins == ">"))
    else:
        row.steps[-1][2][0].printed.append((number, line))


def row_of_table(table, at, line):
    """The row that a line of fields gives."""
    names, given = table.title.split(" | "), [it.strip() for it in re.split(r"(?<!\S)\|(?!\S)", line)[1:]]
    fields = dict(itertools.zip_longest(names, given, fillvalue=""))
    row = Row(table.file, at, fields["title"].encode("latin-1").decode(), fields=fields)
    for place, form, _ in table.lines:
        of = PLACE.findall(form)
        for parts in itertools.product(*(fields[name].split(", ") if fields[name] else [] for name in of)):
            values = iter(parts)
            add_line(row, place, PLACE.sub(lambda _: next(values), form), form)
    return row


def read_lines(path):
    with open(path, encoding="latin-1", newline="") as file:
        return file.read().split("\n")


def rows_of(path):
    """The rows of a file; or the examples of a document, which are whole."""
    rows, table, inside, documents, lines = [], None, False, path.endswith(".md"), read_lines(path)
    for at, line in enumerate(lines):
        try:
            if documents and line.startswith("```"):
                inside = not inside and at > lines.index("## 11. Examples")
                rows += [Row(path, at, "example", whole=True)] * inside
            elif line.startswith("== "):
                table = Row(path, at, line[len("== table: ") :]) if line.startswith("== table: ") else None
                rows += [] if table else [Row(path, at, line[3:].encode("latin-1").decode())]
            elif table and line.startswith("| "):
                rows.append(row_of_table(table, at, line))
            elif line.strip() and not line.startswith("--") and (inside or not documents):
                table.lines.append((at, line, "")) if table else add_line(rows[-1], at, line)
        except (AttributeError, IndexError, KeyError, ValueError) as fault:
            raise ValueError(f"{path}:{at + 1}: this line says nothing here: {fault!r}") from None
    return rows


class Run:
    """A row while it runs. Its faults are texts; its edits are the lines that take the place of those that are not so."""

    def __init__(self, row, bench):
        self.row, self.bench = row, bench
        self.at, self.output = 0, b""
        self.faults, self.edits = [], {}

    def fault(self, text, edits=()):
        self.faults.append(f"line {self.row.lines[self.at][0] + 1}: {text}")
        self.edits.update(edits)

    def go(self):
        """Makes all calls of the row, up to the first in which the program does something else than the reference."""
        for self.at, name, words in self.row.steps:
            try:
                (getattr(self, "do_" + name, None) or getattr(self.bench, name))(*words)
            except Exception as fault:
                self.fault(str(fault) if isinstance(fault, Difference) else repr(fault))
                break
        return self

    def do_call(self, call):
        """Makes a call, and compares it to what is stated."""
        lines = [line.encode("latin-1") + b"\n" * given.ended for given in call.inputs for line in given.lines]
        source = self.bench.files[call.reads] if call.reads else b"".join(lines)
        before = self.bench.files.get("".join(call.words[:1]))
        outcome = self.bench.call(*call.words, source=source)
        self.output, status = outcome.output, str(outcome.status)
        if call.status not in (None, status):
            line = re.sub(r"(# *)\d+( *)$", rf"\g<1>{status}\2", self.row.lines[self.at][1])
            self.fault(f"the row states another status than {status}", {self.at: [line]})
        printed = outcome.output.decode("latin-1").splitlines()
        if call.words[1:] in (["run"], ["session"]):
            self.check_replies(call, replies_of(printed))
        if call.printed or call.words[1:] not in (["run"], ["session"]):
            self.check_printed(call, printed)
        if self.bench.counted and call.words[1:] in (["run"], ["upgrade"]) and not outcome.status:
            self.check_counted(call.words[1], before, [line for line in source.split(b"\n") if line])

    def check_printed(self, call, printed):
        """Compares what a call prints to what is stated."""
        stated = [line for _, text in call.printed for line in expand_lines(text)]
        if stated != printed and (stated or self.row.whole):
            places = [at for at, _ in call.printed] or [max([self.at] + [given.at for given in call.inputs])]
            new = [self.row.lines[places[0]][1]] * (not call.printed) + [shortened(line) for line in printed]
            self.fault(f"the row states other lines than {printed[:3]}", {**dict.fromkeys(places, []), places[0]: new})

    def check_replies(self, call, replies):
        """Compares the reply to each line to what is stated."""
        for given in call.inputs:
            found = [next(replies, "") if line else "" for line in given.lines]
            if found != [reply or "" for reply in given.replies] and (self.row.whole or given.replies[0] is not None):
                line = re.sub(r" *=> .*", "", self.row.lines[given.at][1])
                line = f"{line + ' ':27}=> {shortened(found[0])}" if found[0] and len({*found}) == 1 else line
                self.fault(f"the row states another reply to {given.lines[0][:60]!r} than {found[0][:100]!r}", {given.at: [line]})

    def check_counted(self, word, image, lines):
        """Compares the writes and syncs of a run or an upgrade to what the format asks: two syncs, and those of each change."""
        if hstore.params_of(image).slots > 64 or len(lines) > 64 or hstore.recovered(image) != image:
            return
        writes, syncs = 0, 2
        for line in lines if word == "run" else [b""]:
            new = hstore.call([word], image, line).image
            if new != image:
                writes, syncs = writes + 5 * images.differing(image, new) + (2 if word == "run" else 5), syncs + 5
            image = new
        self.do_calls(writes, syncs)

    def do_bytes(self, name, place, digits):
        """bytes FILE OFFSET HEX: writes bytes into a file; with OFFSET*COUNT, so many times from there on"""
        at, _, times = place.partition("*")
        old, new = self.bench.files[name], bytes.fromhex(digits) * int(times or 1)
        self.bench.put(name, old[: int(at)] + new + old[int(at) + len(new) :])

    def do_block(self, name, source, to):
        """block FILE FROM TO: copies block FROM over block TO; FROM may be OTHERFILE:FROM"""
        other, _, number = source.rpartition(":")
        block = self.bench.files[other or name][hstore.BLOCK * int(number) :][: hstore.BLOCK]
        self.do_bytes(name, str(hstore.BLOCK * int(to)), block.hex())

    def do_page(self, name, *words):
        """page IMAGE LEVEL LEAD INDEX CELL..: inserts a page into the table, as ref/images.py says"""
        self.bench.put(name, images.with_page(self.bench.files[name], *words))

    def do_file(self, name, kind, *value):
        """file FILE zeros N | text TEXT | hex HEX: makes a file"""
        kinds = {"zeros": lambda it: bytes(int(it)), "text": lambda it: it.encode("latin-1"), "hex": bytes.fromhex}
        self.bench.put(name, kinds[kind](" ".join(value)))

    def do_truncate(self, name, length):
        """truncate FILE LENGTH: cuts it, or lengthens it by zeros"""
        self.bench.put(name, self.bench.files[name][: int(length)].ljust(int(length), b"\0"))

    def do_take(self, name):
        """take FILE: what the last call printed becomes this file"""
        self.bench.put(name, self.output)

    def do_digest(self, name, stated):
        """digest FILE SHA256"""
        found = hashlib.sha256(self.bench.files[name]).hexdigest()
        if found != stated:
            self.fault(f"{name} has the SHA-256 {found}", {self.at: [f"@ digest {name} {found}"]})

    def do_calls(self, writes, syncs):
        """calls WRITES SYNCS: what the last call made on its disk, where that can be counted"""
        if self.bench.counted not in (None, (int(writes), int(syncs))):
            self.fault("%d writes and %d syncs were made" % self.bench.counted + f", wanted {writes} and {syncs}")

    def do_absent(self, name):
        """absent FILE: there is no such file"""
        if name in self.bench.files:
            self.fault(f"the file {name} is there")

    def do_each(self, name):
        """each FILE: each call of EACH, on a copy of the file by itself; what it leaves as it is, it does not write to"""
        for word, source in EACH:
            self.bench.copy(name, "copy")
            self.bench.call("copy", word, source=source)
            if self.bench.counted and self.bench.counted[0] and self.bench.files["copy"] == self.bench.files[name]:
                self.fault(f"{word} writes to {name}, and leaves it as it is")

    def do_every(self, name, at):
        """every FILE OFFSET: a check, and a run of no line, with each value of this byte"""
        for value in range(256):
            self.bench.copy(name, "copy")
            self.do_bytes("copy", at, f"{value:02x}")
            self.bench.call("copy", "check")
            self.bench.call("copy", "run")
