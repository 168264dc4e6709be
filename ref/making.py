"""Parameters, trees, lines of scripts and sessions, and listings at random. `dice` is a `random.Random`."""

import re

import hstore

NAMES = "U UU UUU a b f g h z A a! a. ~ iU x1 long-name-7".split() + ["n" * 100]
ATTRIBUTES = "k K! U a.b mime ~".split() + ["m" * 32]
LENGTHS = [0, 1, 9, 40, 199, 200, 201, 255, 256, 257, 300, 512, 513, 600, 2048, 2049, 4000, 4086, 4087, 4090]
NUMBERS = [0, 1, 200, 4096, 4097, 16777215, 16777216, 4294967295, 4294967296]
ODD = [b" ", b"/", b".", b"..", b"\r", b"\0", b"\x7f", b"\x80", b"-", b"0", b"U", b"x", b"//", b"  ", b"\t"]
CHANGES = {"make": 6, "write": 9, "cut": 2, "rename": 3, "remove": 2, "prune": 1, "set": 4, "unset": 1}
QUESTIONS = {"list": 3, "read": 3, "space": 1, "digest": 1, "get": 2, "attrs": 2}
WORDS = {"begin": 3, "ask": 7, "stage": 9, "commit": 4, "drop": 1}


def params(dice, version=None):
    """Parameters of an image of at most 64 slots."""
    slots = dice.choice([1, 2, 4, 7, 8, 16, 40, 64, dice.randint(1, 64)])
    height = dice.choice([1, 2, 3, dice.randint(1, 8)])
    seed = dice.choice([bytes(32), bytes(range(32)), dice.randbytes(32)])
    return hstore.Params(slots, height, dice.choice(hstore.DRAWS), seed, version or dice.choice([1, 2]))


def format_words(of):
    """The words that format an image of these parameters."""
    return ["format" if of.version == 1 else "format2", str(of.slots), str(of.height), of.draw, of.seed.hex()]


def draw(dice, weights):
    return dice.choices(list(weights), weights.values())[0]


def text_of(path):
    """The text of a path."""
    return "/" + path[:-1].replace(b"\0", b"/").decode()


class Maker:
    """Makes lines that fit the tree that the lines before them led to, by the reference program, and some that do not."""

    def __init__(self, dice, params, tree=None):
        self.dice, self.params, self.tree, self.live = dice, params, tree or {}, {}

    def path(self, is_new):
        """The text of a path: most often one that is there, or a new one below one that is; seldom one at the limit."""
        dice, there = self.dice, [text_of(path) for path in self.tree]
        above = dice.choice([""] + [path for path in there if dice.random() < 0.5])
        longest = above + "/" + "n" * (dice.randint(117, 121) - len(above) - 1)
        new = dice.choice(["/"] + [longest] * 2 + [f"{above}/{dice.choice(NAMES)}"] * 40)
        return new if not there or (dice.random() < 0.85) == is_new else dice.choice(there)

    def digits(self, length):
        text = self.dice.randbytes(length).hex() if self.dice.random() < 0.8 else "5A" * length
        return text or "-"

    def number(self, length):
        """A number that is near to this length, or any."""
        return self.dice.choice([0, length, length, max(length - 1, 0), length + 1, self.dice.choice(NUMBERS)])

    def command(self, weights):
        """A line of a script, with one of these words."""
        dice, word = self.dice, draw(self.dice, weights)
        path = self.path(word in ("make", "write"))
        room = "m" * (dice.choice([118, 119]) - len(path))
        name = dice.choice([*ATTRIBUTES, *ATTRIBUTES, "m" * 33, "..", room or "k"])
        length = len(self.tree.get(hstore.path_of(path.encode()), hstore.NEW_FILE).data or b"")
        fields = {
            "write": [path, self.number(length), self.digits(dice.choice(LENGTHS))],
            "cut": [path, self.number(length // dice.choice([1, 2]))],
            "rename": [path, self.path(True)],
            "read": [path, self.number(length), self.number(length)],
            "set": [path, name, self.digits(dice.choice([0, 1, 60, 255, 256]))],
            **dict.fromkeys(["get", "unset"], [path, name]),
            **dict.fromkeys(["space", "digest"], []),
        }
        return " ".join(map(str, [word, *fields.get(word, [path])])).encode()

    def session_line(self):
        """A line of `session`, most often of a session that is live."""
        dice, word = self.dice, draw(self.dice, WORDS)
        number = b" %d" % dice.choice([*self.live] * 3 + [dice.choice([0, 1, 64, 4294967296])])
        commands = {"ask": QUESTIONS, "stage": CHANGES}.get(word)
        return word.encode() + number * (word != "begin") + (b" " + self.command(commands) if commands else b"")

    def odd(self, line):
        """A line that is most often none, or is at the limit of a line."""
        dice, at = self.dice, self.dice.randint(0, len(line))
        longest = line.ljust(dice.choice([8191, 8192, 8193]), dice.choice([b"5", b"n"]))
        steps = line.replace(b"/", dice.choice([b"/./", b"/../", b"//", b"/"]), 1)
        other = [b"", line[:at] + dice.choice(ODD) + line[at:], line[:at] + line[at + 1 :], line.upper(), line[:at]]
        return dice.choice([longest, steps, *other])

    def script(self, count, sessions=False):
        """A script of so many lines, or a few more, whose last line may have no LF."""
        made = []
        for _ in range(count):
            line = self.session_line() if sessions else self.command({**CHANGES, **QUESTIONS})
            line = self.odd(line) if self.dice.random() < 0.06 else line
            times = 66 if sessions and self.dice.random() < 0.01 else 1
            made += [line] * times
            for _ in range(times):
                self.follow(line, sessions)
        return b"\n".join(made) + self.dice.choice([b"\n", b""])

    def follow(self, line, sessions):
        """Keeps the tree after a line."""
        try:
            if sessions:
                self.tree = hstore.session_line(self.params, self.tree, line, self.live)[0]
            else:
                self.tree = hstore.script_line(self.params, self.tree, line)[0]
        except hstore.Refused:
            pass


def grown(dice, of, tree=None):
    """A tree that has room under these parameters, with what has room of this one. Of four, one may fill the table; many are of
    directories and short files, or of keys that are high under `ruler`."""
    made = {path: node if of.version == 2 else node._replace(attributes={}) for path, node in (tree or {}).items()}
    directories = [hstore.ROOT] + [path for path in made if made[path].data is None]
    fronts, lengths = dice.choice([NAMES, NAMES, ["U", "UU"]]), dice.choice([LENGTHS, LENGTHS, [0, 1]])
    for _ in range(dice.choice([3, 12, 40, 10 * of.slots])):
        name = dice.choice(NAMES + [f"{dice.choice(fronts)}{dice.randrange(999)}"] * 40)
        path = dice.choice(directories) + name.encode() + b"\0"
        names = dice.sample(ATTRIBUTES, dice.choice([0, 0, 1, 3])) if of.version == 2 else []
        attributes = {name.encode(): dice.randbytes(dice.choice([0, 1, 60, 255])) for name in names}
        node = hstore.Node(dice.choice([None, dice.randbytes(dice.choice(lengths))]), attributes)
        if path not in made and hstore.has_room(path, attributes):
            made[path] = node
            directories += [path] * (node.data is None)
    entries = list(made.items())
    least, most = 0, len(entries)
    while least < most:
        half = (least + most + 1) // 2
        fits = hstore.page_count(dict(entries[:half]), of) <= of.slots
        least, most = (half, most) if fits else (least, half - 1)
    return dict(entries[:least])


def changed_listing(dice, lines):
    """The lines of a listing, with a change that may leave it one."""
    at = dice.randrange(len(lines) or 1)
    before, line, after = lines[:at], b"".join(lines[at : at + 1]), lines[at + 1 :]
    path = (line.split() + [b"", b"/"])[1]
    upper = [re.sub(rb"(?<= )[0-9a-f]+$", lambda digits: digits[0].upper(), line)]
    new = [[], [line, line], [*after[:1], line], [line, dice.choice(lines or [b"make /\n"])]]  # missing, twice, in another order
    new += [[line[:-3] + b"\n"], [line[:-1] + b"00\n"], upper, [line[: dice.randint(0, len(line))]]]  # another last field
    new += [[line, b"set %s zz 00\n" % path], [line.replace(b"make", b"write").replace(b"\n", b" 0 -\n")]]
    new += [[line[:-1] + b"\r\n"], [b"\n", line, b"\n"], [line, b"make /%s\n" % (b"z" * 8192)], [line.replace(b"/", b"/U", 1)]]
    middle = dice.choice(new)
    whole = [sorted(lines), before + middle, [line.swapcase() for line in lines], lines[:-1] + [b"".join(lines[-1:])[:-1]]]
    return dice.choice(whole + [before + middle + after] * 8)


def another_order(dice, tree):
    """A script that makes the tree, each path after its directory and else in any order, with detours."""
    left, lines = dict(tree), []
    while left:
        path = dice.choice([path for path in left if hstore.parent_of(path) not in left])
        (data, attributes), text = left.pop(path), text_of(path)
        lines += [f"make {text}"] if data is None else []
        for at in range(0, len(data or b"") or (data is not None), 2048):
            lines.append(f"write {text} {at} {data[at : at + 2048].hex() or '-'}")
        moved = [f"make /=\nrename {text} /=/=\nrename /=/= {text}\nprune /="]
        below = [f"make {text}/t\nremove {text}/t"] if data is None else [f"write {text} 0 00\ncut {text} 0\nremove {text}\n" + lines[-1]]
        lines += dice.choice([[], moved, below if data is None or len(data) <= 2048 else []])
        for name in dice.sample(sorted(attributes), len(attributes)):
            lines.append(f"set {text} {name.decode()} {attributes[name].hex() or '-'}")
    return "\n".join(lines).encode()
