"""The kinds of random cases. Each is a function of dice and a bench: the files that it makes, and calls that are compared."""

import random

import hstore
import images
import making


def script(dice, bench):
    """All commands, in one run or in several: names that collide, each refusal, limits of paths and lines, odd and empty lines."""
    params = making.params(dice)
    bench.call("img", *making.format_words(params))
    maker = making.Maker(dice, params)
    for _ in range(dice.randint(1, 3)):
        bench.call("img", "run", source=maker.script(dice.choice([1, 10, 40, 80])))
    bench.call("img", "check")
    other = making.format_words(making.params(dice))
    bench.call("img", *dice.choice([["scrub"], ["dump"], ["big", str(dice.randint(0, 9)), "50"], other, ["wipe"]]))


def session(dice, bench):
    """All lines of sessions: several at once, conflicts, groups that are refused, too many sessions, questions and changes."""
    params = making.params(dice)
    tree = making.grown(dice, params) if dice.random() < 0.7 else {}
    bench.put("img", hstore.layout(tree, params))
    bench.call("img", "session", source=making.Maker(dice, params, tree).script(dice.choice([10, 60, 120]), True))
    bench.call("img", "check")


def listing(dice, bench):
    """Dumps that are changed are loaded, also under other parameters. What is taken is dumped again, and a run does the same."""
    params = making.params(dice)
    bench.put("img", hstore.layout(making.grown(dice, params), params))
    lines = bench.call("img", "dump").output.splitlines(True)
    for _ in range(8):
        into = dice.choice([params, params, making.params(dice, params.version), making.params(dice)])
        source = b"".join(making.changed_listing(dice, lines) if dice.random() < 0.9 else lines)
        bench.put("new", hstore.layout({}, into))
        bench.copy("new", "run")
        if bench.call("new", "load", source=source).status == 0:
            bench.call("new", "dump")
            bench.call("run", "run", source=source)
            bench.same("new", "run")


def pair(dice, bench):
    """Mirrors of two images, both ways, of the same or of other parameters; either may be torn or damaged."""
    params, other = making.params(dice), making.params(dice)
    tree = making.grown(dice, params)
    field = dice.choice(params._fields)
    theirs = dice.choice([params, params, params._replace(**{field: getattr(other, field)})])
    their_tree = making.grown(dice, theirs, dice.choice([None, tree]))
    for name, image in (("one", hstore.layout(tree, params)), ("two", hstore.layout(their_tree, theirs))):
        bench.put(name, images.changed(dice, image) if dice.random() < 0.4 else image)
    for names in (("one", "two"), ("two", "one"))[:: dice.choice([1, -1])]:
        bench.call(names[0], "check")
        bench.call(names[0], "mirror", names[1])


def upgrade(dice, bench):
    """Images of version 1, seldom 2, are upgraded: whole, and broken off in each step of an upgrade, and twice."""
    params = making.params(dice, dice.choice([1, 1, 1, 2]))
    tree = making.grown(dice, params)
    bench.put("img", hstore.layout(tree, params))
    bench.call("img", "dump")
    for _ in range(3):
        bench.put("torn", images.torn(dice, bench.files["img"], hstore.layout(tree, params._replace(version=2))))
        bench.call("torn", "check")
        bench.call("torn", dice.choice(["run", "scrub", "upgrade", "dump"]))
    bench.call("img", "upgrade")
    bench.call("torn", "upgrade")
    bench.same("img", "torn")
    bench.call("img", "dump")


def hostile(dice, bench):
    """Images that are changed in the ways of images.py: checked, and of four one is also used in each other way, on a copy."""
    params = making.params(dice)
    good = hstore.layout(making.grown(dice, params), params)
    for _ in range(8):
        bench.put("img", images.changed(dice, good))
        bench.call("img", "check")
        every = "scrub", "run", "session", "dump", "upgrade", "load", "big 1 3", "mirror good"
        for words in every if dice.random() < 0.25 else ():
            bench.put("good", good)
            bench.copy("img", "copy")
            bench.call("copy", *words.split(), source=b"digest\n" if words == "run" else b"")


def order(dice, bench):
    """One tree by two orders of commands, with detours: the images are equal."""
    params = making.params(dice)._replace(slots=64)
    tree = making.grown(dice, params)
    bench.put("wanted", hstore.layout(tree, params))
    for name in ("one", "two"):
        bench.put(name, hstore.layout({}, params))
        if b"full" not in bench.call(name, "run", source=making.another_order(dice, tree)).output:
            bench.same(name, "wanted")


KINDS = {script: 30, session: 15, listing: 13, pair: 12, upgrade: 8, hostile: 17, order: 5}  # of 100 cases


def cases(seed, count):
    """So many cases, each a kind and a seed."""
    wheel = [kind.__name__ for kind, share in KINDS.items() for _ in range(share)]
    return [(wheel[number * 37 % len(wheel)], number) for number in range(seed, seed + count)]


def play(kind, seed, bench):
    """Makes the calls of a case."""
    {it.__name__: it for it in KINDS}[kind](random.Random(f"{kind}:{seed}"), bench)
