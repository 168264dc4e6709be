"""Images that no call leaves. Each function of WAYS changes something in the layout of a tree, at random.

Some of what they make are images of trees again: the reference program tells which.
"""

import hstore
import making

BLOCK = hstore.BLOCK
NEW_NAMES = [b"a", b"zz", b"U", b" ", b".", b"..", b"\x7f", b"x\1k", b"\1k", b"\1k\1k", b"\0x", b"n" * 118]


def number_of(content):
    return int.from_bytes(content, "big")


def key_of(text):
    """The key of a text: PATH, PATH@B (file block B) or PATH:NAME (an attribute). Any bytes may be a name."""
    path, mark, attribute = text.partition(":")
    path, _, block = path.partition("@")
    field = b"".join(name.encode("latin-1") + b"\0" for name in path.split("/")[1:])
    return hstore.key(field + f"\1{attribute}\0".encode() * bool(mark), int(block or 0))


# The bytes with which values begin: those of a directory, of an attribute, of a file in blocks and of one in one pair.
DIRECTORY, ATTRIBUTE = (value for _, value in hstore.pairs({b"a\0": hstore.Node(None, {b"k": b""})}, 2))
IN_BLOCKS, SHORT = (hstore.pairs({b"a\0": hstore.NEW_FILE}, version)[0][1][:1] for version in (1, 2))


def cell_of(text):
    """A cell of level 0, its key and its value: PATH, a directory; PATH=N, the first pair of a file of N bytes; PATH@B=N,
    block B of a file, N bytes 07; PATH:N, a file of N bytes 07 in one pair; PATH:NAME:N, an attribute of N bytes 07."""
    of, mark, count = text.rpartition("=" if "=" in text else ":")
    if not mark:
        return key_of(text), DIRECTORY
    if mark == "=":
        return key_of(of), b"\7" * int(count) if "@" in of else IN_BLOCKS + int(count).to_bytes(4, "big")
    return key_of(of), (ATTRIBUTE if ":" in of else SHORT) + b"\7" * int(count)


def with_page(image, level, lead, index, *cells):
    """The image with one page more in its table; the lead is `-` for the start, or a key."""
    of = hstore.label(int(level), None if lead == "-" else key_of(lead), int(index))
    made = hstore.slot_of_page(of, [cell_of(cell) if level == "0" else (key_of(cell), b"") for cell in cells])
    slots = {slot[1 : 1 + hstore.LABEL]: slot for slot in hstore.table_of(image) if slot[0]}
    return placed(image, {**slots, of: made})


def placed(image, slots):
    """The image with a table of just these slots, given by their labels, in order; those that have no room are left out."""
    params = hstore.params_of(image)
    table = [bytes(BLOCK)] * params.slots
    for of, at in hstore.placement(sorted(slots)[: params.slots], params).items():
        table[at] = slots[of]
    return with_table(image, table)


def with_table(image, table):
    return image[: -BLOCK * len(table)] + b"".join(table)


def differing(image, other):
    """How many table slots of two images of the same parameters differ."""
    return sum(slot != new for slot, new in zip(hstore.table_of(image), hstore.table_of(other)))


def with_bytes(image, at, new):
    return image[:at] + new + image[at + len(new) :]


def with_pages(image, pages):
    return placed(image, {of: hstore.slot_of_page(of, cells)[:BLOCK] for of, cells in pages.items()})


def slots(dice, image):
    """Slots in each other's places, twice, missing, or all of them turned by some places."""
    table = hstore.table_of(image)
    turn, one, two = (dice.randrange(len(table)) for _ in range(3))
    table = dice.choice([table, table, table[turn:] + table[:turn], dice.choices(table, k=len(table))])
    first, second = table[one], table[two]
    table[one], table[two] = dice.choice([(first, second), (second, first), (second, second), (bytes(BLOCK), second)])
    return with_table(image, table)


def one_byte(dice, image):
    """A byte of the table is another one: most often in a page, and there in what tells what the page is."""
    table = hstore.table_of(image)
    slot = dice.choice([at for at, content in enumerate(table) if content[0]] * 2 + [dice.randrange(len(table))])
    cell = 132 + 382 * dice.randrange(10)
    place = dice.choice([0, 131, dice.randrange(132), cell + dice.randrange(12), cell + 124 + dice.randrange(8), 4095])
    at = len(image) - BLOCK * (len(table) - slot) + dice.choice([place, place, dice.randrange(BLOCK)])
    new = dice.choice([image[at] + 1, image[at] - 1, image[at] ^ 1 << dice.randrange(8), 0, 255]) % 256
    return with_bytes(image, at, bytes([new]))


def some_pages(dice, image):
    """Pages of the tree, and of another one, each of them there or missing."""
    params, tree = hstore.read_image(image)
    both = [hstore.pages(tree, params), hstore.pages(making.grown(dice, params, dice.choice([None, tree])), params)]
    share = dice.choice([0.1, 0.5, 0.9])
    some = [(of, pages[of]) for pages in both[: dice.choice([1, 2])] for of in pages if dice.random() < share]
    return with_pages(image, dict(some))


def some_pairs(dice, image):
    """Pairs that are nearly those of a tree, in pages as they have to be: so only the pairs are wrong."""
    params, tree = hstore.read_image(image)
    cells = dict(hstore.pairs(tree, dice.choice([params.version] * 9 + [3 - params.version])))
    for _ in range(dice.choice([1, 1, 1, 2])):
        key, value = dice.choice([*cells.items()] or [(hstore.key(b"a\0"), DIRECTORY)])
        path, block = key[:120].rstrip(b"\0") + b"\0", number_of(key[120:]) + dice.choice([1, 1, 2, 1 << 20])
        length = (number_of(value[1:5]) + dice.choice([1, -1, 256, -256, 1 << 24])) % (1 << 32)
        odd = [value[:-1], value + b"\0", bytes([dice.randint(0, 5)]) + value[1:], value[:1], value.ljust(256, b"x")]
        name = (dice.choice([path, path, b""]) + dice.choice(NEW_NAMES) + b"\0")[:120]
        new = [DIRECTORY, IN_BLOCKS + bytes(4), SHORT + b"x" * dice.choice([0, 200, 201]), ATTRIBUTE, ATTRIBUTE + b"x" * 255]
        changes = [{key: None}, {key: dice.choice(odd)[:256]}, {key: value[:1] + length.to_bytes(4, "big")}]
        changes += [{hstore.key(path[:120], block): b"\7" * dice.choice([1, 255, 256])}]
        changes += [{hstore.key(name): dice.choice(new)}, {hstore.key(b"\0\1k\0"[dice.randrange(2) :]): ATTRIBUTE}]
        cells = {key: value for key, value in {**cells, **dice.choice(changes)}.items() if value is not None}
    return with_pages(image, hstore.pages_of_pairs(sorted(cells.items()), params))


def other_label(dice, of, keys, params):
    """A label that is like this one: of another level, leader or index."""
    level, lead, index = of[0], of[1:126], number_of(of[126:])
    levels = [level + 1, (level - 1) % 256, 0, params.height, 255]
    indices = [index + 1, (index - 1) % (1 << 32), 0, (1 << 32) - 1]
    leads = [bytes(125), b"\1" + dice.choice(keys)]
    new = [(dice.choice(levels), lead, index), (level, dice.choice(leads), index), (level, lead, dice.choice(indices))]
    level, lead, index = dice.choice(new)
    return bytes([level]) + lead + index.to_bytes(4, "big")


def other_pages(dice, image):
    """Pages that are nearly those of a tree, in order: with another label, with cells that are missing, in another page, in
    another order, twice or of another key; too many of them, too few, or exchanged."""
    params, tree = hstore.read_image(image)
    pages = hstore.pages(tree, params)
    for _ in range(dice.choice([1, 1, 2])):
        of, other = dice.choice([*pages] or [hstore.label(0, None, 0)]), dice.choice([*pages] or [hstore.label(1, None, 0)])
        cells, others = pages.get(of) or [(hstore.key(b"a\0"), DIRECTORY)], pages.get(other, [])
        at = dice.randrange(len(cells))
        before, (key, value), after = cells[:at], cells[at], cells[at + 1 :]
        label = other_label(dice, of, [cell[0] for cell in cells + others], params)
        new = before + [(with_bytes(key, dice.choice([0, 0, 1, 2, 123]), dice.choice([b"U", b"a", b"\1"])), value)] + after
        changes = [{of: [], label: cells}, {label: dice.choice([others, cells[at:], before])}, {of: others, other: cells}]
        changes += [{of: before + after}, {of: before + after, other: sorted(others + cells[at : at + 1])}, {of: cells[::-1]}]
        changes += [{of: before + [cells[at]] * 2 + after}, {of: []}, {of: new}, {of: sorted(new)}]
        pages = {of: cells for of, cells in {**pages, **dice.choice(changes)}.items() if cells}
    return with_pages(image, pages)


def free_slot(dice, image):
    """A byte in a slot that is free."""
    table = hstore.table_of(image)
    slot = dice.choice([at for at, content in enumerate(table) if not content[0]] or [0])
    place = dice.choice([0, 1, BLOCK - 1, dice.randrange(BLOCK)])
    return with_bytes(image, len(image) - BLOCK * (len(table) - slot) + place, bytes([dice.choice([1, 127, 255])]))


def header(dice, image):
    """Another header: slots, height, draw, version, seed, and bytes that are to be zero; or a file of another length."""
    if dice.random() < 0.2:
        length = dice.choice([0, 1, 4095, 4096, len(image) - 1, len(image) + 1, len(image) + 2 * BLOCK])
        return image[:length].ljust(length, b"\0")
    at = dice.choice([0, 7, 8, 10, 11, 11, 12, 12, 13, 14, 14, 15, 16, 47, 48, 4095, dice.randrange(BLOCK)])
    new = dice.choice([image[at] ^ 3, image[at] + 1, image[at] - 1, 0, 1, 2, 9, 255]) % 256
    return with_bytes(image, at, bytes([new]))


def journal(dice, image):
    """Flag, marks and shadow blocks at random: of this tree, of another one, or noise."""
    params = hstore.params_of(image)
    table, theirs = hstore.table_of(image), hstore.table_of(hstore.layout(making.grown(dice, params), params))
    image = with_bytes(image, BLOCK + dice.choice([0] * 9 + [1, 4095]), bytes([dice.choice([0, 1, 127, 255])]))
    for _ in range(dice.randint(1, 6)):
        slot = dice.randrange(params.slots)
        shadow = dice.choice([table[slot], theirs[slot], theirs[slot], bytes(BLOCK), dice.randbytes(BLOCK)])
        image = with_bytes(image, hstore.areas(params.slots)[0] + BLOCK * slot, shadow)
        mark = dice.choice([slot, slot, slot, params.slots, params.slots + 1, 4095])
        image = with_bytes(image, hstore.MARKS_AT + mark, bytes([dice.choice([0, 1, 127, 255])]))
    return image


def broken_off(dice, image):
    """A commit that leads to another tree was broken off."""
    params = hstore.params_of(image)
    return torn(dice, image, hstore.layout(making.grown(dice, params), params))


def torn(dice, old, new):
    """What a crash in one of its five steps may leave of the commit or upgrade that leads from one layout to another."""
    params = hstore.params_of(old)
    shadow, table, _ = hstore.areas(params.slots)
    mark = hstore.MARKS_AT + params.slots
    writes = [(2, BLOCK, b"\1"), (4, BLOCK, b"\0")]
    writes += [(1, mark, b"\1"), (3, 14, b"\2"), (5, mark, b"\0")] * (old[14] != new[14])
    for slot, (before, after) in enumerate(zip(hstore.table_of(old), hstore.table_of(new))):
        journal_at, mark, at = shadow + BLOCK * slot, hstore.MARKS_AT + slot, table + BLOCK * slot
        steps = [(1, journal_at, after), (1, mark, b"\1"), (3, at, after), (5, mark, b"\0"), (5, journal_at, bytes(BLOCK))]
        writes += steps * (before != after)
    image, stage = old, dice.randint(1, 5)
    for step, at, content in sorted(writes):
        there, half = image[at : at + len(content)], len(content) // 2
        noise = dice.randbytes(len(content))
        left = dice.choice([there, content, noise, there[:half] + content[half:] if half else noise])
        image = with_bytes(image, at, left if step == stage else content if step < stage else there)
    return image


WAYS = {slots: 3, one_byte: 4, some_pages: 3, some_pairs: 6, other_pages: 6, free_slot: 1, header: 2, journal: 3, broken_off: 2}


def changed(dice, image):
    """An image that is changed in one of these ways."""
    return making.draw(dice, WAYS)(dice, image)
