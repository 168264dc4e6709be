#!/usr/bin/env python3
"""The image format and the script language of hstore, implemented a second time from the documents alone.

docs/FORMAT.md says which bytes an image has. docs/SCRIPT.md says what each subcommand and each line of a script
answers. This file carries out both. It was written from these documents, without the sources of the program. So
where the two agree, the documents suffice. It is short and slow: a tree is a dict, an image is bytes, and most
functions are one definition of a document. Whoever has an image and no program to read it can begin here.

`ref/hstore.py IMAGE WORDS..` does what `hstore IMAGE WORDS..` does. `call` does the same in memory, from bytes to
bytes. `read_image` gives the parameters and the tree of an image, and `layout` the image of a tree.
"""

from __future__ import annotations

import fcntl
import hashlib
import os
import re
import sys
from collections.abc import Callable, Iterable, Iterator
from dataclasses import dataclass
from functools import lru_cache
from typing import Any, BinaryIO, NamedTuple

# Sizes and limits, in bytes.
BLOCK, FILE_BLOCK = 4096, 256  # a block, which is also a slot; a file block, and the most of a value
FIELD, KEY, LABEL = 120, 124, 130  # a path field, and the most of a path's text; a key; a label
FILE, SHORT_FILE = 16_777_216, 200  # the most of a file; the most of one that is one pair under version 2
ATTRIBUTE, ATTRIBUTE_NAME = 255, 32  # the most of an attribute, and of its name
ATTRIBUTE_ROOM = 118  # the most of this name and the text of its path together
READ, PIECE = 4096, 2048  # the most of one `read`; a piece of a file in a listing
LINE, SCRIPT = 8192, 1_073_741_824  # the most of a line, and of a script
# Numbers.
SLOTS, HEIGHT = 65_536, 8  # the most that an image has
CELLS = (10,) + 7 * (31,)  # the cells of a full page of each level
NUMBER, COMMANDS = 4_294_967_295, 1_000_000  # the greatest number; the most commands of `big`
LIVE = 64  # the most live sessions, and the most questions and changes of one

MAGIC, DRAWS = b"HSTORE01", ("ruler", "sha256")
FLAG_AT, MARKS_AT = BLOCK, 2 * BLOCK  # where the commit flag stands, and where the marks area begins
START, ROOT = None, b""  # the leader of a group that no key leads; the path of the root


class Params(NamedTuple):
    """What decides the bytes of an image, besides its tree."""
    slots: int
    height: int
    draw: str
    seed: bytes
    version: int


class Node(NamedTuple):
    """What stands at a path: a directory (data is None) or a file, with its attributes. It is never changed."""
    data: bytes | None
    attributes: dict[bytes, bytes] = {}


NEW_FILE = Node(b"")
# A path is kept as the bytes of its field without the filling: each name, and 00 after it. So it has as many bytes
# as its text, byte order is the order of the keys, and what lies below a path begins with it.
Tree = dict[bytes, Node]
Pair = tuple[bytes, bytes]
Pages = dict[bytes, list[Pair]]  # from the label of each page to its cells
Command = tuple[Callable[..., Any], list[Any]]  # a command that the grammar has: its function, and its fields
Session = tuple[list[tuple[Command, str]], list[Command]]  # its questions, each with the answer noted; its changes


@dataclass
class Outcome:
    """How a call ends: status, output, both files afterwards (None: no file), and the count `done`."""
    status: int
    output: bytes = b""
    image: bytes | None = None
    other: bytes | None = None
    done: int = 0


class Refused(Exception):
    """A command or a file is refused. The exception carries the reason of the one, or the status of the other."""


# Areas and header: FORMAT, sections 2 and 3.
def areas(slots: int) -> tuple[int, int, int]:
    """Where the shadow area and the table begin, and the length of the image, in bytes."""
    shadow = MARKS_AT + BLOCK * -(-(slots + 1) // BLOCK)
    return shadow, shadow + BLOCK * slots, shadow + 2 * BLOCK * slots


def header(params: Params) -> bytes:
    """The first block of an image."""
    slots, height, draw, seed, version = params
    numbers = slots.to_bytes(4, "big") + bytes([height, DRAWS.index(draw), version, 0])
    return (MAGIC + numbers + seed).ljust(BLOCK, b"\0")


def params_of(image: bytes) -> Params | None:
    """The parameters that the header of an image names, as it is read. None where the bytes are no image."""
    slots = int.from_bytes(image[8:12], "big")
    if not 1 <= slots <= SLOTS or len(image) != areas(slots)[2]:
        return None
    height, draw, version = image[12:15]
    if image[FLAG_AT] and image[MARKS_AT + slots]:
        version = 2
    if not 1 <= height <= HEIGHT or draw >= len(DRAWS) or version not in (1, 2):
        return None
    params = Params(slots, height, DRAWS[draw], image[16:48], version)
    return params if header(params) == image[:14] + bytes([version]) + image[15:BLOCK] else None


# Names, paths and trees: FORMAT, section 1.
@lru_cache(maxsize=1 << 16)
def is_name(name: bytes) -> bool:
    """Whether these bytes are a name."""
    return re.fullmatch(rb"[!-.0-~]+", name) is not None and name not in (b".", b"..")


def path_of(text: bytes) -> bytes | None:
    """The path of a text of any length, or None."""
    first, *names = text.split(b"/")
    if text == b"/":
        return ROOT
    return b"\0".join(names) + b"\0" if names and not first and all(map(is_name, names)) else None


def parent_of(path: bytes) -> bytes:
    """The path above this one. That above the root is the root."""
    return path[: path.rfind(b"\0", 0, -1) + 1]


def is_directory(tree: Tree, path: bytes) -> bool:
    """Whether the path is the root, or a directory stands there."""
    return path == ROOT or path in tree and tree[path].data is None


def has_room(path: bytes, attributes: Iterable[bytes]) -> bool:
    """Whether the path is short enough, also for attributes of these names."""
    return len(path) <= FIELD and all(len(path) + len(name) <= ATTRIBUTE_ROOM for name in attributes)


def is_tree(tree: Tree, version: int) -> bool:
    """Whether a map is a tree that an image of this version may hold."""
    for path, (data, attributes) in tree.items():
        *names, last = path.split(b"\0")
        if last or not names or not all(map(is_name, names)) or not is_directory(tree, parent_of(path)):
            return False
        if not has_room(path, attributes) or len(data or b"") > FILE or attributes and version == 1:
            return False
        if not all(is_name(a) and len(a) <= ATTRIBUTE_NAME and len(v) <= ATTRIBUTE for a, v in attributes.items()):
            return False
    return True


# Keys and pairs: FORMAT, section 4.
def key(of: bytes, block: int = 0) -> bytes:
    """The key with this field: that of a path, or of one of its file blocks (from 1 on), or of an attribute."""
    return of.ljust(FIELD, b"\0") + block.to_bytes(4, "big")


def file_blocks(data: bytes | None, version: int) -> int:
    """The number of the file blocks that have pairs of their own."""
    short = data is None or version == 2 and len(data) <= SHORT_FILE
    return 0 if short else -(-len(data) // FILE_BLOCK)


def pairs(tree: Tree, version: int) -> list[Pair]:
    """The pairs of a tree, sorted by key."""
    result = []
    for path in sorted(tree):
        data, attributes = tree[path]
        if data is None:
            result.append((key(path), b"\1"))
        elif version == 2 and len(data) <= SHORT_FILE:
            result.append((key(path), b"\3" + data))
        else:
            result.append((key(path), b"\2" + len(data).to_bytes(4, "big")))
        for block in range(file_blocks(data, version)):
            result.append((key(path, block + 1), data[FILE_BLOCK * block : FILE_BLOCK * (block + 1)]))
        for name in sorted(attributes):
            result.append((key(path + b"\1" + name + b"\0"), b"\4" + attributes[name]))
    return result


def joined(pieces: dict[bytes, list[bytes] | None], attributes: dict[bytes, dict[bytes, bytes]]) -> Tree:
    """The map of these pieces of files (None: a directory) and these attributes."""
    files = {path: None if of is None else b"".join(of) for path, of in pieces.items()}
    return {path: Node(data, attributes.get(path, {})) for path, data in files.items()}


def map_of_pairs(cells: Iterable[Pair]) -> Tree | None:
    """The map whose pairs these may be, or None. Where they are the pairs of a tree, it is this tree."""
    pieces: dict[bytes, list[bytes] | None] = {}
    attributes: dict[bytes, dict[bytes, bytes]] = {}
    for cell, value in sorted(cells):
        path, mark, name = (cell[:FIELD].rstrip(b"\0") + b"\0").partition(b"\1")
        if mark and path in pieces:
            attributes.setdefault(path, {})[name[:-1]] = value[1:]
        elif not mark and not any(cell[FIELD:]):
            pieces[path] = {b"\1": None, b"\3": [value[1:]]}.get(value[:1], [])
        elif not mark and pieces.get(path) is not None:
            pieces[path].append(value)
        else:
            return None
    return joined(pieces, attributes)


# Labels and draws: FORMAT, sections 5 and 6.
def label(level: int, leader: bytes | None, index: int) -> bytes:
    """The label of a page. The smaller label has the higher rank."""
    lead = bytes(1 + KEY) if leader is START else b"\1" + leader
    return bytes([level]) + lead + index.to_bytes(4, "big")


@lru_cache(maxsize=1 << 18)
def start_slot(params: Params, of: bytes) -> int:
    """The slot at which the probe sequence of a label begins."""
    if params.draw == "ruler":
        return sum(of) % params.slots
    return int.from_bytes(hashlib.sha256(params.seed + b"\x53" + of).digest()[:8], "big") % params.slots


@lru_cache(maxsize=1 << 20)
def drawn_level(params: Params, of: bytes) -> int:
    """The level of a key."""
    if params.draw == "ruler":
        return 0 if any(of[FIELD:]) else min(of[:FIELD].count(b"U"), params.height - 1)
    digits = hashlib.sha256(params.seed + b"\x4c" + of).hexdigest()
    return min(len(digits) - len(digits.lstrip("0")), params.height - 1)


# Groups and pages: FORMAT, section 7.
def groups(cells: list[Pair], levels: list[int], level: int) -> list[tuple[bytes | None, list[Pair]]]:
    """The groups of one level, each with its leader, from all pairs and the levels of their keys."""
    result: list[tuple[bytes | None, list[Pair]]] = []
    for cell, drawn in zip(cells, levels):
        if drawn > level:
            result.append((cell[0], []))
        elif drawn == level and not result:
            result.append((START, []))
        if drawn >= level:
            result[-1][1].append(cell)
    return result


def pages_of_pairs(cells: list[Pair], params: Params) -> Pages:
    """The pages of a sorted list of pairs."""
    levels = [drawn_level(params, cell[0]) for cell in cells]
    result = {}
    for level in range(params.height):
        for leader, group in groups(cells, levels, level):
            for index, first in enumerate(range(0, len(group), CELLS[level])):
                result[label(level, leader, index)] = group[first : first + CELLS[level]]
    return result


def pages(tree: Tree, params: Params) -> Pages:
    """The pages of a tree."""
    return pages_of_pairs(pairs(tree, params.version), params)


@lru_cache(maxsize=1 << 16)
def path_levels(params: Params, path: bytes, blocks: int, names: tuple[bytes, ...]) -> list[int]:
    """The levels of all keys of a path, in their order: with so many file blocks, and attributes of these names."""
    keys = [key(path, block) for block in range(blocks + 1)]
    keys += [key(path + b"\1" + name + b"\0") for name in names]
    return [drawn_level(params, of) for of in keys]


def page_count(tree: Tree, params: Params) -> int:
    """The number of the pages of a tree, counted without making them."""
    count = 0
    cells = [0] * params.height  # of the last group of each level
    for path in sorted(tree):
        data, attributes = tree[path]
        for drawn in path_levels(params, path, file_blocks(data, params.version), tuple(sorted(attributes))):
            count += drawn + (cells[drawn] % CELLS[drawn] == 0)
            cells[:drawn] = [1] * drawn  # the key leads a new group on each of these levels
            cells[drawn] += 1
    return count


# Slots, table and layout: FORMAT, sections 8 to 10.
def slot_of_page(of: bytes, cells: list[Pair]) -> bytes:
    """The bytes of the slot that has the page of a label with these cells."""
    body = [k + (len(v).to_bytes(2, "big") + v.ljust(FILE_BLOCK, b"\0") if of[0] == 0 else b"") for k, v in cells]
    return b"".join([b"\1", of, bytes([len(cells)]), *body]).ljust(BLOCK, b"\0")


def placement(labels: Iterable[bytes], params: Params) -> dict[bytes, int]:
    """The slot of each label: greedy placement by rank. There are no more labels than slots."""
    onward = list(range(params.slots))  # from an empty slot to itself, from any other towards the next empty one
    result = {}
    for of in sorted(labels):
        passed = [start_slot(params, of)]
        while onward[passed[-1]] != passed[-1]:
            passed.append(onward[passed[-1]])
        result[of] = passed[-1]
        for slot in passed:
            onward[slot] = (passed[-1] + 1) % params.slots
    return result


def layout(tree: Tree, params: Params) -> bytes:
    """The layout of a tree that fits: each byte of its image."""
    made = pages(tree, params)
    table = [bytes(BLOCK)] * params.slots
    for of, slot in placement(made, params).items():
        table[slot] = slot_of_page(of, made[of])
    return b"".join([header(params), bytes(areas(params.slots)[1] - BLOCK), *table])


def table_of(image: bytes) -> list[bytes]:
    """The slots of an image, in order."""
    _, table, length = areas(int.from_bytes(image[8:12], "big"))
    return [image[at : at + BLOCK] for at in range(table, length, BLOCK)]


def cells_of(slot: bytes) -> Iterator[Pair]:
    """The cells of a slot, where it has a page of level 0. What it holds is not tested."""
    if slot[:2] == b"\1\0":
        for cell in range(min(slot[1 + LABEL], CELLS[0])):
            begin = 2 + LABEL + cell * (KEY + 2 + FILE_BLOCK)
            length = int.from_bytes(slot[begin + KEY : begin + KEY + 2], "big")
            yield slot[begin : begin + KEY], slot[begin + KEY + 2 : begin + KEY + 2 + length]


# The journal: FORMAT, section 11.
def recovered(image: bytes) -> bytes:
    """The recovered image of an image."""
    params = params_of(image)
    assert params, "these bytes are no image"
    shadow, table, _ = areas(params.slots)
    slots = [image[table:]]
    if image[FLAG_AT]:
        marks = image[MARKS_AT : MARKS_AT + params.slots]
        begins = [(shadow if mark else table) + BLOCK * slot for slot, mark in enumerate(marks)]
        slots = [image[begin : begin + BLOCK] for begin in begins]
    return b"".join([header(params), bytes(table - BLOCK), *slots])


def scrubbed(image: bytes) -> bytes:
    """The scrubbed image of an image: recovered, and each free slot empty."""
    whole = recovered(image)
    slots = table_of(whole)
    return whole[: -BLOCK * len(slots)] + b"".join(slot if slot[0] else bytes(BLOCK) for slot in slots)


def read_image(image: bytes, settled: Callable[[bytes], bytes] = recovered) -> tuple[Params, Tree]:
    """The parameters and the tree that an image represents. With `scrubbed`: those of its scrubbed image."""
    params = params_of(image)
    if params is None:
        raise Refused(7)
    whole = settled(image)
    tree = map_of_pairs(cell for slot in table_of(whole) for cell in cells_of(slot))
    fits = tree is not None and is_tree(tree, params.version) and page_count(tree, params) <= params.slots
    if not fits or layout(tree, params) != whole:
        raise Refused(8)
    return params, tree


# Grammar: SCRIPT, sections 3 and 4.
def number_in(text: bytes, least: int = 0, most: int = NUMBER) -> int | None:
    """The number of this text, where it is one from `least` to `most`."""
    number = int(text) if re.fullmatch(rb"0|[1-9][0-9]{0,9}", text) else -1
    return number if least <= number <= most else None


def bytes_in(text: bytes) -> bytes | None:
    """The bytes of this text of hexadecimal digits, or None. `-` is no bytes."""
    return bytes.fromhex(text.strip(b"-").decode()) if re.fullmatch(rb"-|([0-9A-Fa-f]{2})+", text) else None


FIELDS: dict[str, Callable[[bytes], Any]] = {"path": path_of, "number": number_in, "bytes": bytes_in}
FIELDS["attr"] = lambda text: text if len(text) <= ATTRIBUTE_NAME and is_name(text) else None


def command_in(words: list[bytes], table: dict[bytes, tuple[Callable[..., Any], str]]) -> Command:
    """The command of this table with these words. It is refused as `syntax`, and then as `path`."""
    does, grammar = table.get(b" ".join(words[:1]), (None, ""))
    kinds = grammar.split()
    refuse(syntax=does is None or len(words) != len(kinds) + 1)
    fields = [FIELDS[kind](word) for kind, word in zip(kinds, words[1:])]
    refuse(syntax=None in fields)
    refuse(path=any(kind == "path" and len(path) > FIELD for kind, path in zip(kinds, fields)))
    return does, fields


def lines_of(source: bytes) -> Iterator[bytes]:
    """The lines of a script without the empty ones. Of a script that is too long: those within the limit."""
    script = source if len(source) <= SCRIPT else source[: source.rfind(b"\n", 0, SCRIPT) + 1]
    return (line[0] for line in re.finditer(rb"[^\n]+", script))


# Commands and refusals: SCRIPT, sections 6 and 7. A change gives the new tree, a question the text of its reply.
def refuse(**reasons: bool) -> None:
    """Refuses for the first of these reasons that holds, if one does."""
    for reason, holds in reasons.items():
        if holds:
            raise Refused(reason)


def make(params: Params, tree: Tree, path: bytes) -> Tree:
    """`make P`"""
    refuse(root=path == ROOT, parent=not is_directory(tree, parent_of(path)), exists=path in tree)
    return {**tree, path: Node(None)}


def write(params: Params, tree: Tree, path: bytes, at: int, new: bytes) -> Tree:
    """`write P AT HEX`"""
    node, end = tree.get(path, NEW_FILE), at + len(new)
    old = node.data or b""
    refuse(parent=not is_directory(tree, parent_of(path)), kind=is_directory(tree, path))
    refuse(gap=at > len(old), big=end > FILE)
    return {**tree, path: node._replace(data=old[:at] + new + old[end:])}


def cut(params: Params, tree: Tree, path: bytes, length: int) -> Tree:
    """`cut P LEN`"""
    old = tree.get(path, NEW_FILE).data or b""
    refuse(missing=path != ROOT and path not in tree, kind=is_directory(tree, path), gap=length > len(old))
    return {**tree, path: tree[path]._replace(data=old[:length])}


def rename(params: Params, tree: Tree, path: bytes, to: bytes) -> Tree:
    """`rename P Q`"""
    refuse(root=ROOT in (path, to), missing=path not in tree, inside=to.startswith(path) and to != path)
    refuse(parent=not is_directory(tree, parent_of(to)), exists=to in tree)
    moved = {to + old[len(path) :]: node for old, node in tree.items() if old.startswith(path)}
    refuse(path=not all(has_room(new, node.attributes) for new, node in moved.items()))
    return prune(params, tree, path) | moved


def remove(params: Params, tree: Tree, path: bytes) -> Tree:
    """`remove P`"""
    refuse(root=path == ROOT, missing=path not in tree, notempty=any(parent_of(other) == path for other in tree))
    return prune(params, tree, path)


def prune(params: Params, tree: Tree, path: bytes) -> Tree:
    """`prune P`"""
    refuse(root=path == ROOT, missing=path not in tree)
    return {other: node for other, node in tree.items() if not other.startswith(path)}


def list_children(params: Params, tree: Tree, path: bytes) -> str:
    """`list P`"""
    refuse(missing=path != ROOT and path not in tree, kind=not is_directory(tree, path))
    children = sorted(other for other in tree if parent_of(other) == path)
    named = [(child[len(path) : -1].decode(), tree[child].data) for child in children]
    return "".join(f"d {n}\n" if data is None else f"f {n} {len(data)}\n" for n, data in named) + "end\n"


def read(params: Params, tree: Tree, path: bytes, at: int, length: int) -> str:
    """`read P AT LEN`"""
    old = tree.get(path, NEW_FILE).data or b""
    refuse(missing=path != ROOT and path not in tree, kind=is_directory(tree, path), gap=at > len(old))
    refuse(big=length > READ)
    return f"ok {old[at : at + length].hex() or '-'}\n"


def space(params: Params, tree: Tree) -> str:
    """`space`"""
    return f"space {page_count(tree, params)} {params.slots}\n"


def digest(params: Params, tree: Tree) -> str:
    """`digest`"""
    return f"digest {hashlib.sha256(layout(tree, params)).hexdigest()}\n"


def attributes_at(params: Params, tree: Tree, path: bytes, *names: bytes) -> dict[bytes, bytes]:
    """The attributes of a path. Refused where it can have none, or none of these names."""
    refuse(version=params.version == 1, root=path == ROOT, missing=path not in tree)
    refuse(none=any(name not in tree[path].attributes for name in names))
    return tree[path].attributes


def set_attribute(params: Params, tree: Tree, path: bytes, name: bytes, value: bytes) -> Tree:
    """`set P NAME HEX`"""
    old = attributes_at(params, tree, path)
    refuse(big=len(value) > ATTRIBUTE, path=not has_room(path, [name]))
    return {**tree, path: tree[path]._replace(attributes={**old, name: value})}


def unset_attribute(params: Params, tree: Tree, path: bytes, name: bytes) -> Tree:
    """`unset P NAME`"""
    old = attributes_at(params, tree, path, name)
    return {**tree, path: tree[path]._replace(attributes={k: v for k, v in old.items() if k != name})}


def get_attribute(params: Params, tree: Tree, path: bytes, name: bytes) -> str:
    """`get P NAME`"""
    old = attributes_at(params, tree, path, name)
    return f"ok {old[name].hex() or '-'}\n"


def list_attributes(params: Params, tree: Tree, path: bytes) -> str:
    """`attrs P`"""
    old = attributes_at(params, tree, path)
    return "".join(f"a {name.decode()} {len(old[name])}\n" for name in sorted(old)) + "end\n"


CHANGES: dict[bytes, tuple[Callable[..., Tree], str]] = {
    b"make": (make, "path"), b"write": (write, "path number bytes"), b"cut": (cut, "path number"),
    b"rename": (rename, "path path"), b"remove": (remove, "path"), b"prune": (prune, "path"),
    b"set": (set_attribute, "path attr bytes"), b"unset": (unset_attribute, "path attr"),
}  # fmt: skip
QUESTIONS: dict[bytes, tuple[Callable[..., str], str]] = {
    b"list": (list_children, "path"), b"read": (read, "path number number"), b"space": (space, ""),
    b"digest": (digest, ""), b"get": (get_attribute, "path attr"), b"attrs": (list_attributes, "path"),
}  # fmt: skip


def changed(params: Params, tree: Tree, command: Command) -> Tree:
    """The tree after a change, where it is not refused. The last reason of each is `full`."""
    does, fields = command
    new = does(params, tree, *fields)
    need = page_count(new, params)
    if need > params.slots:
        raise Refused(f"full {need} {params.slots}")
    return new


def answer(params: Params, tree: Tree, command: Command) -> str:
    """The answer to a question. A refusal is one, too."""
    does, fields = command
    try:
        return does(params, tree, *fields)
    except Refused as refusal:
        return f"no {refusal}\n"


def script_line(params: Params, tree: Tree, line: bytes) -> tuple[Tree, str]:
    """The tree after a line of a script, and the reply."""
    words = line.split(b" ")
    if words[0] in QUESTIONS:
        return tree, answer(params, tree, command_in(words, QUESTIONS))
    return changed(params, tree, command_in(words, CHANGES)), "ok\n"


# Sessions: SCRIPT, section 9.
def commit(params: Params, tree: Tree, session: Session) -> tuple[Tree, str]:
    """The tree after the commit of a session, and the reply."""
    questions, changes = session
    for k, (command, noted) in enumerate(questions):
        now = answer(params, tree, command)
        if now != noted:
            return tree, f"conflict {k}\n{noted}{now}"
    new = tree
    for k, command in enumerate(changes):
        try:
            new = changed(params, new, command)
        except Refused as refusal:
            return tree, f"refused {k} {refusal}\n"
    return new, "ok\n"


def session_line(params: Params, tree: Tree, line: bytes, live: dict[int, Session]) -> tuple[Tree, str]:
    """The tree after a line of `session`, and the reply. The live sessions change in place."""
    word, *rest = line.split(b" ")
    if word == b"begin" and not rest:
        refuse(crowded=len(live) == LIVE)
        number = next(number for number in range(LIVE) if number not in live)
        live[number] = [], []
        return tree, f"ok {number}\n"
    number = number_in(rest[0]) if rest else None
    table = {b"ask": QUESTIONS, b"stage": CHANGES}.get(word)
    refuse(syntax=number is None or not table and (word not in (b"commit", b"drop") or len(rest) > 1))
    command = command_in(rest[1:], table) if table else None
    refuse(session=number not in live)
    if not command:
        session = live.pop(number)
        return commit(params, tree, session) if word == b"commit" else (tree, "ok\n")
    questions, changes = live[number]
    refuse(many=len(questions if table is QUESTIONS else changes) == LIVE)
    if table is CHANGES:
        changes.append(command)
        return tree, "ok\n"
    questions.append((command, answer(params, tree, command)))
    return tree, questions[-1][1]


# Listings: SCRIPT, section 1.
def listing(tree: Tree) -> Iterator[str]:
    """The lines of the listing of a tree."""
    for path in sorted(tree):
        data, attributes = tree[path]
        text = "/" + path[:-1].replace(b"\0", b"/").decode()
        if data is None:
            yield f"make {text}\n"
        else:
            for at in range(0, len(data) or 1, PIECE):
                yield f"write {text} {at} {data[at : at + PIECE].hex() or '-'}\n"
        for name in sorted(attributes):
            yield f"set {text} {name.decode()} {attributes[name].hex() or '-'}\n"


def tree_of_listing(lines: Iterable[bytes], version: int) -> Tree | None:
    """The tree whose listing these lines are, or None. A tree is made, listed again, and all lines are compared."""
    pieces: dict[bytes, list[bytes] | None] = {}
    attributes: dict[bytes, dict[bytes, bytes]] = {}
    plain = []  # the lines with their hexadecimal digits in lower case
    for line in lines:
        try:
            does, (path, *rest) = command_in(line.split(b" "), CHANGES)
        except Refused:
            return None
        if does is make:
            pieces[path] = None
        elif does is write and pieces.setdefault(path, []) is not None:
            pieces[path].append(rest[1])
        elif does is set_attribute and path in pieces:
            attributes.setdefault(path, {})[rest[0]] = rest[1]
        else:
            return None
        last = len(line) if does is make else line.rfind(b" ")
        plain.append((line[:last] + line[last:].lower()).decode() + "\n")
    tree = joined(pieces, attributes)
    return tree if is_tree(tree, version) and list(listing(tree)) == plain else None


# The generator of `big`: SCRIPT, section 10.
def generated(number: int, count: int) -> Iterator[bytes]:
    """The lines of the commands of `big`."""
    x = number
    for _ in range(count):
        x = (x * 6364136223846793005 + 1442695040888963407) % 2**64
        r = x // 2**33
        a, b, c, e = r % 8, r // 8 % 16, r // 128 % 8, r // 1024 % 8
        file = f"/d{a}/f{b}"
        lines = [f"make /d{a}", *3 * [f"write {file} 0 {r:08x}"], f"cut {file} 2", f"remove {file}"]
        yield [*lines, f"rename {file} /d{e}/f{b}", f"read {file} 0 4"][c].encode()


# Subcommands: SCRIPT, sections 1 and 2. Where an outcome names no bytes of a file, the file stays as it was.
def params_in(words: list[str]) -> Params | None:
    """The parameters of a `format` or `format2`, or None: the words are another subcommand, or out of range."""
    if len(words) != 5 or words[0] not in ("format", "format2") or words[3] not in DRAWS:
        return None
    slots, height = number_in(words[1].encode(), 1, SLOTS), number_in(words[2].encode(), 1, HEIGHT)
    if slots is None or height is None or not re.fullmatch("[0-9A-Fa-f]{64}", words[4]):
        return None
    return Params(slots, height, words[3], bytes.fromhex(words[4]), 2 if words[0] == "format2" else 1)


def is_usage(words: list[str]) -> bool:
    """Whether the program has this subcommand with these arguments."""
    match words:
        case ["run" | "session" | "check" | "scrub" | "wipe" | "upgrade" | "dump" | "load"] | ["mirror", _]:
            return True
        case ["big", number, count]:
            return None not in (number_in(number.encode()), number_in(count.encode(), 1, COMMANDS))
    return params_in(words) is not None


def report(image: bytes, settled: Callable[[bytes], bytes]) -> Outcome:
    """`check`, which tests the recovered image, and the report of `scrub`, which tests the scrubbed one."""
    try:
        params, tree = read_image(image, settled)
    except Refused as fault:
        return Outcome(fault.args[0], b"not-image\n" if fault.args[0] == 7 else b"damaged\n", done=1)
    files = [node.data for node in tree.values() if node.data is not None]
    counts = page_count(tree, params), len(tree) - len(files), len(files), sum(map(len, files))
    return Outcome(0, b"clean %d %d %d %d\n" % counts, image if settled is recovered else settled(image), done=1)


def mirror(image: bytes, other: bytes) -> Outcome:
    """`mirror`, of the image onto the other file."""
    params, _ = read_image(image)
    if params_of(other) != params:
        return Outcome(13 if params_of(other) else 7)
    new = recovered(image)
    differ = sum(one != two for one, two in zip(table_of(new), table_of(recovered(other))))
    return Outcome(0, b"mirror %d\n" % differ, other=new, done=1)


def replies_to(params: Params, tree: Tree, lines: Iterable[bytes], *live: Any) -> tuple[Tree, list[str]]:
    """The tree after all these lines of `run`, or with `live` those of `session`, and the reply to each."""
    replies = []
    for line in lines:
        try:
            refuse(long=len(line) > LINE)
            tree, reply = session_line(params, tree, line, *live) if live else script_line(params, tree, line)
        except Refused as refusal:
            reply = f"no {refusal}\n"
        replies.append(reply)
    return tree, replies


def run(params: Params, tree: Tree, source: bytes, *live: Any) -> Outcome:
    """`run`, and with `live` `session`."""
    tree, replies = replies_to(params, tree, lines_of(source), *live)
    output = "".join(replies).encode()
    return Outcome(6 if len(source) > SCRIPT else 0, output, layout(tree, params), done=len(replies))


def load(params: Params, tree: Tree, source: bytes) -> Outcome:
    """`load`."""
    old = layout(tree, params)
    if tree or len(source) > SCRIPT:
        return Outcome(14 if tree else 6, image=old)
    new = tree_of_listing(lines_of(source), params.version)
    if new is None:
        return Outcome(15, image=old)
    need = page_count(new, params)
    if need > params.slots:
        return Outcome(16, b"no full %d %d\n" % (need, params.slots), old)
    return Outcome(0, image=layout(new, params), done=1)


def big(params: Params, tree: Tree, number: int, count: int) -> Outcome:
    """`big NUMBER COUNT`."""
    tree, replies = replies_to(params, tree, generated(number, count))
    refused = sum(reply.startswith("no ") for reply in replies)
    summary = f"ok {count - refused}\nno {refused}\n" + space(params, tree) + digest(params, tree)
    return Outcome(0, summary.encode(), layout(tree, params), done=count)


def on_image(words: list[str], image: bytes, source: bytes, other: bytes | None) -> Outcome:
    """Every subcommand but `format` and `format2`, on a file that is there."""
    match words:
        case ["wipe"]:
            return Outcome(0, image=bytes(len(image)), done=1)
        case ["check" | "scrub" as word]:
            return report(image, recovered if word == "check" else scrubbed)
        case ["mirror", _]:
            return mirror(image, other)
    params, tree = read_image(image)
    works = {
        "run": lambda: run(params, tree, source),
        "session": lambda: run(params, tree, source, {}),
        "load": lambda: load(params, tree, source),
        "big": lambda: big(params, tree, *map(int, words[1:])),
        "dump": lambda: Outcome(0, "".join(listing(tree)).encode(), layout(tree, params), done=1),
        "upgrade": lambda: Outcome(0, image=layout(tree, params._replace(version=2)), done=1),
    }
    return works[words[0]]()


def call(words: list[str], image: bytes | None, source: bytes = b"", other: bytes | None = None) -> Outcome:
    """What the program does with the words after IMAGE, with these files (None: no file) and this input."""
    params = params_in(words)
    if not is_usage(words):
        outcome = Outcome(2)
    elif params:  # `format` and `format2`. A file that is not there is first made, all zeros.
        right = image is None or len(image) == areas(params.slots)[2]
        status = 11 if not right else 10 if image and image[0] == MAGIC[0] else 0
        outcome = Outcome(status, image=image if status else layout({}, params), done=int(status == 0))
    elif image is None or words[0] == "mirror" and other is None:
        outcome = Outcome(12)
    else:
        try:
            outcome = on_image(words, image, source, other)
        except Refused as fault:
            outcome = Outcome(fault.args[0])
    outcome.image = image if outcome.image is None else outcome.image
    outcome.other = other if outcome.other is None else outcome.other
    return outcome


# The program, on files.
def opened(name: str, mode: str) -> BinaryIO:
    """The plain file of this name, open and locked."""
    if os.path.exists(name) and not os.path.isfile(name):
        raise OSError("not a plain file")
    file = open(name, mode)
    fcntl.flock(file, (fcntl.LOCK_SH if mode == "rb" else fcntl.LOCK_EX) | fcntl.LOCK_NB)
    return file


def main(arguments: list[str]) -> int:
    """Does what `hstore` does with these arguments, and gives the status. Faults other than 4 are left to Python."""
    name, *words = arguments or [""]
    if any("\ud800" <= letter <= "\udfff" for letter in "".join(arguments)) or not is_usage(words):
        return 2  # the first test finds an argument that is not UTF-8
    fresh = params_in(words) is not None and not os.path.exists(name)
    try:
        file = opened(name, "rb" if words[0] in ("check", "mirror") else "x+b" if fresh else "r+b")
        second = opened(words[1], "r+b") if words[0] == "mirror" else None
    except (OSError, ValueError):
        return 12
    image, other = None if fresh else file.read(), second.read() if second else None
    source = sys.stdin.buffer.read() if words[0] in ("run", "session", "load") else b""
    outcome = call(words, image, source, other)
    for stream, old, new in ((file, image, outcome.image), (second, other, outcome.other)):
        if stream and new != old:
            stream.seek(0)
            stream.write(new)
            stream.flush()
            os.fsync(stream.fileno())
    try:
        with open(1, "wb", closefd=False) as stream:
            stream.write(outcome.output)
    except OSError:
        return 4
    return outcome.status


if __name__ == "__main__":
    sys.exit(main(sys.argv[1:]))
