"""Whether two objects link alike, as `objlink` links them.

`compare` says the first difference of an input and of what a conversion made of it: of sections, groups and
symbols, and then of what linking gives at placements (placements.py).
"""
import collections
import os
import random
import tempfile

import names
import placements
from objects import align_in, kept, read_object

Linked = collections.namedtuple("Linked", "overflow images exports")


class View:
    """An object: its sections, and its symbols as objconv lists them."""

    def __init__(self, objconv, path):
        self.path = path
        with open(path, "rb") as file:
            self.object = read_object(file.read())
        self.symbols = names.symbols_of(objconv, path)

    def nonlocals(self):
        """The symbols that other objects see."""
        return [it for it in self.symbols if it.letter != "L"]

    def keys(self):
        """The keys of its groups, in the order of their first members."""
        return list(dict.fromkeys(it.group for it in self.object.sections if it.group is not None))


class Differs(Exception):
    """The first difference."""


def same(left, right, what):
    """`Differs` where two things differ."""
    if left != right:
        left, right = ("none" if it is None else it for it in (left, right))
        raise Differs(f"{what}: {left} of the input, {right} of the output")


class Pair:
    """An input and its output: which sections, names and keys correspond, and that their outlines do."""

    def __init__(self, left, right, words):
        self.left, self.right = left, right
        source, target = left.object.format, right.object.format
        own = source == target and source != "omf"
        stays = [k for k, it in enumerate(left.object.sections) if kept(own, it.kind, words)]
        self.places = {place: k for k, place in enumerate(stays)}
        self.everything = {k: k for k in range(len(left.object.sections))}
        self.same_names = {it.name: it.name for it in left.nonlocals()}
        self.names = {it: names.renamed(words, source, target, it) for it in self.same_names}
        self.same_keys = {it: it for it in left.keys()}
        self.keys = {it: names.plain(self.names.get(names.printed(it), names.printed(it))) for it in self.same_keys}
        same(left.object.word, right.object.word, "words")
        self.aligns = self.outline(target)
        before, after = self.known(left, self.names), self.known(right, None)
        for name in sorted({**before, **after}):
            same(before.get(name), after.get(name), f"symbol {name}")

    def outline(self, target):
        """`Differs` where sections do; else the alignment of each that stays, by its position in the input."""
        lefts = [self.left.object.sections[it] for it in self.places]
        same(len(lefts), len(self.right.object.sections), "number of sections that stay")
        aligns = {}
        for place, left, right in zip(self.places, lefts, self.right.object.sections):
            what = f"section {right.number} ({right.name})"
            same(left.size, right.size, f"{what}, size")
            same(align_in(target, left.align), right.align, f"{what}, alignment")
            same(self.keys.get(left.group), right.group, f"{what}, group")
            aligns[place] = max(left.align, right.align)
        return aligns

    @staticmethod
    def known(view, to):
        """What each nonlocal name is, with the size of a common; names by a map, or as they are."""
        return {to[it.name] if to else it.name: f"C {it.value}" if it.letter == "C" else it.letter
                for it in view.nonlocals()}


def linked(objlink, path, text, folder):
    """What `objlink` gives of an object at a placement."""
    place = os.path.join(folder, "placement")
    with open(place, "w", encoding="latin-1") as file:
        file.write(text)
    overflow, images, exports, at = None, {}, {}, None
    for line in names.output([objlink, path, place]).splitlines():
        head, _, rest = line.partition(" ")
        if head == "overflow":
            overflow = tuple(map(int, rest.split(" ")))
        elif head == "section":
            at, _, size = (int(it, base) for it, base in zip(rest.split(" "), (10, 16, 10)))
            images[at] = [size, bytearray()]
        elif line == "zeros":
            images[at][1] = bytearray(images[at][0])
        elif head in ("export", "common"):
            exports[rest.split(" ", 1)[1]] = f"{head} {rest.split(' ', 1)[0]}"
        else:
            images[at][1] += bytes.fromhex(line)
    return Linked(overflow, images, exports)


def alike(pair, left, right, where):
    """`Differs` where linking gave different things; false where the input overflows in a section that was dropped."""
    to = {place + 1: own + 1 for place, own in pair.places.items()}
    if left.overflow and left.overflow[0] not in to:
        return False
    overflow = left.overflow and (to[left.overflow[0]], left.overflow[1])
    same(overflow, right.overflow, f"{where}: overflow (section, offset)")
    for place, (_, image) in left.images.items():
        if place in to:
            name = pair.right.object.sections[to[place] - 1].name
            what = f"{where}: section {to[place]} of the output ({name})"
            same(place in left.images, to[place] in right.images, f"{what} is linked")
            other = right.images[to[place]][1]
            if image != other:
                first = next(k for k in range(len(image)) if image[k] != other[k])
                raise Differs(f"{what}, byte {first}: {image[first]:02x} of the input, {other[first]:02x} of the output")
    exports = {pair.names[name]: value for name, value in left.exports.items()}
    for name in sorted({**exports, **right.exports}):
        same(exports.get(name), right.exports.get(name), f"{where}: {name}")
    return True


def draws(draw, has_groups, rounds):
    """Each manner with and without groups discarded, as often as there are rounds."""
    for _ in range(rounds):
        for manner in draw.manners:
            for discards in (False, True) if has_groups else (False,):
                yield manner, discards


def attempt(tools, pair, placement, where, folder):
    """Links both at a placement; false where they cannot be compared there."""
    everything = placements.text(pair.left, placement, pair.everything, pair.same_names, pair.same_keys)
    stays = placements.text(pair.right, placement, pair.places, pair.names, pair.keys)
    try:
        left = linked(tools.objlink, pair.left.path, everything, folder)
        right = linked(tools.objlink, pair.right.path, stays, folder)
        return alike(pair, left, right, where)
    except Differs as found:
        found.placements = (everything, stays)
        raise


def compare(tools, source, output, words=(), rounds=1, seed=1):
    """The number of placements at which two objects link alike, which are views; `Differs` at the first difference.

    `tools` has the programs `objconv` and `objlink`. Where the input overflows in a section that was
    dropped, another placement is drawn, ten times at most.
    """
    pair = Pair(source, output, words)
    draw = placements.Draw(pair, random.Random(seed))
    compared = 0
    with tempfile.TemporaryDirectory() as folder:
        for number, (manner, discards) in enumerate(draws(draw, bool(pair.left.keys()), rounds), 1):
            where = f"placement {number} ({manner}{', groups discarded' if discards else ''})"
            for _ in range(10):
                if attempt(tools, pair, draw.placement(manner, discards), where, folder):
                    compared += 1
                    break
    return compared
