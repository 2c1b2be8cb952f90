"""Placements for two objects that are to link alike, and the texts that `objlink` takes of them.

A placement gives each section an address, a home and a home number, discards groups, and gives names outside
addresses and slots (docs/LINKING.md). Sections that the conversion dropped lie where the first code lies, so
that what refers from them to code is near.
"""
import collections

from objects import CODE

Site = collections.namedtuple("Site", "address home number")
Placement = collections.namedtuple("Placement", "manner image got sites dropped names")

ANY_ALIGN = 1 << 20


def up(number, align):
    """The least multiple that is not below a number."""
    return -(-number // align) * align


class Draw:
    """Draws placements for a pair of objects: how addresses lie is the manner, one of `manners`.

    - near: all close to each other, below 2^31, so that every field fits;
    - far: all close to each other, anywhere;
    - border: all around 2^31 or 2^32, and names 2^31 before or after a section, give or take a few;
    - wild: anywhere.
    """

    def __init__(self, pair, random):
        self.pair, self.random = pair, random
        self.word = pair.left.object.word
        self.manners = ("near", "far", "border", "wild") if self.word == 64 else ("near", "border", "wild")
        self.bytes = sum(up(it.size, 1 << 12) for it in pair.left.object.sections) + (1 << 16)

    def base(self, manner):
        """Where the sections begin."""
        top = 1 << self.word
        if manner == "far":
            return self.random.randrange(1 << 32, top - self.bytes - (1 << 33))
        if manner == "border":
            border = self.random.choice((1 << 31, 1 << 32))
            most = min(border + self.bytes, top) - 2 * self.bytes
            return max(0, most + self.random.randrange(self.bytes))
        return self.random.randrange(1 << 12, max((1 << 31) - 4 * self.bytes, 1 << 13))

    def address(self, align, size, at, manner):
        """An address for a section, `at` or later, or anywhere."""
        if manner == "wild":
            return self.random.randrange(((1 << self.word) - size) // align + 1) * align
        found = up(at + self.random.choice((0, 0, 1, 5, 64, 4000)), align)
        return found if found + size <= 1 << self.word else up(self.random.randrange(1 << 12), align)

    def sites(self, manner):
        """A site for each section of the left object, by its position."""
        at, found = self.base(manner), {}
        for place, align in self.pair.aligns.items():
            section = self.pair.left.object.sections[place]
            address = self.address(align, section.size, at, manner)
            found[place] = Site(address, self.random.randrange(address + 1), self.random.randrange(1, 99))
            at = address + section.size
        code = [it for it in found if self.pair.left.object.sections[it].kind == CODE]
        near = found[code[0]].address if code else at
        for place, section in enumerate(self.pair.left.object.sections):
            if place not in found:
                address = near // section.align * section.align
                address = address if address + section.size <= 1 << self.word else 0
                found[place] = Site(address, 0, 1)
        return found

    def outside(self, sites, manner):
        """A number for an address outside."""
        top = 1 << self.word
        site = self.random.choice(list(sites.values())).address if sites else 0
        if manner == "wild":
            return self.random.randrange(top)
        if manner == "border":
            return (site + self.random.choice((0, 1 << 31, -1 << 31)) + self.random.randrange(-300, 300)) % top
        return (site + self.random.randrange(-4000, 1 << 16)) % top

    def name(self, symbol, lost, sites, manner):
        """The site and the slot of a nonlocal name; a name that may have no site has one at times."""
        slot = self.outside(sites, manner)
        needs = symbol.letter in "UC" or lost
        if not needs and (symbol.letter == "G" or self.random.random() < 0.5):
            return None, slot
        address = self.outside(sites, manner)
        if symbol.letter == "C":
            address = address // ANY_ALIGN * ANY_ALIGN
        return Site(address, self.random.randrange(address + 1), self.random.randrange(1, 99)), slot

    def placement(self, manner, discards):
        """A placement; where groups are discarded, each with an even chance."""
        sites = self.sites(manner)
        dropped = {key for key in self.pair.left.keys() if discards and self.random.random() < 0.5}
        gone = {str(it.number) for it in self.pair.left.object.sections if it.group in dropped}
        names = {it.name: self.name(it, it.section in gone, sites, manner) for it in self.pair.left.nonlocals()}
        return Placement(manner, self.outside(sites, "near"), self.outside(sites, manner), sites, dropped, names)


def text(view, placement, places, names, keys):
    """The text of a placement for one object.

    `places` leads from positions of the left object to its own, `names` and `keys` from names and keys.
    """
    lines = [f"image {placement.image:x}", f"got {placement.got:x}"]
    for left, own in places.items():
        lines.append(f"section {own + 1} " + " ".join(f"{it:x}" for it in placement.sites[left]))
    own_keys = view.keys()
    lines += [f"drop {own_keys.index(keys[key]) + 1}" for key in sorted(placement.dropped) if keys[key] in own_keys]
    for name, (site, slot) in placement.names.items():
        where = " ".join(f"{it:x}" for it in site) if site else None
        lines.append(f"name {where} {slot:x} {names[name]}" if where else f"slot {slot:x} {names[name]}")
    return "\n".join(lines) + "\n"
