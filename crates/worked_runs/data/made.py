#!/usr/bin/env python3
"""Writes what `--make=2` is to give of each format, and prints the lines and the sums of outputs that are big.

The object (docs/COMMANDS.md, "An object to try tools on") is laid out by `layouts.py`; no byte comes from objconv.
"""
from layouts import FUNC, GLOBAL, coff, coff32, elf, mach, omf

FORMATS = ("elf32", "elf64", "coff32", "coff64", "mac32", "mac64", "omf")
OFFSET, PRIME = 0xCBF29CE484222325, 0x100000001B3


def fnv(data):
    """FNV-1a of 64 bits."""
    total = OFFSET
    for byte in data:
        total = (total ^ byte) * PRIME % 2 ** 64
    return total


def outside(n):
    return min(n, 10)


def calls(n):
    """Of each field: its offset, the position of its symbol among the functions and the outside names."""
    for i in range(n):
        yield 16 * i + 1, (5 * i + 1) % n
        yield 16 * i + 6, n + i % 10


def code(n, number):
    """The bytes, with a number in each field by its offset and its symbol."""
    fields = [number(at, symbol) % 2 ** 32 for at, symbol in calls(n)]
    return b"".join(b"\xe8" + a.to_bytes(4, "little") + b"\xe8" + b.to_bytes(4, "little") + b"\x90" * 6
                    for a, b in zip(fields[::2], fields[1::2]))


def make_elf(n, word):
    relocs = [(at, 2 + symbol, 2) + ((-4,) if word == 64 else ()) for at, symbol in calls(n)]
    text = (".text", 6, 16, code(n, lambda at, symbol: 0 if word == 64 else -4), relocs)
    functions = [(f"f_{i}", GLOBAL << 4 | FUNC, 1, 16 * i, 0) for i in range(n)]
    return elf(word, [text], [], functions + [(f"x_{k}", GLOBAL << 4, 0, 0, 0) for k in range(outside(n))])


def make_coff(n, machine, kind):
    names = [f"f_{i}" for i in range(n)] + [f"x_{k}" for k in range(outside(n))]
    relocs = [(at, names[symbol], kind) for at, symbol in calls(n)]
    functions = [(f"f_{i}", 1, 16 * i, 0x20) for i in range(n)]
    text = (".text", 0x60500020, code(n, lambda at, symbol: 0), relocs)
    return coff(machine, [text], functions + [(f"x_{k}", 0, 0, 0) for k in range(outside(n))])


def make_mach(n, word, kind):
    """mac64 counts from the end of the field, and mac32 from the start of the file's addresses."""
    relocs = [(at, symbol | 1 << 24 | 2 << 25 | 1 << 27 | kind << 28) for at, symbol in calls(n)]
    text = ("__TEXT", "__text", 4, 0x80000400, code(n, lambda at, symbol: 0 if word == 64 else -4 - at), relocs)
    functions = [(f"f_{i}", 0xF, 1, 16 * i) for i in range(n)]
    return mach(word, [text], functions + [(f"x_{k}", 1, 0, 0) for k in range(outside(n))])


def make_omf(n):
    """A function is named by its segment, with its offset in the field; the field is counted from its end."""
    fixups = [(at, 0x14, 1) if symbol < n else (at, 0x16, symbol - n + 1) for at, symbol in calls(n)]
    text = ("_TEXT", "CODE", 16, code(n, lambda at, symbol: 16 * symbol if symbol < n else 0), fixups)
    return omf([text], [f"x_{k}" for k in range(outside(n))], [(f"f_{i}", 1, 16 * i) for i in range(n)])


def make(n, target):
    if target.startswith("elf"):
        return make_elf(n, int(target[3:]))
    if target.startswith("coff"):
        return make_coff(n, *{"coff32": (0x14C, 20), "coff64": (0x8664, 4)}[target])
    if target.startswith("mac"):
        return make_mach(n, int(target[3:]), {"mac32": 0, "mac64": 1}[target])
    return make_omf(n)


def addresses_in_coff(n):
    """A section that is nothing but addresses of the undefined `x`."""
    return coff32([(".data", 0xC0500040, bytes(4 * n), [(4 * i, "x", 6) for i in range(n)])], [("x", 0, 0, 0)])


def addresses_in_elf(n):
    relocs = [(4 * i, "x", 1) for i in range(n)]
    return elf(32, [(".data", 3, 16, bytes(4 * n), relocs)], [], [("x", GLOBAL << 4, 0, 0, 0)])


def told(n, data):
    """The line of `--make`."""
    return f"made {n} functions, {2 * n} relocations, {len(data)} bytes"


def summed(data):
    """What worked_runs prints of an output that is not stored."""
    return f"OUT of {len(data)} bytes with the sum {fnv(data):016x}"


if __name__ == "__main__":
    for target in FORMATS:
        with open("two." + target, "wb") as out:
            out.write(make(2, target))
    for n, target in [(1000, target) for target in FORMATS] + [(100_000, "coff32")]:
        data = make(n, target)
        print(f"--make={n} {target}: {summed(data)}, {told(n, data)}")
    print("70,000 relocations are written:", summed(addresses_in_coff(70_000)))
    print("65,536 relocations are read:", summed(addresses_in_elf(65_536)))
