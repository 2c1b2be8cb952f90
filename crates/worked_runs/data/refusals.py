#!/usr/bin/env python3
"""Writes the small inputs of the rows on refusals, from the layouts of the formats alone (docs/FORMATS.md).

What is refused of each stands in `stdout`, from the tables of docs/COMMANDS.md and docs/FORMATS.md.
"""
from layouts import DEBUG, FUNC, GLOBAL, TEXT, WEAK, elf, mach, omf

ABSOLUTE, COMMON, OBJECT = 0xFFF1, 0xFFF2, 1
DATA = (".data", 3, 4, bytes(8))


def with_symbols(word, *symbols):
    """One section of eight zeros, and these nonlocal symbols."""
    return elf(word, [DATA + ([],)], [], list(symbols))


def in_data(word, data, *relocs, local=()):
    """One section of data with these relocations of the undefined `x` and of a local name."""
    return elf(word, [(".data", 3, 4, data, list(relocs))], list(local), [("x", GLOBAL << 4, 0, 0, 0)])


def common(size, align):
    return with_symbols(32, ("c", GLOBAL << 4 | OBJECT, COMMON, align, size))


def with_debug(*symbols, relocs=()):
    """Code and a debug section, of number 1 and 2, which nonlocal symbols follow."""
    return elf(32, [TEXT + (list(relocs),), DEBUG + ([],)], [], list(symbols))


# a difference of the second and the third section, by an entry LOCAL_SECTDIFF and its PAIR, of which the third is empty
EMPTY_END = mach(32, [
    ("__DATA", "__data", 2, 0, (8 - 16).to_bytes(4, "little", signed=True) + bytes(4), [(0xA4000000, 8), (0xA1000000, 16)]),
    ("__DATA", "__part", 2, 0, bytes(4), []),
    ("__DATA", "__none", 4, 0, b"", [])], [])

# eight bytes: the undefined `x` less the global `base`, by an entry SUBTRACTOR and the UNSIGNED after it
PINNED = mach(64, [("__DATA", "__data", 3, 0, bytes(8), [(0, 0 | 3 << 25 | 1 << 27 | 5 << 28), (0, 1 | 3 << 25 | 1 << 27)])],
              [("base", 0xF, 1, 0), ("x", 1, 0, 0)])



def with_number(file, at, number):
    """The file with another number of four bytes at a place."""
    return file[:at] + number.to_bytes(4, "little") + file[at + 4:]


# a call of the undefined `foo`: R_386_PC32; and X86_64_RELOC_BRANCH
CALL_ELF = elf(32, [TEXT + ([(1, "foo", 2)],)], [], [("foo", GLOBAL << 4, 0, 0, 0)])
CALL_MACH = mach(64, [("__TEXT", "__text", 4, 0x80000400, b"\xe8\0\0\0\0\xc3", [(1, 0 | 1 << 24 | 2 << 25 | 1 << 27 | 2 << 28)])],
                 [("_foo", 1, 0, 0)])
# sh_size of section header 2, the relocations (gABI, "Section Header"); nreloc of the first section_64 (Mach-O reference)
SH_SIZE = int.from_bytes(CALL_ELF[32:36], "little") + 2 * 40 + 20
NRELOC = 32 + 72 + 60

FILES = {
    "table_of_2_gib.o": with_number(CALL_ELF, SH_SIZE, 0x7FFFFFF8),
    "relocations_past_the_end.mac.o": with_number(CALL_MACH, NRELOC, 0xFFFFFFFF),
    "aligned_to_65536.o": elf(32, [(".data", 3, 65536, bytes(8), [])], [], []),
    "sections_256.o": elf(32, [(f".d{i}", 3, 1, b"", []) for i in range(256)], [], []),
    "init_array.o": elf(32, [(".init_array", 3, 4, bytes(4), [])], [], [], kinds={".init_array": 14}),
    "name_of_256.o": with_symbols(32, ("n" * 256, GLOBAL << 4, 1, 0, 0)),
    "name_with_nul.obj": omf([("_TEXT", "CODE", 16, b"\xc3", [])], [], [("a\0b", 1, 0)]),
    "debug_segment.obj": omf([("_TEXT", "CODE", 16, b"\xc3", []), ("$$SYMBOLS", "DEBSYM", 1, b"\1", [])], [], []),
    "absolute.o": with_symbols(32, ("a", GLOBAL << 4, ABSOLUTE, 7, 0)),
    "address_of_absolute.o": elf(32, [DATA + ([(4, "a", 1)],)], [], [("a", GLOBAL << 4, ABSOLUTE, 7, 0)]),
    "absolute_of_33_bits.o": with_symbols(64, ("a", GLOBAL << 4, ABSOLUTE, 1 << 32, 0)),
    "common_of_0.o": common(0, 4),
    "common_to_65536.o": common(65536, 65536),
    "weak.o": with_symbols(32, ("w", WEAK << 4 | FUNC, 1, 0, 0)),
    "empty_end.mac.o": EMPTY_END,
    "pinned.mac.o": PINNED,
    # the local name is 200 bytes from the start, and the field, of type R_386_8, has one
    "byte_to_200.o": in_data(32, bytes(256), (3, "far", 22), local=[("far", OBJECT, 1, 200, 0)]),
    # R_X86_64_PC32 and R_X86_64_32 with what only a field of its own holds
    "addend_of_pc32.o": in_data(64, bytes(8), (0, "x", 2, (1 << 31) - 4)),
    "addend_of_32.o": in_data(64, bytes(8), (4, "x", 10, 1 << 31)),
    "symbol_in_debug.o": with_debug(("main", GLOBAL << 4 | FUNC, 1, 0, 0), ("line", GLOBAL << 4, 2, 1, 0)),
    # R_386_PC32 of the symbol that stands for section 2
    "call_of_debug.o": with_debug(relocs=[(1, 2, 2)]),
}

if __name__ == "__main__":
    for name, data in FILES.items():
        with open(name, "wb") as out:
            out.write(data)
