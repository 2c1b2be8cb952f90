#!/usr/bin/env python3
"""Writes the small files of the rows on objects of many sections, and prints the sums of the outputs that are big.

The formats are ELF with extended numbering (gABI) and COFF with 32-bit section numbers (winnt.h); how canonical files
are laid out stands in docs/FORMATS.md. No byte comes from objconv: the layouts are those of `layouts.py`.
"""
from layouts import FUNC, GLOBAL, LORESERVE, coff, elf
from made import fnv

# bytes of a file header of ELF64 (gABI, "ELF Header"), and of one of a big COFF object
E_SHNUM, EHDR64 = 60, 64
VERSION = 4
CODE, CODE_OF_16 = 0x60100020, 0x60500020
TEXT = (".text", 6, 16, b"\xe8\0\0\0\0\xc3", [(1, "foo", 2, -4)])
SYMBOLS = [("main", GLOBAL << 4 | FUNC, 1, 0, 0), ("foo", GLOBAL << 4, 0, 0, 0)]
CALL = elf(64, [TEXT], [], SYMBOLS, big=True)
# ELF of i386 has the addend in the field (psABI i386, "Relocation")
TEXT32 = (".text", 6, 16, b"\xe8\xfc\xff\xff\xff\xc3", [(1, "foo", 2)])
FUNCTION, FOO = ("main", 1, 0, 0x20), ("foo", 0, 0, 0)
# Mach-O and OMF do not say that `main` is a function
MAIN_ALONE = ("main", 1, 0, 0)


def call_coff(word, *symbols):
    """The call as a big COFF object of that word, with these symbols."""
    machine, kind = (0x8664, 4) if word == 64 else (0x14C, 20)
    return coff(machine, [(".text", CODE_OF_16, TEXT[3], [(1, "foo", kind)])], symbols, big=True)


CALL_COFF = call_coff(64, FUNCTION, FOO)


def with_bytes(file, *changes):
    """The file with other bytes: (place, what stood there, what is to stand there)."""
    out = bytearray(file)
    for at, old, new in changes:
        assert out[at:at + len(old)] == old and len(new) == len(old)
        out[at:at + len(old)] = new
    return bytes(out)


def shoff(file):
    return int.from_bytes(file[40:48], "little")


def header(file, k):
    """Where header k of an ELF64 file stands, and where its contents do."""
    at = shoff(file) + 64 * k
    return at, int.from_bytes(file[at + 24:at + 32], "little")


# headers: the null one, .text, .rela.text, .symtab (3), .symtab_shndx (4), .strtab, .shstrtab
SYMTAB, SHNDX = 3, 4
# symbols: the null one, that of section 1, main (2), foo
MAIN = header(CALL, SYMTAB)[1] + 2 * 24
MAIN_ENTRY = header(CALL, SHNDX)[1] + 2 * 4
TOLD = (MAIN + 6, b"\1\0", b"\xff\xff")
FILES = {
    "big_call.o": CALL,
    "big_call.obj": CALL_COFF,
    "big_call_from_mac64.obj": call_coff(64, MAIN_ALONE, FOO),
    "big_call_32.o": elf(32, [TEXT32], [], SYMBOLS, big=True),
    "big_call_32.obj": call_coff(32, FUNCTION, FOO),
    "big_call_from_mac32.obj": call_coff(32, MAIN_ALONE, FOO),
    # OMF names `foo` first
    "big_call_from_omf.obj": call_coff(32, FOO, MAIN_ALONE),
    # e_shoff is the end of the file
    "big_without_header_0.o": CALL[:header(CALL, 0)[0]],
    "big_of_no_header.o": with_bytes(CALL, (header(CALL, 0)[0] + 32, b"\7\0", b"\0\0")),
    "big_entry_of_8.o": with_bytes(CALL, (header(CALL, SHNDX)[0] + 56, b"\4", b"\x08")),
    "big_table_is_short.o": with_bytes(CALL, (header(CALL, SHNDX)[0] + 32, b"\x10", b"\x0c")),
    "big_table_of_strings.o": with_bytes(CALL, (header(CALL, SHNDX)[0] + 40, b"\3", b"\5")),
    # the table of numbers has another type, which nothing reads
    "big_without_table.o": with_bytes(CALL, TOLD, (header(CALL, SHNDX)[0] + 4, b"\x12", b"\x01")),
    "big_told.o": with_bytes(CALL, TOLD, (MAIN_ENTRY, b"\0", b"\1")),
    "big_told_past_the_end.o": with_bytes(CALL, TOLD, (MAIN_ENTRY, b"\0", b"\7")),
    "big_told_0.o": with_bytes(CALL, TOLD, (MAIN + 4, b"\x12", b"\x02"), (MAIN + 8, b"\0", b"\1"),
                               (header(CALL, SYMTAB)[0] + 44, b"\2", b"\3")),
    "big_version_1.obj": with_bytes(CALL_COFF, (VERSION, b"\2\0", b"\1\0")),
    "big_version_3.obj": with_bytes(CALL_COFF, (VERSION, b"\2\0", b"\3\0")),
}

COUNT = 70_000
NAMES = [("first", 1), ("low", LORESERVE - 1), ("high", LORESERVE), ("last", COUNT)]


def many_elf(word):
    """Sections of one byte; the last one calls the function in the first one."""
    plain = (".text", 6, 1, b"\xc3", [])
    call = b"\xe8\0\0\0\0" if word == 64 else b"\xe8\xfc\xff\xff\xff"
    last = (".text", 6, 1, call, [(1, "first", 2) + ((-4,) if word == 64 else ())])
    return elf(word, [plain] * (COUNT - 1) + [last], [], [(n, GLOBAL << 4 | FUNC, s, 0, 0) for n, s in NAMES], big=True)


def many_coff(word):
    machine, kind = (0x8664, 4) if word == 64 else (0x14C, 20)
    last = (".text", CODE, b"\xe8\0\0\0\0", [(1, "first", kind)])
    return coff(machine, [(".text", CODE, b"\xc3", [])] * (COUNT - 1) + [last], [(n, s, 0, 0x20) for n, s in NAMES], big=True)


def plain_elf():
    """Sections of one byte, and no symbols but their own."""
    return elf(64, [(".text", 6, 1, b"\xc3", [])] * COUNT, [], [], big=True)


if __name__ == "__main__":
    # the output of the row on a big COFF object, as it is stated
    assert CALL_COFF[:8] == bytes.fromhex("0000ffff02006486") and len(CALL_COFF) == 196
    for name, data in FILES.items():
        with open(name, "wb") as out:
            out.write(data)
    for word in (64, 32):
        for form, file in (("bigelf", many_elf(word)), ("bigcoff", many_coff(word))):
            print(f"{form}{word}: {len(file)} bytes with the sum {fnv(file):016x}, and begins {file[:8].hex(' ')}")
    print(f"plain bigelf64: {len(plain_elf())} bytes with the sum {fnv(plain_elf()):016x}")
