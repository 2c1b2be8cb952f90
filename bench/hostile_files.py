"""The files of bench/hostile: each asks for as much as a file of its size can."""
import array
import random
import struct

LIMIT = 67_108_864
MILLION = 1_000_000


def words(*columns):
    """Rows of words of 32 bits, by columns: a number for all rows, or one for each."""
    count = max(len(column) for column in columns if not isinstance(column, int))
    table = array.array("I", [0]) * (count * len(columns))
    for k, column in enumerate(columns):
        same = isinstance(column, int)
        table[k :: len(columns)] = array.array("I", [column]) * count if same else array.array("I", column)
    return table.tobytes()


def in_order(places, order):
    """The places ascending, descending or mixed."""
    places = list(places)
    if order == "descending":
        places.reverse()
    if order == "mixed":
        random.Random(1).shuffle(places)
    return places


# ELF of 32 bits (gABI): 52 bytes of file header, 40 of a section header, 16 of a symbol, 8 of a relocation

PROGBITS, SYMTAB, STRTAB, NOBITS, REL, GROUP = 1, 2, 3, 8, 9, 17


def elf32(bodies, headers, last=b"", count=None):
    """An object: bodies one behind the other, a header (name, type, flags, body or place, size, link, info, align, entry) each, and more headers.

    The names of sections stand in body 0, whose header is number 1.
    """
    places, at = [], 52
    for body in bodies:
        places.append(at)
        at += len(body)
    table = bytes(40)
    for name, kind, flags, body, size, link, info, align, entry in headers:
        size = len(bodies[body]) if size is None else size
        table += struct.pack("<10I", name, kind, flags, 0, places[body], size, link, info, align, entry)
    table += last(places) if last else b""
    count = len(table) // 40 if count is None else count
    if count >= 0xFF00:
        table = struct.pack("<10I", 0, 0, 0, 0, 0, count, 0, 0, 0, 0) + table[40:]
    head = b"\x7fELF\1\1\1" + bytes(9) + struct.pack("<HHIIIIIHHHHHH", 1, 3, 1, 0, 0, at, 0, 52, 0, 0, 40, count if count < 0xFF00 else 0, 1)
    return b"".join((head, *bodies, table))


def elf_symbols(names, text, info=0x10):
    """Symbols without a place whose names begin at these places of a text."""
    table = bytes(16) + words(names, 0, 0, [info] * len(names))
    first = 1 if info >= 0x10 else len(names) + 1
    shared = (1, STRTAB, 0, 0, None, 0, 0, 1, 0)
    return elf32([b"\0\0", table, text], [shared, (0, SYMTAB, 0, 1, None, 3, first, 4, 16), (0, STRTAB, 0, 2, None, 0, 0, 1, 0)])


def elf_tails(count, length):
    """So many symbols whose names begin at the first letters of one text of so many."""
    return elf_symbols(range(1, count + 1), b"\0" + b"a" * length + b"\0")


def elf_texts(count, tails, length, bind=0x10):
    """So many texts of letters that differ in one of three bytes, and so many names in each, none shorter than so much."""
    text, names = b"\0", []
    for k in range(count):
        names += range(len(text), len(text) + tails)
        text += b"a" * (tails + length // 3) + b"%c%c%c" % (98 + k % 24, 98 + k // 24 % 24, 98 + k // 576) + b"a" * (length - length // 3) + b"\0"
    return elf_symbols(names, text, bind)


def elf_locals(count, length):
    """So many absolute Locals, all with one name."""
    table = bytes(16) + words([1] * count, 0, 0, 0xFFF1 << 16)
    shared = (1, STRTAB, 0, 0, None, 0, 0, 1, 0)
    text = b"\0" + b"a" * length + b"\0"
    return elf32([b"\0\0", table, text], [shared, (0, SYMTAB, 0, 1, None, 3, count + 1, 4, 16), (0, STRTAB, 0, 2, None, 0, 0, 1, 0)])


def elf_alike(count):
    """So many symbols whose names of 47 bytes agree in their first eight, eight from the middle on and the last eight."""
    text = b"\0" + b"".join(b"a" * 16 + b"%07d" % k + b"a" * 24 + b"\0" for k in range(count))
    return elf_symbols(range(1, 48 * count + 1, 48), text)


def elf_section_tails(count, length):
    """So many sections whose names begin at the first letters of one text of so many."""
    names = b"\0" + b"a" * length + b"\0"
    return elf32([names], [(0, STRTAB, 0, 0, None, 0, 0, 1, 0)], lambda places: words(range(1, count + 1), PROGBITS, 2, 0, 0, 0, 0, 0, 1, 0))


def elf_sections(count):
    """So many sections without bytes."""
    return elf32([b"\0a\0"], [(0, STRTAB, 0, 0, None, 0, 0, 1, 0)], lambda places: words([1] * count, PROGBITS, 2, 0, 0, 0, 0, 0, 1, 0))


def elf_groups(count, step, text):
    """So many groups of one section each, whose keys begin at each such step of a text."""
    names = b"\0a\0"
    symbols = bytes(16) + words(range(1, step * count + 1, step), 0, 0, [0x10] * count)
    members = words([1] * count, range(4 + count, 4 + 2 * count))
    shared = [(0, STRTAB, 0, 0, None, 0, 0, 1, 0), (0, SYMTAB, 0, 1, None, 3, 1, 4, 16), (0, STRTAB, 0, 2, None, 0, 0, 1, 0)]

    def last(places):
        groups = words([1] * count, GROUP, 0, 0, range(places[3], places[3] + 8 * count, 8), 8, 2, range(1, count + 1), 4, 4)
        return groups + words([1] * count, PROGBITS, 0x202, 0, 0, 0, 0, 0, 1, 0)

    return elf32([names, symbols, text, members], shared, last)


def elf_shared_group(count, members):
    """So many groups that have the same many members."""
    names, table = b"\0a\0", words([1] + [3] * members)
    symbols = bytes(16) + words([1], 0, 0, [0x10])
    shared = [(0, STRTAB, 0, 0, None, 0, 0, 1, 0), (0, SYMTAB, 0, 1, None, 1, 1, 4, 16)]
    return elf32([names, symbols, table], shared, lambda places: words([1] * count, GROUP, 0, 0, places[2], len(table), 2, 1, 4, 4))


def elf_fields(count, order):
    """So many fields of a byte in a section whose bytes are those of its relocations."""
    symbols = bytes(16) + words([1], 0, 0, [0x10])
    table = words(in_order(range(count), order), 1 << 8 | 22)
    headers = [(0, STRTAB, 0, 0, None, 0, 0, 1, 0), (0, SYMTAB, 0, 1, None, 1, 1, 4, 16)]
    headers += [(1, PROGBITS, 3, 2, count, 0, 0, 1, 0), (0, REL, 0, 2, None, 2, 3, 4, 8)]
    return elf32([b"\0a\0", symbols, table], headers)


def elf_shared_relocs(count, entries, field):
    """So many sections, each with the same so many relocations: of no type, or fields of a byte."""
    symbols = bytes(16) + words([1], 0, 0, [0x10])
    table = words(range(entries), 1 << 8 | 22) if field else bytes(8 * entries)
    headers = [(0, STRTAB, 0, 0, None, 0, 0, 1, 0), (0, SYMTAB, 0, 1, None, 1, 1, 4, 16)]
    size = entries if field else 0

    def last(places):
        sections = words([1] * count, PROGBITS, 3, 0, places[2], size, 0, 0, 1, 0)
        return sections + words([0] * count, REL, 0, 0, places[2], 8 * entries, 2, range(3, 3 + count), 4, 8)

    return elf32([b"\0a\0", symbols, table], headers, last)


# COFF of 32 bits (PE/COFF): 20 bytes of file header, 40 of a section header, 10 of a relocation, 18 of a symbol


def coff32(sections, body, symbols, text):
    """An object: section headers made for the place of the body, the body, symbols and the text of the string table."""
    headers = sections(20 + len(sections(0)))
    symbols_at = 20 + len(headers) + len(body)
    head = struct.pack("<HHIIIHH", 0x14C, len(headers) // 40, 0, symbols_at, len(symbols) // 18, 0, 0)
    return b"".join((head, headers, body, symbols, struct.pack("<I", 4 + len(text)), text))


def coff_symbol(name, value=0, number=0, storage=2, aux=0):
    """A symbol, whose name is eight bytes or a place in the string table."""
    name = name.ljust(8, b"\0") if isinstance(name, bytes) else struct.pack("<II", 0, name)
    return name + struct.pack("<IHHBB", value, number, 0, storage, aux)


def coff_tails(count, length):
    """So many symbols whose names begin in one text."""
    symbols = b"".join([struct.pack("<IIIHHBB", 0, 4 + k, 0, 0, 0, 2, 0) for k in range(count)])
    return coff32(lambda at: b"", b"", symbols, b"a" * length + b"\0")


def coff_section_tails(count, length):
    """So many sections whose names begin in one text."""
    one = struct.pack("<8I", 0, 0, 0, 0, 0, 0, 0, 0x40300040)
    headers = b"".join([b"/%-7d" % (4 + k) for k in range(count)]).replace(b" ", b"\0")
    joined = b"".join([headers[8 * k : 8 * k + 8] + one for k in range(count)])
    return coff32(lambda at: joined, b"", b"", b"a" * length + b"\0")


def coff_weak(count):
    """So many pairs: a weak symbol, and the external one that stands for it."""
    pair = lambda k: coff_symbol(b"%07x" % k, storage=105, aux=1) + struct.pack("<II10x", 3 * k + 2, 3) + coff_symbol(b"x%06x" % k)
    return coff32(lambda at: b"", b"", b"".join([pair(k) for k in range(count)]), b"")


def coff_shared_relocs(count, entries):
    """So many sections, each with the same so many relocations of no type."""
    table = struct.pack("<IIH", entries + 1, 0, 0) + bytes(10 * entries)
    section = b".data\0\0\0" + struct.pack("<IIIIIIHHI", 0, 0, 4, 0, 0, 0, 0xFFFF, 0, 0xC1300040)
    return coff32(lambda at: (section[:20] + struct.pack("<II", at, at) + section[28:]) * count, table, b"", b"")


def coff_fields(count, order):
    """So many fields of four bytes in a section whose bytes are those of its relocations."""
    rows = b"".join([struct.pack("<IIH", at, 0, 6) for at in in_order(range(0, 4 * count, 4), order)])
    table = struct.pack("<IIH", count + 1, 0, 0) + rows
    section = lambda at: b".data\0\0\0" + struct.pack("<IIIIIIHHI", 0, 0, 4 * count, at, at, 0, 0xFFFF, 0, 0xC1300040)
    return coff32(section, table, coff_symbol(b"x"), b"")


def coff_followers(count):
    """So many sections of which a linker keeps one copy, each kept with the next."""
    section = b".data\0\0\0" + struct.pack("<IIIIIIHHI", 0, 0, 0, 0, 0, 0, 0, 0, 0xC0301040)
    one = lambda k: coff_symbol(b".data", 0, k, 3, 1) + struct.pack("<IHHIHBBH", 0, 0, 0, 0, k % count + 1, 5, 0, 0)
    return coff32(lambda at: section * count, b"", b"".join([one(k) for k in range(1, count + 1)]), b"")


# Mach-O of 32 bits (Mach-O reference): 28 bytes of file header, 68 of a section header, 12 of a symbol, 8 of a relocation


def mac32(count, sections, body, symbols, text, commands=b""):
    """An object: so many sections, made for the place of the body, the body, symbols, text, and more load commands."""
    at = 28 + 56 + 68 * count + 24 + len(commands)
    symoff = at + len(body)
    segment = struct.pack("<II16sIIIIIIII", 1, 56 + 68 * count, b"", 0, 0, at, 0, 7, 7, count, 0) + sections(at)
    symtab = struct.pack("<IIIIII", 2, 24, symoff, len(symbols) // 12, symoff + len(symbols), len(text))
    head = struct.pack("<IIIIIII", 0xFEEDFACE, 7, 3, 1, 2 + len(commands) // 8, at - 28, 0)
    return b"".join((head, segment, symtab, commands, body, symbols, text))


def mac_tails(count, length):
    """So many external symbols without a place whose names begin in one text."""
    return mac32(0, lambda at: b"", b"", words(range(1, count + 1), [1] * count, 0), b"\0" + b"a" * length + b"\0")


def mac_locals(count, length):
    """So many absolute Locals, all with one name."""
    return mac32(0, lambda at: b"", b"", words([1] * count, 2, 0), b"\0" + b"a" * length + b"\0")


def mac_commands(count):
    """So many load commands of eight bytes."""
    return mac32(0, lambda at: b"", b"", words([1], [1], 0), b"\0x\0\0", struct.pack("<II", 0x26, 8) * count)


def mac_shared_relocs(count, entries, size):
    """So many sections, each with the same so many relocations, fields of four bytes, as far as there are bytes."""
    table = words(range(0, 4 * entries, 4), [0x0C000000] * entries)
    one = lambda at, k: struct.pack("<16s16sIIIIIIIII", b"__data", b"__DATA", k * size, size, at, 0, at, entries, 0, 0, 0)
    return mac32(count, lambda at: b"".join([one(at, k) for k in range(count)]), table, words([1], [1], 0), b"\0x\0\0")


def mac_scattered(count, sections, order):
    """So many scattered addresses in one of many sections, each in another."""
    one = lambda at, k: struct.pack("<16s16sIIIIIIIII", b"__data", b"__DATA", 16 * k, 16, at, 0, 0, 0, 0, 0, 0)
    last = lambda at: struct.pack("<16s16sIIIIIIIII", b"__data", b"__DATA", 16 * sections, 4 * count, at, 0, at, count, 0, 0, 0)
    places = [0xA0000000 | at for at in in_order(range(0, 4 * min(count, 1 << 22), 4), order)]
    table = words(places, [k * 4099 % sections * 16 for k in range(len(places))])
    headers = lambda at: b"".join([one(at, k) for k in range(sections)]) + last(at)
    return mac32(sections + 1, headers, table, words([1], [1], 0), b"\0x\0\0")


# OMF: records with a checksum of 0, which says that there is none


def record(kind, contents):
    """A record."""
    return struct.pack("<BH", kind, len(contents) + 1) + contents + b"\0"


def text8(text):
    """A name with its length."""
    return bytes([len(text)]) + text


def module(size, middle, behind=b""):
    """A module with a segment of so many bytes, the group FLAT, an external, and these records."""
    names = text8(b"") + text8(b"FLAT") + text8(b"_DATA") + text8(b"DATA")
    head = record(0x80, text8(b"a")) + record(0x96, names) + record(0x99, struct.pack("<BIBBB", 0xA9, size, 3, 4, 1))
    return b"".join((head, record(0x9A, b"\2"), record(0x8C, text8(b"x") + b"\0"), middle, behind, record(0x8A, b"\0")))


def fixup(at):
    """The address of the first external, in the frame FLAT, at an offset of the data before."""
    return bytes([0xE4 | at >> 8, at & 0xFF, 0x16, 1, 1])


def block(count, contents):
    """A block of contents that stand there so many times."""
    return struct.pack("<IHB", count, 0, len(contents)) + contents


def omf_twice(count):
    """So many records of 65,000 bytes of blocks, all in one that is there twice, with 240 fields in each copy."""
    blocks = block(1, bytes(250)) * 4 + block(0, bytes(1)) * 7_996
    fixups = record(0x9D, b"".join(fixup(257 * k + 13 + at) for k in range(4) for at in range(0, 240, 4)))
    row = struct.pack("<IH", 2, 8_000) + blocks
    return module(2_000 * count, b"".join([record(0xA3, struct.pack("<BI", 1, 2_000 * k) + row) + fixups for k in range(count)]))


def omf_deep(count):
    """So many records of 65,000 bytes: rows that are there twice, six deep, with 32 fields in front of blocks that are not there."""
    inside = block(1, bytes(128)) + block(0, bytes(1)) * 7_990
    row = struct.pack("<IH", 2, 1) * 5 + struct.pack("<IH", 2, 7_991) + inside
    fixups = record(0x9D, b"".join([fixup(43 + at) for at in range(0, 128, 4)]))
    size = 128 << 6
    return module(size * count, b"".join([record(0xA3, struct.pack("<BI", 1, size * k) + row) + fixups for k in range(count)]))


def omf_nested(count):
    """So many records of 65,000 bytes of rows that are 32 deep and there twice, with a field at each place of the first."""
    row = struct.pack("<IH", 2, 1) + struct.pack("<IH", 1, 1) * 30 + block(1, bytes(4))
    rows = 65_000 // len(row)
    fixups = record(0x9D, b"".join([fixup(len(row) * k + len(row) - 4) for k in range(1024 // len(row))]))
    size = 8 * rows
    return module(size * count, b"".join([record(0xA3, struct.pack("<BI", 1, size * k) + row * rows) + fixups for k in range(count)]))


def omf_repeated(count):
    """Data of 1,000 bytes that are repeated so many times, with 250 fields in each copy: a small file."""
    rows = struct.pack("<IH", count, 4) + block(1, bytes(250)) * 4
    fixups = b"".join(fixup(6 + 257 * k + 7 + at) for k in range(4) for at in range(0, 248, 4) if 6 + 257 * k + 7 + at < 1024)
    return module(1_000 * count, record(0xA3, struct.pack("<BI", 1, 0) + rows), record(0x9D, fixups))


def omf_threads(count):
    """Frame and target by threads, so that a fixup has three bytes: so many behind each 1,000 bytes of data, and threads as many."""
    threads = record(0x9D, b"\x44\1" + b"\x08\1")
    fixups = b"".join(bytes([0xE4 | at >> 8, at & 0xFF, 0x8C]) for at in range(0, 1000, 4))
    one = lambda k: record(0xA1, struct.pack("<BI", 1, 1000 * k) + bytes(1000)) + threads + record(0x9D, fixups)
    return module(1_000 * count, b"".join([one(k) for k in range(count)]))


def omf_no_data(count):
    """So many fixups of data that are repeated 0 times."""
    data = record(0xA3, struct.pack("<BIIHB", 1, 0, 0, 0, 250) + bytes(250))
    return module(8, data + record(0x9D, fixup(8) * 13_000) * (count // 13_000))


def omf_externals(count):
    """So many externals with names of six bytes."""
    names = [b"\6%06x\0" % k for k in range(count)]
    return module(0, b"".join([record(0x8C, b"".join(names[k : k + 8_000])) for k in range(0, count, 8_000)]))


def omf_segments(count):
    """So many segments, all with one name, class and overlay of 255 bytes."""
    return module(0, record(0x96, text8(b"a" * 255)) + record(0x99, struct.pack("<BIBBB", 0xA9, 0, 5, 5, 5)) * count)


def omf_groups(count):
    """So many groups with the same 10,000 members."""
    return module(0, record(0x9A, b"\3" + b"\xff\1" * 10_000) * count)


def omf_public(count):
    """So many publics with names of six bytes."""
    names = [b"\6%06x\0\0\0\0\0" % k for k in range(count)]
    return module(0, b"".join([record(0x91, b"\0\1" + b"".join(names[k : k + 5_000])) for k in range(0, count, 5_000)]))


CASES = [
    ("ELF: 4,000 names in one text of 8 MB", ["elf32"], lambda: elf_tails(4_000, 8 * MILLION)),
    ("ELF: 60,000 sections named in one text of 7 MB", ["elf32"], lambda: elf_section_tails(60_000, 7 * MILLION + 600_000)),
    ("ELF: 2,000,000 names in one text of 33 MB", ["elf32", "coff32"], lambda: elf_tails(2 * MILLION, 33 * MILLION)),
    ("ELF: 46,000 names of 1 to 46,000 equal letters", ["elf32", "coff32"], lambda: elf_tails(46_000, 46_000)),
    ("ELF: 23,000 names of 1 to 23,000 equal letters", ["elf32", "coff32"], lambda: elf_tails(23_000, 23_000)),
    ("ELF: 900,000 names of 1,000 letters in 9,000 texts", ["elf32", "coff32"], lambda: elf_texts(9_000, 100, 1_000)),
    ("ELF: 230,000 names of 1,000 letters in 2,300 texts", ["elf32", "coff32"], lambda: elf_texts(2_300, 100, 1_000)),
    ("ELF: 230,000 weak names of 1,000 letters in 2,300 texts", ["elf32", "coff32"], lambda: elf_texts(2_300, 100, 1_000, 0x20)),
    ("ELF: 4,000,000 Locals with one name of 200 letters", ["elf32", "coff32"], lambda: elf_locals(4 * MILLION, 200)),
    ("ELF: 4,000,000 Locals with one name of 120 letters", ["elf32", "coff32"], lambda: elf_locals(4 * MILLION, 120)),
    ("ELF: 4,000,000 Locals with one name of 16 letters", ["elf32", "coff32"], lambda: elf_locals(4 * MILLION, 16)),
    ("ELF: 1,000,000 names that agree in three parts", ["elf32", "coff32"], lambda: elf_alike(MILLION)),
    ("ELF: 8,380,000 fields of a byte, ascending", ["elf32"], lambda: elf_fields(8_380_000, "ascending")),
    ("ELF: 8,380,000 fields of a byte, descending", ["elf32"], lambda: elf_fields(8_380_000, "descending")),
    ("ELF: 8,380,000 fields of a byte, mixed", ["elf32"], lambda: elf_fields(8_380_000, "mixed")),
    ("ELF: 65,000 sections", ["elf32", "omf"], lambda: elf_sections(65_000)),
    ("ELF: 1,670,000 sections", ["bigelf32", "bigcoff32"], lambda: elf_sections(1_670_000)),
    ("ELF: 570,000 groups", ["bigelf32", "bigcoff32"], lambda: elf_groups(570_000, 7, b"\0" + b"".join(b"%06x\0" % k for k in range(570_000)))),
    ("ELF: 30,000 groups with keys in one text", ["bigelf32"], lambda: elf_groups(30_000, 1, b"\0" + b"a" * 30_000 + b"\0")),
    ("ELF: 32,000 groups with the same 10,000,000 members", ["elf32"], lambda: elf_shared_group(32_000, 10 * MILLION)),
    ("ELF: 30,000 sections with the same 8,000,000 entries of no type", ["elf32"], lambda: elf_shared_relocs(30_000, 8 * MILLION - 400_000, False)),
    ("ELF: 8 sections with the same 8,380,000 fields of a byte", ["elf32"], lambda: elf_shared_relocs(8, 8_380_000, True)),
    ("ELF: sizes and counts of 2^32 - 1", ["elf32"], lambda: elf32([b"\0a\0", bytes(60 * MILLION)], [(0, STRTAB, 0, 0, None, 0, 0, 1, 0), (1, PROGBITS, 3, 1, 0xFFFFFFFF, 0, 0, 1, 0)], count=0xFFFFFFFF)),
    ("COFF: 3,000,000 names in one text of 12 MB", ["coff32", "elf32"], lambda: coff_tails(3 * MILLION, 12 * MILLION)),
    ("COFF: 46,000 names of 1 to 46,000 equal letters", ["coff32"], lambda: coff_tails(46_000, 46_000)),
    ("COFF: 65,000 sections named in one text of 64 MB", ["coff32"], lambda: coff_section_tails(65_000, 64 * MILLION)),
    ("COFF: 1,240,000 weak symbols, each with a fallback", ["coff32"], lambda: coff_weak(1_240_000)),
    ("COFF: 65,000 sections with the same 6,000,000 entries of no type", ["coff32"], lambda: coff_shared_relocs(65_000, 6 * MILLION)),
    ("COFF: 6,700,000 fields, mixed", ["coff32", "elf32"], lambda: coff_fields(6_700_000, "mixed")),
    ("COFF: 60,000 sections, each kept with the next", ["coff32"], lambda: coff_followers(60_000)),
    ("Mach-O: 4,000,000 names in one text of 19 MB", ["mac32", "elf32"], lambda: mac_tails(4 * MILLION, 19 * MILLION)),
    ("Mach-O: 5,500,000 Locals with one name of 120 letters", ["mac32", "coff32"], lambda: mac_locals(5_500_000, 120)),
    ("Mach-O: 46,000 names of 1 to 46,000 equal letters", ["mac32"], lambda: mac_tails(46_000, 46_000)),
    ("Mach-O: 8,380,000 load commands", ["mac32"], lambda: mac_commands(8_380_000)),
    ("Mach-O: 255 sections with the same 65,000 fields", ["mac32", "elf32"], lambda: mac_shared_relocs(255, 65_000, 260_000)),
    ("Mach-O: 255 sections, the last with 4,000,000 scattered fields, mixed", ["mac32", "elf32"], lambda: mac_scattered(4 * MILLION, 254, "mixed")),
    ("Mach-O: 250,000 sections, the last with 4,000,000 scattered fields", ["mac32", "bigelf32"], lambda: mac_scattered(4 * MILLION, 250_000, "mixed")),
    ("OMF: 900 records of blocks that are there twice", ["omf", "elf32"], lambda: omf_twice(900)),
    ("OMF: 1,000 records of rows six deep, each there twice", ["omf", "elf32"], lambda: omf_deep(1_000)),
    ("OMF: 900 records of rows that are 32 deep", ["omf", "elf32"], lambda: omf_nested(900)),
    ("OMF: data of 1,000 bytes repeated 67,000 times, 250 fields in each", ["omf", "elf32"], lambda: omf_repeated(67_000)),
    ("OMF: 9,400,000 fixups by threads", ["omf", "elf32"], lambda: omf_threads(37_600)),
    ("OMF: 13,000,000 fixups of data that are not there", ["omf"], lambda: omf_no_data(13 * MILLION)),
    ("OMF: 8,300,000 externals", ["omf", "elf32"], lambda: omf_externals(8_300_000)),
    ("OMF: 5,000,000 segments with one name of 255 letters", ["omf", "bigelf32"], lambda: omf_segments(5 * MILLION)),
    ("OMF: 3,300 groups with the same 10,000 members", ["omf"], lambda: omf_groups(3_300)),
    ("OMF: 5,500,000 publics", ["omf", "elf32"], lambda: omf_public(5_500_000)),
]
