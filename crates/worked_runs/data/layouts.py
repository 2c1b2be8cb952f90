#!/usr/bin/env python3
"""Writes the files of the rows on options, from the layouts of canonical files alone (docs/FORMATS.md).

What the edits make of each symbol is written here by hand; no byte comes from objconv. The builders of
all formats serve `refusals.py`, `made.py` and `big.py` too.
"""
from struct import pack

GLOBAL, WEAK, FUNC, SECTION = 1, 2, 2, 3
PROGBITS, SYMTAB, STRTAB, RELA, REL, SYMTAB_SHNDX = 1, 2, 3, 4, 9, 18
LORESERVE, XINDEX = 0xFF00, 0xFFFF


def table(names, head):
    """The bytes of a string table, and where each name stands: a name that ends another one stands in it."""
    names = list(dict.fromkeys(n for n in names if n))
    whole = [n for n in names if not any(m != n and m.endswith(n) for m in names)]
    places, out = {}, b"\0" * head
    for name in whole:
        places[name] = len(out)
        out += name.encode() + b"\0"
    for name in names:
        owner = next(m for m in whole if m.endswith(name))
        places[name] = places[owner] + len(owner) - len(name)
    places[""] = 0
    return out, places


def elf(word, sections, locals_, others, kinds={}, big=False):
    """sections: (name, flags, align, bytes, [(offset, symbol, type, addend)]); symbols: (name, info, section, value, size).

    A symbol of a relocation is a name or a number. What a REL entry adds stands in the bytes, so it has no addend here.
    `kinds` has the types of the sections that are not PROGBITS. A big file has extended numbering, however few its sections are
    (gABI, "ELF Header", "Section Header", "Symbol Table"); its symbols are in sections, undefined, or nothing else.
    """
    wide = word == 64
    unit, ehdr, shdr, sym, rel = (8, 64, 64, 24, 24) if wide else (4, 52, 40, 16, 8)
    prefix, kind_of_tables = (".rela", RELA) if wide else (".rel", REL)
    tables = [(i, s) for i, s in enumerate(sections, 1) if s[4]]
    names = [s[0] for s in sections] + [prefix + s[0] for _, s in tables]
    names += [".symtab"] + [".symtab_shndx"] * big + [".strtab", ".shstrtab"]
    symbols = [("", 0, 0, 0, 0)] + [("", SECTION, i, 0, 0) for i in range(1, len(sections) + 1)] + locals_ + others
    number = {s[0]: i for i, s in enumerate(symbols) if s[0]}
    strtab, at = table([s[0] for s in symbols], 1)
    shstrtab, head_at = table(names, 1)
    out, heads = bytearray(ehdr), [bytes(shdr)]

    def put(name, kind, flags, align, data, link=0, info=0, entry=0):
        out.extend(bytes(-len(out) % min(align, 16)))
        heads.append(pack("<2I4Q2I2Q" if wide else "<10I", head_at[name], kind, flags, 0, len(out), len(data),
                          link, info, align, entry))
        out.extend(data)

    def entry(offset, symbol, kind, addend=0):
        symbol = number.get(symbol, symbol)
        return pack("<2Qq", offset, symbol << 32 | kind, addend) if wide else pack("<2I", offset, symbol << 8 | kind)

    def line(name, info, section, value, size):
        section = XINDEX if big and section >= LORESERVE else section
        if wide:
            return pack("<I2BH2Q", at[name], info, 0, section, value, size)
        return pack("<3I2BH", at[name], value, size, info, 0, section)

    symtab = len(sections) + len(tables) + 1
    for name, flags, align, data, _ in sections:
        put(name, kinds.get(name, PROGBITS), flags, align, data)
    for i, (name, _, _, _, relocs) in tables:
        put(prefix + name, kind_of_tables, 0x40, unit, b"".join(entry(*r) for r in relocs), symtab, i, rel)
    put(".symtab", SYMTAB, 0, unit, b"".join(line(*s) for s in symbols), symtab + 1 + big, len(symbols) - len(others), sym)
    if big:
        put(".symtab_shndx", SYMTAB_SHNDX, 0, 4, b"".join(pack("<I", s[2] * (s[2] >= LORESERVE)) for s in symbols), symtab, 0, 4)
    put(".strtab", STRTAB, 0, 1, strtab)
    put(".shstrtab", STRTAB, 0, 1, shstrtab)
    out.extend(bytes(-len(out) % unit))
    count, last = len(heads), len(heads) - 1
    if big:
        told = last if last >= LORESERVE else 0
        heads[0] = pack("<2I4Q2I2Q" if wide else "<10I", 0, 0, 0, 0, 0, count, told, 0, 0, 0)
        count, last = 0, XINDEX if told else last
    out[0:ehdr] = (b"\x7fELF" + bytes([2 if wide else 1, 1, 1]) + bytes(9)
                   + pack("<2HI3QI6H" if wide else "<2H5I6H", 1, 62 if wide else 3, 1, 0, 0, len(out), 0,
                          ehdr, 0, 0, shdr, count, last))
    return bytes(out) + b"".join(heads)


def elf32(*parts, **kinds):
    return elf(32, *parts, **kinds)


OVERFLOW = 0x01000000


# winnt.h, "ANON_OBJECT_HEADER_BIGOBJ"
CLASS_ID = bytes.fromhex("c7a1bad1eebaa94baf20faf66aa4dcb8")


def coff(machine, sections, symbols, big=False):
    """sections: (name, characteristics, bytes, [(offset, symbol, type)]); symbols: (name, section, value, Type).

    A big file has the other file header, and section numbers of four bytes.
    """
    strings, at = table([s[0] for s in sections if len(s[0]) > 8] + [s[0] for s in symbols if len(s[0]) > 8], 4)
    number = {s[0]: 2 * len(sections) + i for i, s in enumerate(symbols)}
    place, heads, bodies, line = (56 if big else 20) + 40 * len(sections), [], [], "<IiH2B" if big else "<IhH2B"
    for name, flags, data, relocs in sections:
        label = name.encode() if len(name) <= 8 else b"/%d" % at[name]
        many = len(relocs) > 0xFFFF
        rels = pack("<2IH", len(relocs) + 1, 0, 0) if many else b""
        rels += b"".join(pack("<2IH", offset, number[symbol], kind) for offset, symbol, kind in relocs)
        table_at = place + len(data) if rels else 0
        heads += [label.ljust(8, b"\0"), pack("<6I2HI", 0, 0, len(data), place, table_at, 0, min(len(relocs), 0xFFFF), 0,
                                              flags | OVERFLOW * many)]
        bodies += [data, rels]
        place += len(data) + len(rels)

    def named(name):
        return name.encode().ljust(8, b"\0") if len(name) <= 8 else pack("<2I", 0, at[name])

    syms = []
    for i, (name, _, data, relocs) in enumerate(sections, 1):
        count = min(len(relocs), 0xFFFF)
        syms += [named(name), pack(line, 0, i, 0, 3, 1), pack("<I2HIH", len(data), count, 0, 0, 0), bytes(6 if big else 4)]
    for name, section, value, kind in symbols:
        syms += [named(name), pack(line, value, section, kind, 2, 0)]
    count = 2 * len(sections) + len(symbols)
    if big:
        head = pack("<4HI16s4x4x4x4x3I", 0, 0xFFFF, 2, machine, 0, CLASS_ID, len(sections), place, count)
    else:
        head = pack("<2H3I2H", machine, len(sections), 0, place, count, 0, 0)
    return b"".join([head, *heads, *bodies, *syms]) + pack("<I", len(strings)) + strings[4:]


def coff32(sections, symbols):
    return coff(0x14C, sections, symbols)


def mach(word, sections, symbols):
    """sections: (segment, name, exponent of the alignment, flags, bytes, [both words of an entry]);
    symbols: (name, n_type, n_sect, n_value), in their order: Locals, those with a place, those without."""
    wide = word == 64
    unit, header, segment, shdr = (8, 32, 72, 80) if wide else (4, 28, 56, 68)
    size_of_commands = segment + shdr * len(sections) + 24 + 80
    begin = header + size_of_commands
    contents, places = b"", []
    for _, _, exponent, _, data, _ in sections:
        contents += bytes(-len(contents) % (1 << exponent))
        places.append(len(contents))
        contents += data
    tables, at = b"", begin + len(contents)
    heads = b""
    for (seg, name, exponent, flags, data, relocs), addr in zip(sections, places):
        tables += bytes(-(at + len(tables)) % unit if relocs else 0)
        reloff = at + len(tables) if relocs else 0
        tables += b"".join(pack("<2I", *r) for r in relocs)
        heads += (pack("<16s16s", name.encode(), seg.encode()) + pack("<2Q" if wide else "<2I", addr, len(data))
                  + pack("<7I", begin + addr, exponent, reloff, len(relocs), flags, 0, 0) + bytes(4 * wide))
    strings, name_at = table([s[0] for s in symbols], 1)
    strings += bytes(-len(strings) % unit)
    lines = b"".join(pack("<I2BHQ" if wide else "<I2BHI", name_at[n], kind, section, 0, value)
                     for n, kind, section, value in symbols)
    symoff = at + len(tables)
    groups = [sum(k & 1 == 0 for _, k, _, _ in symbols), sum(k & 0xF == 0xF for _, k, _, _ in symbols),
              sum(k & 0xF == 1 for _, k, _, _ in symbols)]
    head = pack("<7I", 0xFEEDFACF if wide else 0xFEEDFACE, 0x01000007 if wide else 7, 3, 1, 3, size_of_commands, 0)
    command = (pack("<2I16s", 0x19 if wide else 1, segment + shdr * len(sections), b"")
               + pack("<4Q" if wide else "<4I", 0, len(contents), begin, len(contents)) + pack("<4I", 7, 7, len(sections), 0))
    symtab = pack("<6I", 2, 24, symoff, len(symbols), symoff + len(lines), len(strings))
    dysymtab = pack("<8I", 11, 80, 0, groups[0], groups[0], groups[1], groups[0] + groups[1], groups[2]) + bytes(48)
    return head + bytes(4 * wide) + command + heads + symtab + dysymtab + contents + tables + lines + strings


def record(kind, contents):
    """A record of OMF, with its checksum."""
    out = pack("<BH", kind, len(contents) + 1) + contents
    return out + bytes([-sum(out) % 256])


def short(name):
    return bytes([len(name)]) + name.encode()


def index(number):
    return bytes([number]) if number < 128 else bytes([0x80 | number >> 8, number & 0xFF])


ALIGN_CODES = {1: 1, 2: 2, 16: 3, 256: 4, 4: 5}


def omf(sections, undefined, globals_):
    """sections: (name, class, align, bytes, [(offset, fix byte, index of the target)]), each field with the frame FLAT;
    undefined: names; globals_: (name, index of the segment, offset)."""
    names = ["", "FLAT"]
    for s in sections:
        names += [n for n in s[:2] if n not in names]
    out = record(0x80, short("objconv")) + record(0x96, b"".join(short(n) for n in names))
    for name, klass, align, data, _ in sections:
        out += record(0x99, bytes([ALIGN_CODES[align] << 5 | 2 << 2 | 1]) + pack("<I", len(data))
                      + index(names.index(name) + 1) + index(names.index(klass) + 1) + index(1))
    out += record(0x9A, index(2))
    for name in undefined:
        out += record(0x8C, short(name) + b"\0")
    for name, segment, offset in globals_:
        out += record(0x91, index(1) + index(segment) + short(name) + pack("<I", offset) + b"\0")
    for i, (_, _, _, data, fixups) in enumerate(sections, 1):
        out += pieces(i, data, fixups)
    return out + record(0x8A, b"\0")


def pieces(segment, data, fixups):
    """The bytes of a segment in pieces of at most 1,024 that cut no field, each with its fixups."""
    out, begin = b"", 0
    while begin < len(data):
        end = min(begin + 1024, len(data))
        end = min([offset for offset, _, _ in fixups if offset < end < offset + 4], default=end)
        out += record(0xA1, index(segment) + pack("<I", begin) + data[begin:end])
        here = [(offset - begin, fix, target) for offset, fix, target in fixups if begin <= offset < end]
        if here:
            out += record(0x9D, b"".join(bytes([0xA4 | at >> 8, at & 0xFF, fix]) + index(1) + index(target)
                                         for at, fix, target in here))
        begin = end
    return out


CALL = bytes.fromhex("e8fcffffffc3")   # call foo; ret
TEXT = (".text", 6, 16, CALL)
DEBUG = (".debug_line", 0, 1, b"\x01\x02\x03")
EXCEPTION = (".eh_frame", 2, 4, bytes.fromhex("0800000000000000"))
MAIN, FOO = ("main", GLOBAL << 4 | FUNC, 1, 0, 6), ("foo", GLOBAL << 4, 0, 0, 0)


def call(main, foo, further=(), local=(), more=()):
    """The object of one call, with these symbols, and sections after .text."""
    return elf32([TEXT + ([(1, foo[0], 2)],), *[s + ([],) for s in more]], list(local), [*main, foo, *further])


def renamed(symbol, name):
    return (name, *symbol[1:])


def weak(symbol):
    return (symbol[0], WEAK << 4 | symbol[1] & 15, *symbol[2:])


FILES = {
    "call.o": call([MAIN], FOO),
    "call_renamed.o": call([renamed(MAIN, "start")], FOO),
    "call_by_prefix.o": call([renamed(MAIN, "pain")], FOO),
    "call_by_suffix.o": call([renamed(MAIN, "made")], FOO),
    "call_with_start.o": call([MAIN], FOO, [renamed(MAIN, "start")]),
    "call_with_pain.o": call([MAIN], FOO, [renamed(MAIN, "pain")]),
    "call_with_made.o": call([MAIN], FOO, [renamed(MAIN, "made")]),
    "call_of_a_weak.o": call([MAIN], weak(FOO)),
    "call_in_a_weak.o": call([weak(MAIN)], FOO),
    "call_in_a_local.o": call([], FOO, local=[("main", FUNC, 1, 0, 6)]),
    "call_debug.o": call([MAIN], FOO, more=[DEBUG]),
    "call_exception.o": call([MAIN], FOO, more=[EXCEPTION]),
    "call_debug_exception.o": call([MAIN], FOO, more=[DEBUG, EXCEPTION]),
    "call_underscores.obj": coff32(
        [(".text", 0x60500020, bytes.fromhex("e800000000c3"), [(1, "_foo", 20)])], [("_main", 1, 0, 0x20), ("_foo", 0, 0, 0)]),
    "call_exception.obj": coff32(
        [(".text", 0x60500020, bytes.fromhex("e800000000c3"), [(1, "foo", 20)]),
         (".eh_frame", 0x40300040, EXCEPTION[3], [])],
        [("main", 1, 0, 0x20), ("foo", 0, 0, 0)]),
}

if __name__ == "__main__":
    # without a size of main, these are the two files of the first stored conversion
    sizeless = ("main", GLOBAL << 4 | FUNC, 1, 0, 0)
    assert open("elf32_call_to_coff32.o", "rb").read() == call([sizeless], FOO)
    for name, data in FILES.items():
        with open(name, "wb") as out:
            out.write(data)
