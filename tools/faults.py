"""Faults of five kinds, planted in an object: an addend, a lost relocation, a type, a symbol's value, an alignment.

Each function takes the bytes of an object that objconv wrote and gives changed bytes, or none where it finds no place.
What is changed is a relocation of code (the last, in OMF the first), the first symbol that has room, the largest
alignment.
"""
import struct

from objects import elf_headers, omf_index, read_object

KINDS = ("addend", "relocation", "type", "value", "alignment")


def patched(data, at, form, number):
    """The bytes with a number at a place."""
    size = struct.calcsize(form)
    return data[:at] + struct.pack(form, number % (1 << 8 * size)) + data[at + size:]


def added(data, at, form, number):
    """The bytes with a number at a place made larger."""
    return patched(data, at, form, struct.unpack_from(form, data, at)[0] + number)


# ELF

def elf_relocation(data, wide):
    """Of the last relocation of code: the place of its entry, and that of its field."""
    headers, _ = elf_headers(data, wide)
    table = next(it for it in headers if it.type in (4, 9) and headers[it.info].flags & 4)
    entry = table.offset + table.size - table.entry
    offset, = struct.unpack_from("<Q" if wide else "<I", data, entry)
    return entry, headers[table.info].offset + offset


def elf_fault(data, kind):
    """An ELF object with a fault."""
    wide = data[4] == 2
    entry, field = elf_relocation(data, wide)
    if kind == "addend":
        return added(data, entry + 16, "<Q", 4) if wide else added(data, field, "<I", 4)
    if kind == "relocation":
        return patched(data, entry + 8, "<I", 0) if wide else patched(data, entry + 4, "<I", 0)
    if kind == "type":
        old, = struct.unpack_from("<B", data, entry + (8 if wide else 4))
        new = (10 if old in (2, 4) else 2) if wide else (1 if old in (2, 4) else 2)
        return patched(data, entry + (8 if wide else 4), "<B", new)
    headers, _ = elf_headers(data, wide)
    if kind == "alignment":
        number = max(range(len(headers)), key=lambda it: headers[it].align if headers[it].type == 1 else 0)
        start, = struct.unpack_from("<Q" if wide else "<I", data, 40 if wide else 32)
        return patched(data, start + (64 * number + 48 if wide else 40 * number + 32), "<I", 1)
    table = next(it for it in headers if it.type == 2)
    step, value, section = (24, 8, 6) if wide else (16, 4, 14)
    for at in range(table.offset + step * table.info, table.offset + table.size, step):
        place, = struct.unpack_from("<I", data, at + value)
        number, = struct.unpack_from("<H", data, at + section)
        if 0 < number < 0xff00 and place + 4 <= headers[number].size:
            return added(data, at + value, "<I", 4)
    return None


# COFF

def coff_headers(data):
    """The places of the section headers."""
    return [20 + 40 * k for k in range(struct.unpack_from("<H", data, 2)[0])]


def coff_fault(data, kind):
    """A COFF object with a fault."""
    heads, wide = coff_headers(data), data[:2] == b"\x64\x86"
    code = next(it for it in heads if struct.unpack_from("<H", data, it + 32)[0])
    raw, entry, _, count = struct.unpack_from("<IIIH", data, code + 20)
    entry += 10 * (count - 1)
    if kind == "addend":
        return added(data, raw + struct.unpack_from("<I", data, entry)[0], "<I", 4)
    if kind == "relocation":
        return patched(data, entry + 8, "<H", 0)
    if kind == "type":
        old, = struct.unpack_from("<H", data, entry + 8)
        return patched(data, entry + 8, "<H", (2 if old == 4 else 4) if wide else (6 if old == 0x14 else 0x14))
    if kind == "alignment":
        most = max(heads, key=lambda it: data[it + 38] >> 4 if not struct.unpack_from("<I", data, it + 36)[0] & 0x80 else 0)
        return patched(data, most + 38, "<B", data[most + 38] & 15 | 16)
    table, count = struct.unpack_from("<II", data, 8)
    at = table
    while at < table + 18 * count:
        value, section = struct.unpack_from("<Ih", data, at + 8)
        if data[at + 16] == 2 and section > 0 and value + 4 <= struct.unpack_from("<I", data, heads[section - 1] + 16)[0]:
            return added(data, at + 8, "<I", 4)
        at += 18 * (1 + data[at + 17])
    return None


# Mach-O

def mach_sections(data, wide):
    """The places of the section headers, and that of the command for symbols."""
    at, heads, symbols = 32 if wide else 28, [], None
    for _ in range(struct.unpack_from("<I", data, 16)[0]):
        command, length = struct.unpack_from("<II", data, at)
        if command == (0x19 if wide else 1):
            count, = struct.unpack_from("<I", data, at + (64 if wide else 48))
            heads = [at + (72 + 80 * k if wide else 56 + 68 * k) for k in range(count)]
        elif command == 2:
            symbols = at
        at += length
    return heads, symbols


def mach_fault(data, kind):
    """A Mach-O object with a fault."""
    wide = data[0] == 0xCF
    heads, symbols = mach_sections(data, wide)
    rest = 48 if wide else 40
    code = next(it for it in heads if struct.unpack_from("<I", data, it + rest + 12)[0])
    raw, _, table, count = struct.unpack_from("<IIII", data, code + rest)
    table += 8 * (count - 1)
    where, word = struct.unpack_from("<II", data, table)
    if kind == "addend":
        return added(data, raw + (where & 0xffffff), "<I", 4)
    if kind == "relocation":
        return patched(data, code + rest + 12, "<I", count - 1)
    if kind == "type":
        return patched(data, table + 4, "<I", word & 0x0effffff if wide else word ^ 1 << 24)
    if kind == "alignment":
        most = max(heads, key=lambda it: struct.unpack_from("<I", data, it + rest + 4)[0] if data[it + rest + 16] != 1 else 0)
        return patched(data, most + rest + 4, "<I", 0)
    table, count = struct.unpack_from("<II", data, symbols + 8)
    step, form = (16, "<Q") if wide else (12, "<I")
    for at in range(table, table + step * count, step):
        head = heads[data[at + 5] - 1] if data[at + 4] & 15 == 15 else None
        if head is not None:
            begin, size = struct.unpack_from("<QQ" if wide else "<II", data, head + 32)
            if struct.unpack_from(form, data, at + 8)[0] + 4 <= begin + size:
                return added(data, at + 8, form, 4)
    return None


# OMF

def omf_places(data):
    """The records: the place, the type, the length of what it holds."""
    at = 0
    while at < len(data):
        length, = struct.unpack_from("<H", data, at + 1)
        yield at, data[at], length - 1
        at += 3 + length


def omf_patched(data, at, place, form, number):
    """The bytes with a number in a record, whose checksum is none then."""
    length, = struct.unpack_from("<H", data, at + 1)
    return patched(patched(data, place, form, number), at + 2 + length, "<B", 0)


def omf_fault(data, kind):
    """An OMF module with a fault."""
    records = list(omf_places(data))
    fixups = next(k for k, it in enumerate(records) if it[1] & 0xFE == 0x9C)
    at, _, length = records[fixups]
    if kind == "relocation":
        return data[:at] + data[at + 4 + length:]
    if kind == "type":
        return omf_patched(data, at, at + 3, "<B", data[at + 3] ^ 0x40)
    if kind == "addend":
        place, which, _ = records[fixups - 1]
        _, body = omf_index(data, place + 3)
        field = body + (4 if which & 1 else 2) + ((data[at + 3] & 3) << 8 | data[at + 4])
        return omf_patched(data, place, field, "<I", struct.unpack_from("<I", data, field)[0] + 4)
    if kind == "alignment":
        place = max((it[0] for it in records if it[1] & 0xFE == 0x98), key=lambda it: {5: 2.5}.get(data[it + 3] >> 5, data[it + 3] >> 5))
        return omf_patched(data, place, place + 3, "<B", data[place + 3] & 31 | 32)
    place, which, _ = next(it for it in records if it[1] & 0xFE == 0x90)
    _, body = omf_index(data, omf_index(data, place + 3)[1])
    field, form = body + 1 + data[body], "<I" if which & 1 else "<H"
    return omf_patched(data, place, field, form, struct.unpack_from(form, data, field)[0] + 4)


def planted(data, kind):
    """An object with a fault of a kind."""
    form = read_object(data).format
    return (elf_fault if "elf" in form else coff_fault if "coff" in form else mach_fault if "mac" in form else omf_fault)(data, kind)
