"""The sections of an object file, read without objconv.

Of each format only what a placement asks: which sections are carried, in their order, with their alignments,
sizes, kinds and groups (docs/FORMATS.md). It takes objects that objconv takes, and judges nothing.
"""
import collections
import struct

Section = collections.namedtuple("Section", "number name align size kind group")
Object = collections.namedtuple("Object", "format word sections")

CODE, READ_ONLY, DATA, ZERO, INIT, FINI, DEBUG, EXCEPTION, NOTE = (
    "Code", "ReadOnly", "Data", "Zero", "Init", "Fini", "Debug", "Exception", "Note")


class Unreadable(Exception):
    """What is no object of a known format."""


def text_at(strings, at):
    """The text that ends at the first NUL from a place on."""
    return strings[at:strings.index(b"\0", at)].decode("latin-1")


# ELF (gABI)

ELF_CARRIED = {1, 7, 8, 14, 15, 0x70000001}
ElfHeader = collections.namedtuple("ElfHeader", "name type flags address offset size link info align entry")


def elf_headers(data, wide):
    """The section headers, their names and that table's strings."""
    start, = struct.unpack_from("<Q" if wide else "<I", data, 40 if wide else 32)
    size, count, names = struct.unpack_from("<HHH", data, 58 if wide else 46)
    form = "<IIQQQQIIQQ" if wide else "<10I"
    headers = [ElfHeader(*struct.unpack_from(form, data, start + size * k)) for k in range(count)]
    strings = data[headers[names].offset:headers[names].offset + headers[names].size]
    return headers, [text_at(strings, header.name) if header.type else "" for header in headers]


def elf_kind(name, header):
    """The kind of a section that is carried."""
    write, allocated, code = header.flags & 1, header.flags & 2, header.flags & 4
    rules = [
        (name.startswith((".eh_frame", ".gcc_except_table")) or header.type == 0x70000001, EXCEPTION),
        (not allocated and name.startswith((".debug", ".stab")), DEBUG),
        (not allocated or header.type == 7, NOTE), (header.type == 14, INIT), (header.type == 15, FINI),
        (header.type == 8, ZERO), (code, CODE), (write, DATA), (True, READ_ONLY)]
    return next(kind for holds, kind in rules if holds)


def elf_groups(data, headers, names, wide):
    """The key of each member of a one-definition group, by number."""
    keys = {}
    for header in headers:
        words = struct.unpack_from(f"<{header.size // 4}I", data, header.offset) if header.type == 17 else ()
        if words and words[0] == 1:
            table = headers[header.link]
            at = table.offset + header.info * (24 if wide else 16)
            name, = struct.unpack_from("<I", data, at)
            info, = struct.unpack_from("<B", data, at + (4 if wide else 12))
            section, = struct.unpack_from("<H", data, at + (6 if wide else 14))
            own = info & 15 == 3
            key = names[section] if own else text_at(data, headers[table.link].offset + name)
            for member in words[1:]:
                keys[member] = key
    return keys


def elf_object(data):
    """An ELF object."""
    wide = data[4] == 2
    headers, names = elf_headers(data, wide)
    keys = elf_groups(data, headers, names, wide)
    sections = [
        Section(k, names[k], max(header.align, 1), header.size, elf_kind(names[k], header), keys.get(k))
        for k, header in enumerate(headers) if k and header.type in ELF_CARRIED]
    return Object("elf64" if wide else "elf32", 64 if wide else 32, sections)


# COFF (PE/COFF)

CoffSymbol = collections.namedtuple("CoffSymbol", "name value section kind storage aux")


def coff_name(raw, strings):
    """The name in eight bytes, or the one that they lead to."""
    if raw[:4] == bytes(4) and raw[4:] != bytes(4):
        return text_at(strings, struct.unpack_from("<I", raw, 4)[0])
    return raw.rstrip(b"\0").decode("latin-1")


def coff_symbols(data, at, count, strings):
    """The symbols without their auxiliary entries, of which the first stands with its symbol."""
    k = 0
    while k < count:
        raw = data[at + 18 * k:at + 18 * k + 18]
        value, section, kind, storage, more = struct.unpack_from("<IhHBB", raw, 8)
        aux = data[at + 18 * k + 18:at + 18 * k + 36] if more else b""
        yield CoffSymbol(coff_name(raw[:8], strings), value, section, kind, storage, aux)
        k += 1 + more


def coff_kind(name, flags):
    """The kind of a section; none where it is not carried."""
    grouped = name in (".pdata", ".xdata") or name.startswith((".pdata$", ".xdata$", ".eh_frame"))
    rules = [
        (name.startswith(".debug"), DEBUG), (grouped, EXCEPTION), (flags & 0x200, NOTE), (flags & 0x800, None),
        (name.startswith(".CRT$XC"), INIT), (name.startswith(".CRT$XT"), FINI), (flags & 0x80, ZERO),
        (flags & 0x20000020, CODE), (flags & 0x80000000, DATA), (True, READ_ONLY)]
    return next(kind for holds, kind in rules if holds)


def coff_groups(flags, symbols):
    """The key of each section of which any copy is kept, or that is kept with such a one, by number."""
    own, leads = {}, {}
    for symbol in symbols:
        number = symbol.section
        if number > 0 and flags[number - 1] & 0x1000:
            if number not in own:
                own[number] = struct.unpack_from("<HB", symbol.aux, 12) if symbol.aux else (0, 0)
            elif number not in leads:
                leads[number] = symbol.name
    keys = {}
    for number, (other, selection) in own.items():
        leader = other if selection == 5 else number
        if leader in leads and own[leader][1] == 2:
            keys[number] = leads[leader]
    return keys


def coff_object(data):
    """A COFF object."""
    machine, count, _, table, entries, _, _ = struct.unpack_from("<HHIIIHH", data)
    strings = data[table + 18 * entries:] if table else b""
    headers = []
    for k in range(count):
        at = 20 + 40 * k
        raw = data[at:at + 8]
        name = text_at(strings, int(raw[1:].rstrip(b"\0"))) if raw[:1] == b"/" else coff_name(raw, strings)
        size, = struct.unpack_from("<I", data, at + 16)
        flags, = struct.unpack_from("<I", data, at + 36)
        headers.append((name, size, flags))
    keys = coff_groups([flags for _, _, flags in headers], list(coff_symbols(data, table, entries, strings)))
    sections = []
    for k, (name, size, flags) in enumerate(headers, 1):
        kind, bits = coff_kind(name, flags), flags >> 20 & 15
        if kind:
            sections.append(Section(k, name, 1 << bits - 1 if bits else 16, size, kind, keys.get(k)))
    return Object("coff64" if machine == 0x8664 else "coff32", 64 if machine == 0x8664 else 32, sections)


# Mach-O (Mach-O reference)

def mach_kind(segment, name, flags):
    """The kind of a section."""
    code = segment == "__TEXT" and flags & 0x80000400
    exception = segment == "__LD" or name in ("__eh_frame", "__gcc_except_tab")
    rules = [
        (segment == "__DWARF", DEBUG), (exception, EXCEPTION), (flags & 255 == 9, INIT), (flags & 255 == 10, FINI),
        (flags & 255 == 1, ZERO), (code, CODE), (segment == "__TEXT", READ_ONLY), (True, DATA)]
    return next(kind for holds, kind in rules if holds)


def mach_object(data):
    """A Mach-O object."""
    wide = data[0] == 0xCF
    count, = struct.unpack_from("<I", data, 16)
    at, sections = 32 if wide else 28, []
    for _ in range(count):
        command, length = struct.unpack_from("<II", data, at)
        if command == (0x19 if wide else 1):
            number, = struct.unpack_from("<I", data, at + (64 if wide else 48))
            for k in range(number):
                head = at + (72 + 80 * k if wide else 56 + 68 * k)
                name, segment = (data[head + x:head + x + 16].split(b"\0")[0].decode("latin-1") for x in (0, 16))
                size, = struct.unpack_from("<Q" if wide else "<I", data, head + (40 if wide else 36))
                align, _, _, flags = struct.unpack_from("<IIII", data, head + (52 if wide else 44))
                kind = mach_kind(segment, name, flags)
                sections.append(Section(k + 1, f"{segment},{name}", 1 << align, size, kind, None))
        at += length
    return Object("mac64" if wide else "mac32", 64 if wide else 32, sections)


# OMF (TIS OMF 1.1)

def omf_records(data):
    """The records: the type, and what it holds without its checksum."""
    at = 0
    while at < len(data):
        length, = struct.unpack_from("<H", data, at + 1)
        yield data[at], data[at + 3:at + 2 + length]
        if data[at] & 0xFE == 0x8A:
            return
        at += 3 + length


def omf_index(body, at):
    """An index, and what follows it."""
    return (body[at] & 127) << 8 | body[at + 1] if body[at] & 128 else body[at], at + (2 if body[at] & 128 else 1)


def omf_names(body):
    """The names of a list of them."""
    at = 0
    while at < len(body):
        yield body[at + 1:at + 1 + body[at]].decode("latin-1")
        at += 1 + body[at]


def omf_kind(cls, covered):
    """The kind of a segment of a class, of which data give some byte, or none."""
    rules = [(cls.endswith("CODE"), CODE), (cls.startswith("DEB"), DEBUG), (cls == "CONST", READ_ONLY),
             (cls == "BSS" and not covered, ZERO), (True, DATA)]
    return next(kind for holds, kind in rules if holds)


def omf_object(data):
    """An OMF module."""
    names, segments, covered = [""], [], set()
    for kind, body in omf_records(data):
        if kind & 0xFE in (0x96, 0xCA):
            names += omf_names(body)
        elif kind & 0xFE == 0x98:
            size, = struct.unpack_from("<I" if kind & 1 else "<H", body, 1)
            name, at = omf_index(body, 5 if kind & 1 else 3)
            size = (1 << 32 if kind & 1 else 1 << 16) if body[0] & 2 else size
            segments.append((names[name], names[omf_index(body, at)[0]], {1: 1, 2: 2, 3: 16, 4: 256, 5: 4}[body[0] >> 5], size))
        elif kind & 0xFE in (0xA0, 0xA2):
            number, at = omf_index(body, 0)
            if len(body) > at + (4 if kind & 1 else 2):
                covered.add(number)
    sections = [Section(k, name, align, size, omf_kind(cls, k in covered), None)
                for k, (name, cls, align, size) in enumerate(segments, 1)]
    return Object("omf", 32, sections)


def read_object(data):
    """The object in these bytes; `Unreadable` where they begin as no known format does."""
    if data[:4] == b"\x7fELF":
        return elf_object(data)
    if data[:4] in (b"\xce\xfa\xed\xfe", b"\xcf\xfa\xed\xfe"):
        return mach_object(data)
    if data[:2] in (b"\x4c\x01", b"\x64\x86"):
        return coff_object(data)
    if data[:1] == b"\x80":
        return omf_object(data)
    raise Unreadable("no object of a known format")


def kept(own, kind, words):
    """Whether a conversion with these words keeps a section of a kind; `own`: to the input's own format, which is not OMF."""
    if kind == DEBUG:
        return "--keep-debug" in words or own and "--strip-debug" not in words
    if kind == EXCEPTION:
        return "--keep-exceptions" in words or own and "--strip-exceptions" not in words
    return own or kind != NOTE


def align_in(form, align):
    """The alignment that a section gets in a format, which can say it."""
    return next(it for it in (1, 2, 4, 16, 256) if it >= align) if form == "omf" else align
