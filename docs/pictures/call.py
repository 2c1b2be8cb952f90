"""`call foo` in ELF and in COFF, byte by byte: the same five things, and how each is found from another."""
import os

from svg import PALE, Picture

ELF = "crates/objconv_main/data/a"
COFF = "crates/objconv_main/data/b"
# what has which bytes of the whole file: from, to, kind; all else is grey
ELF_PARTS = [(0x40, 0x46, "section"), (0x48, 0x50, "relocation"), (0x50, 0x90, "symbol"), (0x90, 0xBF, "name"),
             (0xE8, 0x110, "section"), (0x110, 0x138, "relocation"), (0x138, 0x160, "symbol"), (0x160, 0x1B0, "name")]
COFF_PARTS = [(0x14, 0x3C, "section"), (0x3C, 0x42, "section"), (0x42, 0x4C, "relocation"), (0x4C, 0x94, "symbol"),
              (0x94, 0x98, "name")]
S, R, Y, N = "section", "relocation", "symbol", "name"
# a block: heading, kind, and rows, each with its place, its runs of bytes by kind, and what they say
ELF_BLOCKS = [
    ("header of section 1", [
        (0xE8, [(4, N), (4, S)], "sh_name 5, sh_type PROGBITS"),
        (0xF0, [(8, S)], "sh_flags 6, sh_addr 0"),
        (0xF8, [(8, S)], "sh_offset 40, sh_size 6"),
        (0x100, [(8, S)], "sh_link 0, sh_info 0"),
        (0x108, [(8, S)], "sh_addralign 10, sh_entsize 0")]),
    ("header of its relocations, section 2", [
        (0x110, [(4, N), (4, R)], "sh_name 1, sh_type REL"),
        (0x118, [(8, R)], "sh_flags 40, sh_addr 0"),
        (0x120, [(8, R)], "sh_offset 48, sh_size 8"),
        (0x128, [(4, Y), (4, S)], "sh_link 3, sh_info 1"),
        (0x130, [(8, R)], "sh_addralign 4, sh_entsize 8")]),
    ("contents", [(0x40, [(1, S), (4, R), (1, S)], "call foo, field −4; ret")]),
    ("relocation", [
        (0x48, [(4, R)], "r_offset 1"),
        (0x4C, [(1, R), (3, Y)], "r_info: R_386_PC32, symbol 3")]),
    ("symbol 3", [
        (0x80, [(4, N), (4, Y)], "st_name 6, st_value 0"),
        (0x88, [(4, Y)], "st_size 0"),
        (0x8C, [(2, Y), (2, S)], "GLOBAL, st_other 0, UNDEF")]),
    ("name, at 6 of the string table", [(0x96, [(4, N)], "foo, and a NUL")]),
]
COFF_BLOCKS = [
    ("header of section 1", [
        (0x14, [(8, N)], "Name .text"),
        (0x1C, [(8, S)], "VirtualSize, VirtualAddress 0"),
        (0x24, [(4, S)], "SizeOfRawData 6"),
        (0x28, [(4, S)], "PointerToRawData 3c"),
        (0x2C, [(4, R)], "PointerToRelocations 42"),
        (0x30, [(4, S)], "PointerToLinenumbers 0"),
        (0x34, [(2, R)], "NumberOfRelocations 1"),
        (0x36, [(2, S)], "NumberOfLinenumbers 0"),
        (0x38, [(4, S)], "Characteristics 60500020")]),
    ("contents", [(0x3C, [(1, S), (4, R), (1, S)], "call foo, field 0; ret")]),
    ("relocation", [
        (0x42, [(4, R)], "VirtualAddress 1"),
        (0x46, [(4, Y)], "SymbolTableIndex 3"),
        (0x4A, [(2, R)], "Type IMAGE_REL_I386_REL32")]),
    ("symbol 3, with its name", [
        (0x82, [(8, N)], "Name foo"),
        (0x8A, [(4, Y), (2, S), (2, Y)], "Value, SectionNumber, Type 0"),
        (0x92, [(2, Y)], "EXTERNAL, no further entries")]),
    ("string table, for names of above 8 bytes", [(0x94, [(4, N)], "4 bytes, itself alone")]),
]
BELOW = [
    "Numbers are hexadecimal. A number that leads to another thing has that thing's colour; so do the bytes that are "
    "relocated.",
    "R_386_PC32 counts from the first byte of the field, IMAGE_REL_I386_REL32 from the byte after it: so −4 becomes 0.",
]
ROW, HEADING = 20, 25


def strip(picture, x, y, path, root, parts):
    """The whole file, a small cell for each byte."""
    with open(os.path.join(root, path), "rb") as file:
        size = len(file.read())
    kinds = ["other"] * size
    for begin, end, kind in parts:
        kinds[begin:end] = [kind] * (end - begin)
    for at, kind in enumerate(kinds):
        picture.box(x + at % 48 * 8.4, y + at // 48 * 8.4, 7.4, 7.4, kind, 0)


def rows(picture, x, y, path, root, block):
    """A block's rows, and where the next one begins."""
    with open(os.path.join(root, path), "rb") as file:
        contents = file.read()
    picture.text(x, y + 17, block[0], 12, bold=True)
    y += HEADING
    for at, runs, said in block[1]:
        kinds = [kind for count, kind in runs for _ in range(count)]
        picture.text(x, y + 13, f"{at:03x}", 11, True, colour=PALE)
        picture.begin(file=path, at=at)
        picture.bytes(x + 30, y, [(contents[at + k], kind) for k, kind in enumerate(kinds)])
        picture.end()
        picture.text(x + 194, y + 13, said, 11, True)
        y += ROW
    return y


def draw(root):
    picture = Picture(880, 720, "call foo in ELF and in COFF for i386, byte by byte")
    for x, title in ((20, "ELF for i386, 432 bytes"), (458, "COFF for i386, 152 bytes")):
        picture.text(x, 28, title, 14, bold=True)
    strip(picture, 20, 40, ELF, root, ELF_PARTS)
    strip(picture, 458, 40, COFF, root, COFF_PARTS)
    for k, kind in enumerate([S, R, Y, N, "other"]):
        picture.box(458 + k * 82, 97, 11, 11, kind)
        picture.text(474 + k * 82, 107, kind, 11)
    picture.text(458, 88, "Each square is a byte of the file.", 11)
    left = right = 122
    for block in ELF_BLOCKS[:2]:
        left = rows(picture, 20, left, ELF, root, block)
    right = rows(picture, 458, right, COFF, root, COFF_BLOCKS[0])
    for elf, coff in zip(ELF_BLOCKS[2:], COFF_BLOCKS[1:]):
        begin = max(left, right) + 6
        left = rows(picture, 20, begin, ELF, root, elf)
        right = rows(picture, 458, begin, COFF, root, coff)
    below = max(left, right) + 28
    for k, words in enumerate(BELOW):
        picture.text(20, below + 18 * k, words, 12)
    return picture
