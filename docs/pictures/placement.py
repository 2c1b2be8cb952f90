"""One object at two placements: where its section and the outside name lie, S, A and P, and what is linked."""
import os

from svg import PALE, Picture

OBJECT, CONVERTED = "crates/objlink/data/a", "crates/objconv_main/data/b"
# where the contents of the one section stand in each of the two files
CONTENTS_ELF, CONTENTS_COFF, SIZE = 0x40, 0x3C, 6
# of each placement: address of the section, address of foo, and the start of the section of the image in which foo lies
PLACEMENTS = [(0x1000, 0x2000, 0x2000), (0x401000, 0x400800, 0x400000)]
CELL = 30


def bytes_of(root, path, at):
    with open(os.path.join(root, path), "rb") as file:
        return list(file.read()[at:at + SIZE])


def colours(contents):
    """The call, its field and the return, each byte with its kind."""
    return [(byte, "relocation" if 1 <= k < 5 else "section") for k, byte in enumerate(contents)]


def signed(contents):
    number = int.from_bytes(bytes(contents[1:5]), "little")
    return number - 2**32 if number >= 2**31 else number


def hexed(number):
    return f"−{-number:x}" if number < 0 else f"{number:x}"


def scene(picture, top, section, foo, contents, linked):
    """The two on a line of addresses, the lower one on the left, and the way from the end of the field to foo."""
    left, right = (190, 640) if section < foo else (520, 120)
    line = top + 68
    picture.path([(20, line), (860, line)], PALE, 1, False)
    picture.text(left - 8, line - 8, "section 1", 12, anchor="end", bold=True)
    picture.bytes(left, line - 26, colours(linked), CELL, 26)
    picture.text(left - 8, line + 16, f"{section:x}", 12, True, "end")
    picture.path([(left, line - 26), (left, line + 18)], PALE, 1, False)
    picture.text(left + CELL, line + 32, f"P = {section + 1:x}", 12, True)
    picture.path([(left + CELL, line + 18), (left + CELL, line + 3)])
    picture.text(left + 5 * CELL, line + 48, f"P + 4 = {section + 5:x}", 12, True, "middle")
    picture.path([(left + 5 * CELL, line + 34), (left + 5 * CELL, line + 3)])
    picture.box(right, line - 26, 110, 26, "symbol", 0)
    picture.text(right + 55, line - 8, "foo", 12, bold=True, anchor="middle")
    picture.text(right, line + 16, f"S = {foo:x}", 12, True)
    value = foo - (section + 5)
    begin, over = left + 5 * CELL, line - 44
    picture.path([(begin, line - 26), (begin, over), (right + 6, over), (right + 6, line - 28)])
    middle = (max(begin, left + 6 * CELL) + right) / 2 if section < foo else (right + 110 + left) / 2 - 10
    words = f"{hexed(value)} bytes on" if value > 0 else f"{hexed(-value)} bytes back"
    picture.text(middle, over - 5, words, 12, anchor="middle")


def panel(picture, top, number, placed, elf, coff):
    section, foo, home = placed
    value = (foo + signed(elf) - (section + 1)) % 2**32
    assert value == (foo + signed(coff) - (section + 5)) % 2**32
    linked = [elf[0], *value.to_bytes(4, "little"), elf[5]]
    lines = [f"section 1 {section:x} {section:x} 1", f"name {foo:x} {home:x} 2 0 foo"]
    picture.text(20, top, f"Placement {number}", 14, bold=True)
    picture.text(150, top, ", ".join(lines), 12, True, colour=PALE)
    scene(picture, top + 34, section, foo, elf, linked)
    table = top + 182
    picture.text(20, table, "ELF", 12, bold=True)
    picture.text(70, table, "S + A − P", 12, True)
    picture.text(200, table, f"{foo:x} + ({hexed(signed(elf))}) − {section + 1:x}", 12, True)
    picture.text(20, table + 20, "COFF", 12, bold=True)
    picture.text(70, table + 20, "S + A − (P + 4)", 12, True)
    picture.text(200, table + 20, f"{foo:x} + {hexed(signed(coff))} − {section + 5:x}", 12, True)
    for y in (table, table + 20):
        picture.text(404, y, f"= {hexed(foo - (section + 5))}", 12, True)
    if foo < section:
        picture.text(404, table + 40, f"= {value:08x} modulo 2^32", 12, True)
    picture.text(660, table, "linked, lowest byte first:", 12)
    picture.begin(linked=";".join(lines), objects=f"{OBJECT} {CONVERTED}")
    picture.bytes(660, table + 8, colours(linked), 24, 20)
    picture.end()


def draw(root):
    elf, coff = bytes_of(root, OBJECT, CONTENTS_ELF), bytes_of(root, CONVERTED, CONTENTS_COFF)
    picture = Picture(880, 606, "call foo linked at two placements, as ELF and as COFF: the bytes are the same")
    picture.text(20, 32, "Before linking", 14, bold=True)
    for x, title, path, at, contents in [(150, "ELF, A = −4", OBJECT, CONTENTS_ELF, elf),
                                         (500, "COFF, A = 0", CONVERTED, CONTENTS_COFF, coff)]:
        picture.text(x, 32, title, 12)
        picture.begin(file=path, at=at)
        picture.bytes(x + 100, 17, colours(contents), 24, 20)
        picture.end()
    picture.path([(20, 54), (860, 54)], "#d0d7de", 1, False)
    panel(picture, 82, 1, PLACEMENTS[0], elf, coff)
    picture.path([(20, 316), (860, 316)], "#d0d7de", 1, False)
    panel(picture, 344, 2, PLACEMENTS[1], elf, coff)
    return picture
