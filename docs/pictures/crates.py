"""The crates as a grid: a column for each container and one for the core, and the way of the bytes through it."""
import os
import sys

from svg import PALE, WAY, Picture

LEFT, COLUMN, GAP = 118, 146, 22
COLUMNS = ["ELF", "core", "COFF", "Mach-O", "OMF"]
ROW_HEIGHT, ROW_GAP, ROWS_TOP = 66, 16, 222
ROWS = ["many sections", "write", "canonical file", "read", "judge", "numbers,\nstructures"]
# a box: column, first row, last row, crates
BOXES = [
    (0, 0, 0, ["oc_big_elf"]), (0, 1, 1, ["oc_elf_write"]), (0, 2, 2, ["oc_elf_file"]), (0, 3, 3, ["oc_elf_read"]),
    (0, 4, 4, ["oc_elf_judge"]), (0, 5, 5, ["oc_elf"]),
    (1, 0, 1, ["oc_express", "oc_plans"]), (1, 2, 3, ["oc_equations", "oc_names", "oc_drop", "oc_made_files"]), (1, 4, 5, ["oc_target", "oc_shows", "oc_shelf", "oc_neutral"]),
    (2, 0, 0, ["oc_big_coff"]), (2, 1, 1, ["oc_coff_write"]), (2, 2, 2, ["oc_coff_file"]),
    (2, 3, 3, ["oc_coff_read"]), (2, 4, 4, ["oc_coff_judge"]), (2, 5, 5, ["oc_coff"]),
    (3, 1, 1, ["oc_macho_write"]), (3, 2, 2, ["oc_macho_file"]), (3, 3, 3, ["oc_macho_read"]),
    (3, 4, 4, ["oc_macho_judge"]), (3, 5, 5, ["oc_macho"]),
    (4, 1, 1, ["oc_omf_write"]), (4, 2, 2, ["oc_omf_file"]), (4, 3, 3, ["oc_omf_read"]), (4, 4, 4, ["oc_omf_judge"]),
    (4, 5, 5, ["oc_omf", "oc_omf_records"]),
]
# what stands above the grid and below it, each with a heading, from the top
ABOVE = [
    ("programs", [["objconv", "objconv_main", "objconv_c"], ["objlink", "oc_linker"], ["objlist", "oc_lister"],
                  ["objbatch", "oc_batch", "oc_embed"], ["oc_runs", "oc_words", "oc_hint_text"]]),
    ("all formats", [["oc_dispatch", "oc_convert"], ["oc_canonical", "oc_built"], ["oc_made", "oc_making"], ["oc_link", "oc_place"],
                     ["oc_listings", "oc_dump", "oc_hints"]]),
]
BELOW = [("linking,\nbytes",
          [["oc_linking"], ["oc_algebra", "oc_chains"], ["oc_strings", "oc_weight"], ["oc_outside"], ["oc_base"]])]
# crates that no other crate stands on, and that are no programs for a user
BESIDE = ["all_programs", "tests_base", "tests_object", "tests_cases", "tests_elf", "tests_coff", "tests_macho", "tests_omf",
          "worked_conversions", "worked_runs", "worked_programs", "bench"]
# they hold instances alone, and are drawn also before crates.txt has them
INSTANCES = {"oc_big_elf", "oc_big_coff"}
STEPS = [
    "identify: the format by the first bytes", "judge and read: the first fault, or Neutral",
    "the object in the form of all formats", "apply: what is kept, names, bindings",
    "fit: the first condition that is broken, or Fitted", "plan: the canonical file, in windows",
    "write_output: pieces of 4,096 bytes",
]


def check(root):
    """Each crate of crates.txt has a box, and each box a crate."""
    with open(os.path.join(root, "crates.txt"), encoding="ascii") as file:
        there = {line.split(":")[0].split()[0] for line in file if ":" in line and not line.startswith("#")}
    drawn = {crate for *_, crates in BOXES for crate in crates} | set(BESIDE)
    drawn |= {crate for _, boxes in ABOVE + BELOW for crates in boxes for crate in crates}
    if not drawn - INSTANCES <= there <= drawn:
        sys.exit(f"crates.txt lacks {sorted(drawn - INSTANCES - there)}; the picture lacks {sorted(there - drawn)}")


def column(k):
    return LEFT + k * (COLUMN + GAP)


def crate_box(picture, x, y, height, crates, kind):
    picture.box(x, y, COLUMN, height, kind, 4, dashed=bool(INSTANCES & set(crates)))
    for k, crate in enumerate(crates):
        picture.text(x + COLUMN / 2, y + height / 2 + 4 + 18 * (k - (len(crates) - 1) / 2), crate, 12, True, "middle")


def label(picture, y, words):
    for k, line in enumerate(words.split("\n")):
        picture.text(14, y + 15 * k, line, 11, colour=PALE)


def band(picture, y, heading, boxes, kind):
    label(picture, y + 26, heading)
    for k, crates in enumerate(boxes):
        crate_box(picture, column(k), y, 50, crates, kind)


def middle(first, last):
    return ROWS_TOP + ((first + last + 1) * ROW_HEIGHT - ROW_GAP) / 2


def way(picture):
    """The bytes of an ELF object on their way to COFF, drawn between the boxes."""
    into, out, top, core = column(0) + 40, column(0) + COLUMN - 30, 58, column(1) + COLUMN / 2
    for x, words in ((into, "IN"), (out, "OUT")):
        picture.text(x + 8, 36, words, 12, bold=True, colour=WAY)
    lines = [
        [(into, 22), (into, top)], [(into, top + 50), (into, top + 66)],
        [(column(0), 149), (column(0) - 11, 149), (column(0) - 11, middle(4, 4)), (column(0), middle(4, 4))],
        [(into + 33, ROWS_TOP + 4 * ROW_HEIGHT), (into + 33, ROWS_TOP + 4 * ROW_HEIGHT - ROW_GAP)],
        [(column(0) + COLUMN, middle(3, 3)), (column(1) - 11, middle(3, 3)), (column(1) - 11, middle(4, 5)),
         (column(1), middle(4, 5))],
        [(core, ROWS_TOP + 4 * ROW_HEIGHT), (core, ROWS_TOP + 4 * ROW_HEIGHT - ROW_GAP)],
        [(core, ROWS_TOP + 2 * ROW_HEIGHT), (core, ROWS_TOP + 2 * ROW_HEIGHT - ROW_GAP)],
        [(column(1) + COLUMN, middle(1, 1)), (column(2), middle(1, 1))],
        [(column(2) + COLUMN, middle(1, 1)), (column(3) - 11, middle(1, 1)), (column(3) - 11, 192), (out, 192),
         (out, 174)],
        [(out, top + 66), (out, top + 50)], [(out, top), (out, 22)],
    ]
    for line in lines:
        picture.path(line, WAY, 2.5)


def badges(picture):
    for number, (place, y) in enumerate([(0, 149), (0, middle(4, 4)), (1, middle(4, 5)), (1, middle(2, 3)),
                                         (1, middle(0, 1)), (2, middle(1, 1))], 1):
        picture.badge(column(place) + 12, y, number)
    picture.badge(column(0) + COLUMN - 14, 83, 7)


def draw(root):
    check(root)
    below = ROWS_TOP + len(ROWS) * ROW_HEIGHT
    picture = Picture(column(5), below + 182, "The crates, and the way of the bytes from ELF to COFF")
    for k, heading in enumerate(COLUMNS):
        picture.text(column(k) + COLUMN / 2, ROWS_TOP - 8, heading, 13, anchor="middle", bold=True)
    way(picture)
    for k, (heading, boxes) in enumerate(ABOVE):
        band(picture, 58 + 66 * k, heading, boxes, "other")
    for k, heading in enumerate(ROWS):
        label(picture, ROWS_TOP + k * ROW_HEIGHT + 26, heading)
    for place, first, last, crates in BOXES:
        y, height = ROWS_TOP + first * ROW_HEIGHT, (last - first + 1) * ROW_HEIGHT - ROW_GAP
        crate_box(picture, column(place), y, height, crates, "symbol" if place == 1 else "section")
    band(picture, below, *BELOW[0], "symbol")
    badges(picture)
    for k, said in enumerate(STEPS):
        x, y = 24 + k % 2 * 450, below + 84 + k // 2 * 24
        picture.badge(x, y - 4, k + 1)
        picture.text(x + 16, y, said, 12)
    return picture
