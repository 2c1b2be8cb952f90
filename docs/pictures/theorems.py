"""The chain of theorems: what is said of a run, and what that stands on, down to bytes that others made."""
from svg import PALE, Picture

WIDTH, GAP, HEIGHT = 880, 26, 76
# the levels from the run downwards: the kind of box, and boxes side by side, each with its name, its crate with the
# clause, and what it says
LEVELS = [
    ("section", [("run", "objconv, IsRun", [
        "A conversion ends in one of these ways: a file that links as the input does; one message, of the first cause,",
        "and no file changed; a device or memory that failed. Said of words, files and console, before and after."])]),
    ("section", [("dispatch", "oc_dispatch, accepted, refused, dispatched: IsDispatched", [
        "Of bytes and a target: the first refusal, or the one planned file, which is faithful to the input (Faithful",
        "of oc_linking) and which its own format gives again (closed, by canonical_is_stable of oc_canonical)."])]),
    ("section", [("convert", "oc_convert, accepted, refused, planned, faithful", [
        "The same for any reader and any writer: the proof uses what their traits promise and nothing of a format.",
        "An output that one object shows with the input is faithful (shown_output_is_faithful of oc_linking)."])]),
    ("section", [
        ("read", "the readers: Reads: shows, fault", ["The object shows the file,", "or its first fault is given."]),
        ("apply, fit", "oc_names, oc_express: edited, IsFitted", [
            "Edited as the words ask,", "and ready for the target."]),
        ("plan", "the writers: Writes; Emits: file", ["What is written is the", "canonical file, byte by byte."])]),
    ("section", [
        ("built_shows", "oc_shows: BuiltShows", ["What is added field by", "field shows the file."]),
        ("edited_shows_file", "oc_names: EditedShowsFile", [
            "Linking the edited object is", "linking the edited file."]),
        ("elf_file_is_written, ..", "oc_elf_file, ..: WritesCanonical", [
            "The canonical file has no", "fault and shows its object."])]),
    ("relocation", [("elf_rules, coff_rules, mach_rules, omf_rules",
                     "oc_elf, oc_coff, oc_macho, oc_omf", [
        "Definitions after the standards, which compute: first fault, sections, symbols and fields of any bytes; and",
        "beside them the canonical file of any object (elf_file, coff_file, mach_file, omf_file)."])]),
    ("symbol", [("call_32-file = refl, ..", "proofs/*Rows.antt of these crates", [
        "The definitions, computed on objects of compilers, of assemblers and of an independent model, give what",
        "these say. A wrong definition does not check."])]),
]


def box(picture, x, y, width, kind, name, place, said):
    picture.box(x, y, width, HEIGHT, kind, 4)
    picture.text(x + 10, y + 18, name, 12, True, bold=True)
    wide = width > WIDTH / 2
    if wide:
        picture.text(x + width - 10, y + 18, place, 11, True, "end", PALE)
    else:
        picture.text(x + 10, y + 33, place, 10, True, colour=PALE)
    for k, line in enumerate(said):
        picture.text(x + 10, y + (39 if wide else 50) + 16 * k, line, 12)


def draw(root):
    step = HEIGHT + GAP
    picture = Picture(WIDTH, 30 + step * len(LEVELS), "The chain of theorems, from a run down to computed rows")
    for depth, (kind, level) in enumerate(LEVELS):
        y = 20 + step * depth
        width = (WIDTH - 40 - 12 * (len(level) - 1)) / len(level)
        for k, entry in enumerate(level):
            x = 20 + k * (width + 12)
            box(picture, x, y, width, kind, *entry)
            if depth + 1 < len(LEVELS):
                picture.path([(x + width / 2, y + HEIGHT + 3), (x + width / 2, y + step - 2)])
    words = ("An arrow leads from a statement to what its proof stands on, "
             "and at last to what its definitions are tried on.")
    picture.text(WIDTH - 20, 18 + step * len(LEVELS), words, 11, anchor="end", colour=PALE)
    return picture
