"""What other tools say of an object: their errors and warnings.

That it has no symbols is none: compare-links compares those of both objects.
"""
import re
import shutil

from linkers import said

ELF = [["readelf", "-aW"], ["objdump", "-h", "-t", "-r", "-d"], ["llvm-readobj", "-h", "-S", "-r", "--symbols", "--section-groups"],
       ["llvm-objdump", "-h", "-t", "-r", "-d"], ["nm"], ["llvm-nm"], ["eu-elflint", "--gnu-ld"]]
LLVM = [["llvm-readobj", "-h", "-S", "-r", "--symbols"], ["llvm-objdump", "-h", "-t", "-r", "-d"], ["llvm-nm"]]
READERS = {
    "elf32": ELF, "elf64": ELF,
    "coff32": [["objdump", "-h", "-t", "-r", "-d"], ["nm"], *LLVM], "coff64": [["objdump", "-h", "-t", "-r", "-d"], ["nm"], *LLVM],
    "mac32": LLVM, "mac64": LLVM,
    "omf": [["omfdump"]],
}


def tools():
    """The tools that read."""
    return sorted({words[0] for readers in READERS.values() for words in readers})


def complaints(form, path):
    """The complaints of each tool that is on the machine, without names of files and numbers."""
    found = set()
    for words in READERS[form]:
        if shutil.which(words[0]):
            printed, error, status = said([*words, path])
            lines = error.splitlines() + (printed.splitlines() if words[0] == "eu-elflint" else [])
            lines += [it for it in printed.splitlines() if re.search(r"\bwarning\b|\berror\b", it, re.I)]
            lines += [f"status {status}"] if status and words[0] != "eu-elflint" else []
            found |= {f"{words[0]}: " + re.sub(r"0x[0-9a-f]+|\d+|\S*/\S+", "N", it) for it in lines if it.strip()}
    return {it for it in found if not it.endswith((": No errors", ": N no symbols"))}
