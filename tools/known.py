"""Differences of real tools that docs/INTEROPERABILITY.md has, each by the name of its entry there.

A rule is as narrow as its entry: which sources it is about, which format was linked, by which way, and what was said.
What it names is written on the page in these words.
"""
import collections
import os
import re

PAGE = os.path.join(os.path.dirname(os.path.abspath(__file__)), "..", "docs", "INTEROPERABILITY.md")

# the name of an entry; patterns for the build's name, the formats on the object's way, the way to link, and what came of it
Rule = collections.namedtuple("Rule", "name build formats way said")

RULES = [
    Rule("a weak function or variable", r"^(weak\.c|elf_groups)", r"coff\d\d$", "mingw's ld", r"status|undefined reference"),
    Rule("a weak function or variable", r"^\w+\.cpp-clang-apple", r"^mac\d\d-(\w+-)*coff\d\d$", "mingw's ld", r"^status [05], printed ''$|undefined reference"),
    Rule("destructors (`.fini_array`)", r"^constructors\.c", r"coff\d\d$", "mingw's ld", r"^status 0, printed 'before 12\\nrun 1\\n'$"),
    Rule("a common with an alignment, by mingw's gcc", r"^aligned\.c-(clang-)?mingw", r"^coff\d\d-.*", r"GNU ld|ld\.lld|mingw's ld|lld-link",
         r"^status 0, printed 'line 0\\npage 0\\nzeros \d+\\nconstant 0\\ncode 0\\n'$"),
    Rule("an address of four bytes", r"", r"mac64$", "ld64.lld", r"^(ld64\.lld\S* error: relocation UNSIGNED is out of range[^\n]*\n?)+$"),
    Rule("a weak name that nothing defines", r"^(weak\.c|elf_groups)", r"mac64$", "ld64.lld", r"^ld64\.lld\S* error: undefined symbol: _?(absent|maybe)"),
    Rule("Functions that run before and after main", r"^(constructors\.c|locals\.cpp)-(clang-)?mingw", r"^coff\d\d-", r"", r"printed '(before 0|made 0)\\n"),
    Rule("Functions that run before and after main", r"^constructors\.c-(clang-)?mingw", r"^coff\d\d-(\w+-)*elf\d\d$", r"GNU ld|ld\.lld",
         r"^status 0, printed 'before 12\\nrun 1\\n'$"),
    Rule("an address in read-only data", r"", r"^(coff|mac)\w+-(\w+-)*elf64$", "PIE",
         r"DT_TEXTREL|cannot be used against|recompile with -fPI|^status -11, printed "),
    Rule("names of C++ by MSVC", r"\.cpp-clang-msvc", r"^coff\d\d-(\w+-)*elf\d\d$", r"GNU ld|ld\.lld", r"multiple definition of|duplicate symbol|version"),
    Rule("names of C++ by MSVC", r"^virtual\.cpp-clang-msvc", r"^coff\d\d-(\w+-)*elf\d\d$", r"ld\.lld", r"^status 0, printed 'square 49\\noblong \d+\\n"),
    Rule("a name that GNU ld gives itself", r"^pointers\.c-.*(apple|mingw32|msvc32)", r"elf\d\d$", r"^GNU ld", r"^status -11, printed 'before 10\\n'$"),
    Rule("exceptions of C++", r"^throw\.cpp", r"coff|mac|omf", r"", r"undefined (reference|symbol)|^status -6, printed ''$"),
]


def entry(build, chain, way, said):
    """The name of the entry for a difference, or none.

    `chain` has the formats of an object from the first on; it was linked or read by `way`, and this was said, or came of it.
    """
    formats = "-".join(chain)
    for rule in RULES:
        patterns = ((rule.build, build.name), (rule.formats, formats), (rule.way, way), (rule.said, said))
        if all(re.search(pattern, text) for pattern, text in patterns):
            return rule.name
    return None


def absent():
    """The names that the page lacks."""
    with open(PAGE, encoding="utf-8") as file:
        page = re.sub(r"\s+", " ", file.read())
    return [it.name for it in RULES if it.name not in page]
