"""The symbols of an object, and the names that a conversion gives them.

The listing of `objconv -ds` tells symbols. Of the words of a conversion those that rename are known here:
`-nr`, `-np`, `-ns` and `-nu` (docs/COMMANDS.md, "Names").
"""
import collections
import re
import subprocess

Symbol = collections.namedtuple("Symbol", "letter value section name")

RENAMES = ("-nr:", "-np:", "-ns:")
UNDERSCORED = ("coff32", "mac32", "mac64", "omf")


class Failed(Exception):
    """What a program said that was to end with status 0."""


def output(words, inputs=None):
    """What a program prints; `Failed` where its status is not 0."""
    done = subprocess.run(words, capture_output=True, input=inputs, timeout=300, check=False)
    if done.returncode:
        said = done.stderr.decode("utf-8", "replace").strip()
        raise Failed(f"{' '.join(words)}: status {done.returncode}: {said}")
    return done.stdout.decode("latin-1")


def symbols_of(objconv, path):
    """All symbols of an object, in its order. Names are as they are printed."""
    rows = (line.split(" ", 3) for line in output([objconv, "-ds", path]).splitlines())
    return [Symbol(letter, int(value, 16), section, name) for letter, value, section, name in rows]


def plain(printed):
    """A name whose bytes stand for themselves."""
    return re.sub(r"\\x([0-9a-f]{2})", lambda it: chr(int(it[1], 16)), printed)


def printed(name):
    """A name as it is printed."""
    return "".join(c if "!" <= c <= "~" and c != "\\" else f"\\x{ord(c):02x}" for c in name)


def by_rule(rule, name):
    """The name that a rename gives; none where it does not match."""
    old, new = rule[4:].split(":", 1)
    if rule.startswith("-nr:"):
        return new if name == old else None
    if rule.startswith("-np:"):
        return new + name[len(old):] if name.startswith(old) else None
    return name[:len(name) - len(old)] + new if name.endswith(old) else None


def renamed(words, source, target, shown):
    """The printed name that a conversion from a format to another gives a printed name."""
    name = plain(shown)
    found = (by_rule(word, name) for word in words if word.startswith(RENAMES))
    name = next((it for it in found if it is not None), name)
    before, after = source in UNDERSCORED, target in UNDERSCORED
    if "-nu" in words and before != after:
        name = "_" + name if after else name[1:] if name.startswith("_") else name
    return printed(name)
