"""The outcomes of a run in a file, a line for each object, so that a later run goes on where one was stopped.

Each line begins with a sum of the two programs: outcomes of other programs are passed over.
"""
import hashlib
import json
import os

from chains import WRONG, Outcome


def sum_of(programs):
    """A sum of the bytes of the programs."""
    total = hashlib.sha256()
    for path in programs:
        with open(path, "rb") as file:
            total.update(file.read())
    return total.hexdigest()[:16]


def read(path, key, wanted):
    """The outcomes of the wanted objects that were tried and of which none is wrong, by the object's name."""
    by_name, found = {it.name: it for it in wanted}, {}
    if os.path.exists(path):
        with open(path, encoding="utf-8") as file:
            for other, name, rows in map(json.loads, file):
                if name in by_name and other == key:
                    found[name] = [Outcome(by_name[name], *row[:-1], tuple(row[-1])) for row in rows]
    return {name: outcomes for name, outcomes in found.items() if all(it.end != WRONG for it in outcomes)}


def add(path, key, outcomes):
    """Adds the outcomes of one object."""
    with open(path, "a", encoding="utf-8") as file:
        file.write(json.dumps((key, outcomes[0].build.name, [it[1:] for it in outcomes])) + "\n")
