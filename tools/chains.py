"""Converts an object by every chain of formats, and judges each conversion."""
import collections
import hashlib
import os
import re
import shutil
import struct
import subprocess

import builds
import known
import links
import names
import readers
from objects import Unreadable, read_object

TARGETS = {32: ("elf32", "coff32", "mac32", "omf"), 64: ("elf64", "coff64", "mac64")}

# of one conversion: which, from and to which format, how it ended, and a code, an entry or a difference
Outcome = collections.namedtuple("Outcome", "build source target end detail chain")
# an object on the way: its file, a sum of its bytes, its format, and the formats on its way
Stage = collections.namedtuple("Stage", "path key form chain")

RIGHT, REFUSED, KNOWN, WRONG = "right", "refused", "known", "wrong"


class Trial:
    """One object, converted by all chains of up to so many formats."""

    def __init__(self, build, bench, tools, folder):
        self.build, self.bench, self.tools, self.folder = build, bench, tools, folder
        self.text = None if build.call == "none" else builds.text_of(build)
        self.stages, self.views, self.judged, self.complaints, self.said = {}, {}, {}, set(), {}
        self.outcomes, self.count, self.form = [], 0, ""

    def stage(self, path, chain):
        """A file as a stage; the one that has these bytes already, where there is one."""
        with open(path, "rb") as file:
            data = file.read()
        key = hashlib.sha256(data).digest()
        if key not in self.stages:
            self.stages[key] = Stage(path, key, read_object(data).format, chain)
        return self.stages[key]

    def view(self, stage):
        """A stage, read to be compared."""
        if stage.key not in self.views:
            self.views[stage.key] = links.View(self.tools.objconv, stage.path)
        return self.views[stage.key]

    def make(self):
        """Makes the object; it has to do what its source says, where this machine can run it."""
        path = os.path.join(self.folder, "first.o")
        done = subprocess.run([*self.build.words, path], capture_output=True, check=False)
        if done.returncode:
            raise names.Failed(f"{self.build.name}: {done.stderr.decode('latin-1').strip()}")
        first = self.stage(path, ())
        self.form = first.form
        self.complaints = readers.complaints(first.form, path)
        for it in self.bench.links(first.form, path, self.build):
            self.said[it.way.name] = self.fault_of(it)
        return first

    def fault_of(self, linked):
        """What is wrong with how an object was linked and ran; none where all is well."""
        message = re.sub(r"\S*/\S+", "N", linked.message)
        if not linked.ok:
            return message or "not linked"
        if linked.printed is not None and (linked.printed, linked.status) != (self.text, 0):
            # behind that, wine prints what its registers held
            return f"status {linked.status}, printed {linked.printed.split('Unhandled exception')[0]!r}"
        return message or None

    def entry_or_wrong(self, stage, way, fault):
        """A difference as a known or a wrong one."""
        name = known.entry(self.build, (self.form, *stage.chain), way, fault)
        return (KNOWN, name) if name else (WRONG, f"{way}: {fault}")

    def examine(self, stage):
        """How an object that was written fares with other tools."""
        found = []
        for it in sorted(readers.complaints(stage.form, stage.path) - self.complaints):
            found.append(self.entry_or_wrong(stage, "reading", it))
        for it in self.bench.links(stage.form, stage.path, self.build):
            fault = self.fault_of(it)
            if fault and not (self.form == stage.form and self.said.get(it.way.name) == fault):
                found.append(self.entry_or_wrong(stage, it.way.name, fault))
        return next((it for it in found if it[0] == WRONG), found[0] if found else (RIGHT, ""))

    def judge(self, source, stage, target):
        """How one conversion fared, of which this stage came."""
        if source.chain and source.form == target and source.key != stage.key:
            return WRONG, "an output is not given again"
        try:
            if not links.compare(self.tools, self.view(source), self.view(stage)):
                return WRONG, "compare-links: there was no placement to compare at"
        except links.Differs as found:
            return WRONG, f"compare-links: {found}"
        if stage.key not in self.judged:
            self.judged[stage.key] = self.examine(stage)
        return self.judged[stage.key]

    def convert(self, source, target):
        """Converts one stage; gives the next, or none."""
        self.count += 1
        path = os.path.join(self.folder, f"{self.count}.{target}")
        done = subprocess.run([self.tools.objconv, f"-f{target}", source.path, path], capture_output=True, check=False)
        message = done.stderr.decode("latin-1").strip()
        stage, end = None, (WRONG, f"status {done.returncode}: {message}")
        if done.returncode == 2:
            end = REFUSED, re.sub(r".*: (\w+) at \d+$", r"\1", message)
        elif done.returncode == 1:
            end = self.entry_or_wrong(source, "objconv", message)
        elif done.returncode == 0:
            stage = self.stage(path, (*source.chain, target))
            end = self.judge(source, stage, target)
        self.outcomes.append(Outcome(self.build, source.form, target, *end, (*source.chain, target)))
        return stage

    def run(self, most):
        """All outcomes of chains of at most so many formats. A conversion of the same bytes is tried once."""
        first = self.make()
        front, done = [first], set()
        for _ in range(most):
            reached = []
            for source in front:
                for target in TARGETS[64 if source.form.endswith("64") else 32]:
                    if (source.key, target) not in done:
                        done.add((source.key, target))
                        reached.append(self.convert(source, target))
            front = [it for it in reached if it]
        return self.outcomes


def trial(build, bench, tools, most, root):
    """The outcomes of a build. What goes wrong on the way is one wrong outcome."""
    folder = os.path.join(root, build.name)
    os.makedirs(folder, exist_ok=True)
    try:
        return Trial(build, bench, tools, folder).run(most)
    except (names.Failed, Unreadable, struct.error, ValueError, KeyError, IndexError, RuntimeError) as fault:
        return [Outcome(build, "", "", WRONG, f"{type(fault).__name__}: {fault}", ())]
    finally:
        shutil.rmtree(folder, ignore_errors=True)
