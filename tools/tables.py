"""The tables of a run: how conversions fared, by pair of formats."""
import collections
import datetime
import platform
import re
import textwrap

import builds
import linkers
import readers
from chains import KNOWN, REFUSED, RIGHT, WRONG
from linkers import said


# the widest line of the page, and how many pairs a row has
COLUMNS, PAIRS = 120, 3


def rows(outcomes):
    """A row for each pair of formats: how many were tried, right, refused, known, wrong."""
    counts = collections.defaultdict(collections.Counter)
    for it in outcomes:
        counts[it.source, it.target][it.end] += 1
    for (source, target), count in sorted(counts.items()):
        yield source, target, sum(count.values()), *(count[it] for it in (RIGHT, REFUSED, KNOWN, WRONG))


def details(outcomes, end):
    """Rows of what outcomes of one end come to: the detail, the pairs, how many; the first and last once each."""
    counts = collections.defaultdict(collections.Counter)
    for it in outcomes:
        if it.end == end:
            counts[it.detail][f"{it.source} to {it.target}"] += 1
    for detail, pairs in sorted(counts.items(), key=lambda it: -sum(it[1].values())):
        each = [f"{pair} {count}" for pair, count in sorted(pairs.items())]
        for k in range(0, len(each), PAIRS):
            yield "" if k else detail, ", ".join(each[k:k + PAIRS]), "" if k else sum(pairs.values())


def paragraph(text):
    """A paragraph of the page."""
    return textwrap.fill(text, COLUMNS, break_long_words=False, break_on_hyphens=False)


def table(head, lines):
    """A table of the page."""
    return "\n".join(["| " + " | ".join(head) + " |", "|" + "---|" * len(head),
                      *("| " + " | ".join(str(it) for it in line) + " |" for line in lines)])


def version(tool):
    """The version that a tool tells; empty where it tells none."""
    for flag in ("--version", "-v", "/?"):
        printed, error, _ = said([tool, flag])
        found = re.search(r"\d+\.\d+(\.\d+)*", printed + error)
        if found:
            return found[0]
    return ""


def versions(left_out):
    """The tools that took part, with their versions."""
    used = sorted({*builds.tools(), *linkers.tools(), *readers.tools()} - set(left_out))
    return ", ".join(f"{tool.rsplit('/', 1)[-1]} {version(tool)}".strip() for tool in used)


def totals(outcomes, count):
    """The last line."""
    ends = collections.Counter(it.end for it in outcomes)
    return (f"{count} objects, {len(outcomes)} conversions: {ends[RIGHT]} right, {ends[REFUSED]} refused, "
            f"{ends[KNOWN]} met a known difference, {ends[WRONG]} wrong")


def page(outcomes, count, left_out):
    """The tables, the date and the tools."""
    head = ("From", "To", "Tried", "Right", "Refused", "Known difference", "Wrong")
    system = platform.freedesktop_os_release()["PRETTY_NAME"]
    absent = f" Not on the machine: {', '.join(left_out)}." if left_out else ""
    parts = [
        paragraph(f"{datetime.date.today().isoformat()}, {system}. {totals(outcomes, count)}."),
        paragraph(f"With {versions(left_out)}.{absent}"),
        table(head, rows(outcomes)),
        table(("Refused with", "Pairs", "Conversions"), details(outcomes, REFUSED)),
        table(("Known difference", "Pairs", "Conversions"), details(outcomes, KNOWN)),
    ]
    return "\n\n".join(parts) + "\n"
