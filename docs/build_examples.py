#!/usr/bin/env python3
"""The examples of docs/BUILDS.md, each a chapter with files, a script and what this prints.

    docs/build_examples.py FOLDER

writes each as files, in a folder of its own; the script is called `run`.
"""
import os
import re
import sys

DOCS = os.path.dirname(os.path.abspath(__file__))
MINGW = "x86_64-w64-mingw32-gcc"
# the chapters, and the tools of each
TOOLS = {
    "Make": ["make", "ar", "llvm-lib"],
    "CMake": ["cmake", "make", "gcc", "nasm"],
    "Meson": ["meson", "ninja", "gcc", "nasm"],
    "A script": [],
    "One assembly library for four formats": ["nasm", "gcc", "i686-w64-mingw32-gcc", "llvm-lib", "llvm-ar", "llvm-nm"],
    "A C library for lld-link": ["gcc", "clang", "lld-link", "llvm-lib", MINGW, "wine"],
    "An ELF library on Windows": ["gcc", "llvm-lib", MINGW, "wine"],
    "And back": ["gcc", MINGW],
    "Whether it links as before": [],
    "Thousands of objects": ["parallel", "split"],
}


def blocks(text):
    """The fenced blocks of a document, each with its language, its lines, and the paragraph before it."""
    found = []
    for match in re.finditer(r"^```(\w+)\n(.*?)^```$", text, re.M | re.S):
        before = text[:match.start()].strip().split("\n\n")[-1]
        found.append((match.group(1), match.group(2), before, match.start(), match.end()))
    return found


def chapter_of(text, title):
    """The text of a chapter."""
    return text.split(f"## {title}\n")[1].split("\n## ")[0]


def chapters():
    """The title, the tools and the text of each chapter with an example."""
    with open(os.path.join(DOCS, "BUILDS.md"), encoding="utf-8") as file:
        page = file.read()
    for title, tools in TOOLS.items():
        yield title, tools, chapter_of(page, title)


def write(chapter, folder):
    """Writes the files of a chapter and its script, and gives the texts that this prints.

    A block of `sh` is of the script, one of `text` is printed; another one is the file that the sentence before it
    begins with.
    """
    files, printed = {"run": ""}, []
    for language, body, before, *_ in blocks(chapter):
        if language == "sh":
            files["run"] += body
        elif language == "text":
            printed.append(body)
        else:
            files[re.match(r"`([\w.]+)` ", re.split(r"[.:;]\s", before)[-1])[1]] = body
    for name, text in files.items():
        with open(os.path.join(folder, name), "w", encoding="ascii") as file:
            file.write(text)
    return printed


def main():
    if len(sys.argv) != 2:
        sys.exit("usage: docs/build_examples.py FOLDER")
    for title, _, chapter in chapters():
        folder = os.path.join(sys.argv[1], title.lower().replace(" ", "-"))
        os.makedirs(folder)
        write(chapter, folder)


if __name__ == "__main__":
    main()
