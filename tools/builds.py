"""The objects to try: which source, by which tool, with which flags.

A build tells of its object what a driver must know: what names of C begin with (`prefix`), and how it calls
(`call`: "sysv" or "ms" in 64 bits, "cdecl" in 32). A tool that is not on the machine is skipped. The objects of
crates/worked_conversions/data are tried as they are: what no tool of today writes is among them, as iterated data of
OMF. They are no programs, and are not linked with the driver: their `call` is "none".
"""
import collections
import os
import re
import shutil

HERE = os.path.dirname(os.path.abspath(__file__))
SOURCES = os.path.join(HERE, "sources")
GIVEN = os.path.join(HERE, "..", "crates", "worked_conversions", "data")

# a source, the words that make the object (the object's name comes last), and what a driver must know
Build = collections.namedtuple("Build", "name source words prefix call")
# a compiler: its words for C, for C++, of its target, the lists of flags to try, and what a driver must know
Compiler = collections.namedtuple("Compiler", "name c cpp target flags prefix call")

PLAIN = ["-w", "-ffreestanding", "-fno-builtin", "-fno-stack-protector", "-fcommon"]
PLAIN_CPP = ["-fno-rtti", "-fno-exceptions", "-fno-threadsafe-statics", "-fno-use-cxa-atexit"]
GCC = ["-fno-tree-loop-distribute-patterns"]

LINUX = [["-O2", "-fno-pic"], ["-O1", "-fPIC"], ["-O0", "-g", "-fno-pic"],
         ["-O2", "-fPIC", "-ffunction-sections", "-fdata-sections"]]
MINGW = [["-O2"], ["-O1", "-fno-asynchronous-unwind-tables", "-ffunction-sections"], ["-O0", "-g"]]
TWO = [["-O2"], ["-O0", "-ffunction-sections"]]

COMPILERS = [
    Compiler("gcc64", "gcc", "g++", ["-m64", *GCC], LINUX + [["-O1", "-fno-pic", "-mcmodel=large"], ["-O2", "-fno-pic", "-fno-weak"]], "", "sysv"),
    Compiler("gcc32", "gcc", "g++", ["-m32", *GCC], LINUX + [["-O2", "-fno-pic", "-fno-weak"]], "", "cdecl"),
    Compiler("mingw64", "x86_64-w64-mingw32-gcc", "x86_64-w64-mingw32-g++", GCC, MINGW, "", "ms"),
    Compiler("mingw32", "i686-w64-mingw32-gcc", "i686-w64-mingw32-g++", GCC, MINGW, "_", "cdecl"),
    Compiler("clang-linux64", "clang", "clang++", ["--target=x86_64-linux-gnu"], TWO, "", "sysv"),
    Compiler("clang-linux32", "clang", "clang++", ["--target=i386-linux-gnu"], TWO, "", "cdecl"),
    Compiler("clang-msvc64", "clang", "clang++", ["--target=x86_64-pc-windows-msvc"], TWO, "", "ms"),
    Compiler("clang-msvc32", "clang", "clang++", ["--target=i686-pc-windows-msvc"], TWO, "_", "cdecl"),
    Compiler("clang-mingw64", "clang", "clang++", ["--target=x86_64-w64-mingw32"], TWO, "", "ms"),
    Compiler("clang-mingw32", "clang", "clang++", ["--target=i686-w64-mingw32"], TWO, "_", "cdecl"),
    Compiler("clang-apple64", "clang", "clang++", ["--target=x86_64-apple-macosx10.12", "-fno-register-global-dtors-with-atexit"], TWO, "_", "sysv"),
    Compiler("clang-apple32", "clang", "clang++", ["--target=i386-apple-macosx10.12", "-fno-register-global-dtors-with-atexit"], TWO, "_", "cdecl"),
]

APPLE_MINGW_MSVC = ("mingw", "msvc", "apple")

# an assembler's source, what it is called, its words, and what a driver must know
ASSEMBLED = [
    ("elf64_absolute.s", "as", ["gcc", "-m64", "-c"], "", "sysv"),
    ("elf64_got.s", "as", ["gcc", "-m64", "-c"], "", "sysv"),
    ("elf32_absolute.s", "as", ["gcc", "-m32", "-c"], "", "cdecl"),
    ("elf32_got.s", "as", ["gcc", "-m32", "-c"], "", "cdecl"),
    ("elf_groups.s", "as64", ["gcc", "-m64", "-c"], "", "sysv"),
    ("elf_groups.s", "as32", ["gcc", "-m32", "-c"], "", "cdecl"),
    ("elf64_absolute.s", "clang", ["clang", "--target=x86_64-linux-gnu", "-c"], "", "sysv"),
    ("elf64_got.s", "clang", ["clang", "--target=x86_64-linux-gnu", "-c"], "", "sysv"),
    ("elf32_got.s", "clang", ["clang", "--target=i386-linux-gnu", "-c"], "", "cdecl"),
    ("coff64.s", "as", ["x86_64-w64-mingw32-gcc", "-c"], "", "ms"),
    ("coff32.s", "as", ["i686-w64-mingw32-gcc", "-c"], "_", "cdecl"),
    ("coff64.s", "clang", ["clang", "--target=x86_64-w64-mingw32", "-c"], "", "ms"),
    ("coff32.s", "clang", ["clang", "--target=i686-w64-mingw32", "-c"], "_", "cdecl"),
    ("coff_comdat.s", "clang64", ["clang", "--target=x86_64-pc-windows-msvc", "-c"], "", "ms"),
    ("coff_comdat.s", "clang32", ["clang", "--target=i686-pc-windows-msvc", "-c"], "", "cdecl"),
    ("mach64.s", "clang", ["clang", "--target=x86_64-apple-macosx10.12", "-c"], "_", "sysv"),
    ("mach32.s", "clang", ["clang", "--target=i386-apple-macosx10.12", "-c"], "_", "cdecl"),
    *(("nasm64.asm", tool, [tool, f"-D{system}", "-f", form], prefix, call)
      for tool in ("nasm", "yasm")
      for system, form, prefix, call in (("ELF", "elf64", "", "sysv"), ("WIN", "win64", "", "ms"), ("MACH", "macho64", "_", "sysv"))),
    *(("nasm32.asm", tool, [tool, f"-D{system}", "-f", form], prefix, "cdecl")
      for tool in ("nasm", "yasm")
      for system, form, prefix in (("ELF", "elf32", ""), ("WIN", "win32", "_"), ("MACH", "macho32", "_"))),
    ("nasm_omf.asm", "nasm", ["nasm", "-f", "obj"], "_", "cdecl"),
    ("nasm_flat.asm", "nasm", ["nasm", "-f", "obj"], "_", "cdecl"),
]


def text_of(build):
    """What the source of a build prints, by its own words."""
    with open(os.path.join(SOURCES, build.source), encoding="ascii") as file:
        return "".join(it + "\n" for it in re.findall(r"prints: (\w+ \d+)", file.read()))


def fits(source, compiler):
    """Whether a compiler's target has what a source of C or C++ asks for."""
    name = compiler.name
    if source == "alias.c":
        return "apple" not in name
    if source == "throw.cpp":
        return not any(it in name for it in APPLE_MINGW_MSVC)
    return True


def compiled(source, compiler, number):
    """The build of a source of C or C++ by a compiler, with one of its lists of flags."""
    own = []
    if source == "throw.cpp":
        own = ["-fexceptions", "-frtti"]
    if source == "weak.c" and any(it in compiler.name for it in APPLE_MINGW_MSVC):
        own = ["-DNO_WEAK_REFERENCES"]
    cpp = source.endswith(".cpp")
    flags = [*PLAIN, *(PLAIN_CPP if cpp else []), *compiler.target, *compiler.flags[number], *own]
    words = [compiler.cpp if cpp else compiler.c, *flags, "-c", os.path.join(SOURCES, source), "-o"]
    return Build(f"{source}-{compiler.name}-{number}", source, words, compiler.prefix, compiler.call)


def assembled(source, tool, words, prefix, call):
    """The build of a source of an assembler."""
    name = f"{source}-{tool}-{words[-1] if tool in ('nasm', 'yasm') else 0}"
    return Build(name, source, [*words, os.path.join(SOURCES, source), "-o"], prefix, call)


def builds(most):
    """All builds, with at most so many lists of flags of each compiler."""
    sources = sorted(os.listdir(SOURCES))
    found = [compiled(source, compiler, number)
             for compiler in COMPILERS for number in range(min(most, len(compiler.flags)))
             for source in sources if source.endswith((".c", ".cpp")) and fits(source, compiler)]
    found += [assembled(*it) for it in ASSEMBLED]
    found += [Build(f"{name}-given", name, ["cp", os.path.join(GIVEN, name)], "", "none")
              for name in sorted(os.listdir(GIVEN)) if name.endswith((".o", ".obj"))]
    return [it for it in found if shutil.which(it.words[0])]


def tools():
    """The tools that make objects."""
    return sorted({it.c for it in COMPILERS} | {it.cpp for it in COMPILERS} | {it[2][0] for it in ASSEMBLED})
