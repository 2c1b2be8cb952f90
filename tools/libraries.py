"""Libraries that are converted whole: each as an archive whose member `run.o` calls all that is to be tried.

A library of C is made of tools/sources; zlib is the one that is on the machine, with a source here that calls it. What
a program that is linked with the library and driver.c prints is known beforehand.
"""
import collections
import os
import re
import shutil
import subprocess
import zlib

import builds

# a library: its name, its format, its file, what a driver must know, words for objlib, and what it prints
Library = collections.namedtuple("Library", "name form path prefix call words text")

FLAGS = ["-w", "-O2", "-ffreestanding", "-fno-builtin", "-fno-stack-protector", "-fno-tree-loop-distribute-patterns"]
# they rely on functions before main, weak names, and alignments of commons: INTEROPERABILITY has an entry for each
LEFT_OUT = ("constructors.c", "weak.c", "aligned.c")
SAMPLE = b"".join(b"%d bottles of beer, " % (n * n % 997) for n in range(2000))

# calls zlib as the library has it, with an unsigned long of 8 bytes, and gives what it asks for
CALLS_ZLIB = """
typedef unsigned long size;
void report(const char *what, unsigned value);
size crc32(size crc, const unsigned char *from, unsigned length);
int compress(unsigned char *to, size *length, const unsigned char *from, size from_length);
int uncompress(unsigned char *to, size *length, const unsigned char *from, size from_length);
static unsigned char arena[4 << 20], sample[] = {%s}, packed[1 << 20], again[1 << 20];
static size used;
void own___stack_chk_fail(void) { report("overrun", 1); }
void *own_malloc(size length)
{
    size at = used;
    used += (length + 15) & -16ul;
    return used <= sizeof arena ? arena + at : 0;
}
void own_free(void *at) {}
void *own_memcpy(unsigned char *to, const unsigned char *from, size length)
{
    for (size k = 0; k < length; k++)
        to[k] = from[k];
    return to;
}
void *own_memset(unsigned char *to, int value, size length)
{
    for (size k = 0; k < length; k++)
        to[k] = value;
    return to;
}
int run(void)
{
    size length = sizeof packed, whole = sizeof again, alike = 0;
    report("crc", crc32(0, sample, sizeof sample));
    report("packed", compress(packed, &length, sample, sizeof sample) == 0 && length < sizeof sample);
    report("unpacked", uncompress(again, &whole, packed, length) == 0);
    while (alike < whole && again[alike] == sample[alike])
        alike++;
    report("alike", alike);
    return 0;
}
"""


def run(words, **more):
    """Runs a command, which has to end well."""
    subprocess.run(words, check=True, capture_output=True, **more)


def archived(folder, name, archiver, objects):
    """The path of an archive of these objects of a folder."""
    path = os.path.join(folder, name)
    run([archiver, "qc", path, *objects], cwd=folder)
    return path


def of_sources(folder, name, form, compiler, archiver, flags):
    """A library of the sources of C: in each `run` has a name of its own."""
    os.makedirs(folder)
    sources = sorted(it for it in os.listdir(builds.SOURCES) if it.endswith(".c") and it not in LEFT_OUT)
    words = [it.removesuffix(".c") for it in sources]
    for it in words:
        own = [f"-Drun=run_{it}", f"-Dsecond=second_{it}"]
        source = os.path.join(builds.SOURCES, f"{it}.c")
        run([compiler, *FLAGS, *flags, *own, "-c", source, "-o", f"{it}.o"], cwd=folder)
    with open(os.path.join(folder, "run.c"), "w", encoding="ascii") as file:
        file.write("".join(f"int run_{it}(void);\n" for it in words))
        file.write(f"int run(void) {{ return {' | '.join(f'run_{it}()' for it in words)}; }}\n")
    run([compiler, "-O0", *flags, "-c", "run.c", "-o", "run.o"], cwd=folder)
    path = archived(folder, f"lib{name}.a", archiver, [f"{it}.o" for it in [*words, "run"]])
    text = "".join(builds.text_of(builds.Build("", it, [], "", "")) for it in sources)
    return Library(name, form, path, "", "ms", [], text)


def of_zlib(folder):
    """The machine's zlib with the source that calls it; none where there is none."""
    words = ["gcc", "-print-file-name=libz.a"]
    given = subprocess.run(words, capture_output=True, text=True, check=True).stdout.strip()
    if not os.path.isabs(given):
        return None
    os.makedirs(folder)
    with open(os.path.join(folder, "run.c"), "w", encoding="ascii") as file:
        file.write(CALLS_ZLIB % ", ".join(map(str, SAMPLE)))
    run(["gcc", *FLAGS, "-fPIE", "-c", "run.c", "-o", "run.o"], cwd=folder)
    path = shutil.copy(given, os.path.join(folder, "libz.a"))
    run(["ar", "q", path, "run.o"], cwd=folder)
    words = [f"-nr:{it}:own_{it}" for it in ("malloc", "free", "memcpy", "memset", "__stack_chk_fail")]
    text = f"crc {zlib.crc32(SAMPLE)}\npacked 1\nunpacked 1\nalike {len(SAMPLE)}\n"
    return Library("zlib", "elf64", path, "", "sysv", words, text)


def libraries(folder):
    """All that the tools on the machine make."""
    found = []
    if shutil.which("gcc") and shutil.which("ar"):
        flags = ["-fPIE", "-mabi=ms"]
        found.append(of_sources(os.path.join(folder, "gcc"), "sources-gcc", "elf64", "gcc", "ar", flags))
        found.append(of_zlib(os.path.join(folder, "zlib")))
    mingw = "x86_64-w64-mingw32-"
    if shutil.which(f"{mingw}gcc"):
        flags = ["-mcmodel=small", "-fno-asynchronous-unwind-tables"]
        path = os.path.join(folder, "mingw")
        found.append(of_sources(path, "sources-mingw", "coff64", f"{mingw}gcc", f"{mingw}ar", flags))
    return [it for it in found if it]


def members(path):
    """The names of a library's members."""
    tool = shutil.which("llvm-ar") or "ar"
    listed = subprocess.run([tool, "t", path], capture_output=True, text=True, check=True).stdout
    return [re.sub(r".*/", "", it) for it in listed.splitlines()]


def functions(path):
    """The functions of a library, in the order of its members, by the first tool that reads it."""
    for tool in ("llvm-nm", "nm"):
        if shutil.which(tool):
            done = subprocess.run([tool, path], capture_output=True, encoding="latin-1", check=False)
            if not done.returncode:
                return [it.split()[2] for it in done.stdout.splitlines() if re.match(r"[0-9a-f]+ T ", it)]
    return ["none that llvm-nm or nm reads"]
