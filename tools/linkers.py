"""Links an object with the driver by each linker of its format, and runs what this machine can run.

A run under wine that printed nothing is repeated once.
"""
import collections
import os
import re
import shutil
import subprocess
import threading

HERE = os.path.dirname(os.path.abspath(__file__))

# a way to link: its name, the format, the system of the driver, the words before the objects, those after, and what runs it
Way = collections.namedtuple("Way", "name form system before after runner")
# what came of it: whether it linked, what was said, and what the program printed (none where it was not run)
Linked = collections.namedtuple("Linked", "way ok message printed status")

WINE = next((it for it in ("wine64", "/usr/lib/wine/wine64", "wine") if shutil.which(it)), None)
LD64 = next((it for it in ("ld64.lld", "ld64.lld-14", "ld64.lld-15", "ld64.lld-16") if shutil.which(it)), "ld64.lld")
STACK = "-Wl,-z,noexecstack"
LOW = "-Wl,--image-base,0x400000,--disable-dynamicbase"
LLD_LINK = ["lld-link", "/nologo", "/subsystem:console", "/entry:start", "/nodefaultlib", "/base:0x400000", "/fixed",
            "/dynamicbase:no"]
KERNEL = "/usr/{}-w64-mingw32/lib/libkernel32.a"

WAYS = [
    Way("GNU ld", "elf64", "linux64", ["g++", "-no-pie", STACK], [], []),
    Way("GNU ld, PIE", "elf64", "linux64", ["g++", "-pie", STACK], [], []),
    Way("ld.lld", "elf64", "linux64", ["g++", "-fuse-ld=lld", "-no-pie", STACK], [], []),
    Way("ld.lld, PIE", "elf64", "linux64", ["g++", "-fuse-ld=lld", "-pie", STACK], [], []),
    Way("GNU ld", "elf32", "linux32", ["g++", "-m32", "-no-pie", STACK], [], []),
    Way("GNU ld, PIE", "elf32", "linux32", ["g++", "-m32", "-pie", STACK, "-Wl,-z,notext", "-Wl,--no-warnings"], [], []),
    Way("ld.lld", "elf32", "linux32", ["g++", "-m32", "-fuse-ld=lld", "-no-pie", STACK], [], []),
    Way("mingw's ld", "coff64", "windows64", ["x86_64-w64-mingw32-gcc", LOW + ",--disable-high-entropy-va"], [], [WINE]),
    Way("lld-link", "coff64", "bare64", [*LLD_LINK, "/highentropyva:no", "/largeaddressaware:no"], [KERNEL.format("x86_64")], [WINE]),
    Way("mingw's ld", "coff32", "windows32", ["i686-w64-mingw32-gcc", LOW], [], None),
    Way("lld-link", "coff32", "bare32", [*LLD_LINK, "/safeseh:no"], [KERNEL.format("i686")], None),
    Way("ld64.lld", "mac64", "apple64",
        [LD64, "-arch", "x86_64", "-platform_version", "macos", "10.12", "10.12", "-e", "_start"], [], None),
]

DRIVERS = {
    "linux64": ["gcc", "-O1", "-fPIC"], "linux32": ["gcc", "-m32", "-O1", "-fPIC"],
    "windows64": ["x86_64-w64-mingw32-gcc", "-O1"], "windows32": ["i686-w64-mingw32-gcc", "-O1"],
    "bare64": ["x86_64-w64-mingw32-gcc", "-O1", "-DBARE"], "bare32": ["i686-w64-mingw32-gcc", "-O1", "-DBARE"],
    "apple64": ["clang", "--target=x86_64-apple-macosx10.12", "-O1", "-DSILENT", "-fno-stack-protector"],
}
CALLS = {"sysv": "__attribute__((sysv_abi))", "ms": "__attribute__((ms_abi))", "cdecl": ""}

# fields that no loader fills where a program may lie anywhere, and those that it fills only in data
FIXED = re.compile(r"R_X86_64_(32S?|16|8|PC16|PC8)\b|R_386_(16|8|PC16|PC8)\b")
IN_DATA = re.compile(r"R_X86_64_64\b")


def tools():
    """The tools that link and run."""
    return sorted({it.before[0] for it in WAYS} | {"ld", "ld.lld", WINE or "wine64"})


def said(words, **more):
    """What a command said on both outputs, and its status; -1 where it did not end."""
    try:
        done = subprocess.run(words, capture_output=True, stdin=subprocess.DEVNULL, timeout=120, check=False, **more)
    except subprocess.TimeoutExpired:
        return "", "did not end", -1
    return done.stdout.decode("latin-1"), done.stderr.decode("latin-1"), done.returncode


class Bench:
    """Drivers, made as they are asked for, and a folder to link in."""

    def __init__(self, folder):
        self.folder, self.drivers, self.lock = folder, {}, threading.Lock()
        self.env = {**os.environ, "WINEDEBUG": "-all", "WINEPREFIX": os.path.join(folder, "wine")}
        if WINE:
            # the first run of wine makes its folder, and says so
            said([WINE, "wineboot", "--init"], env=self.env)
        self.ways = [it for it in WAYS if shutil.which(it.before[0]) and shutil.which(DRIVERS[it.system][0])]
        self.ways = [it for it in self.ways if "lld" not in it.name or shutil.which("ld.lld")]

    def driver(self, system, prefix, call):
        """The driver's object for a system, for objects with such names and calls."""
        key = (system, prefix, call)
        with self.lock:
            if key not in self.drivers:
                path = os.path.join(self.folder, f"driver-{system}-{prefix or 'plain'}-{call}.o")
                defined = [f'-DPREFIX="{prefix}"', f"-DCALL={CALLS[call]}"]
                _, error, status = said([*DRIVERS[system], *defined, "-c", os.path.join(HERE, "driver.c"), "-o", path])
                if status:
                    raise RuntimeError(f"the driver for {system} was not compiled: {error}")
                self.drivers[key] = path
            return self.drivers[key]

    def is_open(self, way, path):
        """Whether a way is for this object: some fields are for a program alone that lies where it was linked."""
        if "PIE" not in way.name:
            return True
        tables = re.split(r"Relocation section ", said(["readelf", "-rW", path])[0])
        code = (it for it in tables if re.match(r"'\.rela?\.(text|init|fini)", it))
        return not any(map(FIXED.search, tables)) and not any(map(IN_DATA.search, code))

    def link(self, way, path, build):
        """Links an object with the driver, and runs the program."""
        program = f"{path}.{way.name.replace(' ', '').replace(',', '-').replace(chr(39), '')}.exe"
        driver = self.driver(way.system, build.prefix, build.call)
        out = [f"/out:{program}"] if way.before[0] == "lld-link" else ["-o", program]
        printed, error, status = said([*way.before, driver, path, *way.after, *out])
        message = "\n".join(it for it in (printed + error).splitlines() if it.strip())
        if status or not os.path.exists(program):
            return Linked(way, False, message, None, None)
        printed = ended = None
        if way.runner is not None and None not in way.runner:
            printed, _, ended = said([*way.runner, program], env=self.env)
            if way.runner and not printed:
                # wine on a busy machine ends now and then before the program has begun
                printed, _, ended = said([*way.runner, program], env=self.env)
            printed = printed.replace("\r", "")
        os.unlink(program)
        return Linked(way, True, message, printed, ended)

    def links(self, form, path, build):
        """What each way of a format came to; nothing where the object is no program."""
        if build.call == "none":
            return []
        return [self.link(way, path, build) for way in self.ways if way.form == form and self.is_open(way, path)]
