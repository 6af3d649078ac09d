"""What the scripts of bench/ share: building a program against the library, running it on either architecture, and counting
the instructions of its functions."""
import argparse
import bisect
import collections
import os
import pathlib
import platform
import re
import subprocess

ROOT = pathlib.Path(__file__).resolve().parent.parent
OUT = ROOT / "out/bench"
LIBRARY = "crates/finder/out/libfinder.a"
# A program lies where nm tells, and its calls of the C library are bound when it starts, so that no call counted pays for it.
FLAGS = ["-std=c++20", "-O2", "-g", "-no-pie", "-Wl,-z,now", "-pthread", "-Wall", "-Wextra", "-Werror", "-Iinclude"]
NATIVE = platform.machine() == "x86_64"
# The C library fills and copies long stretches by "rep stosb" and "rep movsb", which a processor does by the line, and both
# counters byte by byte. Told that the processor is slow at them, the C library uses loops over vectors.
VECTOR_FILLS = {"GLIBC_TUNABLES": "glibc.cpu.hwcaps=-ERMS,-FSRM"}


def run(*words, cwd=ROOT, **options):
    return subprocess.run([str(word) for word in words], check=True, cwd=cwd, text=True, **options)


def emulator(*settings):
    """The words before a program's name: none on x86-64."""
    if NATIVE:
        return []
    return ["qemu-x86_64", "-cpu", "max,-erms,-fsrm", *settings, "-L", "/usr/x86_64-linux-gnu"]


def words_asked(usage, *options):
    """The words of a command, read before anything is built; options are (name, settings)."""
    words = argparse.ArgumentParser(usage=usage)
    for option, settings in options:
        words.add_argument(option, **settings)
    words.add_argument("--as-built", action="store_true")
    return words.parse_args()


def build_library(asked):
    """Unless the library is asked for as it was last built."""
    if not asked.as_built:
        run("rt", "lib", cwd=ROOT / "crates/finder", capture_output=True)


def compiled(source, *flags):
    path = OUT / f"{source}.o"
    run("x86_64-linux-gnu-g++", *FLAGS, *flags, "-c", f"bench/{source}.cpp", "-o", path)
    return path


def build(name, *objects):
    """A program of bench/, linked with the library."""
    OUT.mkdir(parents=True, exist_ok=True)
    run("x86_64-linux-gnu-g++", *FLAGS, f"bench/{name}.cpp", *objects, LIBRARY, "-o", OUT / name)
    return OUT / name


def build_sides(*names):
    """Programs that run the sides of bench/sides.h. LEMON's headers are no C++20 and have a false alarm of their own."""
    OUT.mkdir(parents=True, exist_ok=True)
    lemon = compiled("lemon_search", "-std=c++17", "-DLEMON_ONLY_TEMPLATES", "-Wno-maybe-uninitialized")
    return [build(name, lemon) for name in names]


C_LIBRARY = "C library"
# Crate, modules, name: functions of C++ have their arguments in their names.
LIBRARY_FUNCTION = re.compile(r"\w+(::\w+)+$")


class Functions:
    """The functions of a program by address. What lies outside its text is the C library; the way there begins in _init."""

    def __init__(self, program):
        lines = run("x86_64-linux-gnu-nm", "-C", "-n", program, capture_output=True).stdout.splitlines()
        rows = [line.split(maxsplit=2) for line in lines]
        self.symbols = [(int(row[0], 16), row[2]) for row in rows if len(row) == 3 and row[1] in "tTwWi"]
        self.starts = [address for address, _ in self.symbols]
        self.end = self.address("_fini")

    def address(self, name):
        return next(address for address, symbol in self.symbols if symbol == name)

    def name(self, address):
        name = self.symbols[bisect.bisect_right(self.starts, address) - 1][1]
        return C_LIBRARY if name == "_init" or address >= self.end else name


class Place:
    """Where a run is, in words. What the C library does is told by who asks for it, and what an entry of the library does itself
    by what it called before, since most of the search is compiled into it."""

    def __init__(self, functions):
        self.functions = functions
        self.known = {}
        self.inside, self.before, self.words = "", "", ""

    def at(self, address):
        """The place after one more instruction."""
        name = self.known.get(address)
        if name is None:
            name = self.known[address] = self.functions.name(int(address, 16))
        if name == C_LIBRARY:
            return f"{self.words}, in the {C_LIBRARY}"
        if name != self.inside:
            entry = name.startswith("finder_")
            self.before = self.inside if entry else ""
            self.inside = name
            self.words = f"{name} after {self.before}" if LIBRARY_FUNCTION.match(self.before) else name
        return self.words


def blocks(log):
    """The blocks of instructions that were run: their addresses, and how many instructions they have. A block's operations are
    in the log before its first run, with a line for each instruction."""
    sizes, translated = {}, None
    for line in log:
        if line.startswith(b"Trace"):
            address = line.split(b"/", 2)[1]
            yield address, sizes[address]
        elif line.startswith(b"OP:"):
            translated = None
        elif line.startswith(b" ---- "):
            if translated is None:
                translated = line.split()[1]
                sizes[translated] = 0
            sizes[translated] += 1


def between(all_blocks, begin, end):
    """The blocks from one function's beginning to another's."""
    for address, size in all_blocks:
        if address == begin:
            break
    for address, size in all_blocks:
        if address == end:
            break
        yield address, size
    for _ in all_blocks:
        pass


def counted_by_log(program, words):
    """Under the emulator, whose log has a line for each block that is run."""
    functions = Functions(program)
    place, counts = Place(functions), collections.Counter()
    begin, end = (b"%016x" % functions.address(name) for name in ("count_begins", "count_ends"))
    command = [str(word) for word in (*emulator("-d", "op,exec,nochain", "-D", "/dev/stderr"), program, *words)]
    with subprocess.Popen(command, stdout=subprocess.PIPE, stderr=subprocess.PIPE, cwd=ROOT) as process:
        for address, size in between(blocks(process.stderr), begin, end):
            counts[place.at(address), address] += size
        said = process.stdout.read().decode()
    if process.returncode != 0:
        raise subprocess.CalledProcessError(process.returncode, command, said)
    return said, counts


NAMED = re.compile(r"(c?)fn=\((\d+)\)(?: ([^']*))?")
COST = re.compile(r"[\d+*-]\S* (\d+)$")
FILL = re.compile(r"\w*mem(set|cpy|move)")


def costs(dump):
    """The cost lines of callgrind's output: the function, the function that it calls or None, the cost. A line that follows one of
    calls has the cost of those calls; names are written out once and then go by number."""
    names, function, callee, of_call = {}, None, None, False
    for line in dump.read_text().splitlines():
        if named := NAMED.match(line):
            name = names.setdefault(named[2], named[3])
            function, callee = (function, name) if named[1] else (name, None)
        elif line.startswith("calls="):
            of_call = True
        elif cost := COST.match(line):
            yield function, callee if of_call else None, int(cost[1])
            of_call = False


def counted_by_callgrind(program, words):
    """On x86-64. What the C library does to fill and copy counts for who asks for it."""
    dump, counts = OUT / "callgrind.out", collections.Counter()
    said = run("valgrind", "--tool=callgrind", "--collect-atstart=no", f"--callgrind-out-file={dump}", program, *words,
               capture_output=True, env=os.environ | VECTOR_FILLS).stdout
    for function, callee, cost in costs(dump):
        if callee is None and not FILL.match(function):
            counts[function, b""] += cost
        elif callee is not None and FILL.match(callee) and not FILL.match(function):
            counts[f"{function}, in the {C_LIBRARY}", b""] += cost
    return said, counts


def counted(program, *words):
    """What a program prints, and its instructions between count_begins and count_ends, by place and address of a block; callgrind
    tells no addresses."""
    return (counted_by_callgrind if NATIVE else counted_by_log)(program, words)
