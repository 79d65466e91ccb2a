"""What the scripts share that compare every byte of what the built program writes: its builds, their rows, and small images."""
import hashlib
import pathlib
import struct
import subprocess
import sys
import tempfile

TOP = pathlib.Path(__file__).resolve().parent.parent
BUILT = TOP / "crates/rvcollide/out/rvcollide"

# What is told of a file that cannot be read, and of one that cannot be written.
# What the system says of a file or a stream that fails.
MISSING, FOLDER, NO_FOLDER, FULL = "there is no such file or folder", "it is a folder, and no file", "a part of the path is no folder", "there is no space left"
DENIED, CLOSED, TOO_LARGE = "there is no permission", "what reads the output has ended", "the system takes no larger file"

# The table of a hunt that saw no race, and the sentences of a table's faults.
NO_RACES = "races 0\n"
TABLE_SENTENCES = {
    "Shape": "the line is not the row of a race: is this a table of hunt?",
    "Range": "a number or an address of the row is out of range",
    "Twice": "the race has a row already: use merge to add tables",
    "End": "there are not as many rows as the first line says, or no last line says what they are of: was it cut off?",
    "Image": "the table is of another image than the one that is given, or than the first table",
    "Version": "the table was made by another version of rvcollide than this one, or than the first table",
    "Options": "the runs of the table had another seed or other options than those of the first one",
    "Overlap": "the table has runs that another table has, or that come before the last of another: leave one out",
    "Gap": "runs are missing before those of the table: add their table, or allow it by --gaps",
    "NotMet": "the run of the row makes no such report: was the table edited?",
}

# What `merge` warns of where a table doesn't say what it is of.
NOT_OF_ONE = (
    "rvcollide: warning: a table does not say what it is of (it has no last line of ..), so they are added in the order given: "
    "nothing tells whether they are of one hunt\n"
)


def table_fault(name, line, kind):
    """What is told of a file that is no table."""
    return f"{name}: table line {line} {kind}: {TABLE_SENTENCES[kind]}"



def programs():
    """The program that is named, or what `rt ci` leaves: as LLVM builds it and, where it is there, as Rattle's own compiler does."""
    if len(sys.argv) > 1:
        return [pathlib.Path(sys.argv[1]).resolve()]
    return [BUILT, *(path for path in [BUILT.with_name(BUILT.name + ".by-rattle")] if path.exists())]


def bytes_of(text):
    return text if isinstance(text, bytes) else text.encode()


class Tries:
    """The rows of a program, which runs in a folder of its own."""

    def __init__(self, program, folder):
        self.program, self.folder = program, pathlib.Path(folder)
        self.passed = self.failed = 0

    def path(self, name):
        return self.folder / name

    def file(self, name, content):
        """Makes a file, and gives its name."""
        self.path(name).write_bytes(bytes_of(content))
        return name

    def run(self, *words):
        """Runs the program: its exit status and both of its outputs."""
        done = subprocess.run([self.program, *words], cwd=self.folder, stdin=subprocess.DEVNULL, capture_output=True, timeout=300)
        return done.returncode, done.stdout, done.stderr

    def of(self, image, first, runs, given="", seed=1):
        """The last line of a table of such runs of an image."""
        digits = hashlib.sha256(self.path(image).read_bytes()).hexdigest()[:16]
        version = self.run("--version")[1].decode().split()[1]
        return f"of {digits} by {version} seed {seed} first {first} runs {runs}{given}\n"

    def holds(self, what, is_so, found=""):
        """Counts a row."""
        if is_so:
            self.passed += 1
        else:
            self.failed += 1
            print(f"FAILED ({self.program.name}): {what}: {str(found)[:600]}")

    def same(self, what, found, wanted):
        self.holds(what, found == wanted, f"{found!r}, and not {wanted!r}")

    def ends(self, what, status, out, err, *words):
        """Runs the program and compares its exit status and every byte of both outputs."""
        wanted = status, bytes_of(out), bytes_of(err)
        self.same(what, self.run(*words), wanted)

    def prints(self, what, out, *words):
        self.ends(what, 0, out, "", *words)

    def tells(self, what, fault, *words):
        """The same of a run that is refused, which writes nothing else."""
        self.ends(what, 1, "", f"rvcollide: {fault}\n", *words)

    def asm(self, name, source):
        """Makes the image of a source, and gives its name."""
        self.prints(f"asm {name}", "", "asm", self.file(name + ".s", source), name + ".elf")
        return name + ".elf"


def image_with(segments, table, strings, entry=0x10000):
    """An ELF32 file: of each segment its address, bytes, size in memory and flags; the bytes of a symbol table, and its strings."""
    offset = 52 + 32 * len(segments)
    headers = contents = b""
    for start, code, size, flags in segments:
        headers += struct.pack("<8I", 1, offset + len(contents), start, start, len(code), size, flags, 1)
        contents += code
    end = offset + len(contents)
    sections = bytes(40) + struct.pack("<10I", 0, 2, 0, 0, end, len(table), 2, 1, 4, 16)
    sections += struct.pack("<10I", 0, 3, 0, 0, end + len(table), len(strings), 0, 0, 1, 0)
    header = struct.pack("<16sHHIIIIIHHHHHH", b"\x7fELF\x01\x01\x01", 2, 243, 1, entry, 52, end + len(table) + len(strings), 0, 52, 32, len(segments), 40, 3, 0)
    return b"".join([header, headers, contents, table, strings, sections])


def image_of(segments, symbols=(), entry=0x10000):
    """The same with symbols: of each its name, value, size and type."""
    strings, table = b"\0", bytes(16)
    for name, value, size, kind in symbols:
        table += struct.pack("<IIIBBH", len(strings), value, size, kind, 0, 0xFFF1)
        strings += bytes_of(name) + b"\0"
    return image_with(segments, table, strings, entry)


def tried(tests):
    """Runs the tests on each program, and tells how many of their rows have passed."""
    passed = failed = 0
    for program in programs():
        if not program.exists():
            print(f"FAILED: {program}: there is no such program: run rt ci first")
            failed += 1
            continue
        with tempfile.TemporaryDirectory() as folder:
            tries = Tries(program, folder)
            for test in tests:
                test(tries)
        passed, failed = passed + tries.passed, failed + tries.failed
    print(f"{passed} passed, {failed} failed")
    return 1 if failed or not passed else 0
