"""What the test scripts share: the program under test, checks that are counted and run in parallel, bundles, and tables of command lines."""
import collections
import concurrent.futures
import contextlib
import itertools
import os
import re
import shlex
import shutil
import subprocess
import sys
import tempfile

TOP = os.path.dirname(os.path.dirname(os.path.dirname(os.path.realpath(__file__))))
PROCESSORS = len(os.sched_getaffinity(0))
SHOWN = 200


def read(path):
    """Returns the bytes of a file; a relative path starts at the top of the repository."""
    with open(os.path.join(TOP, path), "rb") as file:
        return file.read()


def write(path, data):
    with open(path, "wb") as file:
        file.write(data.encode() if isinstance(data, str) else data)


def text_of(lines):
    return "".join(f"{line}\n" for line in lines)


def unescape(text, escapes=rb"\\(n|x[0-9a-f]{2})"):
    r"""Returns the bytes of a text in which \n is a new line, \xHH a byte, and \N(..) N times the text in the brackets."""
    text = re.sub(rb"\\([0-9]+)\((.*?)\)", lambda it: int(it[1]) * it[2], text.encode())
    return re.sub(escapes, lambda it: b"\n" if it[1] == b"n" else bytes([int(it[1][1:], 16)]), text)


def difference(wanted, came):
    """Returns the first line in which two texts differ, and None if they are equal."""
    if wanted == came:
        return None
    pairs = itertools.zip_longest(wanted.split(b"\n"), came.split(b"\n"))
    number, (one, other) = next((at, pair) for at, pair in enumerate(pairs, 1) if pair[0] != pair[1])
    shown = ["the end" if it is None else repr(it[:SHOWN]) for it in (one, other)]
    return f"line {number}: expected {shown[0]}, got {shown[1]}"


class Answer(collections.namedtuple("Answer", "status out err")):
    """The exit status of a run, and the bytes of its two outputs."""

    def fault(self, out=b"", err=b"", status=0):
        """Returns how the answer differs from the expected one, or None."""
        if self.status != status:
            return f"status {self.status}, expected {status}; standard error {self.err[:SHOWN]!r}"
        named = (("standard output", out, self.out), ("standard error", err, self.err))
        found = [f"{name}, {difference(wanted, came)}" for name, wanted, came in named if wanted is not None and wanted != came]
        return "; ".join(found) or None


class Program:
    """The program under test."""

    def __init__(self, path):
        self.path = os.path.realpath(path)

    def run(self, *words, given=b"", folder=TOP, **environment):
        how = {"input": given, "cwd": folder, "env": {**os.environ, **environment}}
        done = subprocess.run([self.path, *words], stdout=subprocess.PIPE, stderr=subprocess.PIPE, **how)
        return Answer(done.returncode, done.stdout, done.stderr)


class Checks:
    """Counts checks, and names those that fail."""

    def __init__(self):
        self.passed = self.failed = 0

    def expect(self, name, fault=None):
        """Counts a check, which failed if a fault is given."""
        self.passed, self.failed = self.passed + (not fault), self.failed + bool(fault)
        if fault:
            print(f"{name} FAILED: {fault}", flush=True)

    def each(self, check, items):
        """Runs `check` on every item, in parallel, and counts the pairs of a name and a fault that it yields; an error is a fault too. So is an empty list."""
        items = list(items)
        if not items:
            self.expect("a list of cases", "it is empty")

        def pairs_of(item):
            pairs = []
            try:
                for pair in check(item):
                    pairs.append(pair)
            except (OSError, ValueError, AttributeError, LookupError) as error:
                pairs.append((f"{item}, after {pairs[-1][0] if pairs else 'nothing'}", repr(error)))
            return pairs

        with concurrent.futures.ThreadPoolExecutor(PROCESSORS) as pool:
            for pairs in pool.map(pairs_of, items):
                for name, fault in pairs:
                    self.expect(name, fault)


def main(doc, run, least=1, most=1):
    """Runs a script: `run` gets the checks and the words, the first of which is the program. The last line is 'N passed, M failed'."""
    words = sys.argv[1:]
    if not least <= len(words) <= most or words[:1] in (["-h"], ["--help"]):
        sys.exit(doc.strip())
    checks = Checks()
    run(checks, *[Program(it) if at == 0 else it for at, it in enumerate(words)])
    print(f"{checks.passed} passed, {checks.failed} failed")
    sys.exit(checks.failed > 0)


@contextlib.contextmanager
def workspace():
    """Makes a temporary folder, and returns a function from a name to its path there."""
    with tempfile.TemporaryDirectory(prefix="pvsim-test-") as folder:
        yield lambda *names: os.path.join(folder, *names)


def preloaded(name, at):
    """Compiles tools/lib/NAME.c, which a program loads before the C library (LD_PRELOAD), and returns the path of the library."""
    compiler = shlex.split(os.environ.get("CC") or "cc")
    subprocess.run([*compiler, "-O1", "-shared", "-fPIC", "-o", at(f"{name}.so"), f"{TOP}/tools/lib/{name}.c"], check=True)
    return at(f"{name}.so")


def split_bundle(text):
    """Returns the manifest of a bundle and its schedule; the schedule is None if there is no line `schedule`."""
    program, at = 0, 0
    while at < len(text):
        end = text.find(b"\n", at) + 1 or len(text)
        line = text[at:end].rstrip(b"\n")
        if program:
            program -= 1
        elif line == b"schedule":
            return text[:at], text[end:]
        elif line.startswith(b"exec "):
            program = int(line.split(b" ")[-1])
        at = end
    return text, None


def make_image(program, bundle, path):
    """Makes the image of a bundle's manifest at `path`, with the manifest and the schedule beside it, and returns a fault or None."""
    manifest, schedule = split_bundle(bundle)
    write(f"{path}.manifest", manifest)
    write(f"{path}.schedule", schedule or b"")
    return program.run("mkimg", f"{path}.manifest", path).fault()


class Case:
    """One line `$ WORDS` of a table, and the answer that it expects."""

    def __init__(self, table, number, words):
        self.table, self.number, self.words = table, number, words
        self.lines = {mark: [] for mark in "<=>!+"}

    def __str__(self):
        return f"{self.table}:{self.number}: {self.words}"

    def inputs(self):
        """Returns the words and the standard input of each run: {A|B} makes one run with each."""
        parts = re.split(r"\{(.*?)\}", text_of([self.words, *self.lines["<"]]))
        choices = [part.split("|") if at % 2 else [part] for at, part in enumerate(parts)]
        return [text.split("\n", 1) for text in map("".join, itertools.product(*choices))]

    def made(self):
        """Returns the files that the run makes or changes, each with the file that it must equal, if one is named."""
        return dict((line.split(" = ") + [None])[:2] for line in self.lines["+"])


class Table:
    """A table of command lines (the format is in cases/README.md): the files of a folder, and the runs in their order."""

    def __init__(self, path):
        self.name, self.files, self.cases = os.path.relpath(path, os.path.join(TOP, "cases")), {}, []
        lines = None
        for number, line in enumerate(read(path).decode().split("\n"), 1):
            words = line.split(" ")
            if line.startswith("\t") and lines is not None:
                lines.append(line[1:])
            elif words[0] in ("file", "copy", "bytes"):
                lines = self.files.setdefault(line.partition(" ")[2], (words[0], []))[1]
            elif words[0] == "$":
                self.cases.append(Case(self.name, number, line[2:]))
                lines = None
            elif self.cases and re.match("[<=>!+] ", line):
                self.cases[-1].lines[line[0]].append(line[2:])
            elif line and not line.startswith("#"):
                sys.exit(f"{self.name}: line {number} is not in the format of a table")

    def make_files(self, folder):
        """Makes the files that the table names."""
        for name, (kind, lines) in self.files.items():
            if kind == "file":
                write(f"{folder}/{name}", text_of(lines))
            elif kind == "copy":
                shutil.copy(os.path.join(TOP, name), folder)
            else:
                write(f"{folder}/{name.split(' ')[0]}", bytes_of(int(name.split(" ")[1]), lines))


def bytes_of(size, lines):
    """Returns a number of bytes, which are zero but for the text that each line puts at an offset."""
    data = bytearray(size)
    for line in lines:
        offset, text = line.split(" ", 1)
        part = unescape(text)
        data[int(offset) : int(offset) + len(part)] = part
    assert len(data) == size, "a text is past the end of its file"
    return bytes(data)
