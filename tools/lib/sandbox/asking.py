"""Asks pvsim about texts, with progress on a terminal."""
import os
import pty
import re
import shutil
import subprocess
import sys
import tempfile
import threading
import time

from .programs import BadInput, equal_lengths
from .witness import Witness

SAME, INCOMPLETE, DIFFERENT = 0, 5, 6
SHOWN_AFTER = 1.0  # seconds until the progress is shown
COUNTS = re.compile(rb"\rpvsim: ([0-9,]+) visited, ([0-9,]+) queued")


class Failed(Exception):
    """A run of pvsim that has no answer: its status and what it wrote."""

    def __init__(self, status, text):
        super().__init__(text)
        self.status, self.text = status, text


def find_program(here):
    """Returns the path of pvsim: that of this repository, the one installed beside the tool, or the one in PATH; None if there is none."""
    top = os.path.dirname(here)
    for path in (os.path.join(top, "bin", "pvsim"), os.path.join(here, "pvsim")):
        if os.access(path, os.X_OK) and not os.path.isdir(path):
            return path
    return shutil.which("pvsim")


class Progress:
    """Shows on a terminal which comparison runs and how far it is, once the work takes longer than a second."""

    def __init__(self, name):
        self.name, self.is_shown = name, sys.stderr.isatty()
        self.began, self.title, self.width = time.monotonic(), "", 0

    def set(self, title):
        self.title = title
        self.show()

    def show(self, more=""):
        """Shows the title, with the counts of the search that runs."""
        if self.is_shown and time.monotonic() - self.began >= SHOWN_AFTER:
            text = f"{self.name}: {self.title}{more}"[:78]
            sys.stderr.write("\r" + text.ljust(self.width))
            sys.stderr.flush()
            self.width = len(text)

    def clear(self):
        """Removes what is shown."""
        if self.width:
            sys.stderr.write("\r" + " " * self.width + "\r")
            sys.stderr.flush()
            self.width = 0

    def follow(self, terminal, errors):
        """Reads what a search writes on its terminal: its progress is shown, and its errors are kept."""
        shown = b""
        while True:
            try:
                some = os.read(terminal, 4096)
            except OSError:
                some = b""
            if not some:
                break
            shown += some
            counts = COUNTS.findall(shown)
            if counts:
                self.show(f": {counts[-1][0].decode()} states visited, {counts[-1][1].decode()} queued")
                shown = shown[shown.rindex(b"\r") :]
        errors.append(re.sub(rb"\r[^\n]*\r", b"", shown).replace(b"\r\n", b"\n"))


class Ask:
    """Runs one pvsim, on texts in a folder of its own. `options` are those of every search; `count` is the number of comparisons. `warnings` are those about
    the first source."""

    def __init__(self, program, name, options=()):
        self.program, self.options, self.count, self.began = program, list(options), 0, time.monotonic()
        self.progress, self.warnings = Progress(name), None
        self.folder = tempfile.TemporaryDirectory(prefix="pvsim-")

    def __enter__(self):
        return self

    def __exit__(self, *_):
        self.progress.clear()
        self.folder.cleanup()

    def seconds(self):
        return time.monotonic() - self.began

    def run(self, words, given=b"", is_search=False):
        """Runs pvsim, and returns its status, its output and its errors. A search has a terminal for its errors if there is one here."""
        terminal, errors = None, []
        if is_search and self.progress.is_shown:
            terminal, child = pty.openpty()
        process = subprocess.Popen(
            [self.program, *words], stdin=subprocess.PIPE, stdout=subprocess.PIPE, stderr=child if terminal is not None else subprocess.PIPE
        )
        if terminal is None:
            out, err = process.communicate(given)
            return process.returncode, out, err
        os.close(child)
        reader = threading.Thread(target=self.progress.follow, args=(terminal, errors))
        reader.start()
        out = process.communicate(given)[0]
        reader.join()
        os.close(terminal)
        return process.returncode, out, b"".join(errors)

    def answer(self, words, statuses=(0,), given=b"", is_search=False):
        """Returns the status and the output of a run with one of these statuses."""
        status, out, err = self.run(words, given, is_search)
        if status not in statuses:
            raise self.failed(words[0], status, err)
        return status, out

    def failed(self, command, status, err):
        """Returns the failure of a run."""
        self.progress.clear()
        return Failed(status if status > 0 else 3, err.decode("utf-8", "replace") or f"pvsim {command} ended with status {status}\n")

    def source(self, text, name, *options):
        """Returns what `pvsim source` writes for a text; its errors have the name of the file."""
        status, out, err = self.run(["source", "-q", *options, "-"], text)
        err = re.sub(rb"^pvsim: -:", b"pvsim: " + os.fsencode(name) + b":", err, flags=re.M)
        if status == 1:
            raise BadInput(err.decode("utf-8", "replace"))
        if status:
            raise self.failed("source", status, err)
        self.warnings = err.decode("utf-8", "replace") if self.warnings is None else self.warnings
        return out

    def is_program(self, lines):
        """Returns whether these lines are a program."""
        text = b'image 8192 16\nexec "/init" %d\n' % len(lines) + b"".join(it + b"\n" for it in lines)
        return self.run(["source", "-q", "-"], text)[0] == 0

    def file(self, name, text):
        """Writes a text into the folder, and returns its path."""
        path = os.path.join(self.folder.name, name)
        with open(path, "wb") as file:
            file.write(text)
        return path

    def compare(self, first, second, is_equal=False):
        """Returns a comparison of two bundles; if `is_equal` is true, their programs have the same lengths, if the images have room for that."""
        self.count += 1
        for one, other in ([equal_lengths(first, second)] if is_equal else []) + [(first, second)]:
            paths = self.file("first", one), self.file("second", other)
            status, out, err = self.run(["compare", *self.options, *paths], is_search=True)
            if status in (SAME, INCOMPLETE, DIFFERENT):
                return Witness(status, out)
        raise self.failed("compare", status, err)

    def question(self, command, bundle, *words):
        """Returns the status and the lines of a question about a bundle."""
        is_search = command in ("explore", "policy", "access")
        path = self.file("asked", bundle)
        status, out = self.answer([command, *words, *(self.options if is_search else []), path], (SAME, INCOMPLETE), is_search=is_search)
        return status, out.decode("latin-1").split("\n")[:-1]
