"""What `tools/prove`, `tools/mutants` and `tools/goals` share: the toolchain's `rt`, copies of the crates, proved libraries, and the time that each part takes.

`tools/prove` runs the toolchain's merge check, `rt ci`, in a copy of the crates, and leaves each proved library under a checksum of what it was made from.
The two other tools take a library only if it was made from the very sources that they read, by this toolchain.
"""
import collections
import contextlib
import hashlib
import importlib.machinery
import importlib.util
import os
import re
import shutil
import subprocess
import tarfile
import threading

TOP = os.path.dirname(os.path.dirname(os.path.dirname(os.path.realpath(__file__))))
# Where `make test` leaves the proved libraries.
LIBRARIES = f"{TOP}/bin/libraries"
# What `rt ci` reads of a crate; tools/mutants adds the folders with mutants.
PARTS = ("src", "specs", "proofs", "stdin", "stdout", "args", "status", "data")
# The crates that hold tests alone. tools/unit-tests runs them; the merge check does not prove them, since a proof of a test says only that it ends safely.
OF_TESTS = ("pv_tests_tree", "pv_tests_text")


def load_rt():
    """Returns the toolchain's `rt` as a module."""
    loader = importlib.machinery.SourceFileLoader("rt", os.path.realpath(shutil.which("rt")))
    made = importlib.util.module_from_spec(importlib.util.spec_from_loader("rt", loader))
    loader.exec_module(made)
    return made


rt = load_rt()


class Timed(subprocess.Popen):
    """A command whose processor time is counted under the name of the thread that started it."""

    used, thread = collections.Counter(), threading.local()

    def __init__(self, words, *more, **how):
        self.counted = getattr(Timed.thread, "name", None)
        super().__init__(words, *more, **how)

    def _try_wait(self, flags):
        try:
            pid, status, usage = os.wait4(self.pid, flags)
        except ChildProcessError:
            return self.pid, 0
        if pid == self.pid:
            Timed.used[self.counted] += usage.ru_utime + usage.ru_stime
        return pid, status


class Watch(threading.Thread):
    """Samples the processor time of the prover's processes that run in a folder, by crate, and by whether they check its tests.

    The prover forks copies of itself, which keep its command line. The time of a copy that has ended is in that of its parent. So each second is counted once
    if the times of the processes that are alive at one moment are added, each with the time of its children that have ended. The sum belongs to the process
    that no process of the prover started.
    """

    EVERY, TICKS = 0.5, os.sysconf("SC_CLK_TCK")

    def __init__(self, folder):
        super().__init__(daemon=True)
        self.folder, self.last, self.ended = os.path.realpath(folder), {}, threading.Event()

    def run(self):
        while not self.ended.wait(self.EVERY):
            self.sample()

    def sample(self):
        """Notes the time of each process that the prover was started as, with that of its copies."""
        # (a parent is read before its copies, so that the time of a copy that ends meanwhile is not counted twice)
        found = {pid: it for pid in sorted(map(int, filter(str.isdigit, os.listdir("/proc")))) if (it := self.process(pid))}
        total = collections.Counter()
        for pid, (_, _, _, seconds) in found.items():
            first = pid
            while found[first][0] in found:
                first = found[first][0]
            total[first] += seconds
        for pid, seconds in total.items():
            _, start, of, _ = found[pid]
            self.last[pid, start] = of, max(seconds, self.last.get((pid, start), (of, 0))[1])

    def process(self, pid):
        """Returns the parent of a process, the time of its start, its crate with whether it checks the tests, and its seconds; None if it is not the prover at
        work in the folder."""
        try:
            with open(f"/proc/{pid}/cmdline", "rb") as it:
                words = it.read().split(b"\0")
            if b"--crate-name" not in words or not os.readlink(f"/proc/{pid}/cwd").startswith(self.folder):
                return None
            with open(f"/proc/{pid}/stat", encoding="utf-8") as it:
                fields = it.read().rpartition(")")[2].split()
        except OSError:
            return None
        name = words[words.index(b"--crate-name") + 1].decode()
        # (fields 11 to 14: in user and system mode, of the process and of its children that have ended)
        return int(fields[1]), fields[19], (name, b"--test" in words), sum(map(int, fields[11:15])) / self.TICKS

    def seconds(self):
        """Returns the seconds of each crate, and of the tests of each."""
        total = collections.Counter()
        for of, used in [*self.last.values()]:
            total[of] += used
        return total


def rows():
    """Returns the rows of crates.txt, by the name of the crate: the row, and the names of the crates and libraries that it uses."""
    found = {}
    with open(f"{TOP}/crates.txt", encoding="utf-8") as lines:
        for line in lines:
            row = line.partition("#")[0].strip()
            if row:
                name, _, uses = row.partition(":")
                found[name.split()[0]] = row, uses.split()
    return found


def closure(names):
    """Returns the names of some crates and of all below them, in the order of crates.txt."""
    known, found, left = rows(), set(), [*names]
    while left:
        name = left.pop()
        if name in known and name not in found:
            found.add(name)
            left += known[name][1]
    return [it for it in known if it in found]


def copy_crates(folder, names, parts=PARTS):
    """Makes a repository of some crates, with these parts of each, which no check of the developer's own touches."""
    known = rows()
    os.makedirs(f"{folder}/.git")
    with open(f"{folder}/crates.txt", "w", encoding="utf-8") as it:
        it.writelines(f"{known[name][0]}\n" for name in names)
    shutil.copy(f"{TOP}/HANDLES", folder)
    for name in names:
        os.makedirs(f"{folder}/crates/{name}")
        for part in parts:
            source = f"{TOP}/crates/{name}/{part}"
            if os.path.isdir(source):
                shutil.copytree(source, f"{folder}/crates/{name}/{part}")
            elif os.path.exists(source):
                shutil.copy(source, f"{folder}/crates/{name}")
    name_build(f"{folder}/crates/pv_cli/src/main.rt")


def proved_crates():
    """Returns the names of the crates that the merge check proves."""
    return [it for it in rows() if it not in OF_TESTS]


def commit():
    """Returns the first 12 digits of this repository's commit, or an empty text outside a repository."""
    return subprocess.run(["git", "-C", TOP, "rev-parse", "--short=12", "HEAD"], capture_output=True, text=True).stdout.strip()


def name_build(file):
    """Writes the commit of this repository into a copy of the program's source, so that `pvsim --version` prints it. A commit with changes says so."""
    digits = commit()
    if digits and os.path.isfile(file):
        changed = subprocess.run(["git", "-C", TOP, "status", "--porcelain", "--", "crates", "crates.txt"], capture_output=True, text=True).stdout
        with open(file, encoding="utf-8") as it:
            text = it.read()
        with open(file, "w", encoding="utf-8") as it:
            it.write(text.replace('const BUILD: &str = "";', f'const BUILD: &str = "commit {digits}{" with changes" * bool(changed)}, proved";'))


def crates_in(folder):
    """Returns the crates of a repository by their names, the lowest first. The stamp of each is computed once, while the toolchain computes it again for each
    path to the crate; so nobody may change the sources meanwhile."""
    crates = rt.rtlib.crates_below(folder)
    for it in crates:
        it.stamp = lambda stamp=it.stamp(): stamp
    return {it.name: it for it in crates}


def checksum(crate):
    """Returns a checksum of what a proof of a crate rests on: the toolchain, the handles, and by the toolchain's stamp the crate's sources and row, and those of
    the crates below it."""
    made = hashlib.sha256(crate.stamp().encode())
    for file in (f"{rt.KIT}/KIT-ID", f"{TOP}/HANDLES"):
        with open(file, "rb") as it:
            made.update(repr(it.read()).encode())
    return made.hexdigest()


def library_file(crate, folder):
    return f"{folder}/{crate.name}-{checksum(crate)}.tar.gz"


def put_library(crate, folder):
    """Leaves a proved library in a folder, in one file, since the toolchain takes no source outside a crate, and packed, since all are some gigabytes. The file
    appears whole or not at all."""
    os.makedirs(folder, exist_ok=True)
    part = f"{folder}/{crate.name}.{os.getpid()}.part"
    with tarfile.open(part, "w:gz", compresslevel=1) as made:
        made.add(crate.rlib, os.path.basename(crate.rlib))
    os.replace(part, library_file(crate, folder))


def take_library(crate, folder):
    """Gives a crate its proved library from a folder, if the library was made from these very sources. Returns whether the crate has it."""
    out = os.path.dirname(crate.rlib)
    try:
        with tarfile.open(library_file(crate, folder)) as made:
            shutil.rmtree(out, ignore_errors=True)
            made.extractall(out)
    except FileNotFoundError:
        return False
    # (so the toolchain's other commands take it as it is)
    with open(f"{out}/stamp", "w", encoding="utf-8") as it:
        it.write(crate.stamp())
    return True


def remove_libraries(folder, names):
    """Removes from a folder the libraries of some crates, and of those that are no longer in crates.txt."""
    known = rows()
    for it in os.listdir(folder) if os.path.isdir(folder) else []:
        found = re.fullmatch(r"(\w+)(-[0-9a-f]{64}\.tar\.gz|\.\d+\.part)", it)
        if found and (found[1] in names or found[1] not in known):
            with contextlib.suppress(FileNotFoundError):
                os.remove(f"{folder}/{it}")


def must_fail(crate, edit, flags):
    """Returns whether a check of the whole crate refuses an edit, and a line that says so."""
    result, text = rt.must_fail(crate, edit, flags)
    # (newer kits have names for the results in place of a Boolean)
    return result is True or result in [getattr(rt, it) for it in ("REFUSED", "AT_LIMIT") if hasattr(rt, it)], text
