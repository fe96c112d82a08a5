"""Writes bundles as programs in C with their expected traces, for a machine with another kernel."""
import os
import re
import shutil

import pvtest
from fromlog import trace
from fromlog.logs import LogError
from fromlog.manifests import read, unescape
from fromlog.schedules import Scheduler, lines_of
from fromlog.texts import text_of

from .comparison import LIMITS, Refused, answer_of
from .formats import NUMBER, SIGNATURES, event_of, lengthened, program_of
from .machine import WHENCE

HERE = f"{os.path.dirname(os.path.realpath(__file__))}/emitted"
FILES = ("machine.c", "machine.h", "Makefile", "run.sh", "README")
FLAGS = {
    "append": "O_APPEND", "create": "O_CREAT", "trunc": "O_TRUNC", "excl": "O_EXCL", "nofollow": "O_NOFOLLOW", "dir": "O_DIRECTORY", "cloexec": "O_CLOEXEC",
}  # fmt: skip
LAST = '\t{ OP_EXIT, "exit", 1, { { NUMBER, NULL, NULL, 0 } } }'
MODES = {"r": "O_RDONLY", "w": "O_WRONLY", "rw": "O_RDWR"}
# The lines of a trace that a kernel does not show.
HIDDEN = re.compile(r" *\d+ (NAMI|PLDG|UNVL) ")
STAT = re.compile(r"( *\d+ GIO   read 8 )(..)00....(........)")


class LeftOut(Exception):
    """A bundle that is not written, with the reason."""


def literal(data):
    """Returns bytes as a string literal of C."""
    return '"' + "".join(chr(it) if 32 <= it < 127 and it not in b'"\\?' else f"\\{it:03o}" for it in data) + '"'


def argument(kind, word, name):
    """Returns an argument of an instruction as an initializer."""
    if kind in "TN":
        data = unescape(word.encode()) if word != "null" else None
        shown = literal(text_of(data).encode()) if data is not None else '"null"'
        data = data if data is None or name in ("put", "pledge") else lengthened(data)
        return f"{{ TEXT, {shown}, {'NULL' if data is None else literal(data)}, {len(data or b'')} }}"
    if kind == "F":
        mode, *flags = word.split("+")
        return f"{{ WORD, {literal(word.encode())}, NULL, {' | '.join([MODES[mode], *(FLAGS[it] for it in flags)])} }}"
    if kind == "W":
        return f'{{ WORD, "{word}", NULL, {("SEEK_SET", "SEEK_CUR", "SEEK_END")[WHENCE.index(word)]} }}'
    if kind == "R" or re.fullmatch("r[0-7]", word):
        return f"{{ REGISTER, NULL, NULL, {word[1:]} }}"
    return f"{{ NUMBER, NULL, NULL, {word} }}" if re.fullmatch(NUMBER, word) else f'{{ WORD, "{word}", NULL, 0 }}'


def instruction(words):
    """Returns an instruction as an initializer."""
    name, *rest = words
    arguments = ", ".join(argument(kind, word, name) for kind, word in zip(SIGNATURES[name], rest)) or "{ NUMBER, NULL, NULL, 0 }"
    return f'\t{{ OP_{name.upper()}, "{name}", {len(rest)}, {{ {arguments} }} }},'


class Follower(Scheduler):
    """Follows the run of a bundle: `loads` has the number of the step of each execve that succeeds, with its program, and `programs` the programs."""

    def __init__(self, entries):
        super().__init__(entries)
        self.programs, self.loads, self.restrained = [self.processors[1].lines], [], set()

    def follow(self, step):
        super().follow(step)
        if step.outcome != "answer" or step.error:
            return
        if step.name in ("pledge", "unveil"):
            self.restrained.add(step.pid)
        elif step.name == "fork" and step.pid in self.restrained:
            self.restrained.add(step.value)
        elif step.name == "execve":
            if step.pid in self.restrained:
                raise LeftOut("a process with promises or a table executes a program, which here is a text that the kernel does not load")
            lines = lines_of(self.replay.processes[step.pid].program)
            self.programs += [lines] if lines not in self.programs else []
            self.loads.append((sum(count for _, count in self.turns), self.programs.index(lines)))


def data_of(entries, follower):
    """Returns the lines of the data of a bundle in C."""
    lines = ['#include <fcntl.h>', '#include <stddef.h>', '#include <unistd.h>', "", '#include "machine.h"', ""]
    for at, program in enumerate(follower.programs):
        parsed = program_of("\n".join([*program, ""]).encode("latin-1")) if program else []
        lines += [f"static const struct instruction program{at}[] = {{", *map(instruction, parsed), LAST, "};"]
    lines += ["const struct program programs[] = {"]
    lines += [f"\t{{ {len(program)}, program{at} }}," for at, program in enumerate(follower.programs)] + ["};"]
    kinds = {"dir": "d", "bytes": "f", "exec": "x", "link": "l", "name": "n"}
    lines += ["const struct entry entries[] = {"]
    for kind, path, data in entries:
        data = lengthened(data) if kind == "link" else data
        lines.append(f"\t{{ '{kinds[kind]}', {literal(path)}, {literal(data)}, {len(data)} }},")
    lines += ["\t{ 0, NULL, NULL, 0 }", "};", "const struct turn turns[] = {"]
    lines += [f"\t{{ {pid}, {steps} }}," for pid, steps in follower.turns] + ["\t{ 0, 0 }", "};", "const struct load loads[] = {"]
    lines += [f"\t{{ {step}, {program} }}," for step, program in follower.loads] + ["\t{ 0, 0 }", "};"]
    counts = f"entry_count = {len(entries)}, turn_count = {len(follower.turns)}, load_count = {len(follower.loads)}"
    return [*lines, f"const int {counts};"]


def expected(lines):
    """Returns a trace as the program in C writes it: without what a kernel does not show, the numbers of nodes and the sizes of directories."""
    shown = [it for it in lines if not HIDDEN.match(it)]
    out, is_stat = [], False
    for line in shown:
        is_stat = bool(re.search(r"CALL  [lf]?stat\(", line)) or (is_stat and "GIO" in line)
        found = STAT.fullmatch(line) if is_stat else None
        out.append(f"{found[1]}{found[2]}000000{'00000000' if found[2] == '01' else found[3]}" if found else line)
    return out


def name_of(path):
    """Returns the name of a bundle as a program."""
    return re.sub(r"\W+", "_", path.removesuffix(".bundle"))


def emit(program, name, bundle, folder):
    """Writes a bundle as NAME.c and NAME.expected in a folder."""
    text = answer_of(program, "run-tree", "-", given=bundle).decode("latin-1").splitlines()
    steps = trace.read(text)
    limits = {it.outcome for it in map(event_of, steps)} & set(LIMITS)
    if limits:
        raise LeftOut(f"it has an answer by a limit of the machine: {', '.join(sorted(limits))}")
    entries = read(pvtest.split_bundle(bundle)[0])[1]
    follower = Follower(entries)
    for step in steps:
        follower.follow(step)
    pvtest.write(f"{folder}/{name}.c", pvtest.text_of(data_of(entries, follower)))
    pvtest.write(f"{folder}/{name}.expected", pvtest.text_of(expected(text)).encode("latin-1"))


def emit_all(program, folder, bundles):
    """Writes bundles, each with its name, and the files that compile, run and compare them. Returns the names, and those that are left out with the reasons."""
    os.makedirs(f"{folder}/bundles")
    for name in FILES:
        shutil.copy(f"{HERE}/{name}", folder)
    done, left_out = [], {}
    for path, bundle in bundles:
        name = name_of(path)
        try:
            emit(program, name, bundle, f"{folder}/bundles")
            done.append(name)
        except (LeftOut, LogError, Refused) as error:
            left_out[name] = str(error)
    pvtest.write(f"{folder}/left-out", pvtest.text_of(f"{name}: {reason}" for name, reason in left_out.items()))
    return done, left_out
