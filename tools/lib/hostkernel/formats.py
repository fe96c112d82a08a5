"""Programs, bundles and traces (pvsim(5)), as a comparison with a kernel needs them."""
import os
import re
from dataclasses import dataclass, field
from typing import Optional

import pvtest
from fromlog import kdump, manifests, trace
from fromlog.texts import COUNT, LINES, NAME, PATH

# The numbers of the errors; the last two are errors of the host alone.
NUMBERS = {**{name: number for number, name in kdump.ERRORS.items()}, "EXDEV": 18, "ETXTBSY": 26}
OPEN_FLAGS = {
    "append": os.O_APPEND, "create": os.O_CREAT, "trunc": os.O_TRUNC, "excl": os.O_EXCL, "nofollow": os.O_NOFOLLOW, "dir": os.O_DIRECTORY,
    "cloexec": os.O_CLOEXEC,
}  # fmt: skip
TEXT, NUMBER = r'"(?:[ !#-\[\]-~]|\\x(?:0[1-9a-f]|[1-9a-f][0-9a-f]))*"', r"-?[1-9][0-9]{0,9}|0"
# The forms of the arguments, by a letter.
FORMS = {
    "T": TEXT, "N": f"{TEXT}|null", "R": "r[0-7]", "I": NUMBER, "O": f"r[0-7]|{NUMBER}", "A": f"cwd|r[0-7]|{NUMBER}", "W": "set|cur|end",
    "F": "(?:rw|r|w)" + "".join(rf"(?:\+{flag})?" for flag in OPEN_FLAGS),
}  # fmt: skip
SIGNATURES = {
    "set": "RI", "add": "RI", "put": "T", "peek": "RI", "jmp": "I", "jz": "RI", "jnz": "RI", "jneg": "RI", "fork": "", "wait": "", "getpid": "",
    "getppid": "", "exit": "O", "pledge": "NN", "unveil": "NN", "execve": "T", "open": "TF", "openat": "ATF", "close": "O", "dup": "O", "dup2": "OO",
    "read": "OO", "write": "OO", "lseek": "OOW", "fstat": "O", "ftruncate": "OO", "getdents": "O", "fchdir": "O", "chdir": "T", "stat": "T", "lstat": "T",
    "readlink": "T", "mkdir": "T", "rmdir": "T", "unlink": "T", "symlink": "TT", "link": "TT", "rename": "TT",
}  # fmt: skip
LINE = {name: re.compile(" ".join([name, *(f"({FORMS[kind]})" for kind in kinds)])) for name, kinds in SIGNATURES.items()}
JUMPS = ("jmp", "jz", "jnz", "jneg")
ON_REGISTERS = (*JUMPS, "set", "add", "put", "peek")
# What the host has above its own limits: a name of 255 bytes, a path of 4,095.
HOST_NAME, HOST_PATH = 256, 4096


@dataclass
class Event:
    """A step that is a call, with its answer. `outcome` is `ok`, `blocked`, `gone`, `exit`, `killed` or the name of an error; `data` are the bytes that the
    call copied to or from the buffer, or None. `is_refused` says whether promises or the unveil table refused it."""

    pid: int
    call: Optional[str]
    args: tuple
    outcome: str
    value: int = 0
    data: Optional[bytes] = None
    is_refused: bool = field(default=False, compare=False)

    def flags(self):
        """Returns the mode and the flags of an open."""
        return self.args[-1].split("+") if self.call in ("open", "openat") else []

    def paths(self):
        """Returns the paths that the call walks."""
        return [manifests.unescape(it.encode()) for it in self.args if it.startswith('"')][self.call == "symlink" :]

    def __str__(self):
        return f"{self.call}({', '.join(self.args)}) {self.outcome}" + (f" {self.value}" if self.outcome == "ok" else "")


def event_of(step):
    """Returns the event of a step of a trace."""
    outcomes = {"gone": "gone", "ended": "exit", "killed": "killed", "blocked": "blocked"}
    outcome = outcomes.get(step.outcome) or (kdump.ERRORS[step.error] if step.error else "ok")
    data = step.wrote if step.wrote is not None else step.read or (b"" if step.name in ("read", "getdents") and outcome == "ok" else None)
    return Event(step.pid, step.name or None, tuple(step.args), outcome, step.value, data, bool(step.judged))


def events_of(text):
    """Returns the events of a trace."""
    return [event_of(step) for step in trace.read(text.decode("latin-1").splitlines())]


def bundle_of(text):
    """Returns the entries of the manifest of a bundle, and the process of each step."""
    manifest, schedule = pvtest.split_bundle(text)
    turns = [(line.split() + [b"1"])[:2] for line in (schedule or b"").splitlines()]
    return manifests.read(manifest)[1], [int(pid) for pid, count in turns for _ in range(int(count))]


def instruction_of(line, lines):
    """Returns the words of an instruction of a program with a number of lines, or None."""
    name = line.split(" ")[0]
    found = name in LINE and LINE[name].fullmatch(line)
    if not found:
        return None
    numbers = [int(word) for kind, word in zip(SIGNATURES[name], found.groups()) if re.fullmatch(NUMBER, word)]
    is_within = all(-(2**31) <= it < 2**31 for it in numbers)
    if not is_within or (name in JUMPS and not 1 <= numbers[-1] <= lines) or (name == "peek" and not 0 <= numbers[0] < COUNT):
        return None
    return [name, *found.groups()]


def program_of(data):
    """Returns the instructions of a program as lists of words, or None if the bytes are not a program."""
    lines = data.decode("latin-1").removesuffix("\n").split("\n") if data else []
    program = [instruction_of(line, len(lines)) for line in lines]
    return program if len(lines) <= LINES and None not in program else None


def lengthened(path):
    """Returns a path with a name above the machine's limit in place of which there is one above the host's, and the same of the path."""
    longer = re.sub(rb"[^/]{%d,}" % (NAME + 1), lambda it: it[0].ljust(HOST_NAME, b"~"), path)
    return longer + b"/" * HOST_PATH if len(path) > PATH else longer


def shortened(text):
    """Returns the text of a link that `lengthened` made."""
    return re.sub(rb"[^/]{%d,}" % HOST_NAME, lambda it: it[0].rstrip(b"~"), text)
