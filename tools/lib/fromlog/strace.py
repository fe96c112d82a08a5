"""Reads logs of strace(1)."""
import re

from .calls import Call, forks_first, split_arguments
from .texts import unescape
from .logs import Log, LogError

PREFIX = re.compile(
    r"\s*(?:\[pid\s+(?P<shown>\d+)\]\s+|(?P<pid>\d+)\s+(?!=))?"  # -f
    r"(?:\d\d:\d\d:\d\d(?:\.\d+)?\s+|\d{9,}(?:\.\d+)?\s+)?"  # -t, -tt, -ttt
    r"(?:\(?\+?\s*\d+\.\d+\)?\s+)?"  # -r
    r"(?:\[\s*\d+\]\s+)?"  # -n
    r"(?:\[(?:[0-9a-f]{8,}|\?+)\]\s+)?"  # -i
)
CALL = re.compile(r"(\w+)\((.*)\)\s+=\s+(\?|-?\d+|0x[0-9a-f]+)(?:<(.*?)>(?=\s|$))?(?:\s+(E[A-Z0-9]+))?")
RESUMED = re.compile(r"<\.\.\. (\w+) resumed>\s?(.*)")
UNFINISHED = "<unfinished ...>"


class Reader:
    """The calls of a log, and what the log shows of its processes."""

    def __init__(self):
        self.calls, self.begun, self.ended = [], {}, set()

    def read(self, line):
        """Reads a line; returns whether it is a line of strace(1)."""
        found = PREFIX.match(line)
        pid, rest = int(found["shown"] or found["pid"] or 0), line[found.end() :]
        if rest.endswith(UNFINISHED):
            self.begun[pid] = rest[: -len(UNFINISHED)].rstrip()
            return True
        resumed = RESUMED.match(rest)
        if resumed:
            rest = self.begun.pop(pid, f"{resumed[1]}(") + resumed[2]
        if re.match(r"\+\+\+ (exited|killed)", rest):
            self.ended.add(pid)
            return True
        return self.read_call(pid, rest) or rest.startswith("--- ") or line.startswith("strace: ")

    def read_call(self, pid, rest):
        """Reads the text of a call that has returned."""
        found = CALL.match(rest)
        if not found:
            return False
        if pid == 0 and pid in self.ended:
            raise LogError("calls follow the end of the process, as if the files of strace -ff were joined: use strace -f, or strace-log-merge(1)")
        value = None if found[3] == "?" else int(found[3], 0)
        shown = unescape(found[4]) if found[4] else None
        self.ended |= {pid} if found[1] == "exit_group" else set()
        self.calls.append(Call(pid, found[1], split_arguments(found[2]), value, found[5], shown=shown))
        return True

    def unfinished(self):
        """Returns the calls that have not returned at the end of the log."""
        named = [(pid, re.match(r"(\w+)\((.*)", rest)) for pid, rest in self.begun.items()]
        return [Call(pid, found[1], split_arguments(found[2])) for pid, found in named if found]


def read(lines):
    """Returns the log of these lines."""
    reader = Reader()
    unread = sum(not reader.read(line) for line in lines if line.strip())
    if not reader.calls:
        raise LogError("no line is one of strace(1)")
    return Log(forks_first(reader.calls) + reader.unfinished(), unread)
