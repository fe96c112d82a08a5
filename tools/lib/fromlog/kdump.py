"""Reads logs of kdump(1) of OpenBSD."""
import re

from .calls import Call, forks_first, split_arguments
from .logs import Log, LogError
from .texts import text_of, unescape

RECORD = re.compile(
    r" *(?P<pid>\d+)(?:/\d+)?\s+\S.*?\s+(?:\d+\.\d+\s+)?(?P<word>CALL|RET|NAMI|GIO|STRU|PSIG|PLDG|ARGS|ENV|USER|PINS|EMUL|CSW)(?:\s+|$)(?P<text>.*)"
)
CALL = re.compile(r"([\w#]+)\((.*)\)")
RETURN = re.compile(r"\w+ (-?\d+|0x[0-9a-f]+)(?:/\S+)?(?:,.*?)?(?: errno (\d+) .*)?$")
GIO = re.compile(r"fd (\d+) (read|wrote) (\d+) bytes")
ERRORS = {
    1: "EPERM", 2: "ENOENT", 7: "E2BIG", 8: "ENOEXEC", 9: "EBADF", 10: "ECHILD", 13: "EACCES", 16: "EBUSY", 17: "EEXIST", 20: "ENOTDIR", 21: "EISDIR",
    22: "EINVAL", 23: "ENFILE", 24: "EMFILE", 27: "EFBIG", 28: "ENOSPC", 35: "EAGAIN", 62: "ELOOP", 63: "ENAMETOOLONG", 66: "ENOTEMPTY", 78: "ENOSYS",
}  # fmt: skip
# The places of the paths among the arguments of a call, which has an address there.
PATHS = {
    **dict.fromkeys("open stat lstat access readlink mkdir rmdir unlink chdir execve unveil chmod chown lchown truncate statfs pathconf mknod".split(), (0,)),
    **dict.fromkeys("chroot chflags utimes mkfifo revoke quotactl __realpath".split(), (0,)),
    **dict.fromkeys("openat faccessat fstatat readlinkat mkdirat unlinkat fchmodat fchownat utimensat mknodat mkfifoat".split(), (1,)),
    "rename": (0, 1), "link": (0, 1), "renameat": (1, 3), "linkat": (1, 3), "symlink": (1,), "symlinkat": (2,),
}  # fmt: skip
# Where a STRU line gives an argument that the CALL line has as an address.
TEXTS = re.compile(r'(promise|execpromise|flags|unveil)=("(?:[^"\\]|\\.)*")')
TEXT_PLACES = {"promise": 0, "execpromise": 1, "flags": 1, "unveil": 1}


def data_of(lines):
    """Returns the bytes of the lines after a GIO line: the first has seven blanks and a quote, each other one a tab, a folded line a backslash, and the last a
    quote."""
    text = "\n".join(line.removeprefix("\t") for line in lines)
    text = text.removeprefix('       "').removesuffix('"').removesuffix("\n       ") + ("\n" if text.endswith('\n       "') else "")
    return unescape(re.sub(r"((?<!\\)(?:\\\\)*)\\\n", r"\1", text))


class Reader:
    """The calls of a log; `begun` has those that have not returned, by process."""

    def __init__(self):
        self.calls, self.begun = [], {}

    def read(self, pid, word, text, more):
        """Reads a record and the lines after it."""
        call = self.begun.get(pid)
        if word == "CALL":
            self.begin(pid, text)
        elif word == "RET" and call:
            self.end(self.begun.pop(pid), text)
        elif call and word == "NAMI":
            call.paths.append(text.strip())
        elif call and word == "GIO" and GIO.match(text):
            call.data = (call.data or b"") + data_of(more)
            call.length = (call.length or 0) + int(GIO.match(text)[3])
        elif call and word == "STRU":
            self.complete(call, "\n".join([text, *more]))

    def begin(self, pid, text):
        """Begins a call; an exit does not return."""
        found = CALL.match(text)
        call = Call(pid, found[1], split_arguments(found[2])) if found else None
        if call and call.name == "exit":
            self.calls.append(call)
        elif call:
            self.begun[pid] = call

    def complete(self, call, text):
        """Adds an argument that a STRU line shows."""
        found = TEXTS.match(text)
        place = TEXT_PLACES[found[1]] if found else None
        if found and place < len(call.args):
            call.args[place] = found[2]
        elif not found:
            call.args.append(text)

    def end(self, call, text):
        """Ends a call: an argument that is the address of a path becomes the path."""
        found = RETURN.match(text)
        if not found:
            return
        has_failed = found[1] == "-1" and found[2]
        call.value = int(found[1], 0)
        call.error = ERRORS.get(int(found[2]), f"E{found[2]}") if has_failed else None
        for place, path in zip(PATHS.get(call.name, ()), call.paths):
            if place < len(call.args):
                call.args[place] = path
        if call.name == "symlink" and not call.text(0):
            call.args[0] = text_of(b"unknown")
        self.calls.append(call)


def read(lines):
    """Returns the log of these lines."""
    reader, record, more, unread = Reader(), None, [], 0
    for line in lines:
        found = RECORD.fullmatch(line)
        if not found:
            more.append(line)
            unread += record is None and bool(line.strip())
            continue
        if record:
            reader.read(int(record["pid"]), record["word"], record["text"], more)
        record, more = found, []
    if record:
        reader.read(int(record["pid"]), record["word"], record["text"], more)
    if not reader.calls:
        raise LogError("no line is one of kdump(1)")
    return Log(forks_first(reader.calls) + list(reader.begun.values()), unread)
