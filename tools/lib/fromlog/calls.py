"""A system call of a log, and its arguments."""
import re
from dataclasses import dataclass, field
from typing import Optional

from .texts import unescape, unquote

# A descriptor, with the path that `strace -y` shows for it.
DESCRIPTOR = re.compile(r"(AT_FDCWD|-?\d+|0x[0-9a-f]+)(?:<(.*)>)?")
NUMBER = re.compile(r"(-?(?:0x[0-9a-fA-F]+|\d+))(?:<.*>)?")
FORKS = ("fork", "vfork", "clone", "clone3", "__tfork", "__tfork_thread")


@dataclass
class Call:
    """A call of a process: its arguments as the log writes them, its value (None: it did not return), and its error or None.

    `paths` are the paths that kdump(1) shows in lines of their own, and `data` is the data of a read or write in such a line, of `length` bytes.
    `shown` is the path that `strace -y` shows for the value."""

    pid: int
    name: str
    args: list
    value: Optional[int] = None
    error: Optional[str] = None
    paths: list = field(default_factory=list)
    data: Optional[bytes] = None
    length: Optional[int] = None
    shown: Optional[bytes] = None

    def argument(self, at):
        return self.args[at] if at < len(self.args) else ""

    def number(self, at):
        """Returns an argument that is a number, or None."""
        found = NUMBER.fullmatch(self.argument(at))
        return integer(found[1]) if found else None

    def flags(self, at):
        """Returns the names of the flags of an argument, without the number that kdump(1) writes before them."""
        found = re.fullmatch(r"\w+<(.*)>", self.argument(at))
        return (found[1] if found else self.argument(at)).split("|")

    def text(self, at):
        """Returns the bytes of an argument that is a string, or None."""
        found = unquote(self.argument(at))
        return found and found[0]

    def descriptor(self, at):
        """Returns the descriptor of an argument, `cwd` for AT_FDCWD or None, and the path that the log shows for it or None."""
        found = DESCRIPTOR.match(self.argument(at))
        if not found:
            return None, None
        shown = unescape(found[2]) if found[2] is not None else None
        is_cwd = found[1] in ("AT_FDCWD", "-100")
        return "cwd" if is_cwd else integer(found[1]), shown if shown and shown.startswith(b"/") else None

    def kind(self):
        """Returns the kind that the log shows of a stat: `dir`, `link`, or None for any other."""
        shown = " ".join(self.args)
        return "dir" if re.search(r"S_IFDIR|mode=d", shown) else "link" if re.search(r"S_IFLNK|mode=l", shown) else None

    def has_word(self, word):
        """Returns whether an argument contains a flag."""
        return any(re.search(rf"\b{word}\b", it) for it in self.args)

    def has_succeeded(self):
        return self.error is None and self.value is not None and self.value >= 0


def integer(text):
    """Returns a number in decimal, hexadecimal or, after a zero, octal."""
    return int(text, 8 if re.fullmatch(r"-?0[0-7]+", text) else 0)


CLOSING = {"(": ")", "[": "]", "{": "}", "<": ">"}


def split_arguments(text):
    """Splits the arguments of a call at the commas outside quotes and brackets. `<` is a bracket after a number or AT_FDCWD, not an operator."""
    args, open_brackets, start, at = [], [], 0, 0
    while at < len(text):
        char = text[at]
        if char == '"' and not (open_brackets and open_brackets[-1] == ">"):
            found = re.compile(r'"(?:[^"\\]|\\.)*"').match(text, at)
            at = found.end() if found else len(text)
            continue
        if char == "<" and (open_brackets[-1:] == [">"] or re.search(r"(\w|\])$", text[:at][-10:])) and not text.startswith("<<", at):
            open_brackets.append(">")
        elif char in "([{" and open_brackets[-1:] != [">"]:
            open_brackets.append(CLOSING[char])
        elif open_brackets and char == open_brackets[-1]:
            open_brackets.pop()
        elif char == "," and not open_brackets:
            args.append(text[start:at].strip())
            start = at + 1
        at += 1
    return [*args, text[start:].strip()] if text.strip() else []


def forks_first(calls):
    """Returns the calls with each fork before the first call of its child: a log has a call where it returns, and the child may run before."""
    calls = list(calls)
    first = {}
    for at, call in enumerate(calls):
        first.setdefault(call.pid, at)
    order = [(float(at), at) for at in range(len(calls))]
    for at, call in enumerate(calls):
        if call.name in FORKS and call.value and first.get(call.value, at) < at:
            order[at] = (first[call.value] - 0.5, at)
    return [calls[at] for _, at in sorted(order)]
