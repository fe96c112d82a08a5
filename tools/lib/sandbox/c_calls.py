"""Writes the calls of pledge(2) and unveil(2) of a source in C."""
import re

from .registers import next_of
from .restraints import EXECPROMISES, PERMISSIONS, PROMISES
from .sites import KEYWORDS, LETTERS, parent_of
from .texts import is_restraint, shown, split_instruction, unescape
from .unmodelled import promise_of

# Calls that want rpath on OpenBSD, also where the machine is content without it.
WANT_RPATH = ("rename", "link", "stat", "lstat", "readlink")
# A comment of a log reader: the calls that are not modelled, or one of them that matters, by its name and its arguments.
UNMODELLED = re.compile(rb"[ \t]*#[ \t]*(?:not modelled: (.*)|left out: ([a-z_]\w*).*)")
KINDS = (rb"[A-Z]", rb"[a-z]", rb"[0-9]")
SHORTEST, LONGEST = 6, 12  # letters and digits in the random part of a name


def is_random(name):
    """Returns whether a name seems to have a random part, as mkstemp(3) makes it: capitals, small letters and digits in turn at its end, but no words."""
    last = re.split(rb"[._-]", name)[-1]
    if b"X" * SHORTEST in name:
        return True
    if not SHORTEST <= len(last) <= LONGEST or not last.isalnum() or re.fullmatch(rb"[A-Z]?[a-z]+(?:[A-Z][a-z]+)*[0-9]*", last):
        return False
    kinds = [next((k for k, it in enumerate(KINDS) if re.match(it, last[at : at + 1])), None) for at in range(len(last))]
    return sum(one != other for one, other in zip(kinds, kinds[1:])) >= 2


def c_string(data):
    """Returns bytes as a string of C."""
    return '"' + "".join(chr(it) if 32 <= it < 127 and it not in b'"\\?' else f"\\{it:03o}" for it in data) + '"'


def comment(*texts):
    """Returns the lines of a comment."""
    lines = [it.replace("*/", "*?") for it in texts]
    return [f"/* {lines[0]} */"] if len(lines) == 1 else ["/*", *(f" * {it}" for it in lines), " */"]


def about(call, texts):
    """Returns the lines of a comment about a call, which begins with its line in the source."""
    return comment(f"line {call.place}: {texts[0]}") if len(texts) == 1 else comment(f"line {call.place}:", *texts)


def reachable(program, at):
    """Returns the instructions that a program may execute from a place on, as words."""
    seen, left = set(), [at]
    while left:
        at = left.pop()
        if at not in seen and at < len(program.lines):
            seen.add(at)
            left += next_of(program.lines, at)
    return [split_instruction(program.lines[it]) for it in sorted(seen)]


class Programs:
    """The programs of a source, with those that each of them executes."""

    def __init__(self, source):
        self.source, self.by_path = source, source.bundle.by_path()

    def executed(self, instructions):
        """Returns the programs that instructions execute, and all that those execute."""
        found, left = [], list(instructions)
        while left:
            words = left.pop()
            program = self.by_path.get(unescape(words[1][1:-1].encode("latin-1"))) if words[0] == "execve" else None
            if program and program not in found:
                found.append(program)
                left += map(split_instruction, program.lines)
        return found

    def all_calls(self, instructions):
        """Returns instructions with those of the programs that they execute."""
        return [*instructions, *(split_instruction(line) for it in self.executed(instructions) for line in it.lines)]


def wanting(instructions):
    """Returns the first of some calls that wants rpath on OpenBSD, or None."""
    return next((" ".join(it) for it in instructions if it[0] in WANT_RPATH), None)


class Writer:
    """Writes the calls of one program after another. `needs` has the first call that needs each word of an argument."""

    def __init__(self, source, least):
        self.programs, self.lines = Programs(source), []
        self.least = least
        self.needs = {(it.call, it.argument, it.text()): self.reason(it) for it in least.words if it.is_kept()}

    @staticmethod
    def reason(word):
        if not word.answer.is_different():
            return "not decided"
        return word.answer.call() or word.answer.what()

    def text(self):
        """Returns the text of all programs."""
        for program in self.programs.source.bundle.programs:
            calls = [it for it in self.least.calls if it.program.path == program.path]
            if calls:
                self.add_program(program, calls)
        return "\n".join(self.lines) + "\n"

    def add_program(self, program, calls):
        """Writes the calls of a program."""
        self.lines += [""] * bool(self.lines) + comment(shown(program.path)) + self.unmodelled(program)
        unveils = self.merged([it for it in calls if it.name == "unveil" and it.path() and it.arguments[1]])
        for call in calls:
            if call.name == "pledge":
                self.add_pledge(program, call)
            elif call in unveils:
                self.add_unveil(program, call, *unveils[call], unveils)
            elif call.texts == [b"null", b"null"]:
                self.lines += about(call, ["the lock"])
                self.lines.append('if (unveil(NULL, NULL) == -1) err(1, "unveil");')

    def unmodelled(self, program):
        """Returns comments on the calls that the log reader left out of a program."""
        source = self.programs.source
        first, last = min(program.at_lines), max(program.at_lines)
        while first > 1 and not source.lines[first - 1].lstrip().startswith(b'exec "'):
            first -= 1
        found = [match for line in source.lines[first:last] if (match := UNMODELLED.match(line))]
        names = [name for match in found for name in shown(match[1] or match[2]).strip().split(", ")]
        texts = [f"not modelled: {it}: probably {promise_of(it)}" for it in dict.fromkeys(names) if promise_of(it)]
        return comment(*texts) if texts else []

    # ---- unveil

    def merged(self, calls):
        """Returns the path and the letters of each unveil, where a path with a random part is its directory, and paths that are equal then are one call."""
        found, first = {}, {}
        for call in calls:
            path = unescape(call.texts[0][1:-1])
            general = parent_of(path) if is_random(path.rpartition(b"/")[2]) else path
            letters = {key: self.needs[call, call.arguments[1], key] for key in call.arguments[1].words_left() if (call, call.arguments[1], key) in self.needs}
            if general in first:
                mine = found[first[general]]
                mine[1].update({key: value for key, value in letters.items() if key not in mine[1]})
                mine[2].extend([path] if general != path else [])
            else:
                first[general] = call
                found[call] = (general, letters, [path] if general != path else [])
        return found

    def add_unveil(self, program, call, path, letters, random, unveils):
        """Writes an unveil."""
        reasons = [f"{key}: {letters[key]}" for key in LETTERS if key in letters]
        rename = self.rename_from(program, call, path, unveils)
        if rename and "r" not in letters:
            letters["r"] = rename
            reasons.append(f"r: OpenBSD wants it for {rename}")
        general = [f"{c_string(it)} seems to have a random part: this is its directory" for it in random]
        self.lines += about(call, [*general, *(reasons or ["no permission is needed here"])])
        permissions = c_string("".join(it for it in LETTERS if it in letters).encode())
        self.lines.append(f'if (unveil({c_string(path)}, {permissions}) == -1) err(1, "unveil");')

    def rename_from(self, program, call, path, unveils):
        """Returns the first rename whose source the unveil of a path governs, as far as the texts of paths show it, or None."""
        for words in self.programs.all_calls(reachable(program, call.at)):
            if words[0] == "rename":
                source = b"/" + unescape(words[1][1:-1].encode("latin-1")).lstrip(b"/")
                above = [it for it, *_ in unveils.values() if source == it or source.startswith(it.rstrip(b"/") + b"/")]
                if above and max(above, key=len) == path:
                    return " ".join(words)
        return None

    # ---- pledge

    def add_pledge(self, program, call):
        """Writes a pledge."""
        after = [it for it in reachable(program, call.at) if not is_restraint(it[0].encode())]
        inner = [split_instruction(line) for it in self.programs.executed(after) for line in it.lines]
        notes, texts = [], []
        for argument, name, calls in zip(call.arguments, (PROMISES, EXECPROMISES), (after, inner)):
            if argument is None:
                texts.append("NULL")
                continue
            prefix = "execpromises: " if name == EXECPROMISES else ""
            words = [it for it in KEYWORDS if it in argument.words_left()]
            words += [argument.word(at) for at, is_kept in enumerate(argument.is_kept) if is_kept and argument.word(at) not in KEYWORDS]
            notes += [f"{prefix}{it}: {self.needs[call, argument, it]}" for it in words if (call, argument, it) in self.needs]
            words, more = self.stricter(words, calls)
            notes += [prefix + it for it in more]
            texts.append(c_string(" ".join(words).encode()))
        self.lines += about(call, notes or ["no promise is needed here"])
        self.lines.append(f'if (pledge({", ".join(texts)}) == -1) err(1, "pledge");')

    @staticmethod
    def stricter(words, calls):
        """Returns promises with stdio, and with rpath if OpenBSD wants it for one of some calls, and notes about both."""
        notes, reason = [], wanting(calls)
        if "stdio" not in words:
            words, notes = ["stdio", *words], ["stdio: for the C library"]
        if reason and "rpath" not in words:
            words, notes = [words[0], "rpath", *words[1:]], [*notes, f"rpath: OpenBSD wants it for {reason}"]
        return words, notes


def c_text(source, least):
    """Returns the calls of a source in C."""
    return Writer(source, least).text()
