"""The calls of pledge(2) and unveil(2) of a source, and their arguments while words are left out."""
from .texts import IN_SOURCE, NOTHING, RESTRAINT, is_restraint, letters_of, shown, unescape, words_of

PROMISES, EXECPROMISES, PERMISSIONS = "promises", "execpromises", "permissions"


class Argument:
    """An argument whose words may be left out: its name, its text, and whether each word is still there."""

    def __init__(self, name, text):
        self.name, self.text = name, text
        self.words = letters_of(text) if name == PERMISSIONS else words_of(text)
        self.is_kept = [True] * len(self.words)

    def without(self, left_out=None):
        """Returns the text without the words that are left out, and without one more if its place is given."""
        if all(self.is_kept) and left_out is None:
            return self.text
        words = [word for at, word in enumerate(self.words) if self.is_kept[at] and at != left_out]
        return b'"' + (b"" if self.name == PERMISSIONS else b" ").join(words) + b'"'

    def words_left(self):
        """Returns the words that are not left out."""
        return {self.word(at) for at, is_kept in enumerate(self.is_kept) if is_kept}

    def word(self, at):
        return shown(unescape(self.words[at]))


class Restraint:
    """A call: its name, the line of the source, the place among the lines of the bundle, its program, and its arguments."""

    def __init__(self, program, at, line):
        found = RESTRAINT.fullmatch(line)
        self.program, self.at, self.line = program, at, line
        self.name, self.texts = shown(found[1]), [found[2], found[3]]
        self.place, self.number = program.at_lines[at], program.first + at
        names = (PROMISES, EXECPROMISES) if self.name == "pledge" else (None, PERMISSIONS)
        self.arguments = [Argument(name, text) if name and text != b"null" else None for name, text in zip(names, self.texts)]

    def path(self):
        """Returns the path of an unveil as its text, or None."""
        return shown(self.texts[0]) if self.name == "unveil" and self.texts[0] != b"null" else None

    def title(self):
        """Returns the call in a report."""
        return f"unveil {self.path()}" if self.path() else self.name

    def is_nothing(self):
        return self.line == NOTHING

    def items(self):
        """Returns the words that may be left out, each as its argument and its place there."""
        return [(it, at) for it in self.arguments if it for at in range(len(it.words))]

    def new_texts(self, left_out=(None, None)):
        """Returns the texts of both arguments, without one more word if it is given."""
        return [it.without(left_out[1] if it is left_out[0] else None) if it else text for it, text in zip(self.arguments, self.texts)]

    def instruction(self, left_out=(None, None)):
        """Returns the instruction, without one more word if it is given."""
        return b" ".join([self.name.encode(), *self.new_texts(left_out)])

    def in_source(self, line):
        """Returns the line of the source with the words left out that are no longer there."""
        found = IN_SOURCE.match(line)
        parts, at = [], 0
        for group, text in zip((2, 3), self.new_texts()):
            parts += [line[at : found.start(group)], text]
            at = found.end(group)
        return b"".join(parts) + line[at:]


def restraints_of(ask, source):
    """Returns the calls of the programs of a source, in the order of its lines."""
    found = []
    for program in source.bundle.programs:
        calls = [Restraint(program, at, line) for at, line in enumerate(program.lines) if is_restraint(line) and RESTRAINT.fullmatch(line)]
        if calls and (program.is_marked or ask.is_program(program.lines)):
            found += calls
    return found
