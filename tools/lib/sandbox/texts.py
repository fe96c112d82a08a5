"""The texts of sources and programs: arguments in quotes, their words and letters, and instructions."""
import re

QUOTED = rb'"(?:[^"\\]|\\x[0-9a-f]{2})*"'
ARGUMENT = rb"(?:null|" + QUOTED + rb")"
RESTRAINT = re.compile(rb"(pledge|unveil) (" + ARGUMENT + rb") (" + ARGUMENT + rb")")
# The same in a line of a source, with a label, blanks and a comment.
IN_SOURCE = re.compile(rb"[ \t]*(?:[A-Za-z][\w-]*:[ \t]+)?(pledge|unveil)[ \t]+(" + ARGUMENT + rb")[ \t]+(" + ARGUMENT + rb")")
JUMPS = ("jmp", "jz", "jnz", "jneg")
NOTHING = b"pledge null null"


def unescape(text):
    """Returns the bytes of a text without its quotes."""
    return re.sub(rb"\\x([0-9a-f]{2})", lambda it: bytes([int(it[1], 16)]), text)


def quoted(data):
    """Returns bytes as a text, in its shortest form."""
    return b'"' + b"".join(bytes([it]) if 32 <= it < 127 and it not in b'"\\' else b"\\x%02x" % it for it in data) + b'"'


def shown(data):
    """Returns bytes as characters for a report."""
    return data.decode("latin-1")


def words_of(text):
    """Returns the keywords in an argument of pledge(2), as they are written."""
    return [it for it in re.split(rb"(?: |\\x20)+", text[1:-1]) if it]


def letters_of(text):
    """Returns the letters in the second argument of unveil(2), as they are written."""
    return re.findall(rb"\\x[0-9a-f]{2}|[^\\]", text[1:-1])


def split_instruction(line):
    """Returns the words of an instruction of a bundle, where a text is one word."""
    return [shown(it) for it in re.findall(QUOTED + rb"|[^ ]+", line)]


def is_restraint(line):
    """Returns whether an instruction of a bundle is a call of pledge(2) or unveil(2)."""
    return line.split(b" ")[0] in (b"pledge", b"unveil")
