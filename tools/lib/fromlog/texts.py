"""Bytes in logs and in the formats of pvsim(5), and the limits of the formats."""
import re

NAME, PATH, TEXT, LINES, COUNT = 60, 1023, 1100, 256, 4096
ESCAPES = {"n": 10, "t": 9, "r": 13, "v": 11, "f": 12, "a": 7, "b": 8, "s": 32, "\\": 92, '"': 34}
QUOTED = re.compile(r'"((?:[^"\\]|\\.)*)"(\.\.\.)?')
# A byte as strace(1) and vis(3) escape it: octal, \xHH, \M-C, \M^C, \^C, or \C.
ESCAPED = re.compile(r"\\(?:([0-7]{1,3})|x([0-9a-fA-F]{2})|(M-)(.)|(M?)\^(.)|(.))", re.S)


def byte_of(found):
    """Returns the byte of a match of ESCAPED."""
    octal, hexadecimal, meta, plain, meta_control, control, letter = found.groups()
    if octal:
        return int(octal, 8) & 255
    if hexadecimal:
        return int(hexadecimal, 16)
    if meta:
        return 128 | ord(plain) & 127
    if control:
        return (128 if meta_control else 0) | (127 if control == "?" else ord(control) & 31)
    return ESCAPES.get(letter, ord(letter) & 255)


def unescape(text):
    """Returns the bytes of a text as strace(1) and kdump(1) escape them."""
    out, at = bytearray(), 0
    for found in ESCAPED.finditer(text):
        out += text[at : found.start()].encode("utf-8", "surrogateescape")
        out.append(byte_of(found))
        at = found.end()
    return bytes(out + text[at:].encode("utf-8", "surrogateescape"))


def unquote(argument):
    """Returns the bytes of an argument that begins with a quoted string, and whether the log cuts it; None if it does not begin so."""
    found = QUOTED.match(argument)
    return (unescape(found[1]), bool(found[2])) if found else None


def text_of(data):
    """Returns bytes as a TEXT in its shortest form."""
    return '"' + "".join(chr(it) if 32 <= it < 127 and it not in (34, 92) else f"\\x{it:02x}" for it in data) + '"'


def is_path_of_manifest(path):
    """Returns whether a manifest can have an entry at an absolute path."""
    names = path.split(b"/")[1:]
    return path.startswith(b"/") and len(path) <= PATH and all(0 < len(it) <= NAME and it not in (b".", b"..") and b"\0" not in it for it in names)


def joined(base, path):
    """Returns the absolute path of a path that starts at a directory, without `.` and repeated slashes; `..` remains, since links may precede it."""
    whole = path if path.startswith(b"/") else base + b"/" + path
    return b"/" + b"/".join(it for it in whole.split(b"/") if it not in (b"", b"."))


def collapsed(path):
    """Returns an absolute path without `..`, as if no link preceded it."""
    names = []
    for name in path.split(b"/")[1:]:
        names = names[:-1] if name == b".." else [*names, name]
    return b"/" + b"/".join(names)


def parent_of(path):
    """Returns the path of the directory that contains an absolute path; the root is an empty path."""
    return path.rpartition(b"/")[0]
