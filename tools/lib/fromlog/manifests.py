"""Reads manifests: the entries of the tree in which a run begins."""
import re

from .logs import LogError

ENTRY = re.compile(rb'(dir|bytes|link|name|exec) ("(?:[^"\\]|\\x..)*")(?: ("(?:[^"\\]|\\x..)*"|\d+))?')


def unescape(text):
    return re.sub(rb"\\x(..)", lambda it: bytes([int(it[1], 16)]), text[1:-1])


def read(text):
    """Returns the lines of a manifest without a schedule, and its entries: the kind, the path, and the bytes, link text or other path."""
    lines = text.split(b"\n")
    manifest, entries, at = lines[:1], [], 1
    while at < len(lines) and lines[at] not in (b"schedule", b""):
        found = ENTRY.fullmatch(lines[at])
        if not found:
            raise LogError(f"the manifest: line {at + 1} is not an entry (a source is made a manifest by `pvsim source`)")
        kind, path, rest = found[1].decode(), unescape(found[2]), found[3]
        count = int(rest) if kind == "exec" else 0
        data = b"".join(line + b"\n" for line in lines[at + 1 : at + 1 + count]) if kind == "exec" else unescape(rest or b'""')
        entries.append((kind, path, data))
        manifest += lines[at : at + 1 + count]
        at += 1 + count
    return manifest, entries
