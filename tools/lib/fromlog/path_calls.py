"""The calls that walk a path."""
import re

from .processes import Descriptor
from .texts import TEXT, is_path_of_manifest, parent_of, text_of

FLAGS = (
    ("O_APPEND", "append"), ("O_CREAT", "create"), ("O_TRUNC", "trunc"), ("O_EXCL", "excl"), ("O_NOFOLLOW", "nofollow"), ("O_DIRECTORY", "dir"),
    ("O_CLOEXEC", "cloexec"),
)  # fmt: skip
# Calls whose first argument is the descriptor that a relative path starts at.
AT = ("openat", "openat2", "fstatat", "newfstatat", "statx", "faccessat", "faccessat2", "readlinkat", "mkdirat", "unlinkat")


def start_of(call):
    """Returns the place of the argument with the start of a relative path or None, and the place of the path."""
    return (0, 1) if call.name in AT else (None, 0)


def flags_of(call, at):
    """Returns the flags of an open as the log names them."""
    if call.name == "creat":
        return ["O_WRONLY", "O_CREAT", "O_TRUNC"]
    found = re.search(r"flags=([\w|]+)", call.argument(at)) if call.name == "openat2" else None
    return found[1].split("|") if found else call.flags(at)


def do_open(source, process, call):
    """open(2) and its like; the log's descriptor then has the least number that is free in the machine."""
    start, at = start_of(call)
    flags, place = flags_of(call, at + 1), source.located(process, call, at, start)
    if place is None or "O_PATH" in flags or "O_TMPFILE" in flags:
        process.lost.add(call.value)
        unseen = "of a path that the log does not show"
        return source.drop(process, call, f"{call.name} {unseen if place is None else 'with O_PATH or O_TMPFILE'}")
    words = [word for flag, word in FLAGS if flag in flags]
    mode = "+".join(["rw" if "O_RDWR" in flags else "w" if "O_WRONLY" in flags else "r", *words])
    path, whole = place
    held = process.descriptors.get(call.descriptor(start)[0]) if start is not None else None
    verb = f"open {text_of(path)}"
    if held and not call.text(at).startswith(b"/"):
        verb = f"openat {held.own} {text_of(call.text(at))}"
    is_new = "create" in words and whole not in source.tree.nodes
    if source.walk(process, call, "open", place, "dir" if "dir" in words else None, is_new, instruction=f"{verb} {mode}") and call.has_succeeded():
        is_marked = "cloexec" in words
        process.add(call.value, lambda own: Descriptor(own, whole, is_marked, is_marked))
        if "trunc" in words:
            source.tree.note_written(whole)
        if is_new:
            source.tree.note_made(whole)
    return None


def do_stat(source, process, call):
    """stat(2), access(2) and their like."""
    start, at = start_of(call)
    if call.text(at) == b"" and call.has_word("AT_EMPTY_PATH"):
        number = call.descriptor(start)[0]
        held = process.descriptors.get(number)
        if held and source.add(process, f"fstat {held.own}", repeats=("fstat", held.own), alike=("fstat", held.own)):
            process.touch(8)
        elif not held and number in process.lost:
            source.drop(process, call)
        return
    verb = "lstat" if call.name == "lstat" or call.has_word("AT_SYMLINK_NOFOLLOW") else "stat"
    source.walk(process, call, verb, source.located(process, call, at, start), call.kind())


def do_readlink(source, process, call):
    start, at = start_of(call)
    place, is_link = source.located(process, call, at, start), call.has_succeeded() and call.value > 0
    if source.walk(process, call, "readlink", place, "link" if is_link else None) and is_link and call.text(at + 1):
        source.tree.note_text(place[1], "link", call.text(at + 1)[:1023])


def do_mkdir(source, process, call):
    start, at = start_of(call)
    place = source.located(process, call, at, start)
    if source.walk(process, call, "mkdir", place, "dir" if call.error != "EEXIST" else None, is_new=call.has_succeeded()) and call.has_succeeded():
        source.tree.note_made(place[1])


def do_rmdir(source, process, call):
    source.walk(process, call, "rmdir", source.located(process, call, 0), "dir")


def do_unlink(source, process, call):
    start, at = start_of(call)
    is_directory = call.has_word("AT_REMOVEDIR")
    verb, kind = ("rmdir", "dir") if is_directory else ("unlink", None)
    source.walk(process, call, verb, source.located(process, call, at, start), kind)


def do_chdir(source, process, call):
    place = source.located(process, call, 0)
    if source.walk(process, call, "chdir", place, "dir") and call.has_succeeded():
        process.directory = process.machine_directory = place[1]
        process.is_directory_known = True


def do_two_paths(source, process, call):
    """rename(2), link(2) and their like."""
    verb = re.match(r"rename|link", call.name)[0]
    starts, places = ((0, 2), (1, 3)) if "at" in call.name else ((None, None), (0, 1))
    old, new = [source.located(process, call, at, start) for at, start in zip(places, starts)]
    flags = call.flags(4) if call.name == "renameat2" else []
    if old is None or new is None or "RENAME_EXCHANGE" in flags or ("RENAME_NOREPLACE" in flags and call.error == "EEXIST"):
        return source.drop(process, call, f"{call.name} {' '.join(flags)}".strip())
    if call.has_succeeded():
        source.tree.note(old[1])
        source.tree.note_made(new[1])
    source.add(process, f"{verb} {text_of(old[0])} {text_of(new[0])}")
    return None


def do_symlink(source, process, call):
    """symlink(2); a log of kdump(1) does not have the text."""
    start, at = (1, 2) if call.name == "symlinkat" else (None, 1)
    text, place = call.text(0), source.located(process, call, at, start)
    if place is None or not text or len(text) > 1023 or b"\0" in text:
        return source.drop(process, call)
    if call.has_succeeded():
        source.tree.note_made(place[1])
    comments = ["the text of this link is not in the log"] if call.paths and text == b"unknown" else []
    source.add(process, f"symlink {text_of(text)} {text_of(place[0])}", comments=comments)
    return None


def do_unveil(source, process, call):
    """unveil(2): the paths are those of the log, and the lock has two nulls."""
    if call.args[:2] == ["0", "0"]:
        source.add(process, "unveil null null")
        return
    place, letters = source.located(process, call, 0), call.text(1)
    if place is None or letters is None or len(letters) > TEXT:
        source.drop(process, call)
        return
    source.add(process, f"unveil {text_of(place[0])} {text_of(letters)}")
    if is_path_of_manifest(place[1]) and call.has_succeeded():
        source.tree.note_above(place[1] if parent_of(place[1]) else b"/")


HANDLERS = {
    **dict.fromkeys("open openat openat2 creat".split(), do_open),
    **dict.fromkeys("stat lstat newfstatat fstatat statx access faccessat faccessat2".split(), do_stat),
    **dict.fromkeys("readlink readlinkat".split(), do_readlink),
    **dict.fromkeys("mkdir mkdirat".split(), do_mkdir),
    **dict.fromkeys("unlink unlinkat".split(), do_unlink),
    **dict.fromkeys("rename renameat renameat2 link linkat".split(), do_two_paths),
    **dict.fromkeys("symlink symlinkat".split(), do_symlink),
    "rmdir": do_rmdir, "chdir": do_chdir, "unveil": do_unveil,
}  # fmt: skip
