"""The calls on descriptors."""
from .processes import Descriptor
from .texts import COUNT, TEXT, text_of
from .writes import dots, put_of

WHENCE = {"SEEK_SET": "set", "SEEK_CUR": "cur", "SEEK_END": "end"}


def held_by(source, process, call, at=0):
    """Returns a descriptor that the machine has too, or None; a call on a file that the source has not is counted."""
    number = call.descriptor(at)[0]
    if number not in process.descriptors and number in process.lost:
        source.drop(process, call)
    return process.descriptors.get(number)


def do_close(source, process, call):
    number = call.descriptor(0)[0]
    process.loaded.discard(number)
    process.lost.discard(number)
    if number in process.descriptors and call.has_succeeded():
        source.add(process, f"close {process.descriptors.pop(number).own}")


def do_close_range(source, process, call):
    """close_range(2) and closefrom(2)."""
    first, last = call.number(0), call.number(1) if call.name == "close_range" else None
    numbers = [it for it in process.descriptors if it >= (first or 0) and (last is None or it <= last)]
    for number in sorted(numbers) if call.has_succeeded() and not call.has_word("CLOSE_RANGE_CLOEXEC") else []:
        source.add(process, f"close {process.descriptors.pop(number).own}")


def do_dup(source, process, call):
    """dup(2), dup2(2), dup3(2) and F_DUPFD. In place of a descriptor that the machine has, one that it has not is a close."""
    held, target = held_by(source, process, call), process.descriptors.get(call.value)
    if not call.has_succeeded():
        process.program.lack(call.name)
    elif held and target:
        source.add(process, f"dup2 {held.own} {target.own}")
        if held is not target:
            process.descriptors[call.value] = Descriptor(target.own, held.path, is_marked(call), False, held.position)
    elif held:
        source.add(process, f"dup {held.own}")
        process.add(call.value, lambda own: Descriptor(own, held.path, is_marked(call), False, held.position))
    elif target:
        source.add(process, f"close {target.own}", comments=[f"{call.name} of what was open before, in place of descriptor {target.own}"])
        del process.descriptors[call.value]
    else:
        process.program.lack(call.name)


def is_marked(call):
    """Returns whether a dup marks the new descriptor for execve."""
    return call.has_word("O_CLOEXEC") or call.has_word("F_DUPFD_CLOEXEC")


def do_fcntl(source, process, call):
    """fcntl(2), and ioctl(2) on the mark for execve."""
    command = call.argument(1)
    held = process.descriptors.get(call.descriptor(0)[0])
    if command.startswith("F_DUPFD"):
        do_dup(source, process, call)
    elif not held or not call.has_succeeded():
        lack_command(process, call)
    elif command in ("F_SETFD", "FIOCLEX", "FIONCLEX"):
        mark(source, process, held, command == "FIOCLEX" or "FD_CLOEXEC" in call.argument(2) or call.number(2) == 1)
    elif command not in ("F_GETFD", "F_GETFL", "F_ISATTY"):
        source.drop(process, call, f"{call.name} {command}")


def lack_command(process, call):
    """Notes an ioctl(2); a fcntl(2) that fails, or of what was open before, changes nothing that the machine has."""
    if call.name == "ioctl":
        process.program.lack(call.name)


def mark(source, process, held, is_closed):
    """Marks a descriptor for execve, or removes its mark: a duplicate in its place has none in the machine."""
    held.is_marked = is_closed
    if is_closed and not held.is_marked_in_machine:
        source.comment(process, f"descriptor {held.own} is marked for execve here: it is closed before the next execve that succeeds")
    elif not is_closed and held.is_marked_in_machine:
        old = held.own
        used = {it.own for it in process.descriptors.values()}
        held.own = next(it for it in range(len(used) + 1) if it not in used)
        held.is_marked_in_machine = False
        source.add(process, f"dup {old}", f"close {old}", comments=[f"descriptor {old} is not marked for execve any more: it becomes {held.own}"])


def lack_unknown(process, number, verb):
    """Notes a read or write of a descriptor that was open before, unless it is the loader's or counted."""
    if number not in process.loaded and number not in process.lost:
        process.program.lack(f"{verb} of what was open before")


def do_read(source, process, call):
    """read(2) and its like; consecutive reads of a descriptor are one."""
    number, held = call.descriptor(0)[0], held_by(source, process, call)
    if not held:
        lack_unknown(process, number, "read")
        return
    data, length = call.data if call.data is not None else call.text(1), max(call.value or 0, 0)
    is_moved = call.name == "read" and held.position is not None
    if is_moved and data:
        source.tree.note_bytes(held.path, held.position, data)
    held.position = held.position + length if is_moved else None
    is_new = source.add(process, f"read {held.own} {min(length, COUNT) or 1}", repeats=("read", held.own), alike=("read", held.own))
    action = process.program.last_of(process)
    if is_new:
        action.read, action.is_whole = 0, is_moved
    elif length:
        action.instructions[-1] = f"read {held.own} {min(action.read + length, COUNT)}"
    action.read, action.is_whole = action.read + length, action.is_whole and len(data or b"") == length
    process.touch(min(action.read, COUNT) or 1)


def do_write(source, process, call):
    """write(2) and its like: the buffer has the data of the log, and never what an earlier read left there."""
    number, held = call.descriptor(0)[0], held_by(source, process, call)
    if not held:
        lack_unknown(process, number, "write")
        return
    held.position = None
    source.tree.note_written(held.path)
    text, comments = put_of(call)
    if call.name.startswith("pwrite"):
        comments.append(f"{call.name} has an offset of its own: here it writes at the offset of the descriptor")
    process.touch(len(text))
    put = [f"put {text_of(text)}"] if text else []
    source.add(process, *put, f"write {held.own} {len(text)}", comments=comments, alike=("write", held.own))


def do_copy(source, process, call):
    """copy_file_range(2) and sendfile(2): a read and a write of the same bytes, of at most the size of the buffer. One that fails is left out."""
    if call.error:
        source.drop(process, call, f"{call.name} {call.error}")
        return
    places = (1, 0) if call.name.startswith("sendfile") else (0, 2)
    (read_from, write_to), count = [held_by(source, process, call, it) for it in places], min(max(call.value or 0, 0), COUNT)
    if read_from and not write_to:
        source.add(process, f"read {read_from.own} {count}", repeats=("read", read_from.own), alike=("read", read_from.own))
        lack_unknown(process, call.descriptor(places[1])[0], "write")
        process.touch(count)
    elif write_to and not read_from:
        lack_unknown(process, call.descriptor(places[0])[0], "read")
        text, comments = dots(min(count, TEXT), call)
        source.add(process, *[f"put {text_of(text)}"][: len(text)], f"write {write_to.own} {len(text)}", comments=comments, alike=("write", write_to.own))
        process.touch(len(text))
    elif read_from and write_to:
        source.tree.note_text(read_from.path, "file", b"." * min(count, TEXT))
        move(source, process, call, read_from.own, write_to.own, count)


def move(source, process, call, read_from, write_to, count):
    """Adds a read and a write, after dots in place of all that the buffer has from before."""
    repeats = ("copy", read_from, write_to)
    if process.touched > TEXT:
        count = min(count, TEXT)
    stale = min(process.touched, count)
    comments = [f"{call.name} of {call.value} bytes, which are not in the log: a read and a write of {count}"]
    put = [f"put {text_of(b'.' * stale)}"] if stale else []
    if source.add(process, *put, f"read {read_from} {count}", f"write {write_to} {count}", comments=comments, repeats=repeats, alike=repeats):
        process.touch(count)


def do_lseek(source, process, call):
    """lseek(2) within the machine's offsets."""
    held, whence, by = held_by(source, process, call), WHENCE.get(call.argument(2)), call.number(1)
    if held and whence and by is not None and abs(by) < 2**31:
        held.position = call.value if call.has_succeeded() else held.position
        source.add(process, f"lseek {held.own} {by} {whence}", repeats=("lseek", held.own))
    elif held:
        source.drop(process, call)


def on_descriptor(verb, touched=0):
    """Returns the handler of a call with a descriptor alone."""

    def do(source, process, call):
        held = held_by(source, process, call)
        if held and source.add(process, f"{verb} {held.own}", repeats=(verb, held.own), alike=(verb, held.own)):
            process.touch(touched)

    return do


def do_ftruncate(source, process, call):
    held = held_by(source, process, call)
    if held and call.number(1) is not None:
        source.add(process, f"ftruncate {held.own} {min(call.number(1), 2**31 - 1)}")


def do_fchdir(source, process, call):
    """fchdir(2): to a descriptor that the machine does not have, only the working directory of the log changes."""
    number, shown = call.descriptor(0)
    held = held_by(source, process, call)
    path = shown or (held and held.path)
    if held:
        source.add(process, f"fchdir {held.own}")
    elif number not in process.lost:
        process.program.lack("fchdir to what was open before")
    if call.has_succeeded():
        process.directory, process.is_directory_known = path or b"/", path is not None
        process.machine_directory = process.directory if held else process.machine_directory


HANDLERS = {
    **dict.fromkeys("read pread pread64 readv preadv preadv2".split(), do_read),
    **dict.fromkeys("write pwrite pwrite64 writev pwritev pwritev2".split(), do_write),
    **dict.fromkeys("copy_file_range sendfile sendfile64".split(), do_copy),
    **dict.fromkeys("dup dup2 dup3".split(), do_dup),
    **dict.fromkeys("fcntl fcntl64 ioctl".split(), do_fcntl),
    **dict.fromkeys("getdents getdents64".split(), on_descriptor("getdents", 255)),
    **dict.fromkeys("ftruncate ftruncate64".split(), do_ftruncate),
    **dict.fromkeys("close_range closefrom".split(), do_close_range),
    "fstat": on_descriptor("fstat", 8), "close": do_close, "lseek": do_lseek, "fchdir": do_fchdir,
}  # fmt: skip
