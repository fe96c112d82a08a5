"""The process of the host that stands for process 1, and its children: each answers requests for single system calls."""
import ctypes
import errno
import fcntl
import marshal
import os
import resource
import stat

from .formats import shortened

libc = ctypes.CDLL(None, use_errno=True)
AT_FDCWD, AT_SYMLINK_FOLLOW, SUBREAPER = -100, 0x400, 36
# The number of descriptors of a process, and the descriptor of the first socket.
DESCRIPTORS, SOCKET = 16, 200
LARGEST = 1 << 16
KINDS = {stat.S_IFDIR: 1, stat.S_IFREG: 2, stat.S_IFLNK: 4}
# tmpfs counts 20 bytes for each entry of a directory, and for `.` and `..`.
ENTRY = 20


def checked(function, *args):
    """Calls a function of the C library, and raises its error."""
    value = function(*args)
    if value < 0:
        raise OSError(ctypes.get_errno(), "")
    return value


def facts(status, text=b""):
    """Returns the kind, the inode and the size, as a stat of pvsim has them."""
    kind = KINDS[stat.S_IFMT(status.st_mode)]
    if kind == 2 and status.st_mode & 0o100:
        kind = 3
    sizes = {1: status.st_size // ENTRY - 2, 4: len(text)}
    return kind, status.st_ino, sizes.get(kind, status.st_size)


def do_lstat(path):
    status = os.lstat(path)
    return facts(status, shortened(os.readlink(path)) if stat.S_ISLNK(status.st_mode) else b"")


def do_read(descriptor, count):
    buffer = ctypes.create_string_buffer(count)
    length = checked(libc.read, descriptor, buffer, count)
    return buffer.raw[:length]


def do_getdents(descriptor):
    """Returns all names of a directory; its offset is that of the last request."""
    buffer, names = ctypes.create_string_buffer(LARGEST), set()
    if stat.S_ISDIR(os.fstat(descriptor).st_mode):
        os.lseek(descriptor, 0, os.SEEK_SET)
    while count := checked(libc.getdents64, descriptor, buffer, len(buffer)):
        at, data = 0, buffer.raw[:count]
        while at < count:
            length = int.from_bytes(data[at + 16 : at + 18], "little")
            names.add(data[at + 19 : at + length].split(b"\0")[0])
            at += length
    return sorted(names - {b".", b".."})


def do_execve(path):
    """Returns the bytes of a file that the kernel finds executable: it is no binary, so the kernel answers ENOEXEC, and this process continues."""
    none = (ctypes.c_char_p * 1)(None)
    try:
        checked(libc.execve, path, none, none)
    except OSError as error:
        if error.errno != errno.ENOEXEC:
            raise
    soft, hard = resource.getrlimit(resource.RLIMIT_NOFILE)
    resource.setrlimit(resource.RLIMIT_NOFILE, (SOCKET // 2, hard))
    with open(path, "rb") as file:
        data = file.read()
    resource.setrlimit(resource.RLIMIT_NOFILE, (soft, hard))
    return data


def do_executed():
    """Closes the descriptors that an execve closes, and returns them."""
    closed = []
    for descriptor in range(DESCRIPTORS):
        try:
            if fcntl.fcntl(descriptor, fcntl.F_GETFD) & fcntl.FD_CLOEXEC:
                os.close(descriptor)
                closed.append(descriptor)
        except OSError:
            pass
    return closed


def do_wait(children):
    """Returns the host's number and the status of the first of these children that has ended, or None."""
    if os.waitid(os.P_ALL, 0, os.WEXITED | os.WNOHANG | os.WNOWAIT) is None:
        return None
    for child in children:
        try:
            number, status = os.waitpid(child, os.WNOHANG)
        except ChildProcessError:
            continue
        if number:
            return number, status & 0xFF7F
    return None


def kind_of(call, *args, **how):
    """Returns the kind of the node of a stat, one of dfxl, or the name of the error."""
    try:
        return "?dfxl"[facts(call(*args, **how))[0]]
    except OSError as error:
        return errno.errorcode[error.errno]


def do_look(descriptor, start, paths, follows):
    """Returns what the classes of differences ask: the kind of the descriptor; that of each path, with a final link followed or not; that of each path
    without slashes at its end and without following; whether the directory in which the paths start is removed; and what the walks follow."""
    kinds = [kind_of(os.stat, path, dir_fd=start, follow_symlinks=it) for path, it in zip(paths, follows)]
    bare = [kind_of(os.stat, path.rstrip(b"/") or path, dir_fd=start, follow_symlinks=False) for path in paths]
    try:
        is_removed = (os.stat(".") if start is None else os.fstat(start)).st_nlink == 0
    except OSError:
        is_removed = False
    walks = [walk(start, path, follow) for path, follow in zip(paths, follows)]
    return descriptor is not None and kind_of(os.fstat, descriptor), kinds, bare, is_removed, walks


def walk(start, path, follows):
    """Returns how many links a walk along a path follows, up to 40, and the greatest weight of the components that are left after one."""
    left, prefix, links, heaviest = path.split(b"/"), b"/" if path.startswith(b"/") else b"", 0, 0
    ends_in_slash = path.endswith(b"/")
    left = [it for it in left if it]
    while left and links < 40:
        name = left.pop(0)
        try:
            text = shortened(os.readlink(prefix + name, dir_fd=start))
        except OSError:
            prefix += name + b"/"
            continue
        if not (left or follows or ends_in_slash):
            break
        links, prefix = links + 1, b"/" if text.startswith(b"/") else prefix
        left = [it for it in text.split(b"/") if it] + left
        ends_in_slash = ends_in_slash or (len(left) == len(text.split(b"/")) and text.endswith(b"/"))
        heaviest = max(heaviest, sum(len(it) + 1 for it in left))
    return links, heaviest


CALLS = {
    "getpid": os.getpid, "getppid": os.getppid, "wait": do_wait, "execve": do_execve, "executed": do_executed, "look": do_look, "read": do_read,
    "open": lambda path, flags: checked(libc.open, path, flags, 0o644), "openat": lambda start, path, flags: checked(libc.openat, start, path, flags, 0o644),
    "getdents": do_getdents, "close": lambda it: checked(libc.close, it), "dup": lambda it: checked(libc.dup, it), "ftruncate": os.ftruncate,
    "dup2": lambda it, other: checked(libc.dup2, it, other), "fstat": lambda it: facts(os.fstat(it)), "lseek": os.lseek, "chdir": os.chdir,
    "write": lambda it, data: checked(libc.write, it, data, len(data)), "fchdir": lambda it: checked(libc.fchdir, it), "readlink": os.readlink,
    "stat": lambda path: facts(os.stat(path)), "lstat": do_lstat, "mkdir": lambda path: os.mkdir(path, 0o755), "rmdir": os.rmdir, "unlink": os.unlink,
    "symlink": os.symlink, "rename": os.rename, "link": lambda path, new: checked(libc.linkat, AT_FDCWD, path, AT_FDCWD, new, AT_SYMLINK_FOLLOW),
}  # fmt: skip


def answer_to(name, args):
    """Returns the answer to a request: the value of the call, or the name of its error."""
    try:
        return CALLS[name](*args)
    except OSError as error:
        return "error", errno.errorcode[error.errno]
    except Exception as error:  # the comparison reports it
        return "fault", repr(error)


def serve(directory, sockets):
    """Makes this process process 1: it enters the directory, which becomes its root, and answers requests until it is to end."""
    for at, end in enumerate(sockets):
        os.dup2(end.fileno(), SOCKET + at)
    os.closerange(0, SOCKET)
    os.closerange(SOCKET + len(sockets), resource.getrlimit(resource.RLIMIT_NOFILE)[0])
    os.chroot(directory)
    os.chdir("/")
    os.umask(0)
    libc.prctl(SUBREAPER, 1, 0, 0, 0)
    resource.setrlimit(resource.RLIMIT_CORE, (0, 0))
    resource.setrlimit(resource.RLIMIT_NOFILE, (DESCRIPTORS, resource.getrlimit(resource.RLIMIT_NOFILE)[1]))
    own = SOCKET
    while request := os.read(own, LARGEST):
        name, args = marshal.loads(request)
        if name == "exit":
            os._exit(args[0])
        if name == "abort":
            os.abort()
        if name == "fork":
            answer = os.fork()
            if answer == 0:
                own = SOCKET + args[0] - 1
                continue
        else:
            answer = answer_to(name, args)
        os.write(own, marshal.dumps(answer))
    os._exit(0)
