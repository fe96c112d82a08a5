"""Comments on calls that the source leaves out, and that matter for what a program can do with files: shared mappings, modes and owners, sockets, descriptors
that a socket passes, other roots and other users."""
import re

from .texts import text_of, unescape

SOCKETS = set("socket socketpair bind connect listen accept accept4 sendto sendmsg sendmmsg recvfrom recvmsg recvmmsg".split())
MODES = {"chmod": 0, "fchmod": 0, "fchmodat": 1, "fchmodat2": 1, "chown": 0, "fchown": 0, "lchown": 0, "fchownat": 1}
# Calls after which paths or permissions mean something else.
OTHERS = set("chroot setuid setgid setreuid setregid setresuid setresgid setgroups ptrace mount umount2 unshare setns pivot_root".split())
# An address as strace(1) or kdump(1) shows it: a path, or a port with or without its host.
ADDRESS = re.compile(r'(?:sun_path=@?|AF_UNIX, )("(?:[^"\\]|\\.)*")|(sin6?_port=htons\(\d+\))|AF_INET6?, ([^ ]+)')
PASSED = re.compile(r"SCM_RIGHTS, (?:cmsg_)?data=\[?([^]}]*)")


def path_of(process, call, at):
    """Returns the path of an argument, a path or a descriptor, as a text, or None."""
    path = call.text(at)
    if path is None:
        number, shown = call.descriptor(at)
        held = process.descriptors.get(number)
        path = shown or (held and held.path)
    return text_of(path) if path else None


def on_mapping(process, call):
    """A shared mapping of a file, which remains after a close."""
    path = path_of(process, call, 4)
    if "MAP_SHARED" not in "|".join(call.flags(3)) or not path:
        return None
    use = "read and written" if "PROT_WRITE" in call.flags(2) else "read"
    return f"mmap of {path}, shared: the file can be {use} by memory, after a close too"


def on_mode(process, call):
    path = path_of(process, call, MODES[call.name])
    mode = f" to {call.argument(MODES[call.name] + 1)}" if "chmod" in call.name else ""
    return f"{call.name} of {path or 'what was open before'}{mode}"


def on_socket(_process, call):
    """A call on a socket, with its address and the descriptors that it passes."""
    words = " ".join(call.args)
    address, passed = ADDRESS.search(words), PASSED.search(words)
    family = call.argument(0) if call.name in ("socket", "socketpair") else ""
    port = address and (f"port {re.sub('[^0-9]', '', address[2].partition('(')[2])}" if address[2] else address[3])
    where = text_of(unescape(address[1][1:-1])) if address and address[1] else port or family
    verb = "receives" if call.name.startswith("recv") else "passes"
    descriptors = f"descriptor{'s' * (',' in passed[1])} {shown(passed[1])}" if passed else ""
    return f"{call.name}{f' {where}' if where else ''}" + (f": it {verb} {descriptors}" if passed else "")


def shown(descriptors):
    """Returns descriptors with their paths, as strace -y shows them, in the form of a comment."""
    return ", ".join(re.sub(r"<(.*)>", lambda it: f" of {text_of(unescape(it[1]))}", it.strip()) for it in descriptors.split(","))


def on_other(_process, call):
    texts = [text_of(it) for it in map(call.text, range(len(call.args))) if it]
    return " ".join([call.name, *texts])


def note_of(process, call):
    """Returns the comment on a call that the source leaves out, or None if the call does not matter."""
    if call.error or call.value is None:
        return None
    if call.name in ("mmap", "mmap2"):
        return on_mapping(process, call)
    makers = ((SOCKETS, on_socket), (MODES, on_mode), (OTHERS, on_other))
    return next((make(process, call) for names, make in makers if call.name in names), None)
