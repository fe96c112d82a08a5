"""A run of a bundle on the kernel of this host, step by step: registers, buffers and programs are interpreted here, and each system call is the host's."""
import marshal
import os
import re
import shutil
import signal
import socket
import stat
import tempfile

from fromlog.manifests import unescape
from fromlog.schedules import Processor
from fromlog.texts import COUNT, text_of

from . import calls
from .formats import NUMBER, NUMBERS, ON_REGISTERS, OPEN_FLAGS, SIGNATURES, Event, lengthened, program_of, shortened

# The number of processes of a run, since each has a socket.
PROCESSES = 40
WHENCE = ("set", "cur", "end")


class LeftOut(Exception):
    """The bundle needs more than this machine has."""


class HostFault(Exception):
    """A request that the host's process cannot answer."""


class Process:
    """A process: its number on the host, None after a wait, its program and registers. `opened` has of each descriptor the last name that it listed, in a list
    that duplicates of the descriptor share."""

    def __init__(self, number, host, program):
        self.number, self.host, self.is_live, self.opened = number, host, True, {}
        self.load(program)

    def load(self, program):
        self.program = program
        self.processor = Processor([" ".join(it) for it in program])

    def child(self, number, host):
        """Returns the child of a fork, whose answer is zero."""
        child = Process(number, host, self.program)
        child.processor, child.opened = self.processor.copy(), dict(self.opened)
        child.processor.registers[:2] = [0, 0]
        return child

    def instruction(self):
        """Returns the words of the next instruction; after the last line a process calls exit 0."""
        line = self.processor.line
        return self.program[line] if line < len(self.program) else ["exit", "0"]

    def settle(self, event):
        """Takes the answer of a call into the registers and the buffer."""
        has_answer = event.outcome not in ("gone", "exit", "blocked", "killed") and (event.call, event.outcome) != ("execve", "ok")
        if has_answer:
            self.processor.registers[:2] = [event.value, 0] if event.outcome == "ok" else [-1, NUMBERS[event.outcome]]
            self.processor.buffer[: len(event.data or b"")] = event.data or b""


class Machine:
    """The processes and the tree of a run, in a new folder of `scratch`. `nodes` has the machine's number of each inode."""

    def __init__(self, entries, scratch):
        self.folder = tempfile.mkdtemp(dir=scratch).encode()
        self.nodes = {os.stat(self.folder).st_ino: 1}
        for kind, path, content in entries:
            self.enter(kind, self.folder + path, content)
        pairs = [socket.socketpair(socket.AF_UNIX, socket.SOCK_SEQPACKET) for _ in range(PROCESSES)]
        self.sockets, self.controller = [pair[0] for pair in pairs], os.getpid()
        host = os.fork()
        if host == 0:
            calls.serve(self.folder, [pair[1] for pair in pairs])
        for pair in pairs:
            pair[1].close()
        init = {path: content for kind, path, content in entries}.get(b"/init", b"")
        self.processes = {1: Process(1, host, program_of(init))}

    def enter(self, kind, path, content):
        """Makes an entry of the manifest."""
        if kind == "name":
            os.link(self.folder + content, path, follow_symlinks=False)
            return
        if kind == "dir":
            os.mkdir(path, 0o755)
        elif kind == "link":
            os.symlink(lengthened(content), path)
        else:
            with open(path, "wb") as file:
                file.write(content)
            os.chmod(path, 0o755 if kind == "exec" else 0o644)
        self.nodes[os.lstat(path).st_ino] = len(self.nodes) + 1

    def close(self):
        """Ends all processes, and removes the tree."""
        for process in self.processes.values():
            if process.host is not None:  # nobody has waited for it, so its number is its own
                os.kill(process.host, signal.SIGKILL)
        for end in self.sockets:
            end.close()
        try:
            while True:
                os.waitpid(-1, 0)
        except ChildProcessError:
            shutil.rmtree(self.folder)

    # ---- requests

    def ask(self, process, name, *args):
        """Returns the answer of a process of the host to a request."""
        end = self.sockets[process.number - 1]
        end.send(marshal.dumps((name, args)))
        answer = marshal.loads(end.recv(calls.LARGEST))
        if isinstance(answer, tuple) and answer[0] == "fault":
            raise HostFault(f"{name}{args!r}: {answer[1]}")
        return answer

    def look(self, event):
        """Returns what the classes of differences ask about a call, before it is made."""
        process, flags = self.processes[event.pid], event.flags()
        has_number = SIGNATURES[event.call][:1] in ("O", "A") and event.call != "exit" and event.args[0] != "cwd"
        number = min(int(event.args[0]), calls.SOCKET - 1) if has_number else None
        is_followed = event.call in ("link", "chdir", "execve", "stat", "open", "openat")
        first = is_followed and "nofollow" not in flags and not {"create", "excl"} <= set(flags)
        start = number if event.call == "openat" else None
        return self.ask(process, "look", number, start, [lengthened(it) for it in event.paths()], [first, False])

    def has_descriptor_of(self, event):
        """Returns whether the descriptor of a read or write is open for it: no bytes are moved."""
        if event.call not in ("read", "write") or event.is_refused:
            return True
        number = min(int(event.args[0]), calls.SOCKET - 1)
        return self.ask(self.processes[event.pid], event.call, number, b"" if event.call == "write" else 0) != ("error", "EBADF")

    # ---- steps

    def at_call(self, number):
        process = self.processes.get(number)
        return bool(process) and process.is_live and process.instruction()[0] not in ON_REGISTERS

    def step(self, number, expected):
        """Makes one step, and returns its event, or None for a register instruction. New nodes have the numbers of the expected event."""
        process = self.processes.get(number)
        if not process or not process.is_live:
            return Event(number, None, (), "gone")
        name, *words = process.instruction()
        if name in ON_REGISTERS:
            process.processor.execute(*process.processor.lines[process.processor.line].split(" ", 1))
            return None
        process.processor.line += 1
        registers = process.processor.registers
        words = [str(registers[int(it[1])]) if it[0] == "r" and kind in "OA" else it for kind, it in zip(SIGNATURES[name], words)]
        args = [unescape(it.encode()) if it[0] == '"' else int(it) if re.fullmatch(NUMBER, it) else it for it in words]
        shown = tuple(text_of(arg) if isinstance(arg, bytes) else word for arg, word in zip(args, words))
        return Event(number, name, shown, *self.call(process, name, args, expected))

    def skip(self, event):
        """Takes the expected answer of a call that the host is not asked for; a kill is one by SIGABRT."""
        process = self.processes[event.pid]
        process.processor.line += 1
        if event.outcome == "killed":
            self.end(process, "abort")
        process.settle(event)

    def call(self, process, name, args, expected):
        """Makes a call, and returns its outcome, value and bytes."""
        if name == "exit":
            self.end(process, "exit", args[0] % 256)
            return "exit", 0, None
        answer = self.ask(process, name, *self.requested(process, name, args))
        if isinstance(answer, tuple) and answer[0] == "error":
            return answer[1], -1, None
        answered = getattr(self, f"answer_{name}", None)
        if answered:
            return answered(process, args, answer, expected)
        if name in ("open", "openat"):
            process.opened[answer] = [None]
        elif name in ("dup", "dup2"):
            process.opened[answer] = process.opened[args[0]]
        return "ok", answer or 0, None

    def requested(self, process, name, args):
        """Returns the arguments of the host's call."""
        if name in ("open", "openat"):
            mode, *flags = args[-1].split("+")
            args[-1] = {"r": os.O_RDONLY, "w": os.O_WRONLY, "rw": os.O_RDWR}[mode] | sum(OPEN_FLAGS[it] for it in flags)
        elif name == "lseek":
            args[2] = WHENCE.index(args[2])
        elif name in ("read", "write"):
            count = args[1] if 0 <= args[1] <= COUNT else 0
            args[1] = bytes(process.processor.buffer[:count]) if name == "write" else count
        elif name == "fork":
            args = [max(self.processes) + 1]
            if args[0] > PROCESSES:
                raise LeftOut("more processes")
        elif name == "wait":
            args = [[it.host for it in self.processes.values() if it.host]]
        if args and isinstance(args[0], int):  # from SOCKET on they are sockets
            args[0] = min(args[0], calls.SOCKET - 1)
        args = [calls.AT_FDCWD if it == "cwd" else it for it in args]
        return [lengthened(it) if isinstance(it, bytes) and name != "write" else it for it in args]

    def end(self, process, *request):
        """Ends a process, and returns when the host says that it has ended."""
        process.is_live = False
        self.sockets[process.number - 1].send(marshal.dumps((request[0], request[1:])))
        try:
            while True:
                with open(f"/proc/{process.host}/stat", "rb") as file:
                    if file.read().rsplit(b")", 1)[1].split()[0] == b"Z":
                        break
                os.sched_yield()
        except (FileNotFoundError, ProcessLookupError):
            pass

    # ---- answers of calls that succeed

    def answer_of_stat(self, _process, _args, answer, expected):
        kind, inode, size = answer
        number = int.from_bytes(expected.data[2:4], "little") if expected.data else len(self.nodes) + 1
        node = self.nodes.setdefault(inode, number)
        return "ok", 0, bytes([kind, 0]) + node.to_bytes(2, "little") + size.to_bytes(4, "little")

    answer_stat = answer_lstat = answer_fstat = answer_of_stat

    def answer_fork(self, process, _args, answer, _expected):
        number = max(self.processes) + 1
        self.processes[number] = process.child(number, answer)
        return "ok", number, None

    def answer_of_number(self, _process, _args, answer, _expected):
        numbers = {it.host: it.number for it in self.processes.values() if it.host}
        return "ok", 0 if answer == self.controller else numbers.get(answer, -1), None

    answer_getpid = answer_getppid = answer_of_number

    def answer_wait(self, process, _args, answer, _expected):
        if answer is None:
            process.processor.line -= 1
            return "blocked", 0, None
        ended = next(it for it in self.processes.values() if it.host == answer[0])
        ended.host = None
        return "ok", ended.number, answer[1].to_bytes(4, "little")

    def answer_execve(self, process, _args, answer, _expected):
        program = program_of(answer)
        if program is None:
            return "ENOEXEC", -1, None
        for descriptor in self.ask(process, "executed"):
            del process.opened[descriptor]
        process.load(program)
        return "ok", 0, None

    def answer_getdents(self, process, args, answer, _expected):
        last = process.opened[args[0]]
        name = next((it for it in answer if last[0] is None or it > last[0]), b"")
        last[0] = name or last[0]
        return "ok", len(name), name

    def answer_close(self, process, args, _answer, _expected):
        del process.opened[args[0]]
        return "ok", 0, None

    def answer_read(self, _process, _args, answer, _expected):
        return "ok", len(answer), answer

    def answer_readlink(self, _process, _args, answer, _expected):
        return "ok", len(shortened(answer)), shortened(answer)

    def answer_write(self, _process, args, answer, _expected):
        return "ok", answer, args[1]

    # ---- the tree

    def listing(self, expected):
        """Returns the lines of `pvsim ls`. New nodes have the numbers of the expected lines, but two nodes with one number have 0."""
        numbers = {line.split(" ", 3)[3]: int(line.split(" ")[1]) for line in expected}
        lines, inodes, pending = [], {}, [(self.folder, b"")]
        while pending:
            path, shown = pending.pop()
            kind, inode, size = calls.do_lstat(path)
            text = text_of(shown or b"/")
            node = self.nodes.setdefault(inode, numbers.get(text, 0))
            node = node if inodes.setdefault(node, inode) == inode else 0
            lines.append(f"{'?dfxl'[kind]} {node} {size} {text}")
            names = sorted(os.listdir(path), reverse=True) if stat.S_ISDIR(os.lstat(path).st_mode) else []
            pending += [(path + b"/" + name, shown + b"/" + name) for name in names]
        return lines
