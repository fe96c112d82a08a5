"""The calls that begin, end and restrain processes."""
from .programs import Program
from .texts import is_path_of_manifest, text_of

PROMISES = (
    "stdio rpath wpath cpath proc exec unveil error dpath fattr chown flock unix inet mcast dns getpw sendfd recvfd tape tty prot_exec settime ps vminfo id pf "
    "route wroute audio video bpf"
).split()


def do_fork(source, process, call):
    """fork(2) and its like; a thread is its process."""
    if call.has_word("CLONE_THREAD"):
        source.processes[call.value] = process
    elif not call.value or call.value < 0:
        process.program.lack(call.name)
    else:
        source.fork(process, call.value)


def do_wait(source, process, call):
    if call.has_succeeded() and call.value:
        source.add(process, "wait")
        process.touch(4)


def do_pledge(source, process, call):
    """pledge(2), without the promises that the machine has not."""
    if not call.has_succeeded():
        process.program.lack("a pledge that failed")
        return
    given = [call.text(at) for at in (0, 1)]
    words = [None if it is None else it.decode("latin-1").split() for it in given]
    unknown = sorted({word for it in words if it for word in it} - set(PROMISES))
    comments = [f"pledge: the machine has no promise {', '.join(unknown)}"] if unknown else []
    texts = ["null" if it is None else text_of(" ".join(word for word in it if word in PROMISES).encode()) for it in words]
    source.add(process, f"pledge {' '.join(texts)}", comments=comments)


def do_getpid(source, process, call):
    source.add(process, call.name, repeats=call.name)


def do_exit(source, process, call):
    source.add(process, f"exit {call.number(0) or 0}")


def do_execve(source, process, call):
    """execve(2): a new program, at a path of its own. The first execve of a log begins the traced program."""
    place = source.located(process, call, 0)
    if call.error or place is None or not is_path_of_manifest(place[1]):
        source.walk(process, call, "execve", place)
        return
    if process.number == 1 and process.program.path == b"/init" and process.program.is_empty():
        source.comment(process, place[1].decode("latin-1"))
        source.is_modelled = True
        return
    taken, target, number = {it.path for it in source.programs}, place[1], 2
    while target in taken:
        target, number = place[1] + b".%d" % number, number + 1
    source.tree.note(target, "exec")
    closed = [it.own for it in process.descriptors.values() if it.is_marked and not it.is_marked_in_machine]
    source.add(process, *(f"close {it}" for it in sorted(closed)), f"execve {text_of(target)}")
    source.programs.append(Program(target))
    process.begin(source.programs[-1])


HANDLERS = {
    **dict.fromkeys("fork vfork clone clone3 __tfork __tfork_thread".split(), do_fork),
    **dict.fromkeys("wait4 waitid waitpid".split(), do_wait),
    **dict.fromkeys("exit exit_group _exit".split(), do_exit),
    **dict.fromkeys("getpid getppid".split(), do_getpid),
    "pledge": do_pledge, "execve": do_execve,
}  # fmt: skip
