"""Makes the source of a log."""
from . import descriptor_calls, path_calls, process_calls
from .notes import note_of
from .source import Source, first_directory

HANDLERS = {**path_calls.HANDLERS, **descriptor_calls.HANDLERS, **process_calls.HANDLERS}
# Calls of memory, of clocks and of the like, which have no comment.
QUIET = set(
    "clock_getres clock_gettime clock_nanosleep getitimer gettimeofday nanosleep setitimer time times mmap munmap mprotect brk arch_prctl set_tid_address "
    "set_robust_list rseq prlimit64 getrandom fadvise64 mquery sendsyslog issetugid getentropy kbind minherit madvise "
    "sigaction sigprocmask getcwd __getcwd".split()
)
# Calls on files that the machine has not.
ON_FILES = set(
    "statfs fstatfs truncate truncate64 chmod fchmod fchmodat chown fchown lchown fchownat utime utimes futimes futimens utimensat futimesat flock fsync "
    "fdatasync fallocate posix_fallocate mknod mknodat mkfifo mkfifoat mount umount umount2 getxattr lgetxattr fgetxattr listxattr llistxattr flistxattr "
    "setxattr lsetxattr fsetxattr removexattr lremovexattr fremovexattr name_to_handle_at open_by_handle_at inotify_add_watch fanotify_mark execveat chroot "
    "pathconf fpathconf chflags fchflags revoke quotactl __realpath acct swapon pivot_root splice tee vmsplice".split()
)


def source_of(log, keep_loader=False):
    """Returns the source of a log."""
    source = Source(keep_loader, first_directory(log.calls))
    for call in log.calls:
        process = source.process_of(call.pid)
        source.begin(process, call)
        translate(source, process, call)
        source.count(call, call.name in QUIET)
    return source


def translate(source, process, call):
    """Adds a call to the source, or leaves it out with a comment."""
    handler = HANDLERS.get(call.name)
    has_returned = call.value is not None or call.name in ("exit", "exit_group", "execve")
    note = note_of(process, call)
    if handler and has_returned:
        handler(source, process, call)
    elif call.name in ON_FILES or handler in path_calls.HANDLERS.values():
        drop_unknown(source, process, call, note)
    elif note:
        source.remark(process, note)
    elif call.name not in QUIET:
        process.program.lack(call.name)


def drop_unknown(source, process, call, note):
    """Leaves out a call on a file, unless the loader makes it."""
    paths = [it for it in (call.text(0), call.text(1)) if it]
    if paths and source.is_of_loader(paths[0]):
        source.is_loader = True
        process.program.lack("the loader")
    elif call.descriptor(0)[0] not in process.loaded:
        source.drop(process, call, note=note)
