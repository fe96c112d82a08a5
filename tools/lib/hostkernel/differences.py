"""The known classes of differences between pvsim and a kernel: the condition of each is here, and the table has its answers, its source and its reason."""
import re

import pvtest

TABLE = f"{pvtest.TOP}/cases/host-kernel/differences.txt"
SOURCES = {"manual": "OpenBSD's manual page", "rule": "a rule of the machine", "limit": "a limit of the machine"}
WALK, DOTS = ("ENOENT", "ENOTDIR", "ELOOP", "ENAMETOOLONG"), (b".", b"..")
LINKS, WEIGHT, LONG = 32, 1024, re.compile(rb"[^/]{61}")


class Case:
    """A call with two answers, and what the host says about it. `was` is pvsim's answer and `came` the host's; `kind` is that of the descriptor, an error or
    one of dfxl; `kinds` those of the paths, with a final link followed as the call does; `bare` those of the paths without slashes at their ends, and without
    following; `walks` the links that a walk follows and the greatest weight after one; `is_removed` says whether the paths start in a removed directory."""

    def __init__(self, event, came, looked):
        self.call, self.args, self.was, self.came, self.paths, self.flags = event.call, event.args, event.outcome, came, event.paths(), event.flags()
        self.kind, self.kinds, self.bare, self.is_removed, self.walks = looked
        names = [[it for it in path.split(b"/") if it] for path in self.paths]
        self.last = [it[-1] if it else b"" for it in names]
        self.is_above = [path[:1] != b"/" and [it for it in name if it != b"."][:1] == [b".."] for path, name in zip(self.paths, names)]
        self.has_slash = [path[-1:] == b"/" and name != [] for path, name in zip(self.paths, names)]

    def answers(self, call, was, came):
        return (self.call, self.was, self.came) == (call, was, came)


def is_of_link_with_slash(it):
    named = zip(it.has_slash, it.bare)
    return it.call in ("rmdir", "unlink", "rename") and it.came in ("ENOTDIR", "EINVAL", "EBUSY") and any(slash and bare == "l" for slash, bare in named)


def is_of_create_with_slash(it):
    if "create" not in it.flags or it.came != "EISDIR":
        return False
    is_walk = it.was == it.kinds[0] and it.was in WALK
    is_directory = it.has_slash[0] and it.was == "EEXIST" and "excl" in it.flags and it.kinds[0] == "d"
    return is_walk or is_directory


def is_of_openat_order(it):
    is_descriptor = it.was == "EBADF" == it.kind or (it.was == "ENOTDIR" and it.kind in ("f", "x"))
    return it.call == "openat" and it.came in ("EMFILE", "ENOENT", "ENAMETOOLONG") and is_descriptor


def is_of_emfile_order(it):
    is_empty, is_long = it.paths[:1] == [b""], any(len(path) > 1023 for path in it.paths)
    return it.call in ("open", "openat") and it.was == "EMFILE" and ((is_empty and it.came == "ENOENT") or (is_long and it.came == "ENAMETOOLONG"))


def is_of_file_to_slash(it):
    is_second = (it.was == "EISDIR" and it.kinds[1] == "d") or it.was == "ENOENT" == it.kinds[1]
    return it.has_slash[1] and it.kinds[0] in ("f", "x", "l") and it.came == "ENOTDIR" and is_second


def is_of_two_paths(it):
    if it.call not in ("link", "rename") or it.was not in WALK:
        return False
    # (the first walk's error comes first; ENOENT can also say that nothing is at the end of the first path)
    is_walk = it.was == it.kinds[0] or (it.was == it.kinds[1] and it.kinds[0] not in WALK[1:])
    is_first = it.came in it.kinds or (it.came == "EBUSY" and b"" in it.last) or (it.came == "EINVAL" and it.kinds[0] == "d")
    return is_walk and is_first


# The condition of each class; the first that holds is the class of a difference.
CLASSES = {
    "lseek-directory": lambda it: it.answers("lseek", "EINVAL", "ok") and it.kind == "d",
    "busy-text": lambda it: it.call == "execve" and it.came == "ETXTBSY" and it.was in ("ok", "ENOEXEC"),
    "rmdir-dots": lambda it: it.call == "rmdir" and it.was == "EINVAL" and it.last[0] in DOTS,
    "rename-dots": lambda it: it.call == "rename" and it.was == "EINVAL" and any(last in DOTS for last in it.last),
    "removed-dotdot": lambda it: it.is_removed and it.was == "ENOENT" and any(it.is_above),
    "removed-long": lambda it: it.is_removed and (it.was, it.came) == ("ENAMETOOLONG", "ENOENT") and any(LONG.search(path) for path in it.paths),
    "removed-listing": lambda it: it.answers("getdents", "ok", "ENOENT") and it.kind == "d",
    "getdents-file": lambda it: it.answers("getdents", "EINVAL", "ENOTDIR") and it.kind in ("f", "x"),
    "unlink-directory": lambda it: it.answers("unlink", "EPERM", "EISDIR") and it.kinds == ["d"],
    "ftruncate-order": lambda it: it.answers("ftruncate", "EBADF", "EINVAL") and it.kind == "EBADF" and int(it.args[1]) < 0,
    "link-with-slash": is_of_link_with_slash,
    "new-with-slash": lambda it: it.call in ("symlink", "link") and it.has_slash[-1] and it.was == it.kinds[-1] and it.came == "EEXIST",
    "create-with-slash": is_of_create_with_slash,
    "create-directory": lambda it: "create" in it.flags and (it.was, it.came) == ("ok", "EISDIR") and it.flags[0] == "r" and it.kinds[0] == "d",
    "excl-alone": lambda it: it.was == "EINVAL" and "excl" in it.flags and "create" not in it.flags,
    "nofollow-dir": lambda it: {"nofollow", "dir"} <= set(it.flags) and (it.was, it.came) == ("ELOOP", "ENOTDIR") and it.kinds[0] == "l",
    "openat-order": is_of_openat_order,
    "emfile-order": is_of_emfile_order,
    "rename-to-above": lambda it: it.answers("rename", "EISDIR", "ENOTEMPTY") and it.kinds[0] != "d" == it.kinds[1],
    "rename-file-to-slash": lambda it: it.call == "rename" and is_of_file_to_slash(it),
    "rename-to-new-slash": lambda it: it.call == "rename"
    and it.was == "ENOENT" == it.bare[1]
    and it.kinds[0] == "d"
    and it.has_slash[1]
    and it.came in ("ok", "EINVAL"),
    "link-order": lambda it: it.answers("link", "EPERM", "EEXIST") and it.kinds[0] == "d" and it.kinds[1] in ("d", "f", "x", "l"),
    "two-paths-order": is_of_two_paths,
    "limit-links": lambda it: it.was == "ELOOP" and any(links > LINKS for links, _ in it.walks),
    "limit-weight": lambda it: it.was == "ENAMETOOLONG" and any(weight > WEIGHT for _, weight in it.walks),
}


def class_of(case):
    """Returns the class of a difference, or None."""
    return next((name for name, holds in CLASSES.items() if holds(case)), None)


class Entry:
    """An entry of the table: the calls, pvsim's answers and the host's of the class. `shows` is the difference that the least bundle of the class has: the call
    with its arguments, a colon, pvsim's answer, a comma, and the host's."""

    def __init__(self, name):
        self.name, self.calls, self.pvsim, self.host, self.shows, self.source, self.why = name, [], [], [], "", "", ""

    def allows(self, call, was, came):
        """Returns whether two answers to a call belong to the class, if its condition holds."""
        return call in self.calls and was in self.pvsim and came in self.host

    def bundle(self):
        """Returns the path of the least bundle of the class."""
        return f"cases/host-kernel/{self.name}.bundle"


def table():
    """Returns the entries of the table by name, in their order."""
    entries, entry = {}, None
    for number, line in enumerate(pvtest.read(TABLE).decode().splitlines(), 1):
        word, _, rest = line.partition(" ")
        if word == "class":
            entry = entries[rest] = Entry(rest)
        elif word in ("calls", "pvsim", "host"):
            setattr(entry, word, rest.split())
        elif word in ("shows", "source", "why"):
            setattr(entry, word, rest)
        elif line and word != "#":
            raise ValueError(f"{TABLE}: line {number} is not in the format of the table")
    return entries
