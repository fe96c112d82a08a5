"""Random bundles: trees of few names, so that processes meet, and programs of up to four processes."""
import random

from .every_call import bundle_of
from .formats import SIGNATURES

NAMES = list("abcdef" * 4) + ["\\xff", "\\x22 ", "..."]
PATHS = ["", "/", ".", "..", "n" * 60, "n" * 61, f"/d/{'n' * 61}", "/" * 1024, f"{'./' * 511}a", "//"]
TEXTS = [".", "..", "/", "a", "b", "b/", "../c", "./d/", "e/.", "no", "a/b", "/a/b"]
CALLS = (
    "open open open open openat openat close dup dup2 read read read write write lseek fstat ftruncate getdents fchdir chdir chdir stat lstat readlink mkdir "
    "mkdir rmdir rmdir unlink unlink symlink link link link rename rename rename rename put wait getpid getppid execve execve"
).split()
DESCRIPTORS, STARTS = "0 0 0 1 1 2 2 3 4 5 r0 r0 15 16 -1".split(), "cwd cwd 0 1 2 3 r0 9 -1".split()
AMOUNTS = "0 1 2 3 5 8 100 -1 -3 600 4096 4097".split()
CHANCES = {"append": 0.15, "create": 0.4, "trunc": 0.15, "excl": 0.1, "nofollow": 0.08, "dir": 0.06, "cloexec": 0.1}


class Random(random.Random):
    """Random parts of a bundle; `files` has the paths of its files and links, and `known` all paths."""

    def __init__(self, seed):
        super().__init__(seed)
        self.files, self.known = [], ["/"]

    def path(self, is_new=False):
        """Returns a path, mostly of a known node."""
        if self.random() < 0.03:
            return self.choice(PATHS)
        path = self.choice(self.known)
        if self.random() < (0.6 if is_new else 0.2):
            path += f"/{self.choice(NAMES)}"
        if self.random() < 0.3:
            path = path[1:] or "."
        for mark, chance in (("/", 0.06), ("/.", 0.02), ("/..", 0.03), (f"/../{self.choice('abcdef')}", 0.04)):
            path += mark if self.random() < chance else ""
        return ("../" if path[:1] != "/" and self.random() < 0.2 else "") + path

    def tree(self):
        """Returns the lines of a manifest without programs."""
        lines, folders = ["image 2048 512"], [""]
        for _ in range(self.randint(4, 14)):
            path, kind = f"{self.choice(folders)}/{self.choice('abcdef')}", self.choice(["dir"] * 4 + ["bytes"] * 3 + ["link"] * 4 + ["name"])
            if path in self.known or (kind == "name" and not self.files):
                continue
            if kind == "dir":
                folders.append(path)
                lines.append(f'dir "{path}"')
            else:
                texts = {"bytes": ["", "x", "hello", "abcdefghij"], "name": self.files, "link": [*TEXTS, path, self.choice(self.known)]}
                lines.append(f'{kind} "{path}" "{self.choice(texts[kind])}"')
                self.files.append(path)
            self.known.append(path)
        return lines

    def flags(self):
        mode = self.choice(["r", "w", "rw", "rw"])
        flags = [it for it, chance in CHANCES.items() if self.random() < (0.01 if (it, mode) == ("trunc", "r") else chance)]
        if "create" not in flags and "excl" in flags and self.random() < 0.9:
            flags.remove("excl")
        return "+".join([mode, *flags])

    def argument(self, name, at, kind):
        """Returns an argument of an instruction."""
        if name == "put":
            return self.choice(['""', '"q"', '"wxyz"', '"getpid\\x0a"'])
        if (name, at) == ("symlink", 0):
            return f'"{self.choice(["a", "b", "../a", "/", ".", "c/", "d/e", "", self.choice(self.known)])}"'
        if kind == "T":
            is_of_file = self.files and at == 0 and name in ("link", "open", "execve", "readlink") and self.random() < 0.5
            return f'"{self.choice(self.files) if is_of_file else self.path(is_new=at == 1 or name == "mkdir")}"'
        if kind in "FAW":
            return {"F": self.flags(), "A": self.choice(STARTS), "W": self.choice(["set", "cur", "end"])}[kind]
        return self.choice(DESCRIPTORS if at == 0 or name == "dup2" else AMOUNTS)

    def line(self):
        """Returns an instruction."""
        name = self.choice(CALLS)
        return " ".join([name, *(self.argument(name, at, kind) for at, kind in enumerate(SIGNATURES[name]))])

    def program(self, length):
        """Returns the lines of a program, with some sequences that one instruction at random seldom makes."""
        lines = []
        while len(lines) < length:
            if self.random() < 0.08:
                lines += [f'open "{self.path()}" r', "getdents r0", "getdents 0", "getdents 1"][: self.randint(2, 4)]
            if self.random() < 0.05:
                name = self.choice("abcdef")
                lines += [f'mkdir "{name}"', f'chdir "{name}"', f'rmdir "{self.choice(["../" + name, "/" + name])}"']
            if self.random() < 0.08:
                lines += [f'open "{self.path()}" rw+create', 'put "hello"', "write r0 5", "lseek 0 1 set", "read 0 5"]
            if self.random() < 0.01:
                lines += ["dup 0"] * 16
            if self.random() < 0.03:
                lines.append(self.choice(["exit 3", "exit -1", "fork", "wait", 'execve "/p"', 'execve "/d"']))
            lines.append(self.line())
        return lines

    def turns(self, count, processes, steps):
        return "\n".join(f"{self.choice(processes)} {self.choice(steps)}" for _ in range(count))


def family(it):
    """Returns a bundle of processes that fork, wait and end."""
    lines = it.choices(
        ["fork", "wait", "getppid", "getpid", "exit 0", "exit 300", "exit -1", "jz", "jneg", "peek r2 1"], [6, 6, 4, 1, 1, 1, 1, 4, 1, 1], k=it.randint(4, 30)
    )
    lines = [f"{line} r0 {it.randint(1, len(lines))}" if line[0] == "j" else line for line in lines]
    most = it.choice([2, 4, 8])
    return bundle_of("image 64 64\n", lines, it.turns(it.randint(10, 80), range(1, most + 1), [1, 1, 2, 4]))


def random_bundle(seed):
    """Returns a random bundle."""
    it = Random(seed)
    if it.random() < 0.1:
        return family(it)
    tree = it.tree()
    for path in "/p", "/d":
        if path not in it.known and it.random() < 0.6:
            it.known.append(path)
            text = it.program(it.randint(1, 12)) if it.random() < 0.8 else ["what"]
            tree += [f'exec "{path}" {len(text)}', *text]
    places = [it.choice(it.files if at % 2 and it.files else it.known) for at in range(it.randint(0, 6))]
    program = [f'open "{path}" {it.choice(["r", "rw", "rw+append", "r+cloexec"])}' for path in places] + it.program(it.randint(10, 50))
    for _ in range(it.choice([0, 1, 1, 1, 2, 3])):
        at = it.randint(0, len(program) // 2)
        program.insert(at, "fork")
        if it.random() < 0.6:
            program.insert(at + 1, f"jz r0 {it.randint(at + 2, len(program))}")
    schedule = it.turns(it.randint(10, 60), [1, 1, 2, 2, 3, 4], [1, 1, 1, 2, 3, 6, 12])
    return bundle_of("\n".join(tree) + "\n", program, schedule)
