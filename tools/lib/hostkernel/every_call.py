"""Bundles with every path of one tree in every call, every pair of paths in link and rename, and every set of flags in open."""
from .comparison import answer_of
from .formats import OPEN_FLAGS, events_of

TREE = f"""image 2048 256
dir "/d"
dir "/d/e"
dir "/d/e/g"
dir "/m"
bytes "/f" "hello"
name "/h" "/f"
bytes "/d/f" "dd"
name "/d/k" "/d/f"
bytes "/d/e/x" ""
exec "/p" 2
getpid
lstat "f"
exec "/q" 1
no program
link "/lf" "f"
link "/ld" "d"
link "/lm" "m"
link "/ln" "no"
link "/ll" "ll"
link "/lds" "d/"
link "/lfs" "f/"
link "/lns" "no/"
link "/ldd" "d/."
link "/lde" "d/e/.."
link "/lr" "/"
link "/lu" ".."
link "/dot" "."
link "/lfx" "f/x"
link "/lnx" "no/x"
link "/lp" "p"
link "/d/lu" "../f"
link "/d/le" "e"
link "/llf" "lf"
link "/lld" "ld"
link "/lln" "ln"
link "/llong" "{"n" * 61}"
link "/lw" "{"./" * 505}d"
name "/hl" "/lf"
"""
NAMES = (
    "d d/e d/e/g m f h d/f d/k d/e/x p q lf ld lm ln ll lds lfs lns ldd lde lr lu dot lfx lnx lp d/lu d/le llf lld lln llong hl no no/x f/x ld/f ld/no "
    "lm/no d/no lr/f lu/d dot/f ld/e lde/f lf/x ln/x"
).split()
LONG = "n" * 61
PATHS = [f"/{name}{suffix}" for name in NAMES for suffix in ("", "/", "/.", "/..")] + [
    "", "/", "//", ".", "..", "./", "../", "/.", "/..", "//f", "//d//", "d/../f", "d/../d/", "m/../f", "f/../f", "/lw/f", LONG[1:], LONG, f"{LONG}/",
    f"f/{LONG}", f"no/{LONG}", f"{'./' * 511}f", "./" * 512, "/" * 1023, "/" * 1024,
]  # fmt: skip
RELATIVE = [
    "", ".", "..", "./", "../", "../.", "x", "x/", "x/.", "g", "g/", "g/..", "../f", "../../f", "../../..", "../no", "../e", LONG, "no", "no/", "no/no", "/d/e",
    "/d/e/.", "/d/e/g", "/d/e/g/", "/f", "/d/e/g/..",
]  # fmt: skip
# The directories in which the calls are made, with the lines that lead there.
PLACES = {"root": [], "below": ['chdir "/d/e"'], "removed": ['chdir "/d/e/g"', 'rmdir "/d/e/g"']}
FLAGS = [mode + "".join(f"+{flag}" for at, flag in enumerate(OPEN_FLAGS) if bits >> at & 1) for mode in ("r", "w", "rw") for bits in range(128)]
CALLS = "execve chdir stat lstat readlink mkdir rmdir unlink symlink link rename open openat".split()
LINES, BYTES = 240, 100_000


def bundle_of(tree, program, schedule=None):
    """Returns a bundle; by default its one process runs to its end."""
    lines = [f'exec "/init" {len(program)}', *program, "schedule", schedule or f"1 {len(program) + 1}"]
    return (tree + "\n".join(lines) + "\n").encode("latin-1")


def all_groups():
    """Yields, for each call, path and place, the lines to start with, and the groups of lines to try in the same tree."""
    for place, before in PLACES.items():
        paths = PATHS if place == "root" else RELATIVE
        for name in CALLS:
            for path in paths:
                yield before + ['open "." r'] * (name == "openat"), groups_of(name, path, paths)


def groups_of(name, path, paths):
    """Returns the groups of lines that try a call with a path."""
    if name in ("link", "rename"):
        return [[f'{name} "{path}" "{new}"'] for new in paths]
    if name == "symlink":
        return [[f'symlink "{text}" "{path}"'] for text in ("f", "", LONG, "n" * 1023, "n" * 1024)]
    if name == "open":
        return [[f'open "{path}" {flags}', "fstat r0", "close 0"] for flags in FLAGS]
    if name == "openat":
        flags = "r", "rw", "w+create", "r+create", "rw+create+excl", "r+nofollow", "r+dir", "w+trunc"
        return [[f'openat {start} "{path}" {flag}', "fstat 1", "close 1"] for start in ("0", "cwd", "7", "-1") for flag in flags]
    return [[f'{name} "{path}"', f'lstat "{path}"', 'stat "."', 'stat "f"']]


def has_changed(event):
    """Returns whether a call may have changed the tree, or the process's directory or program."""
    if event.outcome != "ok":
        return False
    if event.call in ("open", "openat"):
        return bool({"create", "trunc"} & set(event.flags()))
    return event.call in ("mkdir", "rmdir", "unlink", "symlink", "link", "rename", "chdir", "execve")


def bundles_of(program, before, groups):
    """Yields bundles that begin with some lines, of as many groups as fit, each up to the first group that changes the tree."""
    while groups:
        count, lines = 0, list(before)
        while count < len(groups) and len(lines) < LINES and sum(map(len, lines)) < BYTES:
            lines += groups[count]
            count += 1
        events, at = events_of(answer_of(program, "run-tree", "-", given=bundle_of(TREE, lines))), len(before)
        for count, group in enumerate(groups[:count], 1):
            if has_changed(events[at]):
                break
            at += len(group)
        yield bundle_of(TREE, before + sum(groups[:count], []))
        groups = groups[count:]
