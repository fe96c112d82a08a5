"""The sites of a source at which calls of pledge(2) and unveil(2) are added, and the source with these calls."""
import re

from .programs import BadInput, Source
from .registers import disturbed
from .texts import JUMPS, NOTHING, is_restraint, quoted, shown

KEYWORDS = ("stdio", "rpath", "wpath", "cpath", "proc", "exec", "unveil")
LETTERS = "rwxc"
COMMENT = re.compile(rb"[ \t]*#[ \t]*(restrain|narrow)[ \t\r]*\n?")
HEADER = re.compile(rb'([ \t]*exec[ \t]+"[^"]*"[ \t]+)([0-9]+)')
JUMP = re.compile(rb"([ \t]*(?:[A-Za-z][\w-]*:[ \t]+)?(?:jmp|j(?:z|nz|neg)[ \t]+r[0-7])[ \t]+)([0-9]+)")


def parent_of(path):
    """Returns the path of the directory above, as bytes."""
    return path.rpartition(b"/")[0] or b"/"


class Site:
    """A site: its program, the place of the instruction that follows it, the number of the line in front of which calls are added, and the calls. If `is_table`
    is true, an unveil of each place and the lock come before the pledge. `tried` has all permissions that an unveil of a path was given, `failing` the paths
    whose unveils fail here, and `line` is the line of the comment, or of the first instruction."""

    def __init__(self, program, at, before, line, is_table, is_first):
        self.program, self.at, self.before, self.line, self.is_table, self.is_first = program, at, before, line, is_table, is_first
        self.unveils, self.promises, self.execpromises = {}, set(), None
        self.tried, self.failing = {}, set()

    def give(self, path, letters):
        """Adds permissions at a path."""
        self.tried.setdefault(path, set()).update(letters)
        if path not in self.failing:
            self.unveils.setdefault(path, set()).update(letters)

    def give_promise(self, keyword, is_exec):
        """Adds a promise, or one of the execpromises; returns whether it is new. With exec, a program gets no more than the execpromises."""
        if is_exec and self.execpromises is None:
            self.execpromises = set()
        promises = self.execpromises if is_exec else self.promises
        if keyword in promises:
            return False
        promises.add(keyword)
        if "exec" in self.promises and self.execpromises is None:
            self.execpromises = set()
        return True

    def fail(self, path):
        """Notes that an unveil of a path fails here."""
        self.failing.add(path)
        self.unveils.pop(path, None)

    def drop_idle(self):
        """Leaves out the paths without permissions; returns whether there were any. Without a path there is no table."""
        idle = [path for path, letters in self.unveils.items() if not letters]
        for path in idle:
            del self.unveils[path]
        return bool(idle)

    def is_covered(self, path):
        """Returns whether the unveil of the nearest directory above gives no permission that the one of a path does not give, if it has one."""
        above = path
        while above != b"/":
            above = parent_of(above)
            if above in self.unveils:
                return self.unveils[above] <= self.unveils[path]
        return True

    def paths(self):
        return list(self.unveils) if self.is_table else []

    def calls(self):
        """Returns the instructions."""
        def text(words):
            return quoted(" ".join(it for it in KEYWORDS if it in words).encode()) if words is not None else b"null"

        unveils = [b"unveil %s %s" % (quoted(it), quoted("".join(k for k in LETTERS if k in self.unveils[it]).encode())) for it in self.paths()]
        return [*unveils, *[b"unveil null null"] * bool(unveils), b"pledge %s %s" % (text(self.promises), text(self.execpromises))]

    def calls_shown(self):
        return [shown(it) for it in self.calls()]


def head_of(source, program):
    """Returns the number of the line that begins the entry of a program which has instructions."""
    number = program.at_lines[0] - 1
    while not re.match(rb'[ \t]*exec[ \t]+"', source.lines[number - 1]):
        number -= 1
    return number


def first_line_of(source, program):
    """Returns the number of the line of the first instruction of a program, or of the first label before it."""
    label = re.compile(rb"[ \t]*[A-Za-z][\w-]*:([ \t].*)?[ \t\r]*\n?")
    numbers = range(head_of(source, program) + 1, program.at_lines[0]) if program.is_marked else ()
    return next((it for it in numbers if label.fullmatch(source.lines[it - 1])), program.at_lines[0])


def comments_of(source, program):
    """Yields the number of the line and the word of each comment of a program that asks for calls and has none below it, and the place of what follows."""
    for number in range(head_of(source, program) + 1, program.at_lines[-1]):
        found = COMMENT.fullmatch(source.lines[number - 1])
        at = sum(it < number for it in program.at_lines)
        if found and not is_restraint(program.lines[at]):
            yield number, found[1].decode(), at


def sites_of(source, is_used):
    """Returns the sites of a source, where `is_used` says of a program whether some schedule executes it."""
    sites = []
    for program in source.bundle.programs:
        if not program.lines or not is_used(program):
            continue
        first = first_line_of(source, program)
        comments = list(comments_of(source, program)) if program.is_marked else []
        has_own = any(word == "restrain" for _, word, _ in comments) or any(map(is_restraint, program.lines))
        if not has_own:
            sites.append(Site(program, 0, first, first, True, True))
        sites += [Site(program, at, number + 1, number, word == "restrain", False) for number, word, at in comments]
    for site in sites:
        changed = disturbed(site.program.lines, site.at)
        if changed:
            text = f"calls here change {' and '.join(changed)}, which is read before it is set: move the comment"
            raise BadInput(f"{source.name}:{site.line}: {text}")
    return sites


class Layout:
    """A source with `pledge null null` at its sites, one for each call, and the places of these lines in its bundle. It depends on the numbers of calls."""

    def __init__(self, ask, source, sites):
        self.ask, self.original, self.sites = ask, source, sites
        self.counts = [len(it.calls()) for it in sites]
        self.padded = Source(ask, self.with_lines([[NOTHING] * it for it in self.counts]), source.name)
        self.ref = {}
        for site, count in zip(sites, self.counts):
            program = self.program_of(site)
            first = site.at + sum(n for it, n in zip(sites, self.counts) if it.program is site.program and self.is_before(it, site))
            for k in range(count):
                self.ref[program.path, first + k + 1] = site, k

    @staticmethod
    def is_before(one, other):
        return (one.at, one.before) < (other.at, other.before)

    def program_of(self, site):
        return self.padded.bundle.programs[self.original.bundle.programs.index(site.program)]

    def with_lines(self, calls):
        """Returns the text of the source with these calls at the sites."""
        lines = {}
        for site, some in zip(self.sites, calls):
            indent = re.match(rb"[ \t]*", self.original.lines[site.before - 1])[0] if site.program.is_marked else b""
            lines.setdefault(site.before, []).extend(indent + it + b"\n" for it in some)
        changes = self.shifted_jumps()
        parts = []
        for number, line in enumerate(self.original.lines, 1):
            parts += [*lines.get(number, []), changes.get(number, line)]
        return b"".join(parts)

    def shifted_jumps(self):
        """Returns the lines with numbers of instructions that change: jumps without a label, and the heads of programs with a number of lines."""
        changes = {}
        for program in {id(it.program): it.program for it in self.sites}.values():
            mine = [(site, len(site.calls())) for site in self.sites if site.program is program]
            for number, line in zip(program.at_lines, program.lines):
                found = JUMP.match(self.original.lines[number - 1])
                if line.split(b" ")[0].decode("latin-1") in JUMPS and found:
                    target = int(found[2])
                    more = sum(n for site, n in mine if site.at < target - 1 or site.at == target - 1 and site.is_first)
                    changes[number] = found[1] + b"%d" % (target + more) + self.original.lines[number - 1][found.end() :]
            if not program.is_marked:
                number = program.at_lines[0] - 1
                found = HEADER.match(self.original.lines[number - 1])
                changes[number] = found[1] + b"%d" % (int(found[2]) + sum(n for _, n in mine)) + self.original.lines[number - 1][found.end() :]
        return changes

    def text(self):
        """Returns the text of the source with the calls of the sites."""
        return self.with_lines([it.calls() for it in self.sites])

    def bundle(self):
        """Returns the text of the bundle with the calls of the sites."""
        changes = {}
        programs = {it.path: it for it in self.padded.bundle.programs}
        for (path, line), (site, k) in self.ref.items():
            changes[programs[path].first + line - 1] = site.calls()[k]
        return self.padded.bundle.text(changes)
