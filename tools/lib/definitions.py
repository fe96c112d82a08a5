"""The definitions of the specifications: where each is, and which others it rests on."""
import os
import re

TOP = os.path.dirname(os.path.dirname(os.path.dirname(os.path.realpath(__file__))))
USE = re.compile(r"^(?:unfoldable )?(?:pub )?use Rattle\.([\w.]+)\.\{([^}]*)\}", re.M)
# A line by which a crate passes on the definitions of a lower one, under a name of its own or that of the crate between.
PASSED_ON = re.compile(r"^pub use Rattle\.(\w+)\.specs(?:\.(\w+)| as (\w+))$", re.M)
HEAD = re.compile(r"^\s*(?:pub )?(?:abbrev|unfoldable|record|data|def|rel)\s+(?:pub )?([^\s:({]+)")
FIELD = re.compile(r"^\s+(?:pub )?(\w+) :")
WORD = re.compile(r"[A-Za-z_◌][\w◌]*")


class Module:
    """A file of definitions: its lines, what it imports, and the first and last line of each definition."""

    def __init__(self, path):
        self.path = os.path.relpath(path, TOP)
        with open(path, encoding="utf-8") as file:
            text = file.read()
        self.lines = [re.sub(r"(^|\s)--(\s.*|$)", "", line) for line in text.split("\n")]
        self.imports = dict(self._imported(text))
        self.ranges = self._ranges()

    @staticmethod
    def _imported(text):
        """Yields each imported name with its module and its name there."""
        for use in USE.finditer(text):
            for item in use[2].split(","):
                name, _, other = item.strip().partition(" as ")
                yield other or name, (use[1], name)

    def _ranges(self):
        """Returns the ranges of lines in which a name is defined; the fields and the constructors of a type are in its range."""
        heads = [(at, found[1]) for at, line in enumerate(self.lines) if (found := HEAD.match(line))]
        ends = [at for at, _ in heads[1:]] + [len(self.lines)]
        ranges = {}
        for (start, name), end in zip(heads, ends):
            ranges.setdefault(name, []).append((start, end))
        for (start, _), end in zip(heads, ends):
            for line in self.lines[start:end]:
                if field := FIELD.match(line):
                    ranges.setdefault(field[1], [(start, end)])
        return ranges

    def uses(self, name):
        """Returns the names on which a definition rests, and the numbers of its lines."""
        at = [k for start, end in self.ranges.get(name, []) for k in range(start, end) if self.lines[k].strip()]
        return {word for k in at for word in WORD.findall(self.lines[k])}, at


def passed_on(crate, name):
    """Returns the crate whose definitions a crate passes on under a name, or None."""
    path = os.path.join(TOP, "crates", crate, "specs/Lib.antt")
    if os.path.exists(path):
        with open(path, encoding="utf-8") as file:
            for lower, between, own in PASSED_ON.findall(file.read()):
                if name in (between, own):
                    return passed_on(lower, name) if between else lower
    return None


def module_of(name, loaded):
    """Returns the module of this name, or None for one of the toolchain, or of a type that the code declares."""
    if name not in loaded:
        crate, _, rest = name.partition(".specs.")
        alias, _, below = rest.partition(".")
        lower = passed_on(crate, alias) if below else None
        if lower:
            return module_of(f"{lower}.specs.{below}", loaded)
        path = os.path.join(TOP, "crates", crate, "specs", rest.replace(".", "/") + ".antt")
        loaded[name] = Module(path) if os.path.exists(path) else None
    return loaded[name]


def lines_below(roots):
    """Returns the number of lines in each file of the definitions that the roots rest on; a root is MODULE.NAME."""
    loaded, seen, found = {}, set(), {}
    todo = [tuple(root.rsplit(".", 1)) for root in roots]
    for name, definition in todo:
        if not module_of(name, loaded) or definition not in loaded[name].ranges:
            raise LookupError(f"no definition {name}.{definition}")
    while todo:
        place = todo.pop()
        if place in seen:
            continue
        seen.add(place)
        module = module_of(place[0], loaded)
        if module:
            words, at = module.uses(place[1])
            found.setdefault(module.path, set()).update(at)
            if place[1] in module.imports and place[1] not in module.ranges:
                todo.append(module.imports[place[1]])
            todo += [module.imports.get(word) or (place[0], word) for word in words if word in module.imports or word in module.ranges]
    return {path: len(at) for path, at in found.items() if at}


def all_lines():
    """Returns the number of lines of all specifications that are neither empty nor comments."""
    paths = [os.path.join(folder, name) for folder, _, names in os.walk(os.path.join(TOP, "crates")) for name in names]
    specs = [it for it in paths if it.endswith(".antt") and "/specs/" in it and "/out/" not in it]
    return sum(bool(line.strip()) for path in specs for line in Module(path).lines)
