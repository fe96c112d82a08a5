"""Makes the lines of a program from the points of its runs."""
from .logs import LogError
from .points import groups_of
from .texts import COUNT, LINES, TEXT, text_of

LONGEST_PERIOD, COUNTER, SCRATCH = 40, "r7", "r6"


class Buffer:
    """The bytes of the buffer of a process; None if they depend on the run."""

    def __init__(self, cells=None):
        self.cells = cells or [0] * COUNT

    def after(self, answers):
        """Returns the buffer after a call with one of these answers."""
        cells = list(self.cells)
        for at in range(max(len(read) for _, _, read in answers)):
            came = {read[at] if at < len(read) else self.cells[at] for _, _, read in answers}
            cells[at] = came.pop() if len(came) == 1 else None
        return Buffer(cells)

    def text_for(self, demand):
        """Returns the text that gives the buffer the demanded bytes by offset, as far as one text can, and puts it; an empty one if none is needed."""
        end = min([at for at, byte in demand.items() if byte == 0] + [TEXT])
        needed = [at for at, byte in demand.items() if at < end and self.cells[at] != byte]
        text = bytes(demand.get(at) or self.cells[at] or ord(".") for at in range(max(needed) + 1)) if needed else b""
        self.cells[: len(text)] = text
        return text


class Assembler:
    """Writes the lines of one program. With `is_early` it puts the bytes of a write as early as possible, which is needed if another call gives the zeros in
    front of them; with `is_merging` it writes the calls that follow from different answers once."""

    def __init__(self, is_merging, is_early):
        self.is_merging, self.is_early = is_merging, is_early
        self.lines, self.sections, self.labels = [], [], 0
        self.demands = {}

    def program(self, root):
        """Returns the lines of a program."""
        self.sections = [(None, root, Buffer())]
        while self.sections:
            label, point, buffer = self.sections.pop()
            self.lines += [f"{label}:"] if label else []
            self.section(point, buffer)
        return self.lines

    def section(self, point, buffer):
        """Writes the calls from a point on, up to the end or a branch; the other branches become sections."""
        straight = []
        while point.call:
            straight += self.put(point, buffer) + [point.call]
            groups = groups_of(point, self.is_merging)
            if len(groups) != 1:
                break
            point, buffer = groups[0][0], buffer.after(groups[0][1])
        self.lines += compressed(straight, self)
        if point.call and len(point.after) > 0 and len(groups) > 1:
            self.branch(groups, buffer)

    def new_label(self):
        self.labels += 1
        return f"l{self.labels}"

    def branch(self, groups, buffer):
        """Writes the jumps to the groups of answers, the most frequent of which follows."""
        groups.sort(key=lambda it: (len(it[1]), all(value for value, _, _ in it[1])))
        named = [(self.new_label(), *group) for group in groups]
        labels = {answer: label for label, _, answers in named for answer in answers}
        self.decide(labels, named[-1][0])
        if self.lines[-1] == f"jmp {named[-1][0]}":
            self.lines.pop()
        self.sections += [(label, point, buffer.after(answers)) for label, point, answers in named]

    def decide(self, labels, usual):
        """Writes jumps from each answer to its label; `usual` is the label that most answers have."""
        if len(set(labels.values())) == 1:
            self.lines.append(f"jmp {next(iter(labels.values()))}")
            return
        feature = feature_of(labels)
        parts = {}
        for answer, label in labels.items():
            parts.setdefault(value_of(answer, feature), {})[answer] = label
        tested = {value: part for value, part in parts.items() if set(part.values()) != {usual}}
        rest = {answer: label for value, part in parts.items() if value not in tested for answer, label in part.items()}
        if not rest:
            rest = tested.popitem()[1]
        later, register = [], self.load(feature)
        passed = 0
        for value, part in tested.items():
            ends = set(part.values())
            label = ends.pop() if len(ends) == 1 else self.new_label()
            self.lines += [f"add {register} {passed - value}"] * (value != passed) + [f"jz {register} {label}"]
            passed = value
            later += [(label, part)] if label not in part.values() else []
        self.decide(rest, usual)
        for label, part in later:
            self.lines.append(f"{label}:")
            self.decide(part, usual)

    def load(self, feature):
        """Returns the register that has a feature of an answer."""
        if isinstance(feature, int):
            self.lines.append(f"peek {SCRATCH} {feature}")
            return SCRATCH
        return feature

    # ---- the buffer

    def put(self, point, buffer):
        """Returns a line `put` if the buffer lacks bytes that the next call writes, or that a later one writes."""
        own = dict(enumerate(point.wrote or b""))
        demand = self.demand(point) if self.is_early else own
        text = buffer.text_for(demand)
        if any(buffer.cells[at] != byte for at, byte in own.items()):
            raise LogError("the bytes of a write do not follow from the calls before it")
        return [f"put {text_of(text)}"] if text else []

    def demand(self, point):
        """Returns the bytes of the buffer, by offset, that the runs from a point on write before another call replaces them."""
        order, pending = [], [point]
        while pending:
            at = pending.pop()
            if id(at) not in self.demands:
                order.append(at)
                pending += at.after.values()
        for at in reversed(order):
            self.demands[id(at)] = self.demand_from(at), at
        return self.demands[id(point)][0]

    def demand_from(self, point):
        """Returns the demand of a point, from those of the points after it."""
        demand = {}
        for (_, _, read), after in point.after.items():
            for at, byte in self.demands[id(after)][0].items():
                if at >= len(read):
                    demand[at] = byte if demand.get(at, byte) else 0
        return {**demand, **dict(enumerate(point.wrote or b""))}


def feature_of(labels):
    """Returns a register or an offset of the buffer in which answers with different labels differ."""
    for feature in ("r0", "r1"):
        if len({value_of(it, feature) for it in labels}) > 1:
            return feature
    longest = max(len(read) for _, _, read in labels)
    return next(at for at in range(longest) if len({read[at] if at < len(read) else None for _, _, read in labels}) > 1)


def value_of(answer, feature):
    """Returns the value of a feature of an answer."""
    value, error, read = answer
    return {"r0": value, "r1": error}[feature] if isinstance(feature, str) else read[feature] if feature < len(read) else 0


def compressed(lines, names):
    """Returns lines with a loop for each block that is repeated at least four times."""
    out, at = [], 0
    while at < len(lines):
        best = (0, 1, 1)
        for period in range(1, min(LONGEST_PERIOD, len(lines) - at) + 1):
            times = 1
            while lines[at + times * period : at + (times + 1) * period] == lines[at : at + period]:
                times += 1
            best = max(best, ((times - 1) * period, period, times)) if times > 3 else best
        saved, period, times = best
        if saved > 3:
            label = names.new_label()
            out += [f"set {COUNTER} {times}", f"{label}:", *lines[at : at + period], f"add {COUNTER} -1", f"jnz {COUNTER} {label}"]
            at += period * times
        else:
            out.append(lines[at])
            at += 1
    return out


def resolved(lines):
    """Returns the lines with the number of a line for each label; a label after the last line gets an exit."""
    numbers, own = {}, []
    for line in lines:
        if line.endswith(":") and " " not in line:
            numbers[line[:-1]] = len(own) + 1
        else:
            own.append(line)
    if any(it > len(own) for it in numbers.values()):
        own.append("exit 0")
    jumps = ("jmp ", "jz ", "jnz ")
    return [f"{it.rpartition(' ')[0]} {numbers[it.rpartition(' ')[2]]}" if it.startswith(jumps) else it for it in own]


def program_of(root):
    """Returns the lines of a program whose runs are those of the points from `root` on."""
    error = LogError(f"a program has more than {LINES} instructions")
    for is_merging in (True, False):
        for is_early in (False, True):
            try:
                lines = resolved(Assembler(is_merging, is_early).program(root))
            except LogError as found:
                error = found
                continue
            if len(lines) <= LINES:
                return lines
    raise error
