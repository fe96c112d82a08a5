"""The calls of a program as a tree: a program is deterministic, so runs of it with equal answers make equal calls."""
from .logs import LogError


class Point:
    """A place in a program between two calls: the next call (None if no run makes one), the bytes that it writes, and the point after each answer. An answer is
    the value, the error number, and the bytes that the call copies to the buffer."""

    def __init__(self):
        self.call, self.wrote, self.is_end, self.after = None, None, False, {}

    def make(self, step):
        """Notes the call of a step here."""
        call = (step.instruction(), step.wrote)
        if self.call not in (None, call[0]) or (self.call and None not in (self.wrote, call[1]) and self.wrote != call[1]):
            raise LogError(f"two runs of a program with equal answers differ: {self.call}, and {call[0]}")
        self.call, self.wrote, self.is_end = call[0], call[1] or self.wrote, step.outcome in ("ended", "killed")

    def next(self, answer):
        return self.after.setdefault(answer, Point())


def is_compatible(one, other):
    """Returns whether one program can contain both points at one place."""
    pairs = [(one, other)]
    while pairs:
        one, other = pairs.pop()
        if one.call is None or other.call is None:
            continue
        if one.call != other.call or (None not in (one.wrote, other.wrote) and one.wrote != other.wrote):
            return False
        pairs += [(point, other.after[answer]) for answer, point in one.after.items() if answer in other.after]
    return True


def merged(one, other):
    """Returns the point that has the runs of both, which are compatible."""
    result = Point()
    pairs = [(result, one, other)]
    while pairs:
        into, one, other = pairs.pop()
        into.call, into.wrote, into.is_end = one.call or other.call, one.wrote or other.wrote, one.is_end and other.is_end
        for answer in [*one.after, *(it for it in other.after if it not in one.after)]:
            if answer in one.after and answer in other.after:
                into.after[answer] = Point()
                pairs.append((into.after[answer], one.after[answer], other.after[answer]))
            else:
                into.after[answer] = one.after.get(answer) or other.after[answer]
    return result


def groups_of(point, is_merging):
    """Returns the points after a call, each with the answers that lead there; compatible ones are one."""
    groups = []
    for answer, after in point.after.items():
        group = next((it for it in groups if is_merging and is_compatible(it[0], after)), None)
        if group:
            group[0] = merged(group[0], after)
            group[1].append(answer)
        else:
            groups.append([after, [answer]])
    return groups


class Runs:
    """The points at which the processes of a trace are. `roots` has the first point of each program, by its node."""

    def __init__(self):
        self.roots, self.at = {}, {}

    def begin(self, pid, node):
        self.at[pid] = self.roots.setdefault(node, Point())

    def follow(self, step, program):
        """Follows a step; `program` is the node that the process executes afterwards."""
        if step.outcome == "gone":
            return
        point = self.at[step.pid]
        point.make(step)
        if step.outcome == "answer" and step.name == "execve" and not step.error:
            self.begin(step.pid, program)
        elif step.outcome == "answer":
            self.at[step.pid] = point.next((step.value, step.error, step.read))
            if step.name == "fork" and not step.error:
                self.at[step.value] = point.next((0, 0, b""))
