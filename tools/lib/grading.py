"""Grades sources of pvsim by a rubric: rules about the tree, the programs, and the answers of the program. docs/GRADING.md has the form of a rubric."""
import collections
import fnmatch
import os
import re
import resource
import subprocess
import tempfile

from sandbox.programs import Bundle

OF_ONE_RUN = ("explain", "reach", "needs", "state")
OF_ALL_RUNS = ("access", "explore", "policy", "exposure")
CHANGES = ("same", "names", "order", "restraints", "free")
# Lines of an answer that say nothing about a step.
HEADS = ("BY", "DONE", "UNRD")
RESTRAINT = re.compile(rb"(pledge|unveil) ")
TARGET = re.compile(rb"(jmp|jz|jnz|jneg)\b(.*?) ?([0-9]+)$")

Limits = collections.namedtuple("Limits", "seconds memory output states")
Answer = collections.namedtuple("Answer", "kind text")
Result = collections.namedtuple("Result", "verdict reason")
# From the worst for a submission to the best; 'not graded' says nothing about the submission.
VERDICTS = ("failed", "undecided", "not graded", "passed")


class BadRubric(Exception):
    """An error of a rubric."""


class Rubric:
    """The rules of an exercise, and the source that the students were given."""

    def __init__(self, text, name):
        self.name, self.given, self.calls, self.adds, self.by = name, None, "free", [], None
        self.has_same_turns, self.same, self.fewest, self.rules = False, [], [], []
        for number, line in enumerate(text.split("\n"), 1):
            words = line.partition("#")[0].split() if '"' not in line else line.split()
            if words and not line.startswith("#") and not self.add(words[0], words[1:]):
                raise BadRubric(f"{name}: line {number} is not a rule: {line}")

    def add(self, word, rest):
        """Takes a line. Returns whether it is a rule."""
        text = " ".join(rest)
        if word in ("must", "never", "only"):
            self.rules.append((word, rest[0] if rest else "", " ".join(rest[1:])))
            return len(rest) > 1 and rest[0] in OF_ONE_RUN + OF_ALL_RUNS
        if word == "calls":
            self.calls = text
            return text in CHANGES
        if word == "fewest":
            self.fewest.append(text)
            return text in ("promises", "permissions")
        if word in ("given", "by"):
            setattr(self, word, text)
        elif word in ("same", "adds"):
            getattr(self, word).append(text.encode())
        else:
            self.has_same_turns = word == "turns" and text == "same"
            return self.has_same_turns
        return bool(text)


class Asker:
    """Asks the program about a submission, within limits."""

    def __init__(self, program, limits, folder):
        self.program, self.limits, self.folder, self.answers = program, limits, folder, {}

    def set_limits(self):
        """Sets the limits of the process, which is not the program yet."""
        for what, most in ((resource.RLIMIT_CPU, self.limits.seconds), (resource.RLIMIT_AS, self.limits.memory), (resource.RLIMIT_FSIZE, self.limits.output)):
            resource.setrlimit(what, (most or resource.RLIM_INFINITY,) * 2)

    def run(self, words):
        """Runs the program, with its output in a file of a limited size. Returns its answer."""
        with open(os.path.join(self.folder, "answer"), "w+b") as out, open(os.path.join(self.folder, "errors"), "w+b") as err:
            try:
                status = subprocess.run([self.program, *words], stdin=subprocess.DEVNULL, stdout=out, stderr=err, preexec_fn=self.set_limits,
                                        timeout=20 * self.limits.seconds).returncode
            except subprocess.TimeoutExpired:
                return Answer("time", "")
            is_full = os.fstat(out.fileno()).st_size >= self.limits.output
            out.seek(0)
            err.seek(0)
            return answer_of(status, is_full, out.read().decode("ascii", "replace"), err.read().decode("ascii", "replace").strip())

    def bundle(self, path):
        """Translates a source, and returns the answer and the bundle's text."""
        answer = self.run(["source", "-v", "--", os.path.realpath(path)])
        with open(os.path.join(self.folder, "bundle"), "w", encoding="ascii") as it:
            it.write(answer.text if answer.kind == "complete" else "")
        return answer

    def ask(self, question, by=None):
        """Returns the answer to a question about the bundle."""
        if question not in self.answers:
            cut = ["--states", str(self.limits.states)] if question in OF_ALL_RUNS else ["--by", by] if by else []
            self.answers[question] = self.run([question, *cut, os.path.join(self.folder, "bundle")])
        return self.answers[question]


def answer_of(status, is_full, out, err):
    """Returns an answer by the status of a run: a status that the host causes is not an error of the submission."""
    if is_full or status == -25:
        return Answer("output", "")
    if status in (0, 5):
        return Answer("complete" if status == 0 else "incomplete", out)
    if status == 1:
        return Answer("input", err)
    return Answer("time", "") if status in (-24, -9) else Answer("host", f"status {status}: {err.partition(chr(10))[0]}")


BAD = {"output": ("failed", "the output exceeds its limit"), "time": ("undecided", "the time exceeds its limit")}


def result_of(answer):
    """Returns the result that follows from a bad answer alone, or None."""
    if answer.kind == "input":
        return Result("failed", answer.text.split("\n")[0])
    if answer.kind == "host":
        return Result("not graded", answer.text)
    return Result(*BAD[answer.kind]) if answer.kind in BAD else None


# ---- the programs

def calls_of(lines, without=None):
    """Returns the instructions of a program without those that match a pattern. The target of a jump is counted among those that are left."""
    left = [at for at, line in enumerate(lines) if not (without and without.match(line))]
    place = {at + 1: next((k for k, it in enumerate(left) if it >= at), len(left)) for at in range(len(lines) + 1)}
    return [TARGET.sub(lambda it: b"%s%s to %d" % (it[1], it[2], place.get(int(it[3]), -1)), lines[at]) for at in left]


def form_of(change, lines):
    """Returns what a change of this kind leaves as it is."""
    if change == "restraints":
        return calls_of(lines, RESTRAINT)
    if change == "names":
        return [line if RESTRAINT.match(line) else re.sub(rb'"[^"]*"', b'""', line) for line in calls_of(lines)]
    if change == "order":
        return sorted(TARGET.sub(rb"\1\2", line) for line in lines)
    return calls_of(lines)


def changed_programs(rubric, given, own):
    """Yields how the programs of a submission differ from the given ones by more than the rubric allows."""
    for path, program in given.items():
        if path not in own:
            yield f"the program {program.name()} is missing"
            continue
        lines = list(own[path].lines)
        for added in rubric.adds:
            if added in lines and lines.count(added) > program.lines.count(added):
                lines.remove(added)
        change = "same" if b'"%s"' % path in rubric.same else rubric.calls
        if change != "free" and form_of(change, lines) != form_of(change, program.lines):
            yield f"the program {program.name()} differs in more than its {change}" if change != "same" else f"the program {program.name()} differs"
    if rubric.calls != "free":
        yield from (f"the program {it.name()} is new" for path, it in own.items() if path not in given)


def parts_of(bundle):
    """Returns the lines of the tree, without the programs, and the steps of each process in the schedule."""
    inside = {at for it in bundle.programs for at in range(it.first - 1, it.first + len(it.lines))}
    end = bundle.lines.index(b"schedule", max(inside, default=-1) + 1) if bundle.has_schedule else len(bundle.lines)
    turns = collections.Counter()
    for line in bundle.lines[end + 1:]:
        process, _, steps = line.partition(b" ")
        turns[process] += int(steps or 1)
    return [line for at, line in enumerate(bundle.lines[:end]) if at not in inside], turns


def of_programs(rubric, given, own):
    """Yields the results of the rules about the tree, the programs and the turns."""
    (tree, turns), (own_tree, own_turns) = parts_of(given), parts_of(own)
    if tree != own_tree:
        yield Result("failed", "the tree is not the given one")
    yield from (Result("failed", it) for it in changed_programs(rubric, given.by_path(), own.by_path()))
    if rubric.has_same_turns and turns != own_turns:
        yield Result("failed", "the turns are not those of the given schedule in another order")


# ---- the answers

def lines_of(answer):
    """Yields each line of an answer, with single spaces and without the first path of a file, and the schedule of the BY line before it."""
    by = None
    for line in answer.text.split("\n"):
        words = line.split()
        if words[1:2] == ["BY"]:
            by = " ".join(words[2:])
        elif words and words[1] not in HEADS:
            # (a file that had another path before is named by both: a rule is about the path at the step)
            yield re.sub(r', first ".*"$', "", " ".join(words)), by


def of_rule(rule, answer, allowed):
    """Returns the result of a rule."""
    word, question, pattern = rule
    found = [(line, by) for line, by in lines_of(answer) if fnmatch.fnmatchcase(line, pattern)]
    shown = f"{word} {question} {pattern}"
    if word == "must" and found or word == "only" and pattern not in allowed:
        return Result("passed", "")
    if word == "must":
        return Result("failed" if answer.kind == "complete" else "undecided", shown)
    if word == "only":
        found = [(line, by) for line, by in lines_of(answer) if not any(fnmatch.fnmatchcase(line, it) for it in allowed)]
    if found:
        line, by = found[0]
        return Result("failed", f"{shown}, and there is {line}" + (f" under '{by}'" if by else ""))
    return Result("passed", "") if answer.kind == "complete" else Result("undecided", f"{shown}: too many states")


def of_rules(rubric, asker):
    """Yields the results of the rules about answers. An `only` rule is checked once for its question, with all patterns of `only` and `must`."""
    seen = set()
    for word, question, pattern in rubric.rules:
        if word == "only" and question in seen:
            continue
        seen |= {question} if word == "only" else set()
        answer = asker.ask(question, rubric.by)
        allowed = {it[2] for it in rubric.rules if it[1] == question and it[0] != "never"}
        yield result_of(answer) or of_rule((word, question, pattern), answer, allowed)


def of_fewest(kinds, asker):
    """Yields the results of the rules about promises and permissions that are held and never used under any schedule."""
    answer = asker.ask("policy")
    bad = result_of(answer) or (Result("undecided", "fewest: too many states") if answer.kind == "incomplete" else None)
    if bad:
        yield bad
        return
    used, idle, words = collections.defaultdict(set), collections.defaultdict(set), []
    for line, _ in lines_of(answer):
        form = re.fullmatch(r'\d+ (UNVL|IDLE) ([-rwxc]{4}), (.*)', line)
        if form:
            (used if form[1] == "UNVL" else idle)[form[3]] |= set(form[2]) - {"-"}
        elif line.startswith("0 IDLE"):
            words.append(line[7:])
    if "promises" in kinds and words:
        yield Result("failed", f"fewest promises: {' '.join(words)} is never used")
    for place, letters in idle.items():
        if "permissions" in kinds and letters - used[place]:
            yield Result("failed", f"fewest permissions: {''.join(sorted(letters - used[place]))} at {place} is never used")


def worst(results):
    """Returns the verdict and the reasons of some results."""
    verdict = min((it.verdict for it in results), key=VERDICTS.index, default="passed")
    return verdict, list(dict.fromkeys(it.reason for it in results if it.verdict == verdict and it.reason))


def grade(program, rubric, given, path, limits):
    """Returns the verdict about a submission, and the reasons."""
    with tempfile.TemporaryDirectory(prefix="pvsim-grade-") as folder:
        asker = Asker(program, limits, folder)
        answer = asker.bundle(path)
        if answer.kind != "complete":
            return worst([result_of(answer)])
        own = Bundle(answer.text.encode("ascii"))
        if not own.has_schedule:
            return worst([Result("failed", "there is no line schedule")])
        results = list(of_programs(rubric, given, own)) if given else []
        results += of_rules(rubric, asker)
        return worst(results + list(of_fewest(rubric.fewest, asker) if rubric.fewest else []))
