"""Adds calls of pledge(2) and unveil(2) to programs without them, until no step differs, under any schedule."""
import re

from .failures import failing_schedules
from .programs import BadInput, Bundle
from .replay import replay, schedule_without
from .restraints import EXECPROMISES, PERMISSIONS, PROMISES
from .sites import KEYWORDS, Layout, parent_of, sites_of
from .texts import NOTHING, quoted, shown, unescape
from .witness import parsed

PLACE = re.compile(r'(name|directory) (?:node [0-9]+ )?("(?:[^"\\]|\\x[0-9a-f]{2})*")(:.*| in node .*)?')
WORDS = re.compile(r'[rwxc-]{4}, (?:node [0-9]+ )?("(?:[^"\\]|\\x[0-9a-f]{2})*")')


def path_in(text):
    """Returns the path of a text in quotes."""
    return unescape(text[1:-1].encode("latin-1"))


def policy_of(ask, bundle):
    """Returns the places that the granted calls of each program need, by the path of the program, in the order of `pvsim policy`."""
    places, mine = {}, None
    for line in ask.question("policy", bundle.text(), "--granted")[1]:
        _, word, text = parsed(line)
        if word == "PROG":
            name = text.partition(", ")[2]
            mine = places.setdefault(path_in(name), []) if name.startswith('"') else []
        elif word == "UNVL":
            found = WORDS.fullmatch(text)
            if found and path_in(found[1]) not in mine:
                mine.append(path_in(found[1]))
    return places


class History:
    """The sites whose calls restrain a process: of its promises, of its execpromises, and of its table."""

    def __init__(self, promises=(), execpromises=(), table=None):
        self.promises, self.execpromises, self.table = list(promises), list(execpromises), table

    def copy(self):
        return History(self.promises, self.execpromises, self.table)

    def pledge(self, site):
        """Notes a pledge of a site."""
        self.promises.append((site, False))
        if site.execpromises is not None:
            self.execpromises.append((site, True))

    def execute(self):
        """Notes an execve: without execpromises it ends all restraints."""
        self.promises = list(self.execpromises)
        self.table = self.table if self.execpromises else None


class Adding:
    """The search for calls with which no step differs."""

    def __init__(self, ask, source):
        self.ask, self.source, self.notes = ask, source, []
        self.places = policy_of(ask, source.bundle)
        by_lines = {tuple(it.lines): self.places[path] for path, it in source.bundle.by_path().items() if path in self.places}
        self.sites = sites_of(source, lambda program: tuple(program.lines) in by_lines)
        for site in self.sites:
            for path in by_lines[tuple(site.program.lines)] if site.is_table else ():
                site.give(path, "")
        self.layout, self.first, self.witness = None, None, None

    def note(self, site, text):
        """Notes a line of the report, once."""
        record = f"{self.source.name}:{site.line}: {text}", {"at": site.line, "program": shown(site.program.path)[1:-1], "note": text}
        if record not in self.notes:
            self.notes.append(record)

    def lay_out(self):
        """Makes the source with lines for the calls, if their numbers changed."""
        if self.layout is None or self.layout.counts != [len(it.calls()) for it in self.sites]:
            self.layout = Layout(self.ask, self.source, self.sites)
            self.first = self.layout.padded.bundle.text()

    def run(self):
        """Gives the sites what the calls below them need; returns whether no step differs, if that was decided."""
        while True:
            self.lay_out()
            self.ask.progress.set(f"comparison {self.ask.count + 1}")
            self.witness = self.ask.compare(self.first, self.layout.bundle(), is_equal=True)
            if self.witness.is_different():
                self.repair()
            elif not self.witness.is_same():
                return False
            elif not self.repair_failing() and not any([it.drop_idle() for it in self.sites]):
                self.lay_out()
                return True

    def take(self, least):
        """Takes the words that are left out from the sites, and leaves out each unveil that another one covers; returns whether there was one. The last unveil
        of a site stays, since there is no table without it."""
        changes, paths = {}, {it: it.paths() for it in self.sites}
        for call in least.calls:
            site, number = self.layout.ref.get((call.program.path, call.at + 1), (None, None))
            kept = {it.name: it.words_left() for it in call.arguments if it}
            if site and PROMISES in kept:
                site.promises, site.execpromises = kept[PROMISES], kept.get(EXECPROMISES)
            elif site and PERMISSIONS in kept:
                path = paths[site][number]
                site.unveils[path] = kept[PERMISSIONS]
                more = {**changes, call.number: NOTHING}
                if len(site.unveils) > 1 and site.is_covered(path) and self.ask.compare(self.first, least.text(more), is_equal=True).is_same():
                    changes = more
                    del site.unveils[path]
        return bool(changes)

    def records(self):
        """Returns the records of the report about the calls that were added."""
        added = []
        for site in self.sites:
            what = f"{len(site.paths())} unveil, the lock and a pledge" if site.paths() else "a pledge"
            fields = {"at": site.line, "program": shown(site.program.path)[1:-1], "added": site.calls_shown()}
            added.append((f"{self.source.name}:{site.line}: added: {what}", fields))
        return [*self.notes, *added]

    # ---- repairs

    def run_of(self, schedule):
        """Returns the steps of a run, each with its site and the number of the call there or None, and the history of each process after the run."""
        histories, steps = {1: History()}, replay(self.ask, Bundle(self.layout.bundle()), schedule)
        for step in steps:
            step.ref = self.layout.ref.get((step.program.path, step.line)) if step.program else None
            mine = histories.setdefault(step.process, History())
            step.history = mine.copy()
            if not step.has_succeeded():
                continue
            if step.name() == "fork":
                histories[int(step.text("RET").split()[1])] = mine.copy()
            elif step.name() == "execve":
                mine.execute()
            elif step.ref and step.name() == "pledge":
                mine.pledge(step.ref[0])
            elif step.ref:
                mine.table = step.ref[0]
        return steps

    def repair(self):
        """Gives what the step that differs needs, or mends a call that fails before it."""
        steps = self.run_of(self.witness.schedule)
        failing = (it for it in steps if it.ref and not it.has_succeeded())
        if not any(map(self.mend, failing)) and not self.grant(steps[-1]) and not self.release(steps):
            own = schedule_without(steps, lambda it: it.ref)
            raise BadInput(f"{self.source.name}: no calls were found with which {self.witness.call()} does the same: after {own} {self.witness.what()}")

    def repair_failing(self):
        """Mends a call that fails under some schedule; returns whether there is one."""
        for schedule in failing_schedules(self.ask, self.layout.bundle()):
            last = self.run_of(schedule)[-1]
            if last.ref and not last.has_succeeded() and self.mend(last):
                return True
        return False

    def grant(self, step):
        """Gives the promise or the permissions that a call lacks; returns whether that changes a site."""
        lacking = step.text("PLDG")
        if lacking:
            return self.give_promise(step.history.promises, lacking.split('"')[1])
        refused = step.text("UNVL")
        site, place = step.history.table, PLACE.fullmatch(step.text("WHY") or "")
        if not refused or " needs " not in refused or site is None or not place or (place[3] or "").startswith(" in"):
            return False
        letters, path = set(refused.rpartition(" ")[2]), path_in(place[2])
        return self.give(site, path, letters, step)

    def give(self, site, path, letters, step):
        """Gives permissions at a path, or at the least directory above where they were not given yet."""
        passed = []
        while letters <= site.tried.get(path, set()) or path in site.failing:
            if path == b"/":
                return False
            passed += [path] if path not in site.failing else []
            path = parent_of(path)
        if passed:
            call, last = step.text("CALL"), shown(quoted(passed[-1]))
            self.note(site, f"{call} would be refused, since an unveil of {last} here is for another place: {shown(quoted(path))} is unveiled")
        site.give(path, letters)
        return True

    def release(self, steps):
        """Unveils the directory above in place of a directory that a step removes, which a table would hold; returns whether that changes a site."""
        removed = [it for it in steps if it.name() == "rmdir" and it.has_succeeded() and it.history.table]
        for step in removed:
            site, path = step.history.table, path_in(step.text("CALL")[len("rmdir(") : -1])
            held = [it for it in site.unveils if it == path or it.startswith(path + b"/")]
            for it in held:
                letters = site.unveils[it]
                site.fail(it)
                site.give(parent_of(path), letters)
            if held:
                self.note(site, f"{step.text('CALL')} removes a directory that an unveil would keep: {shown(quoted(parent_of(path)))} is unveiled")
                return True
        return False

    @staticmethod
    def give_promise(history, keyword):
        """Gives a promise to all calls that restrain a process."""
        return any([site.give_promise(keyword, is_exec) for site, is_exec in history])

    def mend(self, step):
        """Mends a call of a site that fails; returns whether that changes a site."""
        site, number = step.ref
        if step.name() == "pledge":
            lacking = step.text("PLDG")
            keywords = [lacking.split('"')[1]] if lacking else [it for it in KEYWORDS if it in (site.execpromises or ())]
            return any([self.give_promise(step.history.promises if lacking else step.history.execpromises, it) for it in keywords])
        if step.text("PLDG") or step.text("UNVL") == "locked":
            if step.history.table is site:
                text = "calls here run again under their own lock: put the comment # restrain where a process comes once"
                raise BadInput(f"{self.source.name}:{site.line}: {text}")
            site.is_table = False
            self.note(site, "a pledge alone, since a schedule leads here under a lock")
            return True
        path = site.paths()[number]
        letters = site.unveils[path]
        site.fail(path)
        if path == b"/" or step.text("UNVL"):
            return True
        self.note(site, f"an unveil of {shown(quoted(path))} {step.fate()} here: {shown(quoted(parent_of(path)))} is unveiled")
        site.give(parent_of(path), letters)
        return True
