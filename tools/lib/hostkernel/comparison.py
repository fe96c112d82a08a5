"""Compares the answers of pvsim with those of the kernel of this host, call by call."""
import collections
import os
from typing import NamedTuple, Optional

import pvtest
from fromlog.texts import COUNT

from . import differences
from .formats import Event, bundle_of, events_of
from .machine import LeftOut, Machine

QUESTIONS = ("stat", "lstat", "fstat", "readlink", "getdents")
# Answers by a limit of the machine, which the host does not have.
LIMITS = ("ENFILE", "EAGAIN", "EFBIG", "ENOSPC", "E2BIG")
RESTRAINTS = ("pledge", "unveil")


class Refused(Exception):
    """pvsim does not accept the bundle."""


class Difference(NamedTuple):
    """Two answers to a call; `name` is the class, None if there is no such class in the table."""

    name: Optional[str]
    was: Event
    came: Event


def is_out_of_range(event):
    """Returns whether the number of bytes of a read or write is not one of the machine."""
    return event.call in ("read", "write") and not 0 <= int(event.args[1]) <= COUNT


def reason_not_asked(event):
    """Returns why the host is not asked for a call, or None: pledge and unveil are pvsim's own, a limit is the machine's, and an open with trunc that pvsim
    refuses for its flags would change the host's file."""
    if event.call in RESTRAINTS or event.is_refused:
        return "restraints"
    if event.outcome in LIMITS or (event.outcome == "EINVAL" and is_out_of_range(event)):
        return "limits"
    flags = set(event.flags())
    is_of_flags = "r" in flags or ("excl" in flags and "create" not in flags) or {"create", "dir"} <= flags
    return "refused flags" if event.outcome == "EINVAL" and "trunc" in flags and is_of_flags else None


def answer_of(program, *words, given=b""):
    """Returns the standard output of pvsim."""
    answer = program.run(*words, given=given)
    if answer.status:
        raise Refused(answer.err.decode("latin-1").strip())
    return answer.out


def run_of(program, bundle, scratch):
    """Returns the events of a bundle, and the listing of the tree that it leaves."""
    image, after = (os.path.join(scratch, name) for name in ("image", "after"))
    fault = pvtest.make_image(program, bundle, image)
    if fault:
        raise Refused(fault)
    events = events_of(answer_of(program, "run", image, f"{image}.schedule", after))
    return events, answer_of(program, "ls", after).decode("latin-1").splitlines()


class Comparison:
    """Compares bundles. `counts` has what was compared, and `answers` the number of each triple of a call, pvsim's answer and the host's."""

    def __init__(self, program, scratch):
        self.program, self.scratch, self.table = program, scratch, differences.table()
        self.begin()

    def begin(self):
        """Begins to count anew."""
        self.counts, self.answers = collections.Counter(), collections.Counter()

    def compare(self, bundle):
        """Returns the differences of a bundle, up to the first after which the states differ."""
        return self.compare_events(bundle, *run_of(self.program, bundle, self.scratch))

    def compare_events(self, bundle, events, listing):
        """Returns the differences between these events and those of the host."""
        entries, schedule = bundle_of(bundle)
        machine, found = Machine(entries, self.scratch), []
        self.counts["bundles"] += 1
        try:
            if not self.follow(machine, schedule, events, found):
                self.counts["bundles that end at a difference"] += 1
                return found
            self.counts["trees"] += 1
            came = machine.listing(listing)
            if came != listing:
                trees = [Event(0, "tree", tuple(sorted(set(one) - set(other))), "ok") for one, other in ((listing, came), (came, listing))]
                found.append(Difference(None, *trees))
        except LeftOut:
            self.counts["bundles with too many processes"] += 1
        finally:
            machine.close()
        return found

    def follow(self, machine, schedule, events, found):
        """Makes the steps of a schedule beside the events of pvsim; returns whether both states are the same at the end."""
        pending = collections.deque(events)
        for pid in schedule:
            if not pending:
                break
            event = pending[0]
            is_call = event.pid == pid and machine.at_call(pid)
            reason = reason_not_asked(event) if is_call else None
            if reason and machine.has_descriptor_of(event):
                self.counts[f"calls not asked: {reason}"] += 1
                machine.skip(pending.popleft())
                continue
            # (another call leaves what its class asks as it is, even if the host alone makes it)
            looked = machine.look(event) if is_call and event.call in ("chdir", "rename") and event.outcome != "ok" else None
            came = machine.step(pid, event)
            if came is not None and not self.accept(machine, pending.popleft(), came, looked, found):
                return False
        return True

    def accept(self, machine, event, came, looked, found):
        """Records the answers to one call; returns whether both states are still the same."""
        if event.outcome == "gone" and event == came:
            return True
        self.counts["calls"] += 1
        self.answers[event.call, event.outcome, came.outcome] += 1
        if (event.pid, event.call, event.args) != (came.pid, came.call, came.args) or "gone" in (event.outcome, came.outcome):
            found.append(Difference(None, event, came))
            return False
        machine.processes[event.pid].settle(event)
        if event == came:
            return True
        self.counts["calls with a difference"] += 1
        found.append(Difference(self.named(event, came, looked or machine.look(event)), event, came))
        return self.is_same_after(machine, event, came)

    def named(self, event, came, looked):
        """Returns the class of a difference, if the table has the class with these answers."""
        if event.outcome == came.outcome:
            return None
        name = differences.class_of(differences.Case(event, came.outcome, looked))
        return name if name in self.table and self.table[name].allows(event.call, event.outcome, came.outcome) else None

    def is_same_after(self, machine, event, came):
        """Returns whether the states are the same after two different answers; a file that only the host opened is closed."""
        if event.outcome != "ok" and came.outcome != "ok":
            return "blocked" not in (event.outcome, came.outcome)
        if event.outcome != "ok" and event.call in ("open", "openat") and "create" not in event.flags():
            process = machine.processes[event.pid]
            machine.ask(process, "close", came.value)
            del process.opened[came.value]
            return True
        return event.call in QUESTIONS or (event.call == "lseek" and event.outcome != "ok")
