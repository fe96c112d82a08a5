"""Compares the run of a source with the log that it was made of."""
from .schedules import REGISTERS
from .texts import COUNT


def results(source):
    """Returns the calls that the machine makes for the actions of a source, in the order of its schedule: the number of the process, the name of the call, and
    the action, or None for a call that a log has not."""
    found = []
    for number, action, count in source.steps:
        names = [it.split(" ")[0] for it in action.instructions]
        names = [it for it in names if it not in REGISTERS]
        if action.is_included and count == len(action.instructions):  # (the child of a fork makes no call)
            found += [(number, name, action if at == len(names) - 1 else None) for at, name in enumerate(names)]
    return found


def fault_of(name, action, step, numbers):
    """Returns how the result of a call of a run differs from that of the log, or None: it succeeds or has the same error, a read has as many bytes if the log has
    all of them, and a link as many."""
    call, made = action.call, f"{step.instruction()} {step.error or step.value}"
    if step.outcome == "blocked":
        return f"{name} is blocked"
    if (call.error is None) != (not step.error) or (call.error and numbers.get(call.error) != step.error):
        return f"{call.name} {call.error or call.value} of the log is {made}"
    wanted = min(action.read, COUNT) if action.is_whole else call.value if name == "readlink" and not call.error else step.value
    return None if wanted == step.value else f"{call.name} {wanted} of the log is {made}"


def compare(source, steps, numbers):
    """Returns the number of calls with the same result, and a line for each other one. `numbers` has the number of each error."""
    same, faults = 0, []
    pending = iter(steps)
    for number, name, action in results(source):
        step = next(pending, None)
        if step is None or (step.pid, step.name) != (number, name):
            return same, [*faults, f"process {number} makes no {name} here"]
        fault = fault_of(name, action, step, numbers) if action and action.call else None
        same += not fault
        faults += [fault] if fault else []
    return same, faults
