"""Makes a bundle from a trace alone: the programs follow from the calls and their answers, and the tree from assumptions."""
from . import manifests, schedules
from .assumed_tree import lines_of
from .assumptions import assume
from .assemble import program_of
from .logs import LogError, NotRecovered
from .padding import padded
from .points import Runs
from .rooms import Rooms

ENOSPC, LARGEST = 28, "8192 4096"


def shown_program(node):
    """Returns the lines of a program if the trace shows all its bytes, or None."""
    size = node.initial_size
    return lines_of(node) if size and all(at in node.initial for at in range(size)) else None


def with_manifest(steps, name):
    """Returns the lines of the bundle of a manifest, which is in a file, and the schedule of a trace of it."""
    with open(name, "rb") as file:
        manifest, entries = manifests.read(file.read())
    return [*(it.decode("latin-1") for it in manifest), "schedule", *schedules.schedule_of(steps, entries)]


def alone(steps):
    """Returns the lines of a bundle whose run has these steps, unless the tree has more than the trace shows."""
    try:
        return bundle_of(steps)
    except LogError as error:
        raise NotRecovered(str(error)) from error


def bundle_of(steps):
    """Returns the lines of the bundle of a trace."""
    replay, executed = assume(steps)
    tree = replay.tree
    init = tree.before[0][2]
    runs = Runs()
    runs.begin(1, init)
    for step, program in zip(steps, executed):
        runs.follow(step, program)
    programs = {node: shown_program(node) or padded(program_of(root), node.initial_size) for node, root in runs.roots.items()}
    init.kind = "exec"
    numbers = [node.number - 1 for _, _, node in tree.before if node.number]
    tree.fill(max([*numbers, (replay.numbers.first or 2) - 2]))
    entries = tree.manifest(programs)
    text = "\n".join([f"image {LARGEST}", *entries]).encode("latin-1")
    rooms = Rooms() if any(it.error == ENOSPC for it in steps) else None
    schedule = schedules.schedule_of(steps, manifests.read(text)[1], rooms)
    sizes = "{} {}".format(*rooms.sizes()) if rooms else LARGEST
    return [f"image {sizes}", *entries, "schedule", *schedule]
