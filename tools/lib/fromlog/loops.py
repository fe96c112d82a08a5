"""Makes loops of repeated actions of a program."""

# A loop has at most so many actions a round, and at least so many rounds; its own instructions are a set, an add and a jump.
LONGEST, ROUNDS, OWN, COUNTER = 60, 3, 3, "r7"


def best_loop(keys, sizes, at):
    """Returns the instructions that a loop at a place saves, the number of actions of a round, and that of rounds."""
    best = (0, 1, 1)
    for period in range(1, min(LONGEST, (len(keys) - at) // ROUNDS) + 1):
        rounds = 1
        while keys[at + rounds * period : at + (rounds + 1) * period] == keys[at : at + period]:
            rounds += 1
        if rounds >= ROUNDS:
            best = max(best, ((rounds - 1) * sum(sizes[at : at + period]) - OWN, period, rounds))
    return best


def make_loop(actions, period, rounds, label):
    """Makes a loop of actions: the first round keeps its lines, and the comments of the others that are new."""
    first = actions[:period]
    known = {comment for it in first for comment in it.comments}
    first[0].before = [f"set {COUNTER} {rounds}", f"{label}:"]
    first[-1].after = [f"add {COUNTER} -1", f"jnz {COUNTER} {label}"]
    first[0].steps_of_loop = 1
    for at, action in enumerate(actions):
        action.is_in_loop, action.is_repeated = True, at >= period
        action.comments = [it for it in action.comments if at < period or it not in known]
        action.steps_of_loop += 2 * (at % period == period - 1)


def roll(program):
    """Makes loops in a program, of actions that a process makes in sequence."""
    number = 0
    for owner in dict.fromkeys(it.process for it in program.actions):
        own = [it for it in program.actions if it.process is owner and it.instructions]
        keys, sizes, at = [tuple(it.instructions) for it in own], [len(it.instructions) for it in own], 0
        while at < len(own):
            saved, period, rounds = best_loop(keys, sizes, at)
            if saved > 0:
                number += 1
                make_loop(own[at : at + period * rounds], period, rounds, f"loop{number}")
            at += period * rounds if saved > 0 else 1
