"""Where a call that sets r0 and r1 to zero may be added to a program without an effect on its other instructions."""
import re

from .texts import JUMPS, split_instruction

ANSWERS = ("r0", "r1")
REGISTER = re.compile(r"r[0-7]")


def next_of(lines, at):
    """Returns the places after an instruction; the end of the program is the place after the last."""
    words = split_instruction(lines[at])
    if words[0] == "jmp":
        return [int(words[-1]) - 1]
    if words[0] == "exit":
        return []
    return [at + 1] + ([int(words[-1]) - 1] if words[0] in JUMPS else [])


def reads(words):
    """Returns the registers that an instruction reads."""
    if words[0] in ("set", "peek", "jmp", "put"):
        return set()
    return {it for it in words[1:] if REGISTER.fullmatch(it)}


def writes(words):
    """Returns the registers of answers that an instruction sets, whatever they were."""
    if words[0] in ("set", "peek"):
        return {words[1]}
    return set() if words[0] in (*JUMPS, "add", "put") else set(ANSWERS)


def live_before(lines):
    """Returns, for each place and the end, the registers of answers that may be read from there before they are set."""
    live = [set() for _ in range(len(lines) + 1)]
    words = [split_instruction(it) for it in lines]
    is_changed = True
    while is_changed:
        is_changed = False
        for at in reversed(range(len(lines))):
            after = set().union(*(live[it] for it in next_of(lines, at)))
            new = ((after - writes(words[at])) | reads(words[at])) & set(ANSWERS)
            is_changed, live[at] = is_changed or new != live[at], new
    return live


def zeros_after(words, zeros, is_jump):
    """Returns the registers of answers that are zero after an instruction, on its jump or not; those in `zeros` are zero before it."""
    if words[0] in JUMPS:
        is_zero = words[0] == ("jz" if is_jump else "jnz")
        return zeros | ({words[1]} & set(ANSWERS)) if is_zero else zeros
    if words[0] in ("set", "add", "peek"):
        return zeros - {words[1]} | ({words[1]} & set(ANSWERS) if words[0] == "set" and words[2] == "0" else set())
    return zeros - writes(words)


def zeros_before(lines):
    """Returns, for each place and the end, the registers of answers that are surely zero there."""
    zeros = [set(ANSWERS) for _ in range(len(lines) + 1)]
    words = [split_instruction(it) for it in lines]
    is_changed = True
    while is_changed:
        is_changed = False
        for at in range(len(lines)):
            for number, after in enumerate(next_of(lines, at)):
                new = zeros[after] & zeros_after(words[at], zeros[at], number == 1)
                is_changed, zeros[after] = is_changed or new != zeros[after], new
    return zeros


def disturbed(lines, at):
    """Returns the registers of answers that a call added at a place would change and that are read from there on."""
    return sorted(live_before(lines)[at] - zeros_before(lines)[at])
