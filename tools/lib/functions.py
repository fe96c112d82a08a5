"""The functions of a crate by their names, and copies of a crate from which the bodies and proofs of some are left out."""
import collections
import os
import re

KIND = re.compile(r"(?:pub(?:\(\w+\))? )?(?:struct|enum) (\w+)")
HEAD = re.compile(r"((?:    )?)(?:pub(?:\(\w+\))? )?fn (\w+)")
# The place of the proofs that are left out: the one hole, and a proof that rests on it. The prover assumes its statement and continues.
HOLE = "pub assumed {ℓ} : {A : Type ℓ} → A\nassumed = ?\n"
PROOF = """use Rattle.{crate}.proofs.Assumed.{{assumed}}
use Rattle.{crate}.proofs.{function}.Statement.{{statement}}

pub {own}_spec : {{M : Type 1}} → statement M
{own}_spec = assumed
"""

# A function: the end of its name, its file, its first line, the one that opens its body, and its last.
Function = collections.namedtuple("Function", "name path head opens last")


def owner_of(line):
    """Returns the type of an impl's first line as the prover names it, with its trait, as in StopFromAllocError, or with the types for its parameters, as in
    Buffered+Gathered; returns an empty text for any other line."""
    found = re.fullmatch(r"impl(.*) \{", line)
    whole = text = found[1] if found else ""
    depth = 0
    for at, letter in enumerate(text):
        depth += (letter == "<") - (letter == ">")
        if not depth:
            text = text[at + (letter == ">") :]
            break
    trait, _, kind = text.partition(" where ")[0].rpartition(" for ")
    names = re.findall(r"(?<!')\b\w+", kind)
    is_given = not trait and any(not re.search(rf"\b{it}\b", whole.removesuffix(text)) for it in names[1:])
    parameters = re.findall(r"[<,] ?(?:const )?(\w+)", whole.removesuffix(text))
    return "+".join(names if is_given else names[:1]) + "".join(it for it in re.findall(r"\w+", trait) if it not in parameters)


def module_of(path):
    return re.sub(r"(^|/)(lib|main|mod)$", "", path[len("src/") : -len(".rt")]).replace("/", "::")


def function_at(path, lines, at):
    """Returns the function whose body has a line, or None if no body surely has it."""
    top = next((it for it in range(at, -1, -1) if re.match(r" *(pub\b.* )?((const|unsafe) )*fn ", lines[it])), -1)
    head = HEAD.match(lines[top]) if top >= 0 else None
    if not head:
        return None
    first = next((it for it in range(top, at) if re.match(rf"{head[1]}\S(.*\S)?$", lines[it]) and lines[it].endswith("{")), at)
    last = next((it for it in range(top, len(lines)) if lines[it] == f"{head[1]}}}"), at)
    if head[1]:
        above = owner_of(next(it for it in reversed(lines[:top]) if re.match(r"\S", it))) or None
    else:
        above = module_of(path)
    # (the prover places some faults at the attributes above)
    start = next(it for it in range(top, -1, -1) if not re.match(r" *(#\[|//)", lines[it - 1]))
    name = f"{above}::{head[2]}" if above else head[2]
    return Function(name, path, start + 1, first + 1, last + 1) if above is not None and first < at < last else None


def lines_of(crate, path):
    with open(f"{crate.folder}/{path}", encoding="utf-8") as it:
        return it.read().split("\n")


def changed_lines(before, after):
    """Yields the place of each line that an edit changes, and the new line. An edit may change blanks, so that a text is in the file once."""
    for at, (old, new) in enumerate(zip(before, after)):
        if old != new and ("".join(old.split()) != "".join(new.split()) or re.search("[\"']", old)):
            yield at, new


def functions_of(crate, texts):
    """Returns the functions with a body in the crate's files, without those of tests, each with its whole name below the crate, or None if that is not sure."""
    kinds, found = collections.defaultdict(set), []
    for path, lines in texts.items():
        for kind in filter(None, map(KIND.match, lines)):
            kinds[kind[1]].add(module_of(path))
        if "#[test]" not in map(str.strip, lines):
            found += filter(None, (function_at(path, lines, at) for at in range(len(lines))))
    return {it: whole_name(it, kinds) for it in dict.fromkeys(found)}


def whole_name(function, kinds):
    """Returns a function's whole name below the crate, or None if it is not sure. The name of a method begins with the module of its type."""
    above, module = function.name.rpartition("::")[0], module_of(function.path)
    if above == module:
        return function.name
    kind = max((it for it in kinds if re.match(rf"{it}(?![a-z0-9_])", above)), key=len, default=None)
    return "::".join(filter(None, (*kinds[kind], function.name))) if kind and len(kinds[kind]) == 1 else None


def leave_out(folder, crate, texts, functions):
    """Leaves out the body and the proof of each function in a copy of the crate."""
    os.makedirs(f"{folder}/proofs", exist_ok=True)
    for function, whole in functions.items():
        lines = texts[function.path]
        lines[function.opens : function.last - 1] = ["loop {}", *[""] * (function.last - function.opens - 2)]
        proof = f"{folder}/proofs/{whole.replace('::', '/')}"
        os.makedirs(proof, exist_ok=True)
        for it in {"Invariants.antt", "Answers.antt"}.intersection(os.listdir(proof)):
            os.remove(f"{proof}/{it}")
        with open(f"{proof}/Proof.antt", "w", encoding="utf-8") as it:
            it.write(PROOF.format(crate=crate.name, function=whole.replace("::", "."), own=whole.rpartition("::")[2]))
    with open(f"{folder}/proofs/Assumed.antt", "w", encoding="utf-8") as it:
        it.write(HOLE)
    with open(f"{folder}/proofs/Lib.antt", "a", encoding="utf-8") as it:
        it.write("mod Assumed\n")
