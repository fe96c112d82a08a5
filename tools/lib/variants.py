"""The variants of an exercise: the same source, rubric or answer with other names and other secrets."""
import functools
import hashlib
import re

# A name keeps its length, so that no line is too long; so does a secret, so that counts of bytes stay.
FIXED = {"init"}
CONSONANTS, VOWELS = "bcdfghklmnprstvwyz", "aeiou"
QUOTED = re.compile(r'"((?:[^"\\]|\\x[0-9a-f]{2})*)"')
PATH = re.compile(r"(?<![\w/])/[\w./-]*\w")


@functools.lru_cache(maxsize=None)
def word_of(word, number):
    """Returns another word of the same length, the same for each use of a word. Words of equal length get different words: the change of each letter depends
    on the place and the number alone, and maps consonants to consonants and vowels to vowels, each by a rotation."""
    found = ""
    for at, letter in enumerate(word.lower()):
        turn = hashlib.sha256(f"{number} {at}".encode()).digest()[0]
        letters = CONSONANTS if letter in CONSONANTS else VOWELS if letter in VOWELS else None
        found += letters[(letters.index(letter) + 1 + turn % (len(letters) - 1)) % len(letters)] if letters else letter
    return found


def renamed(text, number):
    """Returns a path or a secret with other words."""
    return re.sub(r"[a-zA-Z]+", lambda it: it[0] if it[0] in FIXED else word_of(it[0], number), text)


def of_line(line, number):
    """Returns a line of a source, a rubric or an answer with other names."""
    words = line.split()
    if not words or words[0].startswith("#"):
        return PATH.sub(lambda it: renamed(it[0], number), line)
    if words[0] == "pledge" or re.search(r"CALL +pledge", line):
        return line
    count = 1 if words[0] == "unveil" else 0
    if words[0] in ("must", "never", "only") and "TEXT" not in words:
        return PATH.sub(lambda it: renamed(it[0], number), line)
    # (the promise of a PLDG line is no name)
    return line if "PLDG" in words else QUOTED.sub(lambda it: f'"{renamed(it[1], number)}"', line, count=count)


def variant(text, number):
    """Returns the variant of a text."""
    return text if number == 1 else "".join(of_line(line, number) for line in text.splitlines(keepends=True))
