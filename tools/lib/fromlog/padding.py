"""Gives a program the size that a trace shows of its file."""


LONGEST = 1100
SHORT = {5: "fork", 6: "jmp 1"}


def padded(lines, size):
    """Returns the lines with others after the last, which no run reaches, so that the program has a size in bytes, if it can have it."""
    missing = (size or 0) - sum(len(it) + 1 for it in lines)
    if size and lines[-1:] == ["exit 0"] and missing in (-7, 1, 2, 3, 4):
        return padded(lines[:-1], size)
    if missing in SHORT:
        return [*lines, SHORT[missing]]
    most = len('put ""\n') + LONGEST
    own = list(lines)
    while missing >= len('put ""\n'):
        text = min(missing, most if missing - most >= 7 or missing <= most else missing - 7) - len('put ""\n')
        own.append(f'put "{"." * text}"')
        missing -= text + len('put ""\n')
    return own
