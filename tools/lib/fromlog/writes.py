"""The data of writes, as the log has it."""
import re

from .texts import QUOTED, TEXT, unquote


def data_of(call):
    """Returns the bytes of a write that the log has, or None."""
    if call.data is not None:
        return call.data
    argument = call.argument(1)
    if not argument.startswith("["):
        found = unquote(argument)
        return found and found[0]
    pieces = [unquote(it[0])[0] for it in re.finditer(rf"(?<=iov_base=){QUOTED.pattern}", argument)]
    return b"".join(pieces) if pieces else None


def dots(count, call):
    """Returns dots in place of data that the log has not, and a comment."""
    return b"." * count, [f"the data of this {call.name} is not in the log: {count} dots"] if count else []


def put_of(call):
    """Returns the bytes that a write takes from the buffer, and comments on the bytes that are not those of the log."""
    whole = call.value if call.has_succeeded() else call.number(2) or 0
    count, data = min(whole, TEXT), data_of(call)
    comments = [f"a write of {whole} bytes: a text has at most {TEXT}"] if whole > TEXT else []
    if data is None:
        text, more = dots(count, call)
        return text, comments + more
    data = data[:count]
    if len(data) < count:
        comments.append(f"the log has {len(data)} of the {whole} bytes of this {call.name}: dots replace the rest")
    if b"\0" in data:
        comments.append(f"dots replace the NUL bytes of this {call.name}")
    return data.replace(b"\0", b".").ljust(count, b"."), comments
