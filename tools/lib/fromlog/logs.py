"""A log that is read."""
from dataclasses import dataclass


class LogError(Exception):
    """The text is not a log that can be read."""


class NotRecovered(LogError):
    """A trace does not show all that its run depends on."""


@dataclass
class Log:
    """The calls of a log in the order in which they returned, and the number of lines that are not in its form."""

    calls: list
    unread: int = 0
