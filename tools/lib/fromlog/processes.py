"""Processes of a log: their descriptors, their working directory, and the buffer of the machine."""
from dataclasses import dataclass, replace
from typing import Optional

from .texts import COUNT


@dataclass
class Descriptor:
    """A descriptor of the program that the machine has too: its number there, its path or None, whether the program closes it on execve, whether the machine
    does, and its offset in the file, None if the log does not show it."""

    own: int
    path: Optional[bytes]
    is_marked: bool = False
    is_marked_in_machine: bool = False
    position: Optional[int] = 0


class Process:
    """A process: its number in the machine, its program and descriptors. `directory` is its working directory in the log and `machine_directory` in the
    machine. `loaded` has the descriptors of the loader, `lost` those of opens that are not in the source. `last` is the last action that can be repeated, and
    `touched` the number of bytes at the start of the buffer that may not be zero."""

    def __init__(self, number, program, directory=None):
        self.number, self.program, self.descriptors = number, program, {}
        self.directory, self.machine_directory = directory or b"/", b"/"
        self.is_directory_known = directory is not None
        self.loaded, self.lost, self.last, self.touched = set(), set(), None, 0

    def child(self, number):
        """Returns the child that a fork makes."""
        child = Process(number, self.program)
        child.directory, child.machine_directory, child.is_directory_known = self.directory, self.machine_directory, self.is_directory_known
        child.descriptors = {it: replace(descriptor) for it, descriptor in self.descriptors.items()}
        child.loaded, child.lost, child.touched = set(self.loaded), set(self.lost), self.touched
        return child

    def begin(self, program):
        """Begins a program by an execve: the machine keeps the descriptors that it does not mark."""
        self.program, self.last, self.loaded, self.touched = program, None, set(), 0
        self.descriptors = {it: descriptor for it, descriptor in self.descriptors.items() if not descriptor.is_marked}

    def add(self, number, descriptor_of):
        """Adds a descriptor under the least number that is free in the machine."""
        used = {it.own for it in self.descriptors.values()}
        own = next(it for it in range(len(used) + 1) if it not in used)
        self.descriptors[number] = descriptor_of(own)

    def touch(self, count):
        """Notes that a call copied bytes to the start of the buffer."""
        self.touched = min(max(self.touched, count), COUNT)
