"""Processes that compare bundles in parallel: each has a name space of mounts, and a file system in memory for its trees."""
import collections
import concurrent.futures
import multiprocessing
import os
import resource
import sys
import tempfile

import pvtest

from .calls import SUBREAPER, checked, libc
from .comparison import Comparison

NEW_MOUNTS, NEW_USER, PRIVATE = 0x20000, 0x10000000, 0x44000
OWN = {}


def enter(scratch):
    """Makes this process root of a new name space of mounts, with an empty file system at a folder."""
    user, group = os.geteuid(), os.getegid()
    checked(libc.unshare, NEW_MOUNTS | (NEW_USER if user else 0))
    for name, line in [("setgroups", "deny"), ("uid_map", f"0 {user} 1"), ("gid_map", f"0 {group} 1")] if user else []:
        with open(f"/proc/self/{name}", "w", encoding="utf-8") as file:
            file.write(line)
    checked(libc.mount, b"none", b"/", None, PRIVATE, None)
    checked(libc.mount, b"none", scratch.encode(), b"tmpfs", 0, b"mode=755")
    libc.prctl(SUBREAPER, 1, 0, 0, 0)
    resource.setrlimit(resource.RLIMIT_NOFILE, (4096, resource.getrlimit(resource.RLIMIT_NOFILE)[1]))


def reason_to_skip():
    """Returns why bundles cannot run on this host's kernel, or None. A child tries it."""
    if not sys.platform.startswith("linux"):
        return "this host is not Linux"
    with tempfile.TemporaryDirectory() as scratch:
        child = os.fork()
        if child == 0:
            try:
                enter(scratch)
                os.chroot(scratch)
                os._exit(0)
            except (OSError, ValueError) as error:
                os._exit(getattr(error, "errno", 0) or 255)
        status = os.waitstatus_to_exitcode(os.waitpid(child, 0)[1])
    return f"neither root nor user name spaces are allowed here ({os.strerror(status)})" if status else None


def begin(path, scratch):
    """Makes this process a worker, which compares the answers of the program at a path."""
    enter(scratch)
    OWN["comparison"] = Comparison(pvtest.Program(path), scratch)


def work(job):
    """Does a job: returns the answer of its function to the comparison and the item, and what the comparison counted."""
    function, item = job
    comparison = OWN["comparison"]
    comparison.begin()
    return function(comparison, item), comparison.counts, comparison.answers


class Workers:
    """A pool of workers, which end with its `with` block. `counts` and `answers` have what all of them counted."""

    def __init__(self, program, scratch):
        context = multiprocessing.get_context("fork")
        self.pool = concurrent.futures.ProcessPoolExecutor(pvtest.PROCESSORS, context, begin, (program.path, scratch))
        self.counts, self.answers = collections.Counter(), collections.Counter()

    def __enter__(self):
        return self

    def __exit__(self, *_):
        # (left to the interpreter's end, the pool sometimes prints a traceback after the counts: its end and that of its threads overlap)
        self.pool.shutdown()

    def each(self, function, items, at_once=4):
        """Yields each item with the answer of `function` to a comparison and the item."""
        items = list(items)
        for item, (answer, counts, answers) in zip(items, self.pool.map(work, [(function, it) for it in items], chunksize=at_once)):
            self.counts.update(counts)
            self.answers.update(answers)
            yield item, answer
