"""Leaves out each word of the calls of pledge(2) and unveil(2) without which no step differs, under any schedule."""
from .texts import NOTHING


class Word:
    """A word of an argument of a call: a keyword or a letter. `answer` is the last comparison without it, and `age` the number of words that were left out
    before this comparison."""

    def __init__(self, call, argument, at):
        self.call, self.argument, self.at = call, argument, at
        self.answer, self.age = None, -1

    def is_kept(self):
        return self.argument.is_kept[self.at]

    def leave_out(self):
        self.argument.is_kept[self.at] = False

    def text(self):
        return self.argument.word(self.at)


class Least:
    """The search for the least arguments. `first` is the bundle that the comparisons begin with, `bundle` the one whose words are left out.
    If `is_about_calls` is true, each whole call is left out too, for a remark; otherwise the calls were added, and the lengths of programs do not count."""

    def __init__(self, ask, first, bundle, calls, is_about_calls=True):
        self.ask, self.first, self.bundle, self.calls, self.is_about_calls = ask, first, bundle, calls, is_about_calls
        self.words = [Word(call, *item) for call in calls for item in call.items()]
        self.removed = 0
        self.without = {}
        self.unreached = set()

    def text(self, changes=()):
        """Returns the bundle with the words left out, and with other lines at some places."""
        return self.bundle.text({**{call.number: call.instruction() for call in self.calls}, **dict(changes)})

    def compare(self, changes, left):
        """Compares the bundle with other lines; `left` is the number of comparisons that are left."""
        self.ask.progress.set(f"comparison {self.ask.count + 1} of {self.ask.count + left}")
        return self.ask.compare(self.first, self.text(changes), is_equal=not self.is_about_calls)

    def run(self):
        """Leaves out words until each one that is left was tried last after the others."""
        whole = [it for it in self.calls if self.is_about_calls and not it.is_nothing()]
        while True:
            stale = [it for it in self.words if it.is_kept() and it.age != self.removed]
            if not stale:
                break
            for at, word in enumerate(stale):
                self.try_without(word, len(stale) - at + len(whole) + 1)
        for at, call in enumerate(whole):
            self.try_without_call(call, len(whole) - at + 1)

    def try_without(self, word, left):
        """Leaves out a word if nothing differs without it."""
        word.answer = self.compare({word.call.number: word.call.instruction((word.argument, word.at))}, left)
        if word.answer.is_same():
            word.leave_out()
            self.removed += 1
        word.age = self.removed

    def try_without_call(self, call, left):
        """Notes whether the whole call could be left out, and whether no schedule reaches it."""
        self.without[call] = self.compare({call.number: NOTHING}, left)
        if self.without[call].is_same() and call.items() and not any(it.is_kept() for it in self.words if it.call is call):
            if self.compare({call.number: b"exit 99"}, left).is_same():
                self.unreached.add(call)

    def removed_of(self, call):
        return [it for it in self.words if it.call is call and not it.is_kept()]

    def kept_of(self, call):
        return [it for it in self.words if it.call is call and it.is_kept()]

    def is_undecided(self):
        """Returns whether a search was cut."""
        return any(it.is_kept() and not it.answer.is_different() for it in self.words)
