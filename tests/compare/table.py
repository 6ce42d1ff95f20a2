"""A table of things that must occur, how often each did, and what is wrong."""


class Table:
    def __init__(self):
        self.counts = {}
        self.sets = {}
        self.wrong = []  # answers that may not be, in words

    def need(self, *names):
        """Things that must occur at least once."""
        for name in names:
            self.counts[name] = 0

    def need_all(self, name, values):
        """A thing that must occur with each of these values."""
        self.counts[name] = 0
        self.sets[name] = set(values)

    def count(self, name, times=1):
        self.counts[name] += times

    def count_value(self, name, value):
        """One value of a thing of `need_all`."""
        self.counts[name] += 1
        self.sets[name].discard(value)

    def add(self, other):
        """What another table of the same things counted."""
        for name, times in other.counts.items():
            self.counts[name] += times
        for name, values in other.sets.items():
            self.sets[name] &= values

    def show(self):
        for name, times in self.counts.items():
            print(f"{times:9}  {name}")

    def missed(self):
        """What never occurred, in words."""
        never = [name for name, times in self.counts.items() if times == 0]
        for name, values in self.sets.items():
            if values and self.counts[name]:
                never.append(f"{name}: {' '.join(shown(value) for value in sorted(values))}")
        return never


def shown(value):
    """A value of a thing: a number, several, or words."""
    if isinstance(value, tuple):
        return "+".join(shown(one) for one in value)
    return f"({value})" if isinstance(value, str) else f"{value:02X}"
