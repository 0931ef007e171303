"""Rows of numbers and names in columns, for runs of a million turns: a row is made when it is asked for."""
from array import array

# What a column holds: small and large numbers, or texts, each of which is kept once.
SMALL, LARGE, TEXT = "I", "q", "O"


# How many rows are put into the columns together.
TOGETHER = 4096


class Texts:
    """A column of texts: numbers of those that are different."""

    def __init__(self):
        self.numbers, self.every, self.at = {}, [], array(SMALL)

    def extend(self, texts):
        for it in texts:
            if it not in self.numbers:
                self.numbers[it] = len(self.every)
                self.every.append(it)
        self.at.extend(map(self.numbers.__getitem__, texts))

    def __getitem__(self, at):
        return self.every[self.at[at]]

    def __iter__(self):
        return map(self.every.__getitem__, self.at)


class Table:
    """Rows of one kind, in the order in which they came."""

    def __init__(self, row, kinds):
        self.row, self.kinds, self.count, self.waiting = row, kinds, 0, []
        self.columns = [Texts() if it == TEXT else array(it) for it in kinds]

    def append(self, *values):
        self.count += 1
        self.waiting.append(values)
        if len(self.waiting) == TOGETHER:
            self.put()

    def put(self):
        for column, values in zip(self.columns, zip(*self.waiting)):
            column.extend(values)
        self.waiting.clear()

    def __len__(self):
        return self.count

    def __getitem__(self, at):
        self.put()
        return self.row(*(it[at] for it in self.columns))

    def __iter__(self):
        self.put()
        return map(self.row, *self.columns)

    def column(self, name):
        self.put()
        return self.columns[self.row._fields.index(name)]

    def values(self, *names):
        """Returns the values of some columns, row by row."""
        return zip(*map(self.column, names))

    def where(self, is_kept, change=lambda it: it):
        """Returns a table of the rows that are kept, as they are changed."""
        found = Table(self.row, self.kinds)
        for it in self:
            if is_kept(it):
                found.append(*change(it))
        return found
