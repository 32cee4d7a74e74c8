"""The words of a sweep that give sizes, and the combinations of values that they allow."""
from dataclasses import dataclass, field

from expressions import NAME, NoValue, Reader

MOST_JOBS = 100_000


class BadWord(Exception):
    """A word of a sweep that can't be used, and why."""


@dataclass
class Setting:
    """What a word gives a name: the values of a range in turn, a value, or the sizes of a collection."""

    name: str
    kind: str
    # functions from values: of a range its low end, its high end and its step
    parts: list
    word: str = ""

    def choices(self, values):
        """What the name may be, given the values of the names before it."""
        try:
            numbers = [part(values) for part in self.parts]
        except (NoValue, RecursionError) as why:
            raise BadWord(f"{self.word}: {why}") from why
        if self.kind == "value":
            return numbers
        if self.kind == "sizes":
            return [tuple(numbers)]
        low, high, step = numbers
        if step == 0:
            raise BadWord(f"{self.word}: the step is 0")
        return range(low, high + (1 if step > 0 else -1), step)


@dataclass
class Job:
    """One combination: the integers and the sizes of collections that the words give, and the swept values in the order of the words."""

    values: dict = field(default_factory=dict)
    swept: tuple = ()

    def size(self):
        return sum(self.swept), self.swept


def setting_of(word, integers, collections):
    """The setting of a word NAME=.., with the names that its expressions have."""
    name, mark, text = word.partition("=")
    if not mark or not NAME.fullmatch(name):
        raise BadWord(f"{word}: it is no NAME=LOW..HIGH and no NAME=EXPRESSION")
    if name not in integers and name not in collections:
        raise BadWord(f"{word}: the data have no int and no collection {name}")
    try:
        reader = Reader(text)
        it = sizes_of(reader, name, collections[name]) if name in collections else integer_of(reader, name)
        if reader.next():
            raise NoValue(f"`{reader.next()}` has no meaning there")
    except (NoValue, RecursionError) as why:
        raise BadWord(f"{word}: {why}") from why
    it.word = word
    return it, reader.names


def integer_of(reader, name):
    low = reader.expression()
    if not reader.takes(".."):
        return Setting(name, "value", [low])
    high = reader.expression()
    step = reader.expression() if reader.takes(":") else lambda values: 1
    return Setting(name, "range", [low, high, step])


def sizes_of(reader, name, dimensions):
    parts = [reader.expression()]
    if reader.takes(","):
        parts.append(reader.expression())
    if len(parts) != dimensions:
        raise NoValue(f"the collection {name} has {'one index' if dimensions == 1 else 'two indices'}, so it takes {'one size' if dimensions == 1 else 'two sizes: ROWS,COLUMNS'}")
    return Setting(name, "sizes", parts)


def settings_of(words, integers, collections):
    """The settings of all words. A name has one, and an expression no name whose setting is in a later word."""
    found, used = [], {}
    for word in words:
        it, names = setting_of(word, integers, collections)
        if it.name in [other.name for other in found]:
            raise BadWord(f"{word}: {it.name} stands twice")
        if it.name in used:
            raise BadWord(f"{word}: `{used[it.name]}` before it uses {it.name}: write it after this word")
        for name in names:
            if name not in integers:
                raise BadWord(f"{word}: the data have no int {name}")
            used.setdefault(name, word)
        if it.name in names:
            raise BadWord(f"{word}: it uses {it.name} itself")
        found.append(it)
    return found


def jobs_of(settings, integers):
    """All combinations, the smallest first: by the sum of the swept values, then by the values in the order of the words."""
    jobs = [Job()]
    for it in settings:
        longer = []
        for job in jobs:
            for choice in it.choices({**integers, **job.values}):
                longer.append(Job({**job.values, it.name: choice}, job.swept + ((choice,) if it.kind == "range" else ())))
                if len(longer) > MOST_JOBS:
                    raise BadWord(f"{it.word}: there are more than {MOST_JOBS:,} combinations")
        jobs = longer
    if not jobs:
        raise BadWord("no values are left: a range is empty")
    return sorted(jobs, key=Job.size)
