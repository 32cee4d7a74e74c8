"""What the command line sets: values of integers, sizes of collections, bodies, guards."""
from dataclasses import dataclass, field

LEAST, LARGEST = -(2**63), 2**63 - 1


class BadSetting(Exception):
    """A word of --set that is none."""


@dataclass
class Settings:
    bodies: str = None
    guard_ranges: bool = False
    # what --set gives: a list of numbers for each name
    given: dict = field(default_factory=dict)
    values: dict = field(default_factory=dict)
    sizes: dict = field(default_factory=dict)
    elements: int = 0
    used: set = field(default_factory=set)

    def need_elements(self, count):
        """Bodies that are kept name elements of tiles."""
        self.elements = max(self.elements, count)


def read_setting(word):
    """NAME=VALUE or NAME=RxC as a name and numbers."""
    name, equals, value = word.partition("=")
    pieces = value.replace(",", "x").split("x")
    if not equals or not (name.isascii() and name.isidentifier()):
        raise BadSetting(f"--set {word}: it has the form NAME=VALUE, or NAME=RxC for a collection")
    try:
        numbers = [int(it, 10) for it in pieces if it.isascii() and "_" not in it]
    except ValueError:
        numbers = []
    if len(numbers) != len(pieces) or not all(LEAST <= it <= LARGEST for it in numbers):
        raise BadSetting(f"--set {word}: `{value}` is no whole number of 64 bits, and no sizes such as 4x4")
    return name, numbers


def settings_of(words, bodies, guard_ranges, elements):
    found = Settings(bodies, guard_ranges, elements=elements or 0)
    for word in words:
        name, numbers = read_setting(word)
        if name in found.given:
            raise BadSetting(f"--set {word}: `{name}` is set twice")
        found.given[name] = numbers
        found.sizes[name] = numbers
        if len(numbers) == 1:
            found.values[name] = numbers[0]
    return found
