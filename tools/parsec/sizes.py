"""Finds the sizes of collections: `check` names a place that does not exist, and its collection grows, until it names none."""
import os
import subprocess
import tempfile
import time
from math import prod

from parsec.data import MOST_TILES
from parsec.evaluating import NoValue, places_of_task

MOST_SECONDS, MOST_RUNS = 120, 2000


class Verdict:
    """What `check` printed, and its status."""

    def __init__(self, status, text):
        self.status, self.text = status, text.strip()
        self.fields = self.text.split(",")

    def is_bad_place(self):
        return self.status == 4 and self.fields[:2] == ["inconsistent", "BadPlace"]


class Search:
    """`data_of(sizes)` gives the text of the data file for sizes of collections; those that are unknown are looked for."""

    def __init__(self, program, jdf, plan, values, data_of, unknown):
        self.program, self.jdf, self.plan, self.values, self.data_of, self.unknown = program, jdf, plan, values, data_of, unknown
        self.begun, self.runs = time.monotonic(), 0

    def check(self, sizes):
        self.runs += 1
        with tempfile.TemporaryDirectory() as folder:
            paths = [os.path.join(folder, it) for it in ("job.jdf", "job.csv")]
            for path, text in zip(paths, (self.jdf, self.data_of(sizes).encode())):
                with open(path, "wb") as file:
                    file.write(text)
            left = max(1, MOST_SECONDS - (time.monotonic() - self.begun))
            how = {"stdout": subprocess.PIPE, "stderr": subprocess.DEVNULL, "check": False, "timeout": left}
            done = subprocess.run([self.program, "check", *paths], **how)
        return Verdict(done.returncode, done.stdout.decode("utf-8", "replace"))

    def is_over(self):
        return self.runs >= MOST_RUNS or time.monotonic() - self.begun > MOST_SECONDS

    def find(self, sizes):
        """Grows the sizes while `check` names a place that does not exist, then takes back what was too much. The last verdict, and why it ended."""
        grown, why = set(), ""
        try:
            verdict = self.check(sizes)
            while verdict.is_bad_place() and not why:
                why = self.grow(verdict, sizes, grown)
                if not why:
                    verdict = self.check(sizes)
        except subprocess.TimeoutExpired:
            return None, f"`check` took more than {MOST_SECONDS} seconds"
        try:
            for name, at in sorted(grown):
                self.shrink(name, at, sizes, verdict)
        except subprocess.TimeoutExpired:
            why = f"`check` took more than {MOST_SECONDS} seconds, and sizes may be larger than is needed"
        return verdict, why

    def grow(self, verdict, sizes, grown):
        """Grows one collection such that it has the place; or says why not."""
        place = self.missing_place(verdict, sizes)
        if place is None:
            return "the place can't be found"
        name, indices = place
        if name not in self.unknown:
            return f"`{name}` has no place ({', '.join(map(str, indices))}) with the sizes of --set"
        if min(indices) < 0:
            return f"no size gives `{name}` the place ({', '.join(map(str, indices))})"
        for at, index in enumerate(indices):
            if index >= sizes[name][at]:
                again = (name, at) in grown
                grown.add((name, at))
                double = sizes[name][at] * 2 if again else 0
                others = prod(sizes[name]) // sizes[name][at]
                sizes[name][at] = max(index + 1, min(double, MOST_TILES // others))
        if prod(sizes[name]) > MOST_TILES:
            return f"`{name}` would have more than {MOST_TILES} tiles"
        return "the search took too long" if self.is_over() else ""

    def missing_place(self, verdict, sizes):
        """The place that a verdict speaks of."""
        cls = self.plan.class_named(verdict.fields[2])
        try:
            places = places_of_task(cls, [int(it) for it in verdict.fields[3:-1]], verdict.fields[-1], self.values) if cls else []
        except (NoValue, ValueError, StopIteration):
            return None
        return next(((name, at) for name, at in places if name in sizes and any(not 0 <= it < size for it, size in zip(at, sizes[name]))), None)

    def shrink(self, name, at, sizes, verdict):
        """The least size with the same verdict."""
        low, high = 1, sizes[name][at]
        while low < high:
            middle = (low + high) // 2
            if self.check({**sizes, name: sizes[name][:at] + [middle] + sizes[name][at + 1 :]}).text == verdict.text:
                high = middle
            else:
                low = middle + 1
        sizes[name][at] = low
