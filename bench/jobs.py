"""The jobs that are measured: what `tools/made_job` makes for `ptg`, the words of a peer, and how many tasks there are."""
import os
import subprocess
from dataclasses import dataclass

from peers import FOLDER, OUT

TOP = os.path.dirname(FOLDER)
# A body of this many nanoseconds: a peer looks at the clock, and `ptg` gets as many turns of a loop.
LONG_BODY = 8000


@dataclass
class Job:
    name: str
    made: list
    tasks: int
    # what the numbers of all tiles add up to, where the answer of `ptg` shows it
    total: object = None
    # the words of a peer, where they differ from those of made_job
    peer: list = None
    is_long: bool = False

    def words(self):
        return self.peer or self.made

    def folder(self):
        return os.path.join(OUT, "jobs", "-".join(self.made))

    def files(self):
        return [os.path.join(self.folder(), it) for it in ("job.jdf", "job.csv")]

    def write(self):
        subprocess.run([os.path.join(TOP, "tools", "made_job"), *self.made, self.folder()], check=True)


def cholesky(rows):
    total = (rows + 3) * (rows + 2) * (rows + 1) * rows // 24 + rows * (rows + 1) // 2
    return Job(f"Cholesky {rows}", ["cholesky", str(rows)], rows * (rows + 1) * (rows + 2) // 6, total)


def chain(count, elements):
    return Job(f"chain, {elements:,} number{'s' * (elements > 1)} a tile", ["chain", str(count), str(elements)], count, count)


def fan(count):
    return Job(f"fan of {count:,}", ["fan", str(count)], count + 1)


def long_fan(count):
    return Job(f"fan of {count:,}, bodies of {LONG_BODY / 1000:g} us", ["fan", str(count), "?"], count + 1, peer=["fan", str(count), str(LONG_BODY)], is_long=True)


def gather(count):
    return Job(f"gather of {count:,}", ["gather", str(count)], count + 1)


def stencil(side, steps):
    return Job(f"stencil, {side}^3 by {steps}", ["stencil", str(side), str(steps)], side**3 * steps)


def all_jobs(is_quick):
    if is_quick:
        return [cholesky(12), chain(1000, 1), chain(200, 4096), fan(500), fan(2000), gather(500), stencil(5, 4), long_fan(200)]
    return [
        cholesky(40),
        cholesky(96),
        chain(100_000, 1),
        chain(100_000, 4096),
        fan(20_000),
        fan(200_000),
        gather(20_000),
        stencil(20, 10),
        long_fan(20_000),
    ]
