"""Measures `ptg` with other settings: numbers of shards and of workers, a preload, tiles of other sizes, and bodies alone."""
import dataclasses

from jobs import Job, chain, cholesky, fan
from runs import run_peer, run_ptg

# 16 is what a run has where nothing is said; 17 is a prime beside it, which divides no usual number of tiles.
SHARDS = (1, 4, 16, 17, 64, 256)
WORKERS = (1, 2, 3, 4, 8, 64)
SIZES = (1, 4, 5, 16, 64, 256, 1024, 4096)
MOST_WORKERS = 4
# What a turn of the loop does in each kind of body of tools/made_job, and how many turns a block of it has.
TURNS = {1: "s = s + i;", 2: "A[i] = A[i] + i;", 3: "if (i % 3 == 0) { s = s + 1; }", 4: "A[i * 16 + j] = A[i * 16 + j] + B[i * 16 + k] * C[k * 16 + j];"}
BLOCK = 4096


def of_shards(count):
    return f"ptg, {count} shards"


def body(kind, blocks):
    return Job(f"body {kind}, {blocks}", ["body", str(kind), str(blocks)], 1)


def short_chain(tasks, elements):
    """A chain whose name is not that of a longer one: rows of one round are told apart by the names of their jobs."""
    return dataclasses.replace(chain(tasks, elements), name=f"chain of {tasks:,}, {elements:,} a tile")


class Jobs:
    """The jobs that are run with other settings."""

    def __init__(self, is_quick):
        self.shaped = [cholesky(12), chain(1000, 1), fan(2000)] if is_quick else [cholesky(96), chain(100_000, 1), fan(200_000)]
        self.sized = {size: short_chain(200 if is_quick else 20_000, size) for size in SIZES}
        self.blocks = 10 if is_quick else 1000
        # the jobs whose instructions are counted by crate
        self.counted = [cholesky(6), chain(100, 1), fan(100)] if is_quick else [cholesky(40), chain(20_000, 1), fan(20_000)]
        self.bodies = {kind: (body(kind, 0), body(kind, self.blocks)) for kind in TURNS}

    def all(self):
        return [*self.shaped, *self.sized.values(), *self.counted, *(it for both in self.bodies.values() for it in both)]

    def write(self):
        for job in self.all():
            job.write()


def one_round(program, jobs, copying):
    """The rows of a round. `copying` is the peer that copies a tile for each edge, where it is there."""
    rows = []
    for job in jobs.shaped:
        rows.append(run_ptg(program, "check", job, 0, 0))
        rows += [run_ptg(program, "run", job, MOST_WORKERS, it, name=of_shards(it)) for it in SHARDS]
        rows += [run_ptg(program, "run", job, it, 16) for it in WORKERS]
        rows.append(run_ptg(program, "run", job, MOST_WORKERS, 16, ["--preload"], "ptg, preload"))
    for job in jobs.sized.values():
        rows.append(run_ptg(program, "check", job, 0, 0))
        for workers in (1, MOST_WORKERS):
            rows.append(run_ptg(program, "run", job, workers, 16))
            if copying:
                rows.append(run_peer(copying, job, workers))
    for job in (it for both in jobs.bodies.values() for it in both):
        rows += [run_ptg(program, "check", job, 0, 0), run_ptg(program, "run", job, 1, 16)]
    return rows
