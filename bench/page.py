"""The tables of docs/performance.md and of README.md, from what was measured, and how they are put there.

A part of a page that is made here stands between a line `<!-- figures: NAME -->` and a line `<!-- end of figures -->`.
"""
import os
import re

import crates
from jobs import TOP
from settings import BLOCK, MOST_WORKERS, SHARDS, SIZES, TURNS, WORKERS, of_shards
from tables import mebibytes, micros, shown

PAGES = {"docs/performance.md": ("beside", "shards", "workers", "tiles", "bodies", "where"), "README.md": ("readme",)}
PART = r"(<!-- figures: {} -->\n)(.*?)(<!-- end of figures -->\n)"
# The peers as the pages call them.
PEERS = {"tbb-copy": "oneTBB, copies", "tbb": "oneTBB", "omp-gnu": "OpenMP, GNU", "omp-llvm": "OpenMP, LLVM", "starpu": "StarPU"}
COPYING = "tbb-copy"
OF_README = {
    "Cholesky 96": "tiled Cholesky of 96 rows, 152,096 tasks, 3 numbers a tile",
    "fan of 200,000": "fan of 200,000 tasks",
    "fan of 20,000, bodies of 8 us": "fan of 20,000 tasks, each of 8 µs",
    "chain, 1 number a tile": "chain of 100,000 tasks",
}


class Measured:
    """What was measured: the rounds of all programs, those of other settings, and the instructions a task, all of them and by crate."""

    def __init__(self, rounds, jobs, others, settings_jobs, counts, by_crate, about):
        self.rounds, self.jobs, self.others, self.settings_jobs = rounds, jobs, others, settings_jobs
        self.counts, self.by_crate, self.about = counts, by_crate, about

    def ratio(self, job, peer, field):
        return self.rounds.ratio(("ptg", job.name, MOST_WORKERS), (peer, job.name, MOST_WORKERS), field)


def lines_of(head, rows, texts=1):
    """A table: first texts, then numbers, which stand to the right."""
    return ["| " + " | ".join(line) + " |" for line in [head, ["---"] * texts + ["---:"] * (len(head) - texts), *rows]]


def of_task(rounds, name, job, workers, field="run"):
    return shown(micros(rounds.middle(name, job.name, workers, field), job), 2)


def beside(it):
    """All jobs beside all peers."""
    head = ["Job", "1 worker, µs", "4 workers, µs", "speed-up", *(f"/ {name}" for name in PEERS.values())]
    head += ["MiB", f"MiB / {PEERS[COPYING]}", "`check`, µs", "instructions", "of `check`"]
    rows = []
    for job in it.jobs:
        row = [job.name.replace(" us", " µs")] + [of_task(it.rounds, "ptg", job, workers) for workers in (1, MOST_WORKERS)]
        row.append(shown(it.rounds.ratio(("ptg", job.name, 1), ("ptg", job.name, MOST_WORKERS), "run"), 2))
        row += [shown(it.ratio(job, peer, "run"), 2) for peer in PEERS]
        row.append(shown(mebibytes(it.rounds.middle("ptg", job.name, MOST_WORKERS, "peak")), 1))
        row += [shown(it.ratio(job, COPYING, "peak"), 2), of_task(it.rounds, "check", job, 0, "whole")]
        rows.append(row + [shown(it.counts.get((name, job.name)), 0) for name in ("ptg", "check")])
    return [*it.about, "", *lines_of(head, rows)]


def shards(it):
    head = ["Job, 4 workers", *(f"{count} shard{'s' * (count > 1)}" for count in SHARDS), "16, with a preload"]
    names = [*(of_shards(count) for count in SHARDS), "ptg, preload"]
    return lines_of(head, [[job.name, *(of_task(it.others, name, job, MOST_WORKERS) for name in names)] for job in it.settings_jobs.shaped])


def workers(it):
    head = ["Job, 16 shards", "of", *(f"{count} worker{'s' * (count > 1)}" for count in WORKERS)]
    rows = []
    for job in it.settings_jobs.shaped:
        rows.append([job.name, "time", *(of_task(it.others, "ptg", job, count) for count in WORKERS)])
        rows.append(["", "processors", *(of_task(it.others, "ptg", job, count, "busy") for count in WORKERS)])
    return lines_of(head, rows, texts=2)


def tiles(it):
    head = ["Chain, numbers a tile", *(f"{size:,}" for size in SIZES)]
    rows = []
    for name, said in (("ptg", "`ptg`"), (COPYING, PEERS[COPYING])):
        for count in (1, MOST_WORKERS):
            cells = [of_task(it.others, name, it.settings_jobs.sized[size], count) for size in SIZES]
            rows.append([f"{said}, {count} worker{'s' * (count > 1)}", *cells])
    return lines_of(head, rows)


def bodies(it):
    rows = []
    for kind, text in TURNS.items():
        none, many = (it.others.middle("ptg", job.name, 1, "whole") for job in it.settings_jobs.bodies[kind])
        rows.append([f"`{text}`", shown(many and none and (many - none) * 1e9 / (BLOCK * it.settings_jobs.blocks), 1)])
    return lines_of(["A turn of a loop", "ns"], rows)


def where(it):
    jobs = [job.name for job in it.settings_jobs.counted]
    return lines_of(["Crate", "What it does", *jobs], crates.rows_of(it.by_crate), texts=2)


def readme(it):
    head = ["Job", "`ptg`", "oneTBB with a copy for each edge", "GNU's OpenMP tasks"]
    rows = []
    for job in it.jobs:
        if job.name in OF_README:
            rows.append([OF_README[job.name], *(of_task(it.rounds, name, job, MOST_WORKERS) for name in ("ptg", COPYING, "omp-gnu"))])
    rows.sort(key=lambda row: list(OF_README.values()).index(row[0]))
    return [f"Microseconds a task, with four workers on {os.cpu_count()} processors:", "", *lines_of(head, rows)]


PARTS = {it.__name__: it for it in (beside, shards, workers, tiles, bodies, where, readme)}


def all_parts(it):
    return {name: "\n".join(part(it)) + "\n" for name, part in PARTS.items()}


def with_part(text, name, part):
    """A page with a part of it made anew."""
    found, count = re.subn(PART.format(name), lambda at: f"{at[1]}{part}{at[3]}", text, flags=re.S)
    if count != 1:
        raise ValueError(f"there is not one part {name}")
    return found


def put(parts):
    """Puts the parts into their pages. Nothing is written where a page lacks one of its parts."""
    texts = {}
    for page, names in PAGES.items():
        with open(os.path.join(TOP, page), encoding="utf-8") as file:
            texts[page] = file.read()
        for name in names:
            try:
                texts[page] = with_part(texts[page], name, parts[name])
            except ValueError as why:
                raise ValueError(f"{page}: {why}") from None
    for page, text in texts.items():
        with open(os.path.join(TOP, page), "w", encoding="utf-8") as file:
            file.write(text)
