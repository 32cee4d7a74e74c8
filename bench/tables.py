"""Tables of what was measured, as Markdown. Times are medians over the rounds; a ratio is the median of the ratios of each round."""
from statistics import median


class Rounds:
    """The rows of all rounds, by name, job and workers. The run phase of `ptg` is what `run` takes more than `check` of the same job."""

    def __init__(self, rounds):
        self.rows = {}
        for number, rows in enumerate(rounds):
            checks = {it.job: it for it in rows if it.name == "check" and not it.fault}
            for it in rows:
                if it.name.startswith("ptg") and not it.fault and it.job in checks:
                    it.run = it.whole - checks[it.job].whole
                    it.busy = it.processor - checks[it.job].processor
                if not it.fault:
                    self.rows.setdefault((it.name, it.job, it.workers), {})[number] = it

    def values(self, name, job, workers, field):
        found = self.rows.get((name, job, workers), {})
        return {number: getattr(it, field) for number, it in found.items() if getattr(it, field) is not None}

    def middle(self, name, job, workers, field):
        found = self.values(name, job, workers, field)
        return median(found.values()) if found else None

    def ratio(self, one, other, field):
        """The median of one row over another, each by its name, job and workers."""
        ours, theirs = self.values(*one, field), self.values(*other, field)
        both = [ours[number] / theirs[number] for number in ours if theirs.get(number)]
        return median(both) if both else None


def shown(value, digits):
    return "-" if value is None else f"{value:,.{digits}f}"


def table(title, head, rows):
    """The lines of a table: texts to the left, numbers to the right."""
    cells = [head, *rows]
    wide = [max(len(line[at]) for line in cells) for at in range(len(head))]
    lines = ["| " + " | ".join([line[0].ljust(wide[0]), *(cell.rjust(width) for cell, width in zip(line[1:], wide[1:]))]) + " |" for line in cells]
    rule = "|" + "|".join(["-" * (wide[0] + 2), *("-" * (width + 1) + ":" for width in wide[1:])]) + "|"
    return [f"**{title}**", "", lines[0], rule, *lines[1:], ""]


def times(rounds, jobs, workers, names):
    rows = [
        [job.name, str(count), *(shown(micros(rounds.middle(name, job.name, count, "run"), job), 3) for name in names)] for job in jobs for count in workers
    ]
    return table("Run phase, microseconds a task", ["job", "workers", *names], rows)


def micros(seconds, job):
    return None if seconds is None else seconds * 1e6 / job.tasks


def ratios(rounds, jobs, workers, names):
    peers = [it for it in names if it != "ptg"]
    if "ptg" not in names or not peers:
        return []
    rows = [
        [job.name, str(count), *(shown(rounds.ratio(("ptg", job.name, count), (peer, job.name, count), "run"), 2) for peer in peers)]
        for job in jobs
        for count in workers
    ]
    return table("Run phase, time of ptg over that of each peer", ["job", "workers", *(f"/ {it}" for it in peers)], rows)


def speed_ups(rounds, jobs, workers, names):
    least, most = min(workers), max(workers)
    if least == most:
        return []
    names = [it for it in names if it != "loops"]
    rows = [[job.name, *(shown(rounds.ratio((name, job.name, least), (name, job.name, most), "run"), 2) for name in names)] for job in jobs]
    return table(f"Speed-up of {most} workers over {least}, run phase", ["job", *names], rows)


def memory(rounds, jobs, workers, names):
    most = max(workers)
    rows = [[job.name, *(shown(mebibytes(rounds.middle(name, job.name, most, "peak")), 1) for name in names)] for job in jobs]
    return table(f"Peak memory with {most} workers, MiB", ["job", *names], rows)


def mebibytes(kibibytes):
    return None if kibibytes is None else kibibytes / 1024


def checks(rounds, jobs):
    rows = [[job.name, f"{job.tasks:,}", shown(micros(rounds.middle("check", job.name, 0, "whole"), job), 3)] for job in jobs]
    return table("ptg check, whole process, microseconds a task", ["job", "tasks", "check"], rows)


def instructions(counts, jobs, names):
    """Counts by name and job, each of a task."""
    rows = [[job.name, *(shown(counts.get((name, job.name)), 0) for name in names)] for job in jobs]
    return table("Instructions a task, 1 worker (ptg: run less check, and check; a peer: less those for a job of size 1)", ["job", *names], rows)


def all_tables(rounds, jobs, workers, names):
    lines = []
    for part in (times, ratios, speed_ups, memory):
        lines += part(rounds, jobs, workers, names)
    return lines + (checks(rounds, jobs) if "ptg" in names else [])
