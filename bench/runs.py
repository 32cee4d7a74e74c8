"""Runs commands and says what they took: those of `ptg`, whose answers are looked at, and those of the peers, which look at theirs."""
import os
import subprocess
import tempfile
from dataclasses import dataclass

from peers import MEASURE, path_of

# A command that takes longer than these seconds is ended, and not begun again in later rounds.
LONGEST = 60


@dataclass
class Row:
    """What one command took: seconds of the run and of the whole process, the same of processors, and the peak memory in KiB; or its fault."""

    name: str
    job: str
    workers: int
    run: object = None
    whole: object = None
    busy: object = None
    processor: object = None
    peak: object = None
    fault: str = ""


@dataclass
class Measured:
    seconds: float
    processor: float
    peak: int
    status: int
    printed: bytes


def measured(words):
    """What a command took, its status, and what it prints."""
    with tempfile.TemporaryFile() as output:
        ran = subprocess.run([path_of(MEASURE), str(LONGEST), *words], stdin=subprocess.DEVNULL, stdout=output, stderr=subprocess.PIPE, check=False)
        output.seek(0)
        printed = output.read()
    seconds, processor, peak, status = ran.stderr.split(b"\n")[-2].decode().split(",")
    return Measured(float(seconds), float(processor), int(peak), int(status), printed)


def fault_of(it):
    return f"took more than {LONGEST} s" if it.status == 137 and it.seconds >= LONGEST else f"ended with status {it.status}"


def is_right(job, verb, printed):
    """Whether `ptg` printed what it must: the number of tasks, and what the elements of all tiles add up to."""
    lines = printed.decode("ascii", "replace").splitlines()
    if verb == "check":
        return bool(lines) and lines[0].split(",")[:2] == ["consistent", str(job.tasks)]
    if not lines or lines[0] != f"complete,{job.tasks}":
        return False
    indices = 2 if job.made[0] == "cholesky" else 1
    total = sum(int(value) for line in lines[1:] for value in line.split(",")[2 + indices :])
    return job.total in (None, total)


def run_ptg(program, verb, job, workers, shards, more=(), name="ptg"):
    """A run of `ptg`, as what the whole process took."""
    settings = ["--workers", str(workers), "--shards", str(shards), *more] if verb == "run" else []
    it = measured([program, verb, *job.files(), *settings])
    row = Row(name if verb == "run" else "check", job.name, workers, whole=it.seconds, processor=it.processor, peak=it.peak)
    if it.status:
        row.fault = fault_of(it)
    elif not is_right(job, verb, it.printed):
        row.fault = "printed a wrong answer"
    return row


def run_peer(peer, job, workers):
    """A run of a peer, which tells its tasks and the seconds of its run."""
    it = measured([path_of(peer), str(workers), *job.words()])
    if it.status:
        return Row(peer.name, job.name, workers, fault=fault_of(it))
    tasks, run = it.printed.decode().strip().split(",")
    fault = "" if int(tasks) == job.tasks else f"ran {tasks} tasks"
    return Row(peer.name, job.name, workers, run=float(run), whole=it.seconds, processor=it.processor, peak=it.peak, fault=fault)


# A turn of a loop takes `ptg` about so many nanoseconds, by which it is found out how many take 0.2 s for all tasks of a job.
ABOUT = 15


def turns_of(program, job, nanoseconds):
    """How many turns of a loop of a body take `ptg` so long, with one worker, and how long one takes in nanoseconds."""
    many = 200_000_000 // (ABOUT * job.tasks)
    took = {}
    for turns in (0, many):
        job.made[2] = str(turns)
        job.write()
        took[turns] = min(run_ptg(program, "run", job, 1, 16).whole for _ in range(3))
    each = max((took[many] - took[0]) * 1e9 / many / (job.tasks - 1), 1.0)
    job.made[2] = str(round(nanoseconds / each))
    return each


class Instructions:
    """Counts the instructions of a command, by `perf` or by valgrind's callgrind, where one of them is there and works."""

    def __init__(self):
        self.way = next((it for it in ("perf", "callgrind") if self.by(it, ["/bin/true"])), None)

    def of(self, words):
        return self.by(self.way, words)

    def by(self, way, words):
        try:
            return by_perf(words) if way == "perf" else by_callgrind(words)
        except (OSError, ValueError, IndexError):
            return None


def by_perf(words):
    with tempfile.NamedTemporaryFile() as file:
        subprocess.run(["perf", "stat", "-x,", "-e", "instructions:u", "-o", file.name, *words], capture_output=True, check=False)
        lines = file.read().decode().splitlines()
    return int(next(line for line in lines if "instructions" in line).split(",")[0]) or None


def by_callgrind(words):
    with tempfile.TemporaryDirectory() as folder:
        ran = subprocess.run(
            ["valgrind", "--tool=callgrind", f"--callgrind-out-file={os.path.join(folder, 'out')}", *words], capture_output=True, text=True, check=False
        )
    return int([line.split()[-1] for line in ran.stderr.splitlines() if "Collected :" in line][0])
