"""The graph of a job, as the program `job_graph` prints it: crates/job_graph/README.md has its lines. Nothing of a JDF is evaluated here."""
import fcntl
import os
import subprocess
import sys
from dataclasses import dataclass, field

TOP = os.path.dirname(os.path.dirname(os.path.dirname(os.path.realpath(__file__))))
sys.path.insert(0, os.path.join(TOP, "tools"))
import built

NAME = "job_graph"
PROGRAM = built.program_of(NAME)
# A graph of more lines, or one that takes longer, is not looked at as a whole.
MOST_LINES = 300_000
MOST_SECONDS = 60
# This many tasks are asked for one by one.
MOST_ASKED = 6


@dataclass
class Tie:
    """An active dependence of a task with one of the things that it names."""

    inward: bool
    flow: str
    kind: str
    # the number of the dependence among those of its flow, from 1, and its line
    number: int
    line: int
    # flow, place, new or null, with the flow and the task, or with the collection and the indices
    what: str
    far: tuple = ()

    def is_edge(self):
        return self.what == "flow"

    def is_place(self):
        return self.what == "place"

    def far_flow(self):
        return self.far[0]

    def far_task(self):
        return self.far[1:]


@dataclass
class Task:
    ties: list = field(default_factory=list)
    # the place of the affinity, with its line
    at: tuple = ()
    # the flow and the dependence that need an expression without a value, with its line
    ill: tuple = ()

    def into(self, flow=None):
        return [it for it in self.ties if it.inward and flow in (None, it.flow)]

    def out(self, flow=None):
        return [it for it in self.ties if not it.inward and flow in (None, it.flow)]


def program():
    """The program `job_graph`, or None where none is there that was made from the sources as they are. PTG_JOB_GRAPH names another one.

    Nothing is built here."""
    named = os.environ.get("PTG_JOB_GRAPH")
    if named:
        return named
    try:
        return PROGRAM if built.is_fresh(NAME) else None
    except OSError:
        return None


def missing():
    """What is said where the program is not there."""
    named = os.environ.get("PTG_JOB_GRAPH")
    if named:
        return f"PTG_JOB_GRAPH names {named}, which is no program"
    if built.is_installed():
        return f"job_graph, which lists the edges of a job, was not installed with ptg from {built.installed_from()}: build it there, and install again"
    if is_being_built():
        return "job_graph, which lists the edges of a job, is being built now, at the lowest priority"
    return f"job_graph, which lists the edges of a job, is not built: {os.path.join(TOP, 'tools', 'build')} {NAME} builds it"


def is_being_built():
    """Whether a command of the kit, or a build, works in the crate of the program."""
    try:
        folder = os.open(os.path.join(TOP, "crates", NAME), os.O_RDONLY)
    except OSError:
        return False
    try:
        fcntl.flock(folder, fcntl.LOCK_SH | fcntl.LOCK_NB)
        return False
    except BlockingIOError:
        return True
    except OSError:  # (some file systems have no locks)
        return False
    finally:
        os.close(folder)


def tie_of(fields):
    return Tie(fields[0] == "in", fields[1], fields[2], int(fields[3]), int(fields[4]), fields[5], tuple(fields[6:]))


class Unknown(Exception):
    """What was asked of the graph can't be told."""


class Graph:
    """The graph of a job: all of it, where that is not too large, or what is asked for."""

    def __init__(self, jdf, data):
        self.jdf, self.data, self.program, self.known, self.all = jdf, data, program(), {}, None

    def lines(self, most, *task):
        """The lines that the program prints, each as its fields."""
        if self.program is None:
            raise Unknown
        words = [self.program, self.jdf, self.data, str(most), *task]
        try:
            ran = subprocess.run(words, stdin=subprocess.DEVNULL, stdout=subprocess.PIPE, stderr=subprocess.DEVNULL, timeout=MOST_SECONDS, check=False)
        except (OSError, subprocess.TimeoutExpired) as why:
            raise Unknown from why
        if ran.returncode:
            raise Unknown
        return [line.split(",") for line in ran.stdout.decode("utf-8", "replace").splitlines()]

    def tasks(self):
        """All tasks by their names, in walk order."""
        if self.all is None:
            lines = self.lines(MOST_LINES)
            self.all = tasks_of(lines) if len(lines) < MOST_LINES else False
        if self.all is False:
            raise Unknown
        return self.all

    def task(self, name):
        """One task, or None where the job has no such task. The first few are asked for one by one, and then all."""
        if self.all:
            return self.all.get(name)
        if name not in self.known:
            if len(self.known) == MOST_ASKED:
                return self.tasks().get(name)
            self.known[name] = tasks_of(self.lines(MOST_LINES, ",".join(name))).get(name)
        return self.known[name]

    def why_none(self, name):
        """The line of the first definition that does not allow a task, if there is one."""
        lines = self.lines(2, ",".join(name))
        return lines[1] if len(lines) == 2 and lines[0][0] == "none" else None


def tasks_of(lines):
    found, task = {}, None
    for fields in lines:
        if fields[0] == "task":
            task = found.setdefault(tuple(fields[1:]), Task())
        elif fields[0] == "at":
            task.at = tuple(fields[1:])
        elif fields[0] == "ill":
            task.ill = tuple(fields[1:])
        elif fields[0] in ("in", "out"):
            task.ties.append(tie_of(fields))
    return found
