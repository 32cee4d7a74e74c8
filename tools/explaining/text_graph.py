"""The graph of a job as the text of its JDF and its data have it, evaluated here: for explanations where the program `job_graph` is missing.

It has the calls of graph.Graph, and is only tested. `job_graph` takes its graph from the walk over dependences that is proved."""
import itertools

from bodies import TooLong, Work
from evaluate import dependence_of
from expressions import Fault, Range, Reader, Unreadable, argument, value
from graph import Task, Tie, Unknown
from values import evaluation_of

# Graphs of more tasks, or that take longer, are not looked at as a whole.
MOST_TASKS = 10_000
MOST_WORK = 500_000
MOST_SECONDS = 10
UNKNOWN = (Unreadable, TooLong, RecursionError, ValueError)


class TextGraph:
    """The graph of a job, task by task."""

    def __init__(self, job):
        self.evaluation = evaluation_of(job)
        self.work = Work(MOST_WORK, MOST_SECONDS)
        self.all, self.read = None, {}

    def class_named(self, name):
        if self.evaluation is None:
            raise Unknown
        return self.evaluation.class_named(name)

    def task(self, name):
        """One task, or None where the job has no such task."""
        try:
            names, why = self.names(name)
            return None if why else self.ties(name[0], names)
        except UNKNOWN as why:
            raise Unknown from why

    def why_none(self, name):
        """The first definition that does not allow a task, as job_graph prints it."""
        try:
            return self.names(name)[1]
        except UNKNOWN as why:
            raise Unknown from why

    def tasks(self):
        """All tasks by their names, in walk order."""
        if self.evaluation is None:
            raise Unknown
        try:
            if self.all is None:
                self.all = {}
                for name in self.evaluation.classes:
                    self.add_tasks(name)
            return self.all
        except (*UNKNOWN, Fault) as why:
            self.all = None
            raise Unknown from why

    def add_tasks(self, name):
        cls = self.class_named(name)
        for names in spaces_of(cls.definitions(), dict(self.evaluation.integers), self.work):
            self.all[(name, *(str(names[it]) for it in cls.params))] = self.ties(name, names)
            if len(self.all) > MOST_TASKS:
                raise TooLong

    def names(self, name):
        """The values of the names of a task, and the definition that does not allow it, if there is one."""
        cls, names = self.class_named(name[0]), dict(self.evaluation.integers)
        given = {param: int(text) for param, text in zip(cls.params, name[1:])}
        for (local, what), token in zip(cls.definitions(), cls.outline.definitions):
            place = [str(token.line), local]
            try:
                values = what.values(names) if isinstance(what, Range) else [value(what, names)]
            except Fault:
                return names, ["faulty", *place]
            if local in given and given[local] not in values:
                return names, why_not(place, values)
            names[local] = given.get(local, values[0])
        return names, None

    def ties(self, name, names):
        """A task, with what its active dependences name."""
        cls, found = self.class_named(name), Task()
        self.work.take(1)
        try:
            found.at = self.place(cls, names)
            for flow in cls.outline.flows:
                self.add_ties(found, flow, names)
        except Ill as ill:
            found.ill = ill.args
        # (as job_graph prints them: what comes in first)
        found.ties.sort(key=lambda it: not it.inward)
        return found

    def place(self, cls, names):
        tokens = cls.outline.place
        reader, numbers = Reader(tokens[2:-1]), []
        try:
            while not reader.is_over():
                numbers.append(str(value(argument(reader), names)))
                if not reader.is_over():
                    reader.take(",")
            if cls.outline.urgency:
                value(Reader(cls.outline.urgency).expression(), names)
        except Fault as why:
            raise Ill("-") from why
        return (str(tokens[0].line), tokens[0].text, *numbers)

    def dependences(self, flow):
        """The dependences of a flow, each with its number and its direction."""
        key = flow.name.at()
        if key not in self.read:
            self.read[key] = [(number, it.inward(), dependence_of(it)) for number, it in enumerate(flow.dependences, 1)]
        return self.read[key]

    def add_ties(self, found, flow, names):
        first_only = flow.kind.text != "CTL"
        for inward in (True, False):
            for number, direction, it in self.dependences(flow):
                if direction != inward:
                    continue
                try:
                    target = it.target(names)
                    ties = [Tie(inward, flow.name.text, flow.kind.text, number, it.line, *far) for far in self.named(target, names)]
                except Fault as why:
                    raise Ill(flow.name.text, str(number), str(it.line)) from why
                found.ties += ties
                if inward and first_only and target:
                    break

    def named(self, target, names):
        """What a target names: the kind of it, and the flow and the task, or the collection and the indices."""
        if target is None:
            return []
        if target.what in ("new", "null"):
            return [(target.what,)]
        values = [it.values(names) if isinstance(it, Range) else [value(it, names)] for it in target.arguments]
        first = (target.flow, target.name) if target.what == "flow" else (target.name,)
        found = []
        for numbers in itertools.product(*values):
            self.work.take(1)
            found.append((target.what, (*first, *map(str, numbers))))
        return found


class Ill(Exception):
    """An expression that a task needs has no value."""


def why_not(place, values):
    if isinstance(values, list):
        return ["value", *place, str(values[0])]
    high = values.stop - (1 if values.step > 0 else -1)
    return ["range", *place, str(values.start), str(high), str(values.step)]


def spaces_of(definitions, names, work, at=0):
    """The values of the names of each task of a class, in walk order."""
    work.take(1)
    if at == len(definitions):
        yield names
        return
    local, what = definitions[at]
    for number in what.values(names) if isinstance(what, Range) else [value(what, names)]:
        yield from spaces_of(definitions, {**names, local: number}, work, at + 1)
