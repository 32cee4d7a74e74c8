"""The tasks of a job, evaluated from its JDF and its data: which values a task has, which tiles it starts from, and how its body ends.

Nothing here is proved. It looks at one task after another, backwards along the edges that bring it its tiles, and stops where that is too
much work. What `ptg` prints never depends on it."""
from dataclasses import dataclass, field

from bodies import Run, TooLong, Work, statements_of
from data_text import whole
from expressions import Fault, Range, Reader, Unreadable, argument, arguments, value
from jdf_text import is_name

DEFAULT = "DEFAULT"
# A run of this many tasks is looked at, and this many statements and elements of tiles, for this many seconds.
MOST_TASKS = 10_000
MOST_WORK = 2_000_000
MOST_SECONDS = 10


@dataclass
class Collection:
    sizes: list
    elements: int
    tiles: dict = field(default_factory=dict)

    def tile(self, index):
        """A copy of an opening tile."""
        if len(index) != len(self.sizes) or not all(0 <= at < size for at, size in zip(index, self.sizes)):
            raise Unreadable
        given = self.tiles.get(tuple(index), [])
        return given + [0] * (self.elements - len(given))


def number(field_):
    found = whole(field_.spelled())
    if found is None:
        raise Unreadable
    return found


class Data:
    """What the records of a data file give."""

    def __init__(self, records):
        self.integers, self.collections, self.types = {}, {}, {}
        # (the tiles are read when one is first asked for)
        self.unread = [it for it in records if it.word() == "tile"]
        read = {"elems": self.type, "int": self.integer, "coll": self.collection, "collof": self.collection}
        for it in records:
            if it.word() != "tile":
                read.get(it.word(), self.none)(it.fields)

    def none(self, _fields):
        raise Unreadable

    def type(self, fields):
        name = fields[1].spelled() if len(fields) == 3 else DEFAULT
        self.types[name] = number(fields[-1])

    def integer(self, fields):
        if len(fields) != 3:
            raise Unreadable
        self.integers[fields[1].spelled()] = number(fields[2])

    def collection(self, fields):
        first = 1 if fields[0].spelled() == "coll" else 2
        if len(fields) not in (first + 2, first + 3):
            raise Unreadable
        type_name = fields[1].spelled() if first == 2 else DEFAULT
        self.collections[fields[first].spelled()] = Collection([number(it) for it in fields[first + 1 :]], self.elements(type_name))

    def elements(self, type_name):
        if type_name not in self.types:
            raise Unreadable
        return self.types[type_name]

    def opening_tile(self, name, index):
        """A copy of a tile as the data give it."""
        for it in self.unread:
            self.tile(it.fields)
        self.unread = []
        if name not in self.collections:
            raise Unreadable
        return self.collections[name].tile(index)

    def tile(self, fields):
        found = self.collections.get(fields[1].spelled()) if len(fields) > 2 else None
        if found is None:
            raise Unreadable
        numbers = [number(it) for it in fields[2:]]
        size = len(found.sizes)
        found.tiles[tuple(numbers[:size])] = numbers[size:]


@dataclass
class Target:
    # flow, place, new or null
    what: str
    flow: str = ""
    name: str = ""
    arguments: list = field(default_factory=list)


@dataclass
class ReadDependence:
    """A dependence: its guard, its targets, its type, and the line of its first target."""

    guard: object
    yes: Target
    no: Target
    type_name: str
    line: int

    def target(self, names):
        """The target that is active, or nothing."""
        return self.yes if self.guard is None or value(self.guard, names) else self.no


def target_of(reader):
    if reader.text() in ("NEW", "NULL"):
        return Target(reader.take().text.lower())
    first = reader.name().text
    if reader.text() == "(":
        return Target("place", name=first, arguments=arguments(reader))
    return Target("flow", first, reader.name().text, arguments(reader))


def begins_target(reader):
    """Whether a target is next, and no guard."""
    tokens = reader.tokens[reader.at : reader.at + 2]
    return reader.text() in ("NEW", "NULL") or (len(tokens) == 2 and is_name(tokens[0]) and (is_name(tokens[1]) or tokens[1].text == "("))


def dependence_of(dependence):
    """A dependence, from its tokens."""
    reader = Reader(dependence.tokens)
    guard = None
    if not begins_target(reader):
        guard = reader.binary(1)
        reader.take("?")
    line = reader.tokens[reader.at].line if not reader.is_over() else dependence.arrow.line
    yes, no, type_name = target_of(reader), None, DEFAULT
    if guard and reader.text() == ":":
        reader.take()
        no = target_of(reader)
    if reader.text() == "[":
        reader.take()
        reader.take("type")
        reader.take("=")
        type_name = reader.name().text
        reader.take("]")
    if not reader.is_over():
        raise Unreadable
    return ReadDependence(guard, yes, no, type_name, line)


class TaskClass:
    """A class, with what it takes to evaluate its tasks. Each part is read when it is first asked for."""

    def __init__(self, outline):
        self.outline = outline
        self.params = [it.text for it in outline.params]
        self.read = {}

    def definitions(self):
        if "definitions" not in self.read:
            found = []
            for name, tokens in zip(self.outline.definitions, self.outline.values):
                reader = Reader(tokens)
                found.append((name.text, argument(reader)))
                if not reader.is_over():
                    raise Unreadable
            self.read["definitions"] = found
        return self.read["definitions"]

    def statements(self):
        if "statements" not in self.read:
            self.read["statements"] = statements_of(self.outline.body)
        return self.read["statements"]

    def flows(self):
        """The flows with a tile: each with its name, whether it is WRITE, its type and its in dependences."""
        if "flows" not in self.read:
            found = []
            for it in self.outline.flows:
                if it.kind.text != "CTL":
                    all_of_it = [dependence_of(that) for that in it.dependences]
                    inward = [read for read, that in zip(all_of_it, it.dependences) if that.inward()]
                    found.append((it.name.text, it.kind.text == "WRITE", all_of_it[0].type_name if all_of_it else DEFAULT, inward))
            self.read["flows"] = found
        return self.read["flows"]


@dataclass
class Ended:
    """How a body ended by a fault: with the run as it was then."""

    fault: Fault
    run: Run
    # the line of the `<- NULL` that left a flow without a tile
    nulls: dict


class Evaluation:
    """The values of the tasks of a job, found when they are asked for."""

    def __init__(self, outline, records):
        self.data = Data(records)
        declared = {it.text for it in outline.globals}
        self.integers = {name: it for name, it in self.data.integers.items() if name in declared}
        self.classes = {}
        for it in outline.classes:
            self.classes.setdefault(it.name.text, TaskClass(it))
        self.work = Work(MOST_WORK, MOST_SECONDS)
        # the tiles of the flows of each task after its body
        self.after = {}

    def class_named(self, name):
        if name not in self.classes:
            raise Unreadable
        return self.classes[name]

    def names(self, task):
        """The values of the names in a class for one of its tasks."""
        cls = self.class_named(task[0])
        given, found = dict(zip(cls.params, task[1:])), dict(self.integers)
        if len(cls.params) != len(task) - 1:
            raise Unreadable
        for name, what in cls.definitions():
            if name not in given and isinstance(what, Range):
                raise Unreadable
            found[name] = given[name] if name in given else value(what, found)
        return found

    def source(self, flow, names):
        """The target that a flow of a task starts from, with the line of its dependence."""
        for it in flow[3]:
            target = it.target(names)
            if target:
                return target, it.line
        return Target("new"), 0

    def sources(self, task):
        """The sources of a task's flows, and the tasks among them."""
        names = self.names(task)
        found = {flow[0]: (flow, *self.source(flow, names)) for flow in self.class_named(task[0]).flows()}
        tasks = {name: (target.name, *self.numbers(target, names)) for name, (_, target, _) in found.items() if target.what == "flow"}
        return names, found, tasks

    def numbers(self, target, names):
        """The values of the arguments of a target, none of which is a range."""
        if any(isinstance(it, Range) for it in target.arguments):
            raise Unreadable
        return [value(it, names) for it in target.arguments]

    def first_tile(self, flow, target, names):
        """The tile that a flow starts from, where that is no task."""
        if target.what == "null":
            return None
        elements = self.data.elements(flow[2])
        self.work.take(elements)
        if target.what == "new":
            return [0] * elements
        return self.data.opening_tile(target.name, self.numbers(target, names))

    def tiles(self, task):
        """The names of a task, the tiles that it starts from, and the lines of the `<- NULL` among its sources."""
        names, found, tasks = self.sources(task)
        tiles = {}
        for name, (flow, target, _) in found.items():
            if target.what == "flow":
                sent = self.after[tasks[name]].get(target.flow)
                if sent is None:
                    raise Unreadable
                self.work.take(len(sent))
                tiles[name] = list(sent)
            else:
                tiles[name] = self.first_tile(flow, target, names)
        return names, tiles, {name: line for name, (_, target, line) in found.items() if target.what == "null"}

    def need(self, task):
        """Evaluates all tasks that a task takes its tiles from."""
        waiting = [task]
        while waiting:
            at = waiting[-1]
            before = [it for it in self.sources(at)[2].values() if it not in self.after]
            self.work.take(1)
            if len(waiting) > MOST_TASKS or len(self.after) > MOST_TASKS:
                raise TooLong
            if before:
                waiting.append(before[0])
                continue
            waiting.pop()
            if at != task:
                self.run(at)

    def run(self, task):
        """Runs a body whose sources have run."""
        names, tiles, _ = self.tiles(task)
        Run(names, tiles, self.work).block(self.class_named(task[0]).statements())
        self.after[task] = tiles

    def after_body(self, name):
        """The tiles of a task after its body."""
        task = (name[0], *(int(it) for it in name[1:]))
        self.need(task)
        if task not in self.after:
            self.run(task)
        return self.after[task]

    def end(self, task):
        """How the body of a task ends, or None where it ends without a fault."""
        self.need(task)
        names, tiles, nulls = self.tiles(task)
        run = Run(names, tiles, self.work, True)
        try:
            run.block(self.class_named(task[0]).statements())
        except Fault as fault:
            return Ended(fault, run, nulls)
        return None


def how_it_traps(evaluation, task):
    """How a task traps, or None where that is too much work, or something here can't be read."""
    try:
        return evaluation.end(task)
    except (TooLong, Unreadable, Fault, KeyError, RecursionError):
        return None
