"""What the options of a picture add to its scene: data, ranks, and a heaviest chain."""
from data_text import records_of
from jobs import task as shown_task
from programs import NoPicture, bytes_of
from scene import Box, Edge


def add_data(scene, tasks):
    """Adds a small box for each flow that is read from somewhere else than a task, and for each write-back."""
    complete = all(it.state == "ran" for it in scene.boxes.values())
    inward = any(tie.inward and not tie.is_edge() for task in tasks.values() for tie in task.ties)
    for it in scene.boxes.values():
        it.level += inward
    for name, task in tasks.items():
        for number, tie in enumerate(task.ties):
            if not tie.is_edge() and (tie.inward or tie.is_place()):
                add_tie(scene, name, number, tie, complete)


def add_tie(scene, name, number, tie, complete):
    """Adds the box and the edge of what a flow is read from or written back to."""
    what = shown_task(tie.far) if tie.is_place() else tie.what.upper()
    place = ("data", *name, str(number))
    level = scene.boxes[name].level + (-1 if tie.inward else 1)
    scene.boxes[place] = Box(place, "", what, level=level, kind="data")
    ends = (place, name) if tie.inward else (name, place)
    hint = f"{tie.flow} of {shown_task(name)} {'from' if tie.inward else 'to'} {what}"
    state = "sent" if tie.inward or complete else "not"
    scene.edges.append(Edge(*ends, hint, False, state, name=tie.flow))


def collections_of(job):
    """The collections of the data by their names, each with its number and with how many columns it has."""
    found = {}
    for it in records_of(bytes_of(job.data)):
        if it.word() in ("coll", "collof"):
            fields = [field.spelled() for field in it.fields[1 if it.word() == "coll" else 2 :]]
            found[fields[0]] = (len(found), int(fields[2]) if len(fields) > 2 else 1)
    return found


def rank_of(place, collections, ranks):
    """The rank of a place: the number of its collection and the number of the place in it, added, modulo the number of ranks."""
    number, columns = collections[place[0]]
    first, *second = (int(it) for it in place[1:])
    return (number + (first * columns + second[0] if second else first)) % ranks


def add_ranks(scene, tasks, job, ranks):
    """Colours tasks by their ranks, and tells edges between ranks from others."""
    collections = collections_of(job)
    rank = {name: rank_of(task.at[1:], collections, ranks) for name, task in tasks.items() if task.at}
    for name, it in scene.boxes.items():
        if name in rank:
            it.group = f"rank {rank[name]}"
    used = sorted(set(rank.values()))
    scene.groups = [f"rank {it}" for it in used]
    for it in scene.edges:
        if it.source in rank and it.target in rank and it.state == "sent":
            it.is_cut = rank[it.source] != rank[it.target]
    count = sum(1 for it in scene.edges if it.is_cut)
    scene.notes.append(f"{ranks} ranks: {count:,} messages")


def add_chain(scene, certificate):
    """Draws a heaviest chain bold, and writes below the columns how heavy it has become."""
    links = list(zip(certificate.chain, certificate.chain[1:]))
    first = {}
    for it in scene.edges:
        first.setdefault((it.source, it.target), it)
    for name in certificate.chain:
        scene.boxes[name].is_bold = True
    for link in links:
        if link not in first:
            raise NoPicture("the chain of certify is none of this graph: are both programs built from the same files?")
        first[link].is_link = True
    add_scale(scene, certificate)


def add_scale(scene, certificate):
    columns = sorted({it.level for it in scene.boxes.values() if it.kind == "task"})
    scene.scale = [(column, 0, str(number)) for number, column in enumerate(columns, 1)]
    scene.scale += [(scene.boxes[name].level, 1, f"{certificate.levels[name]:,}") for name in certificate.chain]
    scene.notes.append(
        f"heaviest chain: {len(certificate.chain):,} tasks, weight {certificate.weight:,}; {len(columns):,} levels; "
        "below each level, in bold, what the chain weighs up to its task there"
    )
