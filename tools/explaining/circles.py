"""Why a run stalls: which tasks ran, which edges came to those that wait, and tasks that wait for each other in a circle.

No task of a stalled run trapped, so what ran follows from the edges alone."""
from jobs import task as shown_task

MOST_EDGES = 4
MOST_IN_A_CIRCLE = 5


def tasks_that_ran(tasks, traps=()):
    """The tasks that run, where each waits for its edges, and those that trap send nothing."""
    goals = {name: len([tie for tie in task.into() if tie.is_edge()]) for name, task in tasks.items()}
    ran = [name for name, goal in goals.items() if goal == 0]
    for name in ran:
        for tie in tasks[name].out() if name not in traps else []:
            if tie.is_edge():
                goals[tie.far_task()] -= 1
                if goals[tie.far_task()] == 0:
                    ran.append(tie.far_task())
    return set(ran)


def circle(tasks, ran, first):
    """Tasks that wait for each other in a circle, each for the next one, with the ties by which they wait."""
    at, ties, seen = first, [], {}
    while at not in seen:
        seen[at] = len(ties)
        ties.append((at, next(tie for tie in tasks[at].into() if tie.is_edge() and tie.far_task() not in ran)))
        at = ties[-1][1].far_task()
    return ties[seen[at] :]


def edges(ties):
    shown = [f"{tie.flow} from {tie.far_flow()} of {shown_task(tie.far_task())} (line {tie.line})" for tie in ties[:MOST_EDGES]]
    more = f", and {len(ties) - MOST_EDGES} more" if len(ties) > MOST_EDGES else ""
    return ", ".join(shown) + more


def of_waiting(tasks, ran, name):
    """The lines on a task that waits."""
    ties = [tie for tie in tasks[name].into() if tie.is_edge()]
    came = [tie for tie in ties if tie.far_task() in ran]
    never = [tie for tie in ties if tie.far_task() not in ran]
    lines = [f"    {shown_task(name)} has received {len(came)} of {len(ties)} edges"]
    lines += [f"        received: {edges(came)}"] if came else []
    return lines + [f"        missing: {edges(never)}"]


def of_circle(found):
    """The sentence on a circle."""
    return of_names([shown_task(name) for name, _ in found], len(found))


def of_names(names, count):
    """The sentence on a circle of so many tasks, of which these are named: each waits for the next one."""
    if count == 1:
        return f"{names[0]} waits for itself"
    if count > MOST_IN_A_CIRCLE + 1:
        shown = ", which waits for ".join(names[1:MOST_IN_A_CIRCLE])
        return f"{names[0]} waits for {shown}, and so on through {count - MOST_IN_A_CIRCLE} more tasks back to {names[0]}"
    return f"{names[0]} waits for " + ", which waits for ".join(names[1:] + [names[0]])
