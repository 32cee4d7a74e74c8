"""Where in a JDF an inconsistency may come from. No expression is evaluated: what is said holds whatever their values are."""

TASK_CODES = {"OutOfSpace": None, "NoMatchingOut": True, "NoMatchingIn": False, "NoInput": True, "NullSent": False, "TooManyEdges": None}


def task(fields):
    return f"{fields[0]}({', '.join(fields[1:])})" if fields else "a task"


def dependences(flow, code):
    """The dependences of a flow that an inconsistency can come from."""
    if code == "DoubleWrite":
        return [it for it in flow.dependences if not it.inward() and it.names_elements()]
    if code == "BadPlace":
        return [it for it in flow.dependences if it.names_elements()]
    if code in ("OutOfSpace", "NoMatchingOut", "NoMatchingIn", "DoubleEdge"):
        inward = TASK_CODES.get(code)
        return [it for it in flow.dependences if it.names_tasks() and inward in (None, it.inward())]
    if code in ("NoInput", "NullSent"):
        return [it for it in flow.dependences if it.inward() == TASK_CODES[code]]
    return list(flow.dependences)


def places(outline, code, cls_name, numbers, flow_name):
    """The tokens that an inconsistency may come from, the likeliest first."""
    cls = outline.class_named(cls_name)
    if cls is None:
        return []
    flow = next((it for it in cls.flows if it.name.text == flow_name), None)
    if flow:
        return [it.arrow for it in dependences(flow, code)] or [flow.kind]
    if code == "BadExpr" and len(numbers) < len(cls.definitions) and not is_of_task(cls, numbers):
        return [cls.definitions[len(numbers)]]
    return [it for it in (cls.affinity, cls.priority if code == "BadExpr" else None) if it]


def is_of_task(cls, numbers):
    """Whether numbers may be a task's parameters, and not the values before a definition that has none."""
    return len(numbers) == len(cls.params)
