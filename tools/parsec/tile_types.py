"""Which types of dependences stay: those of flows and collections that can have one type, all of them."""
from parsec.scanner import RESERVED


def type_of_properties(groups):
    """The type that properties give: a name, None, or False where it is no name; and the property."""
    for group in groups:
        found = group.value("type")
        if found:
            texts = [it.text for it in found.tokens]
            name = texts[0].strip('"') if len(texts) == 1 else ""
            is_name = name.isascii() and name.isidentifier() and name not in RESERVED
            return (name if is_name else False), found
    return None, None


def type_of(dependence):
    """The type of a dependence of the tree, or of all its targets: a name, None for the default type, or False where it is none that can stay."""
    found = written_type(dependence)
    return None if found == "DEFAULT" else found


def written_type(dependence):
    found = [type_of_properties(dependence.properties)[0]]
    if found[0] is None:
        of_targets = {type_of_properties(it.properties)[0] for it in dependence.targets()}
        return of_targets.pop() if len(of_targets) == 1 else False
    # (a type behind the dependence is that of the last target)
    others = {type_of_properties(it.properties)[0] for it in dependence.targets()} - {None}
    return found[0] if others <= {found[0]} else False


class Groups:
    """Flows and collections that are joined by dependences, and so have one type."""

    def __init__(self):
        self.parents = {}

    def root(self, it):
        self.parents.setdefault(it, it)
        while self.parents[it] != it:
            self.parents[it] = self.parents[self.parents[it]]
            it = self.parents[it]
        return it

    def join(self, one, other):
        self.parents[self.root(one)] = self.root(other)


def kept_types(file):
    """For each data flow of a file, by class and flow, the type that its dependences keep, or None; and for each collection."""
    groups, types = Groups(), {}
    for cls in file.classes:
        for flow in cls.flows:
            if flow.kind() == "CTL":
                continue
            key = (cls.name.text, flow.name.text)
            for dependence in flow.dependences:
                types.setdefault(key, set()).add(type_of(dependence))
                for target in dependence.targets():
                    if target.kind in ("task", "element"):
                        groups.join(key, (target.name.text, target.flow.text) if target.flow else target.name.text)
    of_group = {}
    for key, found in types.items():
        of_group.setdefault(groups.root(key), set()).update(found)
    kept = {root: found.copy().pop() if len(found) == 1 else None for root, found in of_group.items()}
    return {key: kept.get(groups.root(key)) or None for key in list(groups.parents)}

