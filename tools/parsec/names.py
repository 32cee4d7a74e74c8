"""The globals of a file: those that it declares, and those that take the place of members, array elements and calls."""
from parsec import rendering

WORDS = {"+": "plus", "-": "minus", "*": "times", "/": "over", "%": "mod"}


class Names:
    def __init__(self, file, taken):
        self.declared = {it.name.text: it for it in file.globals}
        self.taken = set(taken)
        # the text of an access -> its global; in the order of their first use
        self.made, self.made_names = {}, set()
        # names that are used and declared nowhere -> their first line
        self.undeclared = {}
        # names that stand as a number, and collections with their number of indices -> first line
        self.numbers, self.collections = {}, {}

    def global_for(self, text, name):
        """The global that takes the place of a text of C."""
        if text not in self.made:
            self.made[text] = self.fresh(name)
            self.made_names.add(self.made[text])
        return self.made[text]

    def fresh(self, name):
        found, number = name, 2
        while found in self.taken:
            found = f"{name}_{number}"
            number += 1
        self.taken.add(found)
        return found

    def all(self):
        """All globals, those that the file declares and the others."""
        return set(self.declared) | set(self.undeclared) | set(self.made.values())

    def is_known(self, name):
        """Whether a name is that of a global."""
        return name in self.declared or name in self.undeclared or name in self.made_names

    def state(self):
        return dict(self.made), set(self.made_names), dict(self.undeclared), set(self.taken), dict(self.numbers)

    def restore(self, state):
        """Forgets the names that were made since."""
        self.made, self.made_names, self.undeclared, self.taken, self.numbers = state

    def added(self):
        """Globals that the file does not declare."""
        return list(self.undeclared) + [it for it in self.made.values() if it not in self.declared]


def spelled(node):
    """An expression as a part of a name."""
    if node.kind in ("name", "number"):
        return node.text
    if node.kind == "paren":
        return spelled(node.parts[0])
    if node.kind == "unary" and node.text == "-":
        return "minus_" + spelled(node.parts[0])
    if node.kind == "binary" and node.text in WORDS:
        return f"{spelled(node.parts[0])}_{WORDS[node.text]}_{spelled(node.parts[1])}"
    return "".join(it if it.isalnum() else "_" for it in rendering.shown(node))


def name_of_access(base, steps):
    """A name that tells what an access is, from its steps with translated expressions."""
    pieces = [base]
    for mark, what in steps:
        if mark in (".", "->"):
            pieces.append(what.text)
        else:
            pieces += [spelled(it) for it in (what if mark == "(" else [what])]
    return "_".join(pieces)


def text_of_access(base, steps):
    """An access as it would be written in C, the key of its global. `a.b` and `a->b` are the same member."""
    text = base
    for mark, what in steps:
        if mark in (".", "->"):
            text += f"->{what.text}"
        elif mark == "[":
            text += f"[{rendering.shown(what)}]"
        else:
            text += f"({', '.join(rendering.shown(it) for it in what)})"
    return text
