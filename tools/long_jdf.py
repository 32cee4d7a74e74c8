#!/usr/bin/env python3
"""Prints a JDF text of exactly this many tokens (at least 100,000), to measure how `ptg show` and `ptg check` grow.

    tools/long_jdf.py 125000 > long.jdf
    tools/measure ./ptg show long.jdf > shown.jdf

    tools/long_jdf.py 125000 --data long.csv > long.jdf
    tools/measure ./ptg check long.jdf long.csv

A tenth of the tokens are globals, about half stand in guards and arguments of 64 classes (as long and as deep
as an expression may be), and the rest in bodies. With `--data FILE` the text passes the type check with the data
that are written to that file, and its expressions and bodies name the globals; its first flow has no input, so
`check` ends with the first task. A data file without its last line lacks a global, and `check` ends before the types.
"""
import sys

CLASSES = 64


class Text:
    """Lines of tokens, and how many tokens they have."""

    def __init__(self):
        self.lines = []
        self.count = 0

    def add(self, *tokens):
        self.lines.append(" ".join(tokens))
        self.count += len(tokens)


class Names:
    """The names that expressions use: the local alone, or the globals in turn."""

    def __init__(self, count):
        self.count = count
        self.next = 0

    def one(self):
        if not self.count:
            return "k"
        self.next = (self.next + 7919) % self.count
        return f"g{self.next}"


def expression(length, names):
    """An expression of this odd number of tokens, at most 255: operators of each rank in turn, and parentheses in front."""
    operators = ["+", "*", "==", "<", "&&", "-", "||", "%"]
    depth = length // 8
    tokens = ["("] * depth + ["k"]
    for i in range((length - 2 * depth) // 2):
        if i < depth:
            tokens += [operators[i % len(operators)], str(i), ")"]
        else:
            tokens += [operators[i % len(operators)], names.one()]
    return tokens


def dependences(text, name, budget, names):
    """Flows with dependences on expressions, of about this many tokens."""
    until = text.count + budget
    for f in range(8):
        text.add("RW", f"A{f}")
        for d in range(16):
            if text.count >= until:
                return
            guard = expression(151, names)
            text.add("->", *guard, "?", f"A{f}", name, "(", *expression(51, names), ")", ":", "D", "(", "0", ")")


def statements(text, budget, names):
    """Statements of a body, of this many tokens; where names are the local alone, semicolons are the rest of them."""
    while budget >= 9:
        text.add("A0", "[", "0", "]", "=", "k", "+", "1" if not names.count else names.one(), ";")
        budget -= 9
    if budget and not names.count:
        text.add(*[";"] * budget)


def write_data(path, count, others):
    """Writes the data of a text with this many globals that expressions name, and this many others."""
    with open(path, "w") as out:
        out.write("elems,1\ncoll,D,1\n")
        for g in range(count):
            out.write(f"int,g{g},{g % 1000}\n")
        for g in range(others):
            out.write(f"int,h{g},1\n")


def main():
    total = int(sys.argv[1])
    data = sys.argv[3] if sys.argv[2:3] == ["--data"] else None
    text = Text()
    names = Names(total // 10 if data else 0)
    if data:
        text.add("D")
    for g in range(total // 10):
        text.add(f"g{g}")
    share = (total // 2) // CLASSES
    for c in range(CLASSES):
        name = f"T{c}"
        text.add(name, "(", "k", ")")
        text.add("k", "=", "0", "..", "9")
        text.add(":", "D", "(", "0", ")")
        dependences(text, name, share, names)
        text.add("BODY")
        left = total - text.count - 1
        classes = CLASSES - c
        statements(text, left if classes == 1 else max(0, left // classes - share - 16), names)
        text.add("END")
    if data:
        others = total - text.count
        for g in range(others):
            text.lines.insert(0, f"h{g}")
            text.count += 1
        write_data(data, total // 10, others)
    print("\n".join(text.lines))
    assert text.count == total, text.count


main()
