"""The data of a converted job: what has a value, what is asked for, and the sizes of collections."""
from math import prod

from parsec.data import MOST_TILES, data_text
from parsec.sizes import Search


class Job:
    def __init__(self, converter, jdf, settings, notes):
        self.names, self.plan, self.products = converter.names, converter.plan, converter.products.sizes
        self.file, self.jdf, self.settings, self.notes = converter.file, jdf, settings, notes
        self.is_asked = False
        self.types = self.kept_types()
        self.sizes, self.unknown = {}, []

    def ask(self, line, text):
        self.is_asked = True
        self.notes.decide(line, text)

    def kept_types(self):
        """The types that stay, each with its collections."""
        found = {}
        for cls in self.plan.classes:
            for flow in cls.flows:
                for it in flow.dependences:
                    if it.kept_type and it.kept_type != "DEFAULT":
                        found.setdefault(it.kept_type, set()).update(target.name.text for target in it.targets() if target.kind == "element")
        return found

    def all_globals(self):
        """Each global once, with its line."""
        found = {}
        for it in self.file.globals:
            found.setdefault(it.name.text, it.name.line)
        for name in self.names.added():
            found.setdefault(name, self.names.undeclared.get(name) or self.names.numbers.get(name) or 1)
        return found

    def numbers(self):
        """The integers of the data; those without a value are asked for."""
        found = {}
        for name, line in self.all_globals().items():
            if name in self.names.collections:
                continue
            self.settings.used.add(name)
            if any(name in inner for inner in self.products.values()) and name not in self.settings.values:
                # (it was asked for with its collection)
                self.is_asked = True
                continue
            if name in self.settings.values:
                found[name] = self.settings.values[name]
            elif name in self.names.numbers:
                line = self.names.numbers[name]
                self.ask(line, f"`{name}` has no value: --set {name}=VALUE gives it.")
            else:
                found[name] = 0
                self.notes.kept(line, f"The global `{name}` stands in no expression; it is 0 in the data.")
        return found

    def first_sizes(self):
        """The sizes that are given, and 1 for the others."""
        for name, (count, line) in self.names.collections.items():
            self.settings.used.add(name)
            given = self.settings.sizes.get(name)
            if given is None:
                self.sizes[name] = [1] * min(count, 2)
                self.unknown.append(name)
                continue
            if len(given) != count:
                self.notes.refuse(
                    line,
                    f"`{name}` has {count} indices, and --set gives {len(given)} sizes.",
                    f"Write --set {name}={'x'.join('N' * count)}.",
                )
                continue
            self.sizes[name] = given if count <= 2 else [given[0], prod(given[1:])]
            if min(given) < 1 or prod(given) > MOST_TILES:
                self.notes.refuse(line, f"`{name}` has {prod(given)} tiles by --set; `ptg` takes 1 to {MOST_TILES}.", "Set smaller sizes.")

    def data_of(self, sizes, numbers, with_tiles=False):
        of_type = {name: it for it, names in self.types.items() for name in names}
        elements = max(1, self.settings.elements)
        types = {}
        for it in self.types:
            self.settings.used.add(it)
            types[it] = self.settings.values.get(it, elements)
        return data_text(elements, types, numbers, {name: (it, of_type.get(name)) for name, it in sizes.items()}, with_tiles)

    def make(self, program, with_tiles):
        """The text of the data file, with other opening values for all tiles or with zeros, or None where something is asked for; and what
        `check` says of the job."""
        numbers = self.numbers()
        self.first_sizes()
        if self.notes.refusals():
            return None, None
        if self.is_asked or (self.unknown and program is None):
            self.ask_sizes("no program `ptg` was found to look for them" if program is None else "they are looked for once all values are set")
            return None, None
        verdict, why = None, ""
        if program:
            data_of = lambda sizes: self.data_of(sizes, numbers)
            search = Search(program, self.jdf, self.plan, numbers, data_of, set(self.unknown))
            verdict, why = search.find(self.sizes)
        self.say_sizes(verdict, why)
        return self.data_of(self.sizes, numbers, with_tiles), verdict

    def ask_sizes(self, why):
        for name in self.unknown:
            count, line = self.names.collections[name]
            form = "SIZE" if count == 1 else "ROWSxCOLUMNS" if count == 2 else "x".join("N" * count)
            self.ask(line, f"The size of `{name}` is not known ({why}): --set {name}={form} gives it.")

    def say_sizes(self, verdict, why):
        if why and self.unknown:
            self.notes.decide(self.names.collections[self.unknown[0]][1], f"The search for sizes ended: {why}.")
        whole = verdict is not None and verdict.status == 0
        for name in self.unknown:
            size = " x ".join(map(str, self.sizes[name]))
            seen = "the least that has each place that a task names" if whole else "as far as `check` came"
            self.notes.decide(self.names.collections[name][1], f"`{name}` has {size} tiles in the data: {seen}.")
