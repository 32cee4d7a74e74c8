"""Reads classes: definitions, places, priorities and bodies. Behind a form that can't be read it goes on at the next part."""
from parsec.notes import Fault
from parsec.reading_dependences import DependenceReader
from parsec.scanner import ACCESS
from parsec.tree import Argument, Body, Class, Definition, Node, Priority, Skip


class ClassReader(DependenceReader):
    def read_class(self):
        found = Class(self.walk.take())
        self.walk.take()
        if not self.walk.sees(")"):
            found.params.append(self.walk.take_name("a parameter"))
            while self.walk.sees(","):
                self.walk.take()
                found.params.append(self.walk.take_name("a parameter"))
        self.walk.take_mark(")", "after the parameters", "Parameters are names; what they are stands in lines below.")
        found.properties = self.read_properties()
        self.file.classes.append(found)
        self.part(found, self.read_space)
        self.part(found, self.read_flows)
        self.part(found, self.read_priority)
        self.read_bodies(found)

    def part(self, found, read):
        """Reads a part of a class; behind a form that can't be read it goes on at the next flow."""
        while True:
            before = self.walk.at
            try:
                return read(found)
            except Fault as fault:
                self.refuse(fault)
                self.recover_at_flow(before)

    def recover_at_flow(self, before):
        walk = self.walk
        if walk.at == before:
            walk.take()
        while not walk.is_over() and not (walk.now().kind == "name" and walk.now().text in ACCESS + ("BODY",)) and not self.begins_definition():
            if self.begins_class():
                return
            walk.take()

    def read_space(self, found):
        """Definitions, costs and the affinity."""
        walk = self.walk
        while True:
            token = walk.now()
            if token.text == "SIMCOST" and walk.now(1).text != "=":
                self.read_cost(found)
            elif token.is_name() and walk.now(1).text == "=":
                if found.affinity:
                    wrong = f"`{token.text}` is defined after the place of `{found.name.text}`."
                    self.refuse(Fault(token.line, wrong, "Move this line before the place."))
                found.definitions.append(self.read_definition())
            elif walk.sees(":"):
                walk.take()
                if found.affinity:
                    raise Fault(token.line, "A second place for the tasks of this class.", "Keep one.")
                found.is_broken = True
                found.affinity = self.read_affinity()
                found.is_broken = False
            else:
                return

    def read_cost(self, found):
        begin = self.walk.take()
        value = self.expressions.expression()
        found.costs.append(Skip("SIMCOST", begin.line, begin.start, value.end))

    def read_definition(self):
        name = self.walk.take()
        self.walk.take()
        try:
            if self.walk.sees("["):
                raise Fault(name.line, f"`{name.text}` is defined with indices of its own.", "Write it as one expression or one range.")
            argument = self.expressions.argument()
        except Fault as fault:
            self.refuse(fault)
            self.recover_at_definition()
            return Definition(name, Argument([Node("number", "0", name.line, name.end, name.end)], name.line, name.end, name.end), [], [])
        properties, semicolons = self.read_properties(), []
        while self.walk.sees(";", ","):
            semicolons.append(self.walk.take())
        return Definition(name, argument, properties, semicolons)

    def recover_at_definition(self):
        """Goes on in the next line that begins with a definition, a place, a flow or a body."""
        walk = self.walk
        while not walk.is_over() and not (walk.now().kind == "name" and walk.now().text in ACCESS + ("BODY",)):
            begins = walk.now().line > walk.last().line and (walk.sees(":", ";") or self.begins_definition() or self.begins_class())
            if begins:
                return
            walk.take()

    def read_affinity(self):
        target = self.read_target()
        if target.kind != "element":
            raise Fault(target.line, "The place of a class is no element of a collection.", "Write `: COLLECTION(indices)`.")
        target.properties += self.read_properties()
        return target

    def read_priority(self, found):
        if not self.walk.sees(";"):
            return
        mark = self.walk.take()
        if self.walk.sees("BODY"):
            self.notes.dropped(mark.line, "`;` without a priority.")
            self.file.skips.append(Skip("", mark.line, mark.start, mark.end))
            return
        value = self.expressions.expression()
        found.priority = Priority(mark, value, value.end)

    def read_bodies(self, found):
        if not self.walk.sees("BODY"):
            raise Fault(self.walk.now().line, f"{self.walk.now().shown()} stands where a part of `{found.name.text}` or its BODY is expected.", "")
        while self.walk.sees("BODY"):
            begin = self.walk.take()
            properties = self.read_properties()
            if self.walk.now().kind != "body":
                raise Fault(begin.line, "This BODY has no statements and no END.", "Close the properties by `]`.")
            text = self.walk.take()
            found.bodies.append(Body(begin, properties, text, self.walk.take()))
