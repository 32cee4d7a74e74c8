"""A job as `ptg` will read it: classes with translated expressions, which are rendered, evaluated and compared."""
from dataclasses import dataclass, field


@dataclass
class PlanDependence:
    """`guard ? yes : no`, `guard ? yes` or `yes`."""

    inward: bool
    guard: object
    yes: object
    no: object
    line: int
    kept_type: str = None

    def targets(self):
        return [self.yes] + ([self.no] if self.no else [])


@dataclass
class PlanFlow:
    kind: str
    name: str
    line: int
    dependences: list = field(default_factory=list)


@dataclass
class PlanClass:
    name: str
    line: int
    params: list
    # (name, argument)
    definitions: list = field(default_factory=list)
    affinity: object = None
    flows: list = field(default_factory=list)

    def locals(self):
        return {name for name, _ in self.definitions}


@dataclass
class Plan:
    classes: list = field(default_factory=list)
    # collection -> sizes of its indices
    collections: dict = field(default_factory=dict)
    # kept type -> the collections that have it
    types: dict = field(default_factory=dict)

    def class_named(self, name):
        return next((it for it in self.classes if it.name == name), None)
