"""Values of globals from their own property `default`, where it has one."""
from parsec import rendering
from parsec.evaluating import NoValue, value_of
from parsec.expressions import Reader
from parsec.names import Names
from parsec.notes import Fault, Notes
from parsec.scanner import Scanner
from parsec.translating import Translator
from parsec.tree import File
from parsec.walk import Walk


def expression_of(tokens, line):
    """The expression of a default, which may stand in a string."""
    if len(tokens) == 1 and tokens[0].kind == "quoted":
        text = tokens[0].text[1:-1]
    else:
        text = " ".join(it.text for it in tokens)
    walk = Walk(Scanner(text, line=line).scan())
    node = Reader(walk, text, of_c=True).expression()
    if not walk.is_over():
        raise Fault(line, "The default is no expression.")
    return node


def take_defaults(file, settings, notes):
    """Gives each global without a value that of its default, if that has one now."""
    for it in file.globals:
        found = next((one for one in (group.value("default") for group in it.properties) if one), None)
        name = it.name.text
        if found is None or name in settings.given or name in settings.values:
            continue
        names = Names(File(""), set())
        try:
            node = Translator(names, settings.values, Notes(), {}).node(expression_of(found.tokens, found.line))
            value = value_of(node, settings.values)
        except (Fault, NoValue):
            continue
        settings.used |= set(names.undeclared) | set(names.made.values())
        settings.values[name] = value
        notes.decide(it.name.line, f"`{name}` is {value} in the data, by its default `{rendering.shown(node)}`.")
