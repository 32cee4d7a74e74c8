"""What a name at a place could mean: what is declared there, what the data have, and what is spelled nearly alike."""
import difflib

from data_text import names_of
from jdf_text import is_element_target, is_task_target, spelled
from spot import Spot, call

# A name is compared with this many others.
MOST_COMPARED = 5000


def nearest(name, known):
    """A question about the name that is spelled most like this one, if there is one."""
    known = list(known)[:MOST_COMPARED]
    alike = difflib.get_close_matches(name[:100], [it for it in known if it != name], 1, 0.6)
    same = [it for it in known if it.lower() == name.lower() and it != name]
    return f"Did you mean `{(same or alike)[0]}`? " if same or alike else ""


def listed(names, most=12):
    names = list(dict.fromkeys(names))
    return ", ".join(names[:most]) + (", .." if len(names) > most else "") if names else "none"


def integers(records):
    return names_of(records, ["int"])


def collections(records):
    return names_of(records, ["coll", "collof"])


def undeclared(name, outline, records):
    """A sentence where the data have a name that the JDF does not declare."""
    declared = [it.text for it in outline.globals]
    for kind, names in (("an integer", integers(records)), ("a collection", collections(records))):
        if name in names and name not in declared:
            where = f"It is {kind} of the data (line {names[name].line}), but the JDF does not declare it"
            return f"{where}: write `{name}` on a line of its own before the first class."
    return ""


def place_of(outline, cls, at):
    """What kind of name stands at a token: class, collection, flow, variable or value."""
    tokens, token = outline.tokens, outline.tokens[at]
    if cls.affinity and cls.affinity.at() == token.at():
        return "collection"
    if cls.begin and token.at() > cls.begin.at():
        return "flow" if at + 1 < len(tokens) and tokens[at + 1].text == "[" else "variable"
    if at > 0 and is_task_target(tokens, at - 1):
        return "class"
    return "collection" if is_element_target(tokens, at) else "value"


def known_at(outline, records, cls, at):
    """What kind of name stands at a token, and the names that are known there."""
    kind = place_of(outline, cls, at)
    declared = {it.text for it in outline.globals}
    numbers = [it for it in integers(records) if it in declared]
    locals_ = [it.text for it in cls.definitions if it.at() < outline.tokens[at].at()]
    return kind, {
        "class": [it.name.text for it in outline.classes],
        "collection": [it for it in collections(records) if it in declared],
        "flow": [it.name.text for it in cls.flows if it.kind.text != "CTL"],
        "variable": variables(cls, outline.tokens[at]) + locals_ + numbers,
        "value": locals_ + numbers,
    }[kind]


def variables(cls, token):
    """The names that the body declares before a token."""
    pairs = zip(cls.body, cls.body[1:])
    return [name.text for word, name in pairs if word.text in ("int", "for") and name.at() < token.at()]


def words(kind, name, cls):
    """The sentence on a name that is not defined."""
    return {
        "class": f"There is no class `{name}`.",
        "collection": f"There is no collection `{name}`.",
        "flow": f"{cls.name.text} has no flow `{name}` with a tile.",
    }.get(kind, f"`{name}` is not defined here.")


def within_brackets(tokens, at):
    """The tokens of the index after a name."""
    found = []
    for it in tokens[at + 2 : at + 40]:
        if it.text == "]":
            break
        found.append(it)
    return found


def of_another_kind(outline, records, cls, at, kind):
    """What is wrong where a name is defined, but as something else; or nothing."""
    name, tokens = outline.tokens[at].text, outline.tokens
    if kind == "variable" and tokens[at + 1].text == "(":
        return call(Spot(outline, at + 1), "a body")
    if kind == "variable" and name in [it.name.text for it in cls.flows]:
        advice = f": write `{name}[0] = ..;`" if tokens[at + 1].text == "=" else ""
        return f"`{name}` is a flow, not a number.", f"Its elements are `{name}[0]`, `{name}[1]` and so on{advice}."
    if kind == "flow":
        return no_element(records, cls, name, spelled(within_brackets(tokens, at)))
    if kind == "collection" and name in [it.name.text for it in outline.classes]:
        return f"`{name}` is a class, and a collection is expected here.", f"A target names the flow first: `FLOW {name}(..)`."
    if kind == "class" and name in collections(records):
        return f"`{name}` is a collection, and a class is expected here.", f"An element of it is written without a flow: `{name}(..)`."
    if kind in ("variable", "value") and name.lower() in ("true", "false"):
        return f"`{name}` is not defined here.", f"Write `{int(name.lower() == 'true')}`."
    return None


def no_element(records, cls, name, index):
    """What is wrong with an element of what is not a flow."""
    flows = [it.name.text for it in cls.flows if it.kind.text != "CTL"]
    if name in collections(records):
        advice = f"A body reads and writes the tiles of its flows: {listed(flows)}. Take the tile by `<- {name}(..)`."
        return f"`{name}` is a collection: a body has no access to it.", advice
    wrong = f"`{name}[{index}]` is not an element: `{name}` is not a flow of {cls.name.text}, and there are no arrays of integers."
    return wrong, f"{nearest(name, flows)}Flows with a tile: {listed(flows)}."


def unknown(outline, records, place):
    """What to say of a name that is not defined at a place."""
    at, cls = outline.index_at(place), outline.class_at(place)
    if at is None or cls is None:
        return None, None
    name = outline.tokens[at].text
    kind, known = known_at(outline, records, cls, at)
    other = of_another_kind(outline, records, cls, at, kind) if at + 1 < len(outline.tokens) else None
    hint = undeclared(name, outline, records) if kind not in ("class", "flow") else ""
    if other and not hint:
        return other
    if not hint and name in known:
        hint = f"`{name}` is declared in a block that has ended. "
        return words(kind, name, cls), f"{hint}Declare it before that block."
    return words(kind, name, cls), hint or f"{nearest(name, known)}Defined here: {listed(known)}."


def wrong_kind(outline, records, place):
    at = outline.index_at(place)
    if at is None:
        return None, None
    name = outline.tokens[at].text
    if name in integers(records) and name not in collections(records):
        declared = [it for it in collections(records) if it in {it.text for it in outline.globals}]
        return f"`{name}` is an integer of the data, and a collection is expected here.", f"Collections of this job: {listed(declared)}."
    return f"`{name}` is a collection, and a number is expected here.", "Read an element of a flow, `A[0]`, or use an integer of the data."


def no_such_flow(outline, place):
    at = outline.index_at(place)
    if at is None or at + 1 >= len(outline.tokens):
        return None, None
    cls = outline.class_named(outline.tokens[at + 1].text)
    flows = [it.name.text for it in cls.flows] if cls else []
    name = outline.tokens[at].text
    return f"The class {outline.tokens[at + 1].text} has no flow `{name}`.", f"{nearest(name, flows)}Its flows: {listed(flows)}."


def counted(number, one):
    return f"{number} {one}" + ("" if number == 1 else "s")


def arity(outline, records, place):
    at = outline.index_at(place)
    if at is None:
        return None, None
    name = outline.tokens[at].text
    cls = outline.class_named(name) if at > 0 and is_task_target(outline.tokens, at - 1) else None
    if cls:
        return f"The class {name} has {counted(len(cls.params), 'parameter')}: {listed([it.text for it in cls.params])}.", "Give it this many arguments."
    record = next((it for it in records if it.word() in ("coll", "collof") and name in [field.spelled() for field in it.fields]), None)
    if not record:
        return None, None
    sizes = len(record.fields) - (2 if record.word() == "coll" else 3)
    return f"The collection {name} has {counted(sizes, 'dimension')}.", "Give it this many indices."


def missing(outline, records):
    """What to say where the data lack globals of the JDF."""
    given = set(integers(records)) | set(collections(records))
    lacking = [it for it in outline.globals if it.text not in given]
    alike = "".join(nearest(it.text, given) for it in lacking[:1])
    advice = f"{alike}Add `int,NAME,V` for an integer, or `coll,NAME,R` for a collection."
    return lacking, f"The data have no line for: {listed([it.text for it in lacking])}.", advice
