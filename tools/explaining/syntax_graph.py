"""What a Syntax refusal outside bodies is about. Each function knows one mistake, and gives what is wrong and what to write."""
from jdf_text import KINDS, RESERVED, is_name, spelled
from spot import LOGIC, call, first_of, preprocessor, shift

PROPERTIES = ("type_remote", "type_data", "layout", "count", "displ", "displ_remote", "displ_data", "layout_remote", "count_remote")
KIND_WORDS = {
    "rw": "RW", "inout": "RW", "rdwr": "RW", "readwrite": "RW", "in": "READ", "input": "READ", "read": "READ", "out": "WRITE",
    "output": "WRITE", "write": "WRITE", "ctl": "CTL", "control": "CTL",
}  # fmt: skip
TYPES = ("int", "long", "short", "unsigned", "char", "double", "float", "const", "int32_t", "int64_t", "size_t")
STATEMENTS = ("if", "for", "trap", "int", "while", "{")
AFTER = {
    "<-": "a target (`FLOW CLASS(..)`, `COLLECTION(..)`, `NEW`, `NULL`) or a guard",
    "->": "a target (`FLOW CLASS(..)`, `COLLECTION(..)`, `NULL`) or a guard",
    "READ": "the name of the flow",
    "WRITE": "the name of the flow",
    "RW": "the name of the flow",
    "CTL": "the name of the flow",
    ";": "the priority, an expression",
}
# 2 to the power of a parameter from 0 to 7, bit by bit
POWER = "`p = ({0} % 2 == 1 ? 2 : 1) * ({0} / 2 % 2 == 1 ? 4 : 1) * ({0} / 4 % 2 == 1 ? 16 : 1)` for `{0}` from 0 to 7"


def is_before_flows(spot):
    """Whether the token is in the definitions of a class, before its place."""
    return spot.cls and (spot.cls.affinity is None or spot.token.at() <= spot.cls.affinity.at()) and spot.token.at() > spot.cls.name.at()


def is_in_head(spot):
    """Whether the token is among the parameters of a class."""
    before = spot.back_to(["("])
    first = spot.at - len(before)
    return bool(before) and spot.cls and not any(it.text == ")" for it in before) and spot.tokens[first - 1 : first] == [spot.cls.name]


def is_in_dependence(spot):
    before = spot.back_to(["<-", "->"])
    return bool(before) and not any(it.text in KINDS or it.text in ("BODY", "END") for it in before)


def hash_sign(spot):
    return preprocessor(spot) if spot.text == "#" else None


def inline_c(spot):
    if spot.at_kind(0) == "raw":
        return "C code is allowed in `extern` only, where it is skipped.", "Write the expression in JDF's own operators."
    return None


def parameters(spot):
    if not is_in_head(spot):
        return None
    last = spot.at_text(-1)
    if spot.at_kind(0) == "name" and last in TYPES:
        return f"A parameter has no type: `{last}` is read as its name.", f"Write `{spot.text}` alone."
    if spot.at_kind(0) == "name" and spot.at_kind(-1) == "name":
        return f"Two parameters, `{last}` and `{spot.text}`, have no comma between them.", f"Write `{last}, {spot.text}`."
    if spot.text == "=":
        return "The values of a parameter are not given in the list of parameters.", f"Write `{last} = ..` on a line of its own below `{spot.cls.name.text}(..)`."
    if last in ("(", ","):
        return "The parameters of a class are names, with commas between them.", f"Write `{spot.cls.name.text}(k, m)`, for example."
    return None


def place_without_colon(spot):
    if spot.text == "(" and spot.at_kind(-1) == "name" and spot.begins_line(-1) and is_before_flows(spot):
        place = f"{spot.at_text(-1)}({spelled(spot.within())})"
        return f"`{place}` has no `:` before it.", f"The place of a task begins with a colon: `: {place}`."
    return None


def no_place(spot):
    ended = spot.at_kind(-1) in ("name", "number") or spot.at_text(-1) in (")", "]")
    if not (spot.text in KINDS or spot.text == "BODY" or (spot.text == ";" and spot.begins_line())) or not ended or not spot.cls or is_in_head(spot):
        return None
    name = spot.cls.name.text
    if spot.cls.affinity is None:
        example = spot.collections[0] if spot.collections else "D(0)"
        return f"The class {name} has no place: a line `: COLLECTION(..)` is missing.", f"Add it before this line, for example `: {example}`."
    if spot.tokens[spot.at - 1] == spot.cls.affinity:
        return f"`{spot.at_text(-1)}` has no index.", f"The place of a task is one tile: write `: {spot.at_text(-1)}(0)`, for example."
    if spot.text in KINDS and spot.cls.priority and spot.cls.priority.at() < spot.token.at():
        return "All flows come before the priority.", "Move the line that begins with `;` to the end, right before BODY."
    return None


def end_of_line(spot):
    return spelled([it for it in spot.of_line() if it.start > spot.token.start])


def range_in_words(spot):
    if not is_before_flows(spot) or spot.at_kind(-1) != "name" or not spot.begins_line(-1) or spot.text in ("=", "("):
        return None
    name = spot.at_text(-1)
    if spot.text in ("in", "<-", ":", "from"):
        return "The values of a name are given with `=`.", f"Write `{name} = {end_of_line(spot)}`."
    if name == "for" and spot.at_kind(0) == "name":
        return "A definition has no `for`.", f"Write `{spot.text} = lo .. hi`."
    if spot.at_kind(0) == "name":
        return f"A definition has no type: `{name}` is read as its name.", f"Write `{spot.text} = ..`."
    return None


def range_with_colon(spot):
    """`k = 0 : NB` and `k = 0 to NB`, and three dots."""
    line = spot.of_line()
    if spot.text == "." and spot.at_text(-1) == "..":
        return "A range has two dots.", "Write `lo .. hi`."
    if spot.text == ".." and [it.text for it in spot.of_line()].count("..") > 2:
        return "A range has at most a low end, a high end and a step.", "Write `lo .. hi` or `lo .. hi .. step`."
    if not is_before_flows(spot) and spot.at_text(-2) != ":":
        return None
    if spot.at_text(-2) == ":" and not spot.begins_line(-2):
        line = [it for it in spot.tokens if it.line == spot.tokens[spot.at - 2].line]
    elif not (spot.at_text(-1) == ":" and not spot.begins_line(-1)) and spot.text not in ("to", ","):
        return None
    at = next((at for at, it in enumerate(line) if it.text in (":", "to", ",")), None)
    if at is None or len(line) < 4 or line[1].text != "=":
        return None
    return f"`{spelled(line)}` is not a range.", f"A range has two dots: `{spelled(line[:at])} .. {spelled(line[at + 1 :])}`."


def index_of_a_global(spot):
    if spot.text != "[" or spot.at_kind(-1) != "name":
        return None
    inner = [it.text for it in spot.within()]
    if not inner or "=" in inner:
        return None
    if spot.at_text(-2) in KINDS:
        return "A flow is named without an index.", f"Write `{spot.at_text(-2)} {spot.at_text(-1)}`; a body names its elements, as `{spot.at_text(-1)}[0]`."
    name = f"{spot.at_text(-1)}[{spelled(spot.within())}]"
    advice = "Compute the value from the parameters, or give each one as an `int` of the data. Only a body has indices, for elements of tiles."
    return f"`{name}` has an index, and there are no arrays of integers.", advice


def single_equals(spot):
    if spot.text == "=" and (is_in_dependence(spot) or (spot.is_in_parentheses() and not is_in_head(spot))) and spot.at_text(-1) != "type":
        right = spot.at_text(1) if spot.at_kind(1) in ("name", "number") else ".."
        left = spot.at_text(-1) if spot.at_kind(-1) in ("name", "number") else ".."
        return "`=` does not compare.", f"Write `{left} == {right}`."
    return None


def assigned_flow(spot):
    if spot.at_text(-2) not in KINDS or spot.at_kind(-1) != "name":
        return None
    flow = f"{spot.at_text(-2)} {spot.at_text(-1)}"
    if spot.text == "=":
        return "A flow does not get its tile by `=`.", f"Write `{flow} <- ..` for where its tile comes from, and `-> ..` for where it goes."
    if spot.text == ",":
        return "A line declares one flow.", f"Write each flow on a line of its own, as `{flow} <- ..`."
    if not spot.begins_line() and spot.at_kind(0) in ("name", "number") or spot.text == "(":
        return f"After `{flow}` there has to be an arrow.", f"Write `{flow} <- ..` for where its tile comes from, and `-> ..` for where it goes."
    return None


def global_with_value(spot):
    if spot.text == "=" and spot.cls is None and spot.at_kind(-1) == "name":
        name = spot.at_text(-1)
        return "A JDF declares a global by its name alone.", f"Write `{name}`, and give its value in the data: `int,{name},{spot.at_text(1) or '..'}`."
    return None


def no_body(spot):
    cls = spot.cls
    if not cls or cls.affinity is None or spot.token.at() <= cls.affinity.at() or not spot.begins_line():
        return None
    if spot.text == "END":
        return f"The class {cls.name.text} has no BODY.", "Write `BODY` on a line before this one."
    if spot.at_kind(0) != "name" and spot.text != "{":
        return None
    if spot.at_text(1) == "=" and not any(it.text == ";" for it in spot.of_line()):
        return "Definitions come before the place of the task.", f"Move `{spot.text} = ..` above the line `: {cls.affinity.text}(..)`."
    if spot.at_text(1) in ("[", "=", "+") or spot.text in STATEMENTS:
        return "This looks like a statement of a body, but no BODY begins before it.", "Write `BODY` on a line before the first statement."
    return None


def kind_of_flow(spot):
    if not spot.begins_line() or spot.text in RESERVED or not spot.cls or spot.cls.affinity is None or (spot.at_kind(0), spot.at_kind(1)) != ("name", "name"):
        return None
    name, kind = spot.at_text(1), KIND_WORDS.get(spot.text.lower())
    advice = f"Write `{kind} {name}`: the kinds are READ, WRITE, RW and CTL, in capitals." if kind else "A flow begins with READ, WRITE, RW or CTL, in capitals."
    return f"`{spot.text}` is not a kind of flow.", advice


def flow_without_kind(spot):
    if spot.at_kind(0) == "name" and spot.at_text(1) in ("<-", "->") and spot.cls and spot.cls.affinity is not None:
        return f"The flow `{spot.text}` has no kind before its name.", f"Write READ, WRITE, RW or CTL: `RW {spot.text}`, for example."
    return None


NESTED = "Write a dependence for each case, and join guards by `&&`: `-> c ? t`, `-> !c && d ? u`."


def nested_targets(spot):
    if not is_in_dependence(spot):
        return None
    before = [it.text for it in spot.back_to(["<-", "->"])]
    mark = next((at for at in range(len(before) - 1, -1, -1) if before[at] in ("?", ":")), None)
    if spot.text == ":" and before.count("?") == 1 and before.count(":") == 1:
        return "A dependence has two targets at most.", NESTED
    if mark is None or "?" not in before:
        return None
    last = before[mark]
    if spot.at_text(-1) == "?" and spot.at_kind(0) == "number":
        return "After `?` there has to be a target.", "A guard with a `? :` of its own needs parentheses: `(a ? b : c) ? target`."
    if spot.text == ":" and len(before) - mark == 2 and spot.at_kind(-1) == "name":
        return f"`{spot.at_text(-1)}` alone is not a target.", "A target is `FLOW CLASS(..)`, `COLLECTION(..)`, `NEW` or `NULL`."
    if len(before) - mark <= 2 and (spot.text in ("?", "<", "<=", ">", ">=", "==", "!=", "&&", "||", "(") or spot.at_kind(0) == "number"):
        where = "`c ?`" if last == "?" else "`c ? target :`"
        return f"After {where} there has to be a target, not another guard.", NESTED
    return None


def target_in_target(spot):
    if spot.at_kind(0) == "name" and spot.at_kind(-1) == "name" and is_in_dependence(spot) and spot.at_text(1) == "(":
        before = [it.text for it in spot.back_to(["<-", "->"])]
        if before.count("(") > before.count(")"):
            return "An argument of a target is a number, not another target.", "A dependence names a flow of one task: `<- A T(k - 1)`."
    return None


def properties(spot):
    last = spot.at_text(-1)
    if spot.at_kind(0) == "quoted" and last == "=":
        return "The type of a dependence is a name without quotes.", "Write `[type = NAME]`."
    if spot.text in PROPERTIES or (last == "[" and spot.text != "type" and is_in_dependence(spot)):
        return f"`{spot.text}` is not a property of a dependence: `type` is the only one.", "Remove it: a tile is sent whole."
    if spot.at_text(-2) == "=" and spot.at_text(-3) == "type":
        return "After the type of a dependence there has to be `]`.", "`[type = NAME]` is all that a dependence says of its tile."
    if spot.text == "[" and last in ("<-", "->"):
        return "A dependence has no indices of its own.", "Put the range into the target: `-> FLOW CLASS(0 .. n)`."
    if spot.text == "[":
        return "There can be no properties here.", "A dependence may have `[type = NAME]` at its end; a definition has none."
    if spot.text == ":" and last == "]":
        return "The type comes once, after the whole dependence.", "Write `c ? t : u [type = NAME]`."
    return None


def second_body(spot):
    if spot.text == "BODY" and spot.at_text(-1) == "END":
        return "A class has one body.", "Choose one, or make two classes."
    return None


def end_too_many(spot):
    if spot.text == "END" and spot.at_text(-1) == "END":
        return "No BODY belongs to this END.", "Remove it."
    return None


def open_parenthesis(spot):
    """A parenthesis that is not closed before a guard's `?`, or before the line ends."""
    dependence = spot.back_to(["<-", "->"]) if is_in_dependence(spot) else []
    texts = [it.text for it in dependence]
    if spot.text == "(" and spot.at_kind(-1) == "name" and "?" in texts:
        before = texts[: texts.index("?")]
        if before.count("(") > before.count(")"):
            return "A `)` is missing before the `?` of the guard.", f"Write `{spelled(dependence[: texts.index('?')])}) ? ..`."
    if spot.text in RESERVED or spot.text in ("<-", "->") or spot.begins_line():
        last = [it for it in spot.tokens[: spot.at] if it.line == spot.tokens[spot.at - 1].line]
        texts = [it.text for it in last]
        if texts.count("(") > texts.count(")"):
            return f"A `(` of line {last[-1].line} is not closed.", f"Add `)` after `{spelled(last[-3:])}`, or where it belongs."
    return None


def no_operator(spot):
    ended = spot.at_kind(-1) in ("name", "number") or spot.at_text(-1) == ")"
    if ended and not spot.begins_line() and spot.at_kind(0) in ("name", "number") and spot.text not in RESERVED and not is_global(spot):
        return f"Between `{spot.at_text(-1)}` and `{spot.text}` something is missing.", "Write an operator, a comma or `..` between them."
    return None


def is_global(spot):
    """Whether the token before could be a global or the head of a class."""
    last = spot.beside(-1)
    cls = spot.outline.class_at(last.at()) if last else None
    return cls is None or (cls.end is not None and cls.end.at() < last.at())


def members(spot):
    if spot.text == "<-" and not spot.begins_line() and (is_before_flows(spot) or spot.at_kind(1) == "number"):
        return "`<-` is read as an arrow.", f"Put a blank between `<` and `-`: `{spot.at_text(-1)} < -{spot.at_text(1)}`."
    if spot.text == "->" and spot.touches():
        return "An expression has no members, so no `->`.", "Declare an integer global, and give it in the data."
    if spot.text == ".":
        return "A single dot means nothing in a JDF: there are no members and no fractions.", "Declare an integer global, and give it in the data."
    return None


def operators(spot):
    if spot.text in ("<", ">") and spot.at_text(-1) == spot.text:
        divided = "Divide by a power of two" if spot.text == ">" else "Multiply by a power of two"
        power = POWER.format(spot.at_text(1) if spot.at_kind(1) == "name" else "s")
        return shift(spot, f"{divided}, and define it: {power}. Where all tasks have the same, give it as an `int` of the data.")
    if spot.text in ("^", "~"):
        return f"There is no operator `{spot.text}`: none works on bits.", "Write it with `+ - * / %`, or give the value in the data."
    if spot.text == "+":
        return "There is no prefix `+`.", "Leave it out."
    if spot.text in LOGIC and spot.at_kind(-1) in ("name", "number") and not spot.begins_line():
        return f"`{spot.text}` is not an operator.", f"Write `{LOGIC[spot.text]}`."
    return None


def calls(spot):
    if spot.text == "?" and spot.at_text(-1) == ")":
        return "The name before the parenthesis begins a target, which has no `?` after it.", "An expression has no name with arguments: write a guard without it."
    if spot.text == ":" and spot.at_kind(-1) == "name" and spot.at_text(-2) == ")":
        return f"`{spot.at_text(-1)}` would begin a definition here: there are no casts.", f"Write `{spot.at_text(-1)}` alone."
    if spot.text == "(" and spot.at_kind(-1) == "name":
        return call(spot, "an expression")
    return None


def end_marks(spot):
    if spot.at_text(-1) == "SIMCOST":
        return "There is no SIMCOST.", "Remove the line."
    if spot.text == ";":
        return "A definition or a dependence does not end with `;`: that mark begins the priority, after the flows.", "Remove it."
    if spot.text in ("{", "}"):
        return "A class has no braces.", "After its head come its definitions, `: D(..)`, its flows, `BODY`, statements and `END`."
    return None


def global_after_class(spot):
    last = spot.at_text(-1)
    if spot.outline.classes and is_name(spot.token) and spot.at_kind(-1) == "name" and last not in RESERVED and is_global(spot):
        return "After the name of a class there has to be `(`; all globals come before the first class.", f"If `{last}` is a global, move it to the top."
    return None


MISTAKES = [
    hash_sign, inline_c, second_body, end_too_many, parameters, open_parenthesis, place_without_colon, no_place, range_in_words, range_with_colon, index_of_a_global,
    single_equals, assigned_flow, global_with_value, no_body, kind_of_flow, flow_without_kind, target_in_target, nested_targets, properties, members, operators, calls,
    end_marks, global_after_class, no_operator,
]  # fmt: skip
DIFFERING = [hash_sign, inline_c, index_of_a_global, second_body, flow_without_kind, nested_targets, properties, members, operators, calls, end_marks, global_after_class]


def reason(spot):
    return first_of(MISTAKES, DIFFERING, spot, AFTER)
