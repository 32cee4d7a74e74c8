"""What a Syntax refusal in a body is about. Each function knows one mistake, and gives what is wrong and what to write."""
from jdf_text import spelled
from spot import LOGIC, call, first_of, preprocessor, shift

TYPES = ("double", "float", "long", "short", "char", "unsigned", "const", "bool", "size_t", "int32_t", "int64_t", "let", "var", "auto")
STATEMENT = {it: "a statement, which begins with `int`, a name, `if`, `for` or `trap`" for it in (";", "{", "}", "BODY")}
SHIFT = "A loop makes the power of two: `int p = 1; for i = 1 .. {0} {{ p = p * 2; }}`."


def end_of_body(spot):
    if spot.text == "END":
        return "The body ends within a statement or a block.", "Add the missing `;` or `}`."
    return None


def no_c(spot):
    if spot.at_kind(0) == "quoted":
        return "A body has no strings.", "A body is not C: remove it. `trap word;` ends a task with a word."
    if spot.text == "#":
        return preprocessor(spot)
    if spot.text == "." and spot.at_text(-1) == "..":
        return "A range has two dots.", "Write `for i = lo .. hi { }`."
    if spot.text == ".":
        return "There are no fractions and no members.", "All numbers are integers."
    if spot.text == "->":
        return "There are no members and no pointers.", "The elements of a tile are `FLOW[i]`."
    return None


def loops(spot):
    last = spot.at_text(-1)
    if last in ("while", "do") and spot.text in ("(", "{"):
        return f"There is no `{last}` loop.", "Write `for i = lo .. hi { if (c) { } }`, where `hi` bounds the number of turns."
    if spot.text == "(" and last == "for":
        return "A `for` loop is not that of C.", "Write `for i = lo .. hi { }`, with both ends included."
    if last == "int" and spot.at_text(-2) == "for" or (last == "for" and spot.text == "int"):
        return "The variable of a loop has no type.", "Write `for i = lo .. hi { }`."
    if spot.at_text(-2) == "for" and spot.text in ("in", ":", "<-"):
        return f"A loop gives its variable values with `=`, not with `{spot.text}`.", f"Write `for {last} = lo .. hi {{ }}`."
    return loop_ends(spot)


def loop_ends(spot):
    before = [it.text for it in spot.of_line() if it.start < spot.token.start]
    if "for" not in before:
        return None
    after = before[len(before) - 1 - before[::-1].index("for") :]
    if spot.text == ".." and after.count("..") == 1:
        return "A loop of a body has no step.", "Loop over the number of the turn: `for j = 0 .. n { int i = lo + j * step; }`."
    if spot.text in (":", "to", ",") and ".." not in after and "{" not in after:
        return f"The ends of a loop are not joined by `{spot.text}`.", "A range has two dots: `for i = lo .. hi { }`."
    return None


def other_statements(spot):
    last = spot.at_text(-1)
    if last == "return":
        return "A body has no `return`: it runs to its end.", "Put what must not run into an `if`, or write `trap word;`."
    if last in ("break", "continue", "goto"):
        return f"A body has no `{last}`.", "Put what must not run into an `if`."
    if last == "switch":
        return "A body has no `switch`.", "Write an `if` for each case."
    return None


def elses(spot):
    if spot.text == "if" and spot.at_text(-1) == "else":
        return "There is no `else if`.", "Write `else { if (c) { } }`."
    if spot.text in ("elif", "elseif", "elsif"):
        return f"There is no `{spot.text}`.", "Write `else { if (c) { } }`."
    if spot.text == "else":
        return "This `else` belongs to no `if`.", "Write it right after the `}` of an `if`, once: `if (c) { } else { }`."
    return None


def single_equals(spot):
    if spot.text == "=" and spot.is_in_parentheses():
        right = spot.at_text(1) if spot.at_kind(1) in ("name", "number") else ".."
        left = spot.at_text(-1) if spot.at_kind(-1) in ("name", "number") else ".."
        return "`=` does not compare.", f"Write `{left} == {right}`."
    if spot.text == "==" and spot.begins_line(-1) or (spot.text == "==" and spot.at_text(-1) == "]"):
        return "`==` compares, and does not assign.", "Write `FLOW[i] = ..;` or `x = ..;`."
    return None


def declarations(spot):
    last, before = spot.at_text(-1), spot.at_text(-2)
    if last == "int" and spot.text == "*":
        return "There are no pointers.", "The elements of a tile are `FLOW[i]`."
    if before == "int" and spot.text == ";":
        return "A variable is declared with a value.", f"Write `int {last} = 0;`."
    if before == "int" and spot.text == ",":
        return "A statement declares one variable.", f"Write `int {last} = 0;`, and a statement for each other one."
    if before == "int" and spot.text == "[":
        return "There are no arrays.", "A variable holds one number; the elements of a tile are `FLOW[i]`."
    if last in TYPES and spot.at_kind(0) == "name":
        return f"There is no type `{last}`: all numbers are integers of 64 bits.", f"Write `int {spot.text} = ..;`."
    return None


def assignments(spot):
    following, last = spot.at_text(1), spot.at_text(-1)
    if spot.text in ("+", "-", "*", "/", "%", "&", "|") and following == "=":
        return f"There is no `{spot.text}=`.", f"Write the target again: `x = x {spot.text} ..;`."
    if spot.text in ("+", "-") and following == spot.text or (spot.text in ("+", "-") and last == spot.text):
        return f"There is no `{spot.text * 2}`.", f"Write `x = x {spot.text} 1;`."
    if spot.text == ":" and following == "=":
        return "There is no `:=`.", "Write `x = ..;`."
    if spot.text == "[" and last == "]":
        return "An element has one index.", "Compute it: row `i` and column `j` of rows of `n` elements is `FLOW[i * n + j]`."
    if last in ("}", "]", ")") and spot.text == "=":
        return "This cannot be assigned to.", "The assignments are `x = ..;` and `FLOW[i] = ..;`."
    return None


def operators(spot):
    if spot.text in ("<", ">") and spot.at_text(-1) == spot.text:
        return shift(spot, SHIFT.format(spot.at_text(1) if spot.at_kind(1) == "name" else "s"))
    if spot.text in ("^", "~"):
        return f"There is no operator `{spot.text}`: none works on bits.", "Write it with `+ - * / %`."
    if spot.text in LOGIC and spot.at_kind(-1) in ("name", "number") and not spot.begins_line():
        return f"`{spot.text}` is not an operator.", f"Write `{LOGIC[spot.text]}`."
    return None


def calls(spot):
    if spot.text != "(" or spot.at_kind(-1) != "name":
        return None
    name = spot.at_text(-1)
    if spot.cls and name in [it.name.text for it in spot.cls.flows]:
        return f"`{name}` is a flow, and its elements have an index in brackets.", f"Write `{name}[{spelled(spot.within()) or 0}]`."
    return call(spot, "a body")


def braces(spot):
    if spot.at_text(-1) == "if":
        return "The condition of an `if` needs parentheses.", "Write `if (c) { }`."
    is_after_condition = spot.at_text(-1) == ")" and spot.before_parentheses() == "if"
    if (is_after_condition or spot.at_text(-1) == "else") and spot.text != "{":
        return "A block needs braces.", "Write `if (c) { .. } else { .. }`."
    if spot.text == "}":
        before = [it.text for it in spot.cls.body if it.start < spot.token.start] if spot.cls else []
        if before.count("{") <= before.count("}"):
            return "No `{` belongs to this `}`.", "Remove it."
    return None


def no_semicolon(spot):
    ended = spot.at_kind(-1) in ("name", "number") or spot.at_text(-1) in ("]", ")")
    if ended and spot.begins_line() and (spot.at_kind(0) == "name" or spot.text == "}"):
        return "The statement before this line has no `;`.", f"Write `;` after `{spot.at_text(-1)}` in line {spot.beside(-1).line}."
    if ended and spot.text == "}":
        return "The last statement of this block has no `;`.", f"Write `{spot.at_text(-1)}; }}`."
    if spot.at_kind(0) == "name" and spot.at_kind(-1) == "name":
        last = spot.at_text(-1)
        return f"A statement that begins with `{last}` assigns to it: `{last} = ..;`.", "A variable is declared by `int`, and there is no other type."
    return None


MISTAKES = [end_of_body, no_c, loops, other_statements, elses, single_equals, declarations, assignments, operators, calls, braces, no_semicolon]
DIFFERING = [no_c, loops, other_statements, declarations, assignments, operators, calls, braces]


def reason(spot):
    return first_of(MISTAKES, DIFFERING, spot, STATEMENT)
