"""Numbers of C as decimal numbers."""
from parsec.notes import Fault

LARGEST = 2**63 - 1


def decimal(text, line):
    """The decimal spelling of a number of C, and what was done, or None where it is one already."""
    if text.isdigit() and (text == "0" or text[0] != "0"):
        return in_range(text, int(text), line), None
    low = text.lower()
    digits = low.rstrip("lu")
    suffix = low[len(digits) :]
    if "u" in suffix:
        raise Fault(line, f"`{text}` is unsigned, and arithmetic with it wraps.", "Write it without the `u`, if nothing negative meets it.")
    if suffix not in ("", "l", "ll"):
        raise Fault(line, f"`{text}` is no number.", "Write a decimal number.")
    if low.startswith("0x") and digits[2:] and all(it in "0123456789abcdef" for it in digits[2:]):
        return in_range(text, int(digits[2:], 16), line), f"`{text}` is {int(digits[2:], 16)}."
    if low.startswith("0b") and digits[2:] and all(it in "01" for it in digits[2:]):
        return in_range(text, int(digits[2:], 2), line), f"`{text}` is {int(digits[2:], 2)}."
    if not digits.isdigit():
        raise Fault(line, f"`{text}` is no whole number.", "Write a decimal number.")
    if digits[0] == "0" and len(digits) > 1 and len(digits.lstrip("0")) > 1:
        raise Fault(line, f"`{text}` begins with 0: it is octal in C.", "Write it as a decimal number without the 0.")
    if digits[0] == "0" and len(digits) > 1 and digits.lstrip("0") in ("8", "9"):
        raise Fault(line, f"`{text}` begins with 0: it is octal in C, and none.", "Write it as a decimal number without the 0.")
    return in_range(text, int(digits), line), f"`{text}` is {int(digits)}."


def in_range(text, value, line):
    if value > LARGEST:
        raise Fault(line, f"`{text}` is more than {LARGEST}.", "Numbers have 64 bits.")
    return str(value)
