"""Characters that look like those of JDF, and are others: as a text processor or a web page puts them."""
import unicodedata

ALIKE = {
    "\u2212": "-", "\u2010": "-", "\u2011": "-", "\u2012": "-", "\u2013": "-", "\u2014": "-",
    "\u2264": "<=", "\u2a7d": "<=", "\u2265": ">=", "\u2a7e": ">=", "\u2260": "!=",
    "\u2190": "<-", "\u2192": "->", "\u27f5": "<-", "\u27f6": "->", "\u21d0": "<-", "\u21d2": "->",
    "\u2026": "..", "\u2025": "..", "\u00d7": "*", "\u00b7": "*", "\u22c5": "*", "\u2217": "*", "\u00f7": "/", "\u2215": "/",
    "\u2227": "&&", "\u2228": "||", "\u00ac": "!", "\u2236": ":", "\u201c": '"', "\u201d": '"', "\u2018": "'", "\u2019": "'",
}  # fmt: skip
INVISIBLE = {"\u00a0", "\u200b", "\u200c", "\u200d", "\u2060", "\ufeff", "\u00ad", "\u2028", "\u2029", "\u202f", "\u3000"}


def plain(char):
    """The ASCII that a character looks like, or nothing."""
    if char in ALIKE:
        return ALIKE[char]
    normal = unicodedata.normalize("NFKD", char)[:1]
    return normal if normal.isascii() and normal.isprintable() else ""


def char_at(text, start):
    """The character at a byte of a text, or nothing where that byte begins none."""
    for size in range(1, 5):
        try:
            return text[start : start + size].decode("utf-8")
        except UnicodeDecodeError:
            continue
    return ""


def reason(text, start):
    """What to say of a character past ASCII; or two times nothing."""
    char = char_at(text, start)
    if not char or char.isascii():
        return None, None
    name = f"U+{ord(char):04X} {unicodedata.name(char, '')}".strip()
    if char in INVISIBLE or unicodedata.category(char) in ("Zs", "Zl", "Zp", "Cf", "Cc"):
        return f"There is an invisible character here, {name}.", "Replace it by a space, or delete it."
    alike = plain(char)
    advice = f"Write `{alike}`." if alike else "Outside comments a JDF has ASCII characters only."
    return f"`{char}` is not ASCII: it is {name}.", advice
