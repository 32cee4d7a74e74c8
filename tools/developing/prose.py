"""The documents, their sentences, and the phrases that they don't use."""
import glob
import os
import re

TOP = os.path.dirname(os.path.dirname(os.path.dirname(os.path.realpath(__file__))))
MOST_WORDS = 30

# What a tool writes into a document: its words are those of the tool's sources.
MADE = re.compile(r"<!-- (\w+): [^\n]* ?-->\n.*?<!-- end of \1 -->\n", re.S)
END = re.compile(r"(?<=[.?!])[)*_]*\s+(?=[\"'(*_A-Z`\[0-9])")
ITEM = re.compile(r"\s*(?:[-*]|\d+\.)\s+")
# Dots after these end no sentence.
ABBREVIATIONS = re.compile(r"\b(e\.g|i\.e|cf|vs|etc)\.")
# Where no phrase is looked for: in quotes, and in a question with two parts, as 'which edge of which task'.
LEFT_OUT = re.compile(r"(?<!\w)'[^'\n]+'(?!\w)|\"[^\"\n]+\"|\bwhich \w+ of which\b")

# Phrases that documents don't use, each with what is written instead. All of them stood in the documents, and readers stumbled over them: they
# are the project's own where the field has a word (docs/glossary.md, first table), or no usual English. Only phrases that are never right belong
# here. What is quoted, and what stands in code, may have them.
PHRASES = {
    r"exactly (?:where|if)": "if and only if, or: exactly when",
    r"want of memory": "out of memory",
    r"wants? memory": "may run out of memory",
    r"(?:lets?|letting) go of": "drops, or: frees",
    r"of which": "a second sentence, or: whose",
    r"that which": "what, or: the one that",
    r"such as (?:are|is)": "those that are",
    r"in front of": "before",
    r"as \w+ as may be": "as .. as possible",
}
PHRASE = {re.compile(rf"\b{phrase}\b", re.I): instead for phrase, instead in PHRASES.items()}


def documents():
    found = [os.path.join(TOP, it) for it in ("README.md", "CONTRIBUTING.md")]
    for pattern in ("docs/*.md", "examples/*/*.md", "crates/*/*.md", "tools/*.md", "bench/*.md"):
        found += sorted(glob.glob(os.path.join(TOP, pattern)))
    return found


def by_hand(text):
    """A document without the parts that a tool makes; its lines keep their numbers."""
    return MADE.sub(lambda at: "\n" * at[0].count("\n"), text)


def paragraphs(text):
    """The paragraphs, list items and cells of a document, each with the line where it begins."""
    found, begun, lines, is_drawn = [], 0, [], False

    def end():
        if lines:
            found.append((begun, " ".join(lines)))
            lines.clear()

    for number, line in enumerate(text.split("\n"), 1):
        is_drawn ^= line.startswith("```")
        is_item = bool(ITEM.match(line))
        is_code = line.startswith("    ") and not lines
        if is_drawn or line.startswith(("```", "<!--")) or is_code or not line.strip():
            end()
        elif line.startswith("#"):
            end()
            found.append((number, line.lstrip("#").strip()))
        elif line.startswith("|"):
            end()
            found += [(number, cell) for cell in re.split(r"(?<!\\)\|", line)[1:-1]]
        else:
            if is_item:
                end()
            begun = begun if lines else number
            lines.append(ITEM.sub("", line, count=1) if is_item else line.strip())
    end()
    return found


def plain(paragraph):
    """A paragraph in which each code and each link is one word."""
    paragraph = re.sub(r"`+[^`]*`+", "`code`", paragraph)
    paragraph = re.sub(r"!?\[([^\]]*)\]\([^)]*\)", r"\1", paragraph)
    return ABBREVIATIONS.sub(r"\1", paragraph)


def sentences(text):
    for number, paragraph in paragraphs(text):
        for sentence in END.split(plain(paragraph)):
            yield number, sentence.strip()


def count_of(sentence):
    return len([word for word in sentence.split() if re.search(r"\w", word)])


def long_sentences(text, most=MOST_WORDS):
    """The sentences of more than so many words: the line where the paragraph of each begins, its number of words, and itself."""
    return [(number, count_of(it), it) for number, it in sentences(text) if count_of(it) > most]


def phrases(text):
    """The phrases that documents don't use: the line where the paragraph of each begins, the phrase, and what is written instead."""
    for number, paragraph in paragraphs(text):
        words = LEFT_OUT.sub("..", plain(paragraph))
        yield from ((number, at[0], instead) for phrase, instead in PHRASE.items() for at in phrase.finditer(words))
