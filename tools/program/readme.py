"""A page as its parts, and the options that the source of the command line declares: for `tools/check-docs` and the man page."""
import collections
import re

# The page that a reader needs first, and the page for operators.
README, OPERATING = "README.md", "docs/OPERATING.md"

# A part of a page: the titles of its chapter (`##`) and of its section (`##` or `###`), its kind and its text. The kinds are `title`,
# `paragraph`, `item` (of a list), `head` and `row` (of a table) and `code` (a line of it).
Part = collections.namedtuple("Part", "chapter section kind text")

# An option of a command: its name, the name of its value or `None`, its default or `None`, as the source has them, and its range.
Option = collections.namedtuple("Option", "name value default range")

# The least and the greatest number of an option, or `None` if any greater one is allowed, and the least but 0 if that has a meaning of
# its own and numbers between them are refused, else `None`.
Range = collections.namedtuple("Range", "least greatest least_set")

# The row of an option or an argument in the table of its command: its name, what it takes, the name of its value, the least and the
# greatest number, and its default.
ROW = re.compile(
    r'OptionRow \{\s*name: "([^"]+)",\s*takes: Takes::(\w+)(?:\(\s*"([^"]+)"'
    r'(?:,\s*ValueParser::\w+\(([\d_]+), ([\d_]+|u64::MAX)\),?)?\s*\))?,\s*default: (?:None|Some\("([^"]*)"\)),'
)

SPAN = re.compile(r"(`+)(.+?)\1(?!`)")

ITEM = re.compile(r" {0,3}(?:[-*+]|\d+[.)]) +(.*)")

RULE = re.compile(r"\|[-:| ]+\|?$")


def kind_of(line, is_open):
    """Returns the kind of a line, and its text. `is_open`: a paragraph or an item goes on before it."""
    if line.startswith("    ") and not is_open:
        return "code", line[4:]
    if found := re.match(r"#+ (.*)", line):
        return "title", found[1]
    if found := ITEM.match(line):
        return "item", found[1]
    if line.startswith("|"):
        return "rule" if RULE.match(line) else "row", line
    return "paragraph", line.strip()


def parts(text):
    """Returns the parts of a page, in order. Lines of one paragraph or item are joined."""
    found, chapter, section, is_fenced, is_open = [], "", "", False, False
    for line in text.splitlines():
        if line.startswith("```"):
            is_fenced, is_open = not is_fenced, False
            continue
        if not line.strip():
            is_open = False
            continue
        kind, words = ("code", line) if is_fenced else kind_of(line, is_open)
        if kind == "title":
            section = words
            chapter = chapter if line.startswith("###") else words
        if kind == "rule":
            found[-1] = found[-1]._replace(kind="head")
        elif kind == "paragraph" and is_open:
            found[-1] = found[-1]._replace(text=f"{found[-1].text} {words}")
        else:
            found.append(Part(chapter, section, kind, words))
        is_open = kind in ("paragraph", "item")
    return found


def cells(row):
    """Returns the cells of a table's row, in which `\\|` is a character."""
    inner = re.sub(r"(?<!\\)\|$", "", row.strip().removeprefix("|"))
    return [cell.strip().replace("\\|", "|") for cell in re.split(r"(?<!\\)\|", inner)]


def table(text, title):
    """Returns the rows of the tables of a chapter, without their heads."""
    return [cells(part.text) for part in parts(text) if part.chapter == title and part.kind == "row"]


def anchors(text):
    """Returns the anchors of a page's titles, as GitHub makes them. Of two titles with one anchor the second has `-1` after it."""
    found, counted = set(), collections.Counter()
    for part in (part for part in parts(text) if part.kind == "title"):
        anchor = re.sub(r"[^\w -]", "", part.text.lower()).replace(" ", "-")
        found.add(f"{anchor}-{counted[anchor]}" if counted[anchor] else anchor)
        counted[anchor] += 1
    return found


def spans(text):
    """Returns the texts of a text's code spans."""
    return [found[2] for found in SPAN.finditer(text)]


def sentences(text):
    """Returns the sentences of a text, each as a list of its words. A code span is one word, and of a link its text is read."""
    joined = SPAN.sub(lambda span: re.sub(r"\s", "\0", span[0]), text)
    pieces = re.split(r"(?<=[.?!])[)\"*_]*(?:\s+|$)", re.sub(r"\[([^\]]*)\]\([^)]*\)", r"\1", joined))
    found = [[word.replace("\0", " ") for word in piece.split() if re.search(r"[\w`]", word)] for piece in pieces]
    return [words for words in found if words]


def range_of(name, least, greatest, sources):
    """Returns the range of an option with these numbers. A constant `LEAST_NAME` has its least number but 0."""
    least_set = re.search(rf"\bLEAST_{name.replace('-', '_').upper()}: u\d+ = ([\d_]+);", "\n".join(sources.values()))
    return Range(int(least), None if greatest == "u64::MAX" else int(greatest), least_set and int(least_set[1]))


def declared(sources, command):
    """Returns the options that a command has, as `serve`, by the sources of the command line: the text of each module by its name."""
    opening = rf"(?ms)^pub\(crate\) const {command.upper()}_OPTIONS: \[OptionRow; \d+\] = \[(.*?)^\}}?\];"
    (table_text,) = re.findall(opening, "\n".join(sources.values()))
    found = []
    for name, takes, value, least, greatest, default in ROW.findall(table_text):
        if takes != "Argument":
            numbers = range_of(name, least, greatest, sources) if least else None
            found.append(Option(name, value or None, default or None, numbers))
    return found
