"""The form of README.md and docs/OPERATING.md, which `tools/check-docs` asks for: their titles, the size of their parts, the options that
they name, and README's tables of options and of proofs."""
import collections
import re

from readme import OPERATING, README, cells, declared, parts, sentences, spans, table

# Per section, in lines of LINE_WIDTH characters; per sentence, in words; per paragraph or list item, in characters.
SECTION_LINES, SENTENCE_WORDS, PARAGRAPH_CHARACTERS = 40, 30, 600

LINE_WIDTH = 120

# Titles that the man page, the tools and other pages name: each is on its page once, and not on the other one.
TITLES = {
    README: ("Two commands", "Try it", "Options of `serve`", "What to know", "Figures", "What is proved", "What is trusted"),
    OPERATING: ("Lines on standard error", "If something is wrong"),
}

OPTIONS, PROVED = "Options of `serve`", "What is proved"

OPTION_COLUMNS = ["Option", "What it does", "Range", "Default"]

PROVED_ROWS = 15

# What names a theorem: a clause after its function, a law or a module of laws.
CITED = re.compile(r"`#`\w+`|`(?:\w+::)*\w*laws(?:::\w+)?`")

# What names a title of the same page. A title of another page is named by a link.
TITLE_CITED = re.compile(r"\b(?:[Ss]ee|[Cc]heck of) \*([A-Z][^*]*)\*")

# What declares an option, and what declares a range, in any form that a source of the command line could have.
OF_OPTION, OF_RANGE = r"\btakes: Takes::(?!Argument\b)\w|\.long\(\"", r"\bValueParser::\w+\(|\.value_parser\(clap::"

# The options that each command has by the parser of the command line.
OF_EACH = {"help", "version"}


def lines_of(part):
    """Returns how many lines a part takes."""
    return {"code": 1, "paragraph": -(-len(part.text) // LINE_WIDTH), "item": -(-len(part.text) // LINE_WIDTH)}.get(part.kind, 0)


def texts_of(part):
    """Returns the texts of a part that sentences are looked for in."""
    return {"code": [], "head": cells(part.text), "row": cells(part.text)}.get(part.kind, [part.text])


def begin_of(text):
    return " ".join(text.split()[:6]) + " .."


def oversized(page):
    """Sections, paragraphs, items and sentences that are longer than allowed."""
    sizes = collections.Counter()
    for part in page:
        sizes[part.chapter, part.section] += lines_of(part)
        if part.kind in ("paragraph", "item") and len(part.text) > PARAGRAPH_CHARACTERS:
            yield f"{len(part.text)} characters in the {part.kind} {begin_of(part.text)!r}; at most {PARAGRAPH_CHARACTERS} are allowed"
        for words in (words for text in texts_of(part) for words in sentences(text) if len(words) > SENTENCE_WORDS):
            begin = begin_of(" ".join(words))
            yield f"{len(words)} words in the sentence {begin!r} of {part.section!r}; at most {SENTENCE_WORDS} are allowed"
    for (_, section), lines in sizes.items():
        if lines > SECTION_LINES:
            yield f"{lines} lines of text in {section!r}; at most {SECTION_LINES} are allowed"


def wrong_titles(name, page):
    there = [part.text for part in page if part.kind == "title"]
    for owner, title in ((owner, title) for owner, titles in TITLES.items() for title in titles):
        if there.count(title) != (owner == name):
            wanted = "once" if owner == name else f"on {owner} alone"
            yield f"the title {title!r} is there {there.count(title)} times, and not {wanted}"


def unknown_titles(page):
    there = {part.text for part in page if part.kind == "title"}
    for title in (title for part in page if part.kind != "code" for title in TITLE_CITED.findall(part.text)):
        if title not in there:
            yield f"*{title}* is no title"


def wrong_range(row, numbers):
    """What is wrong with the cell of an option's range."""
    cell, words, or_zero = row[OPTION_COLUMNS.index("Range")], "", ""
    if numbers:
        least = numbers.least if numbers.least_set is None else numbers.least_set
        words = f"{least} or more" if numbers.greatest is None else f"{least} to {numbers.greatest}"
        or_zero = f", or {numbers.least} for " if least != numbers.least else ""
    if not re.fullmatch(words + or_zero + (r"\D+" if or_zero else ""), cell):
        yield f"the row of {row[0]} has the range {cell!r}, and not {words + or_zero!r}"


def wrong_rows(text, options):
    """Rows of the table of options that name no option, or another range or default; options without exactly one row."""
    heads = [cells(part.text) for part in parts(text) if part.chapter == OPTIONS and part.kind == "head"]
    if heads != [OPTION_COLUMNS]:
        yield f"{OPTIONS!r} has tables with the columns {heads}, and not one with {OPTION_COLUMNS}"
    rows, wanted = table(text, OPTIONS), {}
    for option in options:
        wanted[f"`--{option.name} {option.value}`" if option.value else f"`--{option.name}`"] = option
    counted = collections.Counter(row[0] for row in rows)
    for first in wanted:
        if counted[first] != 1:
            yield f"{counted[first]} rows of {OPTIONS!r} begin with {first}, and not one"
    for row in rows:
        if row[0] not in wanted:
            yield f"a row of {OPTIONS!r} begins with {row[0]}, which is no option with the name of its value"
        elif len(row) != len(OPTION_COLUMNS):
            yield f"the row of {row[0]} has {len(row)} cells, and not {len(OPTION_COLUMNS)}"
        else:
            yield from wrong_range(row, wanted[row[0]].range)
            if (default := wanted[row[0]].default) and not re.match(rf"`?{re.escape(default)}(?![\w,.]*\d)", row[-1]):
                yield f"the row of {row[0]} has the default {row[-1]!r}, which doesn't begin with {default}"


def unknown_options(page, names):
    """Code spans that begin as an option of the program does, and name none."""
    said = {span for part in page if part.kind != "code" for span in spans(part.text) if span.startswith("--")}
    for span in sorted(said):
        for name in re.findall(r"(?:^|\s)--([^\s=]*)", span):
            if name not in names:
                yield f"`{span}` names --{name}, which is no option of relay"


def unproved_rows(text):
    """What is wrong with the table of theorems."""
    rows = table(text, PROVED)
    if not 1 <= len(rows) <= PROVED_ROWS:
        yield f"{PROVED!r} has {len(rows)} rows in tables, and not 1 to {PROVED_ROWS}"
    for row in (" | ".join(row) for row in rows):
        if not CITED.search(row):
            yield f"the row {begin_of(row)!r} of {PROVED!r} cites no clause and no law"


def wrong_page(name, page, names):
    """What is wrong with a page of this name beside the tables of README. `names` are those of all options."""
    yield from wrong_titles(name, page)
    yield from unknown_titles(page)
    yield from oversized(page)
    yield from unknown_options(page, names)


def wrong_form(readme, operating, sources):
    """Yields the name of a page and what is wrong with its text, by the sources of the command line: the text of each module by its name."""
    options = {command: declared(sources, command) for command in ("serve", "pull", "talk", "steps", "pass")}
    found = [option for each in options.values() for option in each]
    names = OF_EACH | {option.name for option in found}
    for what, form, those in (("options", OF_OPTION, found), ("ranges", OF_RANGE, [it for it in found if it.range])):
        if len(those) != (there := sum(len(re.findall(form, source)) for source in sources.values())):
            yield README, f"{len(those)} {what} of commands are found in sources that declare {there}"
    for name, text in ((README, readme), (OPERATING, operating)):
        yield from ((name, it) for it in wrong_page(name, parts(text), names))
    yield from ((README, it) for it in [*wrong_rows(readme, options["serve"]), *unproved_rows(readme)])
