"""The steps of a PLAY in docs/ARCHITECTURE.md against the sources: each function is in its file, and the counts are right.

For `tools/check-docs`. `python3 tools/program/play_steps.py` writes the file and the crate of each moved function, and the counts, into the
page. It leaves a function that several files have, or none, and `tools/check-docs` reports that one.
"""
import glob
import os
import re

from readme import cells, parts, spans

PAGE, TITLE = "docs/ARCHITECTURE.md", "A PLAY from accept to first frame"

COLUMNS = ["Step", "What is done", "Crate", "File", "Function"]

COUNTS = "{} steps, in {} files of {} folders and {} crates"

ROW = re.compile(r"(?m)^(\| \d+ \| [^|]* \|) `(\w+)` \| `([\w/]+)` \| `([\w:]+)` \|$")


def is_in(text, function):
    """Whether a source has a function: `call` outside of an `impl`, or `Type::call` with an `impl` of that type."""
    *owner, name = function.split("::")
    indent = r"[ \t]*" if owner else ""
    has_function = re.search(rf"(?m)^{indent}(?:pub(?:\([^)]*\))? )?fn {name}\b", text)
    return bool(has_function) and all(re.search(rf"(?m)^impl\b[^{{]*\b{it}\b", text) for it in owner)


def path_of(crate, file):
    return f"crates/{crate}/src/{file}.rt"


def elsewhere(crate, function, text_of):
    """Returns the files that have a function, as the page names them: those of the crate, or else those of all crates."""
    for folder in (f"crates/{crate}", "crates/*"):
        found = [it for it in sorted(glob.glob(f"{folder}/src/**/*.rt", recursive=True)) if is_in(text_of(it), function)]
        if found:
            return [tuple(re.fullmatch(r"crates/(\w+)/src/(.*)\.rt", it).groups()) for it in found]
    return []


def is_there(crate, file, function, text_of):
    return os.path.exists(path_of(crate, file)) and is_in(text_of(path_of(crate, file)), function)


def counts_of(places):
    """Returns the words of the counts, by the crate and the file of each step."""
    folders = {os.path.dirname(path_of(*it)) for it in places}
    return COUNTS.format(len(places), len(set(places)), len(folders), len({crate for crate, _ in places}))


def wrong_steps(text, text_of):
    """Yields what the steps have otherwise than the sources."""
    mine = [it for it in parts(text) if it.chapter == TITLE]
    heads = [cells(it.text) for it in mine if it.kind == "head"]
    if heads != [COLUMNS]:
        yield f"{TITLE!r} has tables with the columns {heads}, and not one with {COLUMNS}"
        return
    rows = [cells(it.text) for it in mine if it.kind == "row"]
    if [row[0] for row in rows] != [str(it + 1) for it in range(len(rows))] or any(len(sum(map(spans, row[2:]), [])) != 3 for row in rows):
        yield f"the steps of {TITLE!r} aren't numbered from 1, or one has no crate, file and function as code"
        return
    places = []
    for row in rows:
        crate, file, function = (spans(cell)[0] for cell in row[2:])
        places.append((crate, file))
        if not is_there(crate, file, function, text_of):
            there = ", ".join(path_of(*it) for it in elsewhere(crate, function, text_of))
            yield f"step {row[0]}: {path_of(crate, file)} has no {function}{f'; it is in {there}' if there else ''}"
    if not any(counts_of(places) in it.text for it in mine):
        yield f"{TITLE!r} doesn't say {counts_of(places)!r}"


def renewed(text, text_of):
    """Returns the page with the place of each function that was moved to one other file, and with the counts."""
    begin = text.index(f"## {TITLE}\n")
    end = (text + "\n## ").index("\n## ", begin)
    places = []

    def row_of(found):
        before, crate, file, function = found.groups()
        if not is_there(crate, file, function, text_of) and len(there := elsewhere(crate, function, text_of)) == 1:
            crate, file = there[0]
        places.append((crate, file))
        return f"{before} `{crate}` | `{file}` | `{function}` |"

    section = ROW.sub(row_of, text[begin:end])
    counts = re.escape(COUNTS).replace(r"\{\}", r"\d+")
    return text[:begin] + re.sub(counts, counts_of(places), section) + text[end:]


def main():
    os.chdir(os.path.dirname(os.path.dirname(os.path.dirname(os.path.abspath(__file__)))))

    def text_of(path):
        with open(path, encoding="utf-8") as it:
            return it.read()

    text = renewed(text_of(PAGE), text_of)
    with open(PAGE, "w", encoding="utf-8") as it:
        it.write(text)


if __name__ == "__main__":
    main()
