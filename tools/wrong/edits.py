"""Wrong bodies: files `crates/NAME/wrong/*.edit`, which change a copy of the crate.

An edit begins with a line `function: PATH`, the function that has to be refused, by its path in the crate as the prover prints it: that of
a method begins with the module of its type. Lines `goal: GOAL` name what it has to be refused at: `clause-NAME` (a clause of its
contract), `returns` (the one clause of its contract), `invariant_of-self` and its like, or a goal's whole name. If there are several, it
has to be refused at each. Then `file:`, `old:` and `new:` lines follow, as in an edit of `must-fail/`.
"""
import collections
import functools
import glob
import os
import re

from kit import tokens

Edit = collections.namedtuple("Edit", "name path function goals changes fault")

# One replacement of a file: its path in the crate, the text that is there once, and the text in its place.
Change = collections.namedtuple("Change", "file old new")


def read_edit(path):
    """Reads an edit. Its `fault` is why it can't be used, or None."""
    function, goals, changes, file, old = "", [], [], "", None
    with open(path, encoding="utf-8") as it:
        for line in it.read().splitlines():
            head, colon, rest = line.partition(":")
            rest = rest.removeprefix(" ")
            if head == "function" and colon:
                function = rest.strip()
            elif head == "goal" and colon:
                goals.append(rest.strip())
            elif head == "file" and colon:
                file = rest.strip()
            elif head == "old" and colon:
                old = rest
            elif head == "new" and colon and old is not None:
                changes.append(Change(file, old, rest))
                old = None
            elif line.strip():
                return Edit(name_of(path), path, function, goals, changes, f"a line that says nothing: {line[:60]}")
    fault = None
    if not function or not goals:
        fault = "it names no function or no goal"
    elif not changes or not all(it.file.startswith(("src/", "specs/", "proofs/")) and it.old for it in changes):
        fault = "it has no change of a file of src/, specs/ or proofs/"
    elif any(it.file.startswith("proofs/") for it in changes):
        fault = "it changes a proof"
    return Edit(name_of(path), path, function, goals, changes, fault)


def name_of(path):
    return os.path.basename(path).removesuffix(".edit")


def edits_of(folder):
    """Returns the edits of a crate, in one order."""
    return [read_edit(it) for it in sorted(glob.glob(f"{folder}/wrong/*.edit"))]


def apply(edit, folder):
    """Applies an edit to a copy of the crate. Returns why it can't be applied, or None; then nothing was written."""
    texts = {}
    for file, old, new in edit.changes:
        try:
            if file not in texts:
                with open(f"{folder}/{file}", encoding="utf-8") as it:
                    texts[file] = it.read()
        except OSError:
            return f"there is no file {file}"
        if texts[file].count(old) != 1:
            return f"an old text is in {file} {texts[file].count(old)} times"
        texts[file] = texts[file].replace(old, new)
    for file, text in texts.items():
        with open(f"{folder}/{file}", "w", encoding="utf-8") as it:
            it.write(text)
    return None


@functools.lru_cache(maxsize=None)
def bodies(path):
    """Returns the bodies of the functions of a source, as (first byte, end, name)."""
    found, name, depth, nested = [], None, 0, []
    code = tokens(path)
    for place, (first, end, text) in enumerate(code):
        if text == "fn" and place + 1 < len(code) and re.fullmatch(r"\w+", code[place + 1][2]):
            name = code[place + 1][2]
        elif text == ";" and name and depth == 0:
            name = None
        elif text in "([":
            depth += 1
        elif text in ")]":
            depth -= 1
        elif text == "{":
            nested.append((name, first))
            name = None
        elif text == "}" and nested:
            begun, at = nested.pop()
            if begun:
                found.append((at, end, begun))
    return sorted(found)


def inside(edit, folder):
    """Returns whether each change of an edit is within the body of a function of the name that it gives, in a copy without edits."""
    parts = edit.function.split("::")
    name = parts[-3] if "fn" in parts else parts[-1]
    for file, old, _ in edit.changes:
        if not file.startswith("src/"):
            return False
        with open(f"{folder}/{file}", "rb") as it:
            at = it.read().find(old.encode())
        end = at + len(old.encode())
        if not any(first < at and end <= last and name == found for first, last, found in bodies(f"{folder}/{file}")):
            return False
    return True
