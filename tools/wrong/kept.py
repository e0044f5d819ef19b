"""`crates/wrong.sums`: of which sources the wrong bodies of each crate were last refused.

A line a crate: its name, the sum of what decides whether its wrong bodies are refused, the kit's logic and release, the date and the
minutes that they took. The sum is of the crate's sources, definitions, proofs and edits, and of the contracts and definitions of the
crates below it, as their built libraries have them. The line `tools/wrong` is of the tool itself and of its own tests.
`tools/wrong-bodies --write` alone writes the file.
"""
import collections
import datetime
import glob
import hashlib
import os

from kit import PARTS, TOP, files_below, kit_line

FILE, TOOL = "crates/wrong.sums", "tools/wrong"

Line = collections.namedtuple("Line", "name sum logic release date minutes")


def add_folder(total, folder, without_spaces=False):
    """Adds the files below a folder to a sum; without the spaces between tokens, which are the kit's in a built library."""
    for path in files_below(folder):
        total.update(repr(os.path.relpath(path, folder)).encode())
        with open(path, "rb") as it:
            data = it.read()
        total.update(hashlib.sha256(b"".join(data.split()) if without_spaces else data).digest())


def sum_of(crate):
    """Returns the sum of a crate. The libraries below it have to be built."""
    total = hashlib.sha256(f"{crate.name} {sorted(crate.of_kit)}".encode())
    for part in (*PARTS, "wrong"):
        total.update(part.encode())
        add_folder(total, f"{crate.folder}/{part}")
    for dep in sorted(crate.below(), key=lambda it: it.name):
        total.update(dep.name.encode())
        add_folder(total, f"{dep.rlib}/lang/src", without_spaces=True)
        add_folder(total, f"{dep.rlib}/lang/antt/specs")
    return total.hexdigest()[:32]


def read_lines():
    try:
        with open(f"{TOP}/{FILE}", encoding="utf-8") as it:
            rows = [line.split() for line in it if line.strip() and not line.startswith("#")]
    except OSError:
        return {}
    return {row[0]: Line(*row) for row in rows if len(row) == len(Line._fields)}


def sum_of_tool():
    total = hashlib.sha256()
    for path in sorted(glob.glob(f"{TOP}/{TOOL}/*.py")):
        with open(path, "rb") as it:
            total.update(it.read())
    return total.hexdigest()[:32]


def fits(name, total, lines):
    """Returns whether the line of this name has this sum, and is of this kit's logic."""
    line = lines.get(name)
    return line is not None and line.logic == kit_line()[1] and line.sum == total


def line_of(name, total, minutes):
    release, logic = kit_line()
    return Line(name, total, logic, release, datetime.date.today().isoformat(), f"{minutes:.1f}")


def write_lines(lines):
    with open(f"{TOP}/{FILE}", "w", encoding="utf-8") as it:
        it.write("# Written by tools/wrong-bodies --write: crate, sum, the kit's logic and release, date, minutes.\n")
        it.writelines(" ".join(lines[name]) + "\n" for name in sorted(lines))
