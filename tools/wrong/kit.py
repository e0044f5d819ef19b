"""The kit's commands and this repository's crates, as `rt` sees them."""
import importlib.machinery
import importlib.util
import os
import re
import shutil
import sys

TOP = os.path.dirname(os.path.dirname(os.path.dirname(os.path.abspath(__file__))))

# Which files of a crate a check reads.
PARTS = ("src", "specs", "proofs")


def load_kit():
    """Returns the kit's folder and its module of commands."""
    command = shutil.which("rt")
    if not command:
        sys.exit("wrong-bodies: rt is not on the PATH")
    home = os.path.dirname(os.path.dirname(os.path.realpath(command)))
    sys.dont_write_bytecode = True
    loader = importlib.machinery.SourceFileLoader("rtlib", f"{home}/bin/rtlib.py")
    made = importlib.util.module_from_spec(importlib.util.spec_from_loader("rtlib", loader))
    sys.modules["rtlib"] = made
    loader.exec_module(made)
    return home, made


HOME, RTLIB = load_kit()


def kit_line():
    """Returns the release and the logic of the kit: the second is what a proof depends on."""
    with open(f"{HOME}/KIT-ID", encoding="utf-8") as it:
        release, _, logic = it.read().strip().partition(" logic ")
    return release, logic


def crates(top=TOP):
    """Returns the crates of a checkout by their names, the lowest first."""
    RTLIB.guarded()
    found = sorted(RTLIB.crates_below(top), key=lambda it: len(it.below()))
    return {it.name: it for it in found}


def lacking(crate):
    """Returns the libraries below a crate that aren't built."""
    return [it.name for it in crate.below() if not os.path.isfile(f"{it.rlib}/format")]


def files_below(folder):
    """Returns the paths of all files below a folder, in one order."""
    return sorted(os.path.join(at, name) for at, _, names in os.walk(folder) for name in names)


def tokens(path):
    """Returns the tokens of the code of a source as (first byte, end, text): no comments, literals, clauses or definitions."""
    ran = RTLIB.subprocess.run([RTLIB.RATTLE, "fmt", "--tokens", path], capture_output=True)
    rows = re.findall(rb'(?m)^\d+ (\d+) (\d+) Code "(.*)"$', ran.stdout)
    return [(int(first), int(end), text.decode(errors="replace")) for first, end, text in rows]
