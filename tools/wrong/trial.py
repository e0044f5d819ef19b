"""Tries the wrong bodies of a crate, as many in one check as don't disturb each other."""
import collections
import os
import shutil
import subprocess
import tempfile
import time

from edits import apply, edits_of, inside
from kit import PARTS, RTLIB
from verdicts import NOT_TRIED, WAITS, judge, read_check, strangers

# How long one check may take, in seconds.
LONGEST = 2400

# The answer to an edit, why, and how many edits the check had that gave it.
Answer = collections.namedtuple("Answer", "edit said why together")


def check(crate, edits):
    """Checks the named functions of a copy of the crate with these edits. Returns what it says of them, and why it says nothing."""
    with tempfile.TemporaryDirectory(prefix="rt-edit-") as room:
        for part in PARTS:
            if os.path.isdir(f"{crate.folder}/{part}"):
                shutil.copytree(f"{crate.folder}/{part}", f"{room}/{part}")
        for edit in edits:
            if why := apply(edit, room):
                return None, f"{edit.name}: {why}"
        only = [word for edit in edits for word in ("--only", edit.function)]
        with open(os.devnull, "w", encoding="utf-8") as crate.out:
            words = [RTLIB.RATTLE, "check", *crate.words(["--jobs", "1"], keeps=False), *only]
        how = {"cwd": room, "stdin": subprocess.DEVNULL, "stdout": subprocess.PIPE, "stderr": subprocess.STDOUT, "errors": "replace"}
        try:
            ran = subprocess.run([*RTLIB.guarded(), *words], timeout=LONGEST, **how)
        except subprocess.TimeoutExpired:
            return None, f"no end after {LONGEST} seconds"
    said = read_check(ran.stdout, crate.name)
    if ran.returncode not in (0, 1) or said is None:
        shown = [it for it in ran.stdout.splitlines() if "error" in it or it.startswith("rattle")] or ran.stdout.splitlines()[-2:]
        return None, f"the check ended with status {ran.returncode}: {' '.join(shown[:1])[:200]}"
    return said, None


def first_batch(edits, crate):
    """Returns the edits of the next check: one for each function, or one by itself if it changes more than its function's body."""
    batch = []
    for edit in edits:
        if inside(edit, crate.folder):
            if not any(it.function == edit.function for it in batch):
                batch.append(edit)
        elif not batch:
            return [edit]
    return batch


def answer_alone(crate, edit):
    """Tries an edit by itself."""
    said, why = check(crate, [edit])
    if why:
        return Answer(edit, NOT_TRIED, why, 1)
    given, why = judge(edit, said)
    if inside(edit, crate.folder) and (others := strangers([edit], said)):
        return Answer(edit, NOT_TRIED, f"it changes one body, and {', '.join(others[:3])} isn't proved either", 1)
    return Answer(edit, NOT_TRIED if given == WAITS else given, why, 1)


def answers_together(crate, batch):
    """Tries several edits in one check. Returns the answers that this check gives: all, none, or all but those that it hides."""
    said, why = check(crate, batch)
    if why or strangers(batch, said):
        return []
    judged = [(edit, *judge(edit, said)) for edit in batch]
    return [Answer(edit, given, why, len(batch)) for edit, given, why in judged if given not in (WAITS, NOT_TRIED)]


def try_crate(crate):
    """Returns the answers to all wrong bodies of a crate, and the minutes that they took."""
    begun = time.monotonic()
    answers, left, alone = [], [], False
    for edit in edits_of(crate.folder):
        if edit.fault:
            answers.append(Answer(edit, NOT_TRIED, edit.fault, 0))
        else:
            left.append(edit)
    while left:
        batch = left[:1] if alone else first_batch(left, crate)
        if len(batch) == 1:
            found = [answer_alone(crate, batch[0])]
        else:
            found = answers_together(crate, batch)
            alone = not found
        answers += found
        left = [it for it in left if it not in [answer.edit for answer in found]]
    answers.sort(key=lambda it: it.edit.name)
    return answers, (time.monotonic() - begun) / 60
