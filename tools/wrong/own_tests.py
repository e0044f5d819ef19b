"""Tries the tool on a small crate of its own: each edit has an answer that it must get. A harmless edit that were reported as refused, or a
wrong one as proved, would make every line of `crates/wrong.sums` worthless."""
import os
import tempfile

from edits import Edit, edits_of, inside
from kit import crates
from trial import try_crate
from verdicts import NOT_REFUSED, NOT_TRIED, REFUSED, judge, read_check

SOURCE = """//! Numbers that follow one another.
#![tactic(auto)]
ghost use Rattle.std.specs.Prelude.{◌≡◌, ◌+◌, ◌≤◌};

/// How much is added.
const STEP: u32 = 1;

/// Returns the number after this one.
pub fn next(number: u16) -> u32
    ensures { result ≡ number + 1 }
{
    u32::from(number) + 1
}

/// Returns the number after the next one.
pub fn after_next(number: u16) -> u32
    ensures value { result ≡ number + 2 }
    ensures above { number ≤ result }
{
    let found = next(number);
    found + 1
}

/// Returns the number after this one, by the step.
pub fn stepped(number: u16) -> u32
    ensures { result ≡ number + 1 }
{
    u32::from(number) + STEP
}
"""

ADDS, CALLS, BY_STEP = "    u32::from(number) + 1", "    found + 1", "const STEP: u32 = 1;"

# Each edit: its name, its function and goal, what it changes, and the answer that it must get. The harmless one of `after_next` stands
# beside a wrong one of `next`, which hides what the prover says of it.
EDITS = (
    ("nothing-is-changed", "next", "returns", ADDS, ADDS, NOT_REFUSED),
    ("one-too-many", "next", "returns", ADDS, "    u32::from(number) + 2", REFUSED),
    ("hidden-and-harmless", "after_next", "clause-value", CALLS, "    1 + found", NOT_REFUSED),
    ("hidden-and-wrong", "after_next", "clause-value", CALLS, "    found + 2", REFUSED),
    ("another-clause", "after_next", "clause-above", CALLS, "    found + 2", NOT_REFUSED),
    ("no-such-clause", "next", "clause-values", ADDS, "    u32::from(number) + 2", NOT_REFUSED),
    ("a-constant", "stepped", "returns", BY_STEP, "const STEP: u32 = 2;", REFUSED),
)

# Edits that can't be tried, beside one that can.
BROKEN = (
    ("no-such-function", "nexts", "returns", ADDS, "    u32::from(number) + 2", NOT_TRIED),
    ("not-once", "next", "returns", "number", "numbers", NOT_TRIED),
    ("no-rust", "next", "returns", ADDS, "    u32::from(number) +", NOT_TRIED),
    ("sound", "after_next", "clause-value", CALLS, "    found + 2", REFUSED),
)

# What a check may print, and the answer to an edit of `put` at `clause-kept`.
PRINTED = (
    ("fn toy::put: proved\nonly=1 proved=1\n", NOT_REFUSED),
    ("./proofs/put/Answers.antt:3:5: error: `returns-clause-kept`: the two types differ\nfn toy::put: not proved\nonly=1 proved=0\n", REFUSED),
    ("./proofs/put/Answers.antt:3:5: error: `returns-clause-kept`: `c.first` is not in scope\nfn toy::put: not proved\nonly=1 proved=0\n", NOT_REFUSED),
    ("note: src/lib.rt:3:5: it is not proved that what the function ensures holds when it returns (`returns-clause-kept`)\n"
     "fn toy::put: no proof: expected answers in ./proofs/put/Answers.antt; `search` did not prove `returns-clause-kept`\nonly=1 proved=0\n", REFUSED),
    ("fn toy::put: could not tell\nonly=1 proved=0\n", NOT_TRIED),
    ("fn toy::put: not proved\n", NOT_TRIED),
)


def answers(edits, alone):
    """Tries these edits on the crate. Returns what is otherwise than it must be; `alone` are the edits that change more than one body."""
    with tempfile.TemporaryDirectory(prefix="wrong-bodies-") as top:
        folder = f"{top}/crates/toy"
        os.makedirs(f"{folder}/src")
        os.makedirs(f"{folder}/wrong")
        texts = {f"{top}/crates.txt": "toy:\n", f"{folder}/src/lib.rt": SOURCE}
        for name, function, goal, old, new, _ in edits:
            texts[f"{folder}/wrong/{name}.edit"] = f"function: {function}\ngoal: {goal}\nfile: src/lib.rt\nold: {old}\nnew: {new}\n"
        for path, text in texts.items():
            with open(path, "w", encoding="utf-8") as it:
                it.write(text)
        found = [it.name for it in edits_of(folder) if not inside(it, folder)]
        given = {it.edit.name: it for it in try_crate(crates(top)["toy"])[0]}
    wrong = [f"{name}: {given[name].said} ({given[name].why})" for name, *_, answer in edits if given[name].said != answer]
    return wrong + ([f"more than one body: {', '.join(found)}"] if found != alone else [])


def main():
    """Prints what the tool answers otherwise than it must. Returns the exit status."""
    wrong = answers(EDITS, ["a-constant"]) + answers(BROKEN, ["no-such-function", "not-once"])
    edit = Edit("kept", "", "put", ["clause-kept"], [], None)
    wrong += [f"{answer} of: {text}" for text, answer in PRINTED if judge(edit, read_check(text, "toy"))[0] != answer]
    for it in wrong:
        print(f"wrong-bodies: {it}")
    print(f"{len(EDITS) + len(BROKEN) + len(PRINTED) + 2 - len(wrong)} passed, {len(wrong)} failed")
    return 1 if wrong else 0
