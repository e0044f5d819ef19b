"""What a check says of a crate's functions, and whether it refuses a wrong body."""
import collections
import re

# What a check says of a function: whether it is proved, its own goals that are left, whether it waits for another function's proof, and
# whether the prover couldn't tell.
Said = collections.namedtuple("Said", "proved goals waits unknown")

# The answers to an edit. WAITS: another edit of the same check hides what the prover says of this one.
REFUSED, NOT_REFUSED, WAITS, NOT_TRIED = "refused", "NOT REFUSED", "waits", "NOT TRIED"

# Errors of a proof file that say only that a name is gone: they say nothing of the contract.
GONE = re.compile(r"has no field|is not in scope|has no `|was not admitted|is no name|is not declared")

ERROR = re.compile(r"(?:\./)?proofs/(\S+)/(?:Answers|Invariants|Proof)\.antt:\d+:\d+: error: `([^`]*)`: (.*)")
NOTE = re.compile(r"note: src/\S+: it is not proved that .*?\(`([^`]*)`\)")
LINE = re.compile(r"fn (\S+): (.*)")


def read_check(text, crate):
    """Returns what a check says of each function, by its path in the crate, or None if it came to no end."""
    said, noted, errors = {}, [], collections.defaultdict(list)
    lines = text.splitlines()
    for line in lines:
        if error := ERROR.match(line):
            if not GONE.search(error[3]):
                errors[error[1].replace("/", "::")].append(error[2])
        elif note := NOTE.match(line):
            noted.append(note[1])
        elif (found := LINE.match(line)) and found[1].startswith(f"{crate}::"):
            name, rest = found[1].removeprefix(f"{crate}::"), found[2]
            searched = re.search(r"`search` did not prove ((?:`[^`]*`(?:, | and )?)+)", rest)
            goals = re.findall(r"`([^`]*)`", searched[1]) if searched else []
            goals += noted if not rest.startswith("proved") else []
            said[name] = Said(rest.startswith("proved"), goals, "it calls `" in rest, rest.startswith("could not tell"))
            noted = []
    for name, goals in errors.items():
        for it in said:
            if it == name or it.replace("::", "/") == name.replace("::", "/"):
                said[it] = said[it]._replace(goals=[*said[it].goals, *goals])
    ended = any(re.match(r"only=\d+ proved=\d+|logic=(not-)?proved", it) for it in lines[-3:])
    return said if ended and said else None


def is_at(goal, wanted):
    """Returns whether a goal is the one that an edit names."""
    if wanted == "returns":
        return (goal == "returns" or goal.startswith("returns-")) and "-clause-" not in goal
    return goal == wanted or goal.endswith(f"-{wanted}") or (wanted.startswith("invariant_of-") and goal.startswith(wanted))


def judge(edit, said):
    """Returns the answer to an edit by what a check says, and why."""
    here = (said or {}).get(edit.function)
    if here is None or here.unknown:
        return NOT_TRIED, "the prover says nothing of the function" if here is None else "the prover could not tell"
    if here.proved:
        return NOT_REFUSED, "the function is still proved"
    missing = [it for it in edit.goals if not any(is_at(goal, it) for goal in here.goals)]
    if not missing:
        return REFUSED, ", ".join(sorted({goal for goal in here.goals if any(is_at(goal, it) for it in edit.goals)})[:3])
    if here.waits:
        return WAITS, "it calls a function that isn't proved"
    if not here.goals:
        return NOT_REFUSED, "it lacks a proof for no goal of its own"
    return NOT_REFUSED, f"it is refused at {', '.join(sorted({*here.goals})[:4])}, and not at {', '.join(missing)}"


def is_of(name, function):
    """Returns whether a function is the one that an edit names, or a closure in it."""
    plain = "::".join(it for it in name.split("::") if it != "fn")
    whole = "::".join(it for it in function.split("::") if it != "fn")
    return name == function or plain.startswith(f"{whole}::") or whole.startswith(f"{plain}::")


def strangers(edits, said):
    """Returns the functions that no edit touches and that have goals of their own left."""
    return [name for name, it in said.items() if it.goals and not any(is_of(name, edit.function) for edit in edits)]
