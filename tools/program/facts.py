"""What README.md and docs/OPERATING.md say of numbers, versions, crates and measurements, against the files that have them: for
`tools/check-docs`."""
import collections
import glob
import os
import re

from constants import chosen, constants_of
from readme import OPERATING, README, parts, sentences, spans, table

STAMP, CRATES, MEASUREMENTS = "dist/relay-x86_64-linux.stamp", "crates.txt", "docs/MEASUREMENTS.md"

# A constant of the sources: its crate, its name, with the module before it if the crate has several of that name, and what it is divided
# by for the unit that the page has.
Constant = collections.namedtuple("Constant", "crate name unit", defaults=[1])

# A second and a minute in milliseconds, a millisecond in microseconds.
SECOND, MINUTE, MILLISECOND = 1_000, 60_000, 1_000

# A publisher's waits count in five windows, of which the last may just have begun: the four before it have 200 milliseconds.
FOURTH = MILLISECOND / 4

# Words of each page, with the place of each constant that they have.
SAID = {
    README: [
        ("Mounts; tracks of a mount; bytes of its name | {}; {}; {} |",
         Constant("mounts", "MAX_MOUNTS"), Constant("sdp", "MAX_TRACKS"), Constant("mounts", "MAX_NAME")),
        ("| Connections | {:,}, ", Constant("session_state", "MAX_CONNECTIONS")),
        ("Disconnect players {:in_words} seconds after ", Constant("relay_main", "AFTER_END", SECOND)),
        ("| {} if the system grants it", Constant("relay_main", "SEND_BUFFER")),
        ("unless {} have come", Constant("mount_signals", "TAKES")),
        ("If {} packets exceed {} KB",
         Constant("mount_signals", "TAKES"), Constant("relay_fanout", "GATHERED", 1_024)),
    ],
    OPERATING: [
        ("A name has 1 to {} bytes", Constant("mounts", "MAX_NAME")),
        ("A session expires {} seconds after ", Constant("session_state", "SESSION_LIFE", SECOND)),
        ("`session expired after {} s of silence`", Constant("session_state", "SESSION_LIFE", SECOND)),
        ("acknowledges nothing for {} seconds", Constant("sockets", "UNACKNOWLEDGED", SECOND)),
        ("`no acknowledgement for {} s`", Constant("sockets", "UNACKNOWLEDGED", SECOND)),
        ("disconnected {:in_words} seconds later", Constant("relay_main", "AFTER_END", SECOND)),
        ("`no SETUP for {} s after its ANNOUNCE`", Constant("relay_connection", "SETUP_WAIT", SECOND)),
        ("A report has at most {} lines", Constant("relay_log", "REPORT_LINES")),
        ("Memory of the last {} requests", Constant("relay_connection", "KEPT_ENTRIES")),
        ("more than {:in_words} a second", Constant("relay_log", "LINES_A_SECOND")),
        ("once {:in_words} minute for each mount", Constant("relay_log", "REFUSED_KEPT", MINUTE)),
        ("and why, once {:in_words} minute", Constant("relay_log", "TALLY_TIME", MINUTE)),
        ("at most {} milliseconds in any {}.",
         Constant("pacing", "allowance::MOST", MILLISECOND), Constant("pacing", "allowance::WINDOW", FOURTH)),
        ("is still copying, after {} milliseconds, the old packet", Constant("relay_fanout", "PAUSES")),
        ("The pages have {} connections of their own", Constant("status_listener", "MOST_VISITS")),
        ("It is disconnected after {:in_words} seconds", Constant("status_listener", "ASKING_TIME", SECOND)),
    ],
}

# The words of numbers that a page doesn't have in digits; one minute is `a minute`.
IN_WORDS = {1: "a", 2: "two", 10: "ten"}

# A number with a decimal point or with a comma after its thousands.
FIGURE = re.compile(r"(?<![\w.,])(?:\d{1,3}(?:,\d{3})+(?:\.\d+)?|\d+\.\d+)(?!\w|[.,]\d)")

# What may be in the sentence that names the crates of the kit, and isn't in `crates.txt`.
BESIDE = {"std"}


class Number(int):
    def __format__(self, form):
        return IN_WORDS.get(self, str(self)) if form == "in_words" else super().__format__(form)


def number_of(constant, text_of):
    """Returns a constant in the page's unit, or `None` if its crate hasn't exactly one such constant, or if it is no whole number of that unit."""
    found = chosen(constants_of(constant.crate, text_of), constant.name)
    number = found[0].number / constant.unit if len(found) == 1 and found[0].number else None
    return Number(number) if number and number.is_integer() else None


def wrong_constants(name, text, text_of):
    """Numbers of the sources that the page of this name doesn't have in its words."""
    for words, *constants in SAID[name]:
        numbers = [number_of(it, text_of) for it in constants]
        for constant in (constant for constant, number in zip(constants, numbers) if number is None):
            yield f"{constant.crate} has no number {constant.name} as tools/program/facts.py has it for {words!r}"
        if None not in numbers and (said := words.format(*numbers)) not in text:
            yield f"it has no words {said!r}, as {', '.join(it.name for it in constants)} of the sources would have it"


def wrong_versions(readme, operating, text_of):
    """Another kit, or another least version of glibc, than those of the program in `dist/`. README has both."""
    stamp = dict(line.split(" ", 1) for line in text_of(STAMP).splitlines())
    for key, pattern in (("kit", r"Proved with `([^`]*)`"), ("glibc", r"\bglibc (\d+(?:\.\d+)*)")):
        for name, text, least in ((README, readme, {stamp.get(key)}), (OPERATING, operating, set())):
            said = re.findall(pattern, text)
            if not least <= set(said) <= {stamp.get(key)}:
                yield name, f"{said} is said of {key}, and {STAMP} has {stamp.get(key)}"


def wrong_crates(text, text_of):
    """Other crates in the sentences that name those of the kit, which are those with more than three names, than `crates.txt` has."""
    used = {name for line in text_of(CRATES).splitlines() for name in line.partition(":")[2].split()}
    used -= {os.path.basename(it) for it in glob.glob("crates/*")}
    named = [spans(" ".join(words)) for part in parts(text) if part.chapter == "What is trusted" for words in sentences(part.text)]
    said = {name for names in named if len(names) > 3 for name in names} - BESIDE
    for name in sorted(used ^ said):
        ours, theirs = ("names", "lacks") if name in said else ("lacks", "names")
        yield f"*What is trusted* {ours} the crate {name}, which {CRATES} {theirs}"


def unmeasured(text, text_of):
    """Rows of README's tables whose figures no section of the page of measurements has."""
    measured = collections.defaultdict(set)
    for part in parts(text_of(MEASUREMENTS)):
        measured[part.chapter, part.section].update(FIGURE.findall(part.text))
    for title in ("Why this one", "Figures"):
        rows = [FIGURE.findall(" | ".join(row)) for row in table(text, title)]
        if not any(rows):
            yield f"{title!r} has no table with figures"
        for row in rows:
            if missing := min((set(row) - there for there in measured.values()), key=len):
                yield f"{MEASUREMENTS} has no section with all of {', '.join(row)} of {title!r}: {', '.join(sorted(missing))} is missing"


def wrong_facts(readme, operating, text_of):
    """Yields the name of a page and what it has otherwise than the files of the repository, which is the current folder."""
    for name, text in ((README, readme), (OPERATING, operating)):
        yield from ((name, it) for it in wrong_constants(name, text, text_of))
    yield from wrong_versions(readme, operating, text_of)
    yield from ((README, it) for it in [*wrong_crates(readme, text_of), *unmeasured(readme, text_of)])
