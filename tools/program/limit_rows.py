"""The rows of docs/LIMITS.md against the constants and options of the sources: for `tools/check-docs`."""
import re

from constants import chosen, constants_of, crates_of, number_of
from readme import cells, declared, parts

PROGRAM = "relay_main"

COLUMNS = ["What is bounded", "Value", "Unit", "Constant or option", "At the limit", "Option that changes it"]

# Units that the comment of a constant has to have, too, and the name of the value of an option with that unit.
UNITS = {"seconds": "SECONDS", "milliseconds": "MS", "microseconds": None, "bytes": "BYTES"}

# Constants that neither a peer nor an operator can meet, by their crate: parts of a format or of an algorithm, or a second name of a
# limit that no call exceeds. Each other constant of the program's crates has a row.
INSIDE = {
    "interleaved": "DOLLAR FRAME_HEAD",
    "mount_signals": "QUIET NOTIFIED URGENT",
    "networks": "MOST_DIGITS",
    "pacing": "recent::MOST",
    "packet_ring": "WRITING NUMBER CELLS",
    "proxy_header": "LOCAL PROXY BLOCK_HEAD",
    "process_figures": "TICK PAGE_BYTES",
    "pull_plan": "SCHEME_BYTES",
    "pull_session": "MOST_ASKS",
    "publisher": "FIXED_HEADER SOURCE VERSION",
    "relay_connection": "NEVER",
    "relay_fanout": "YIELDS",
    "relay_log": "OTHERS",
    "relay_main": "FAILED COMMAND_LINE_FAULT",
    "relay_pull": "MOST_ROUNDS MOST_EVENTS",
    "relay_server": "STOPPED",
    "relay_talk": "TALKER",
    "sdp": "CONTROL_LEN",
    "sequence_counts": "MOST_AHEAD MOST_BEHIND FIXED_HEADER VERSION",
    "server_counts": "COUNT STATUSES",
    "session_lock": "CUT",
    "source_urls": "SCHEME_LEN RTSP_PORT",
    "status_listener": "READ_BYTES DISCARD_BYTES MOST_CALLS MOST_ACCEPTS MOST_EVENTS LISTENER ENDING FIRST_VISIT NO_DATE",
    "transport_header": "CHANNELS MOST_CHANNELS",
    "waking": "NO_MARKS",
}

# Options with a range that bound nothing.
NO_LIMIT = {"accept", "report"}

CITED = re.compile(r"`(\w+)`: `([^`]+)`")

NUMBER = r"\d+(?:,\d{3})*"

CHANGED_BY = re.compile(rf"`--([\w-]+)`(?: ({NUMBER} (?:to {NUMBER}|or more)(?: or {NUMBER})?))?(?:[,:] [^;]*)?")

NAME = re.compile(r"[A-Za-z_]\w*(?:::\w+)*")


class Sources:
    """The constants of the program's crates, and the options of `serve`."""

    def __init__(self, text_of, command_line):
        self.constants = {crate: constants_of(crate, text_of) for crate in sorted(crates_of(PROGRAM, text_of))}
        self.options = {it.name: it for it in declared(command_line, "serve")}

    def one(self, crate, path):
        """Returns the constant that a crate and `NAME` or `module::NAME` is, or `None`, and what is wrong."""
        found = chosen(self.constants.get(crate, []), path)
        if len(found) == 1:
            return found[0], None
        if found:
            return None, f"`{crate}` has {len(found)} constants {path}: {', '.join(map(full_name, found))}"
        every = [it for those in self.constants.values() for it in chosen(those, path.split("::")[-1])]
        near = [f"{full_name(it)} of {it.crate}" for it in [it for it in every if it.crate == crate] or every]
        return None, f"`{crate}` has no constant {path} with a number{f'; there is ' + ', '.join(near) if near else ''}"


def full_name(constant):
    """Returns the name of a constant with all of its modules."""
    return "::".join([*constant.modules, constant.name])


def range_text(numbers):
    """Returns a range as the table has it."""
    least = numbers.least if numbers.least_set is None else numbers.least_set
    words = f"{least:,} or more" if numbers.greatest is None else f"{least:,} to {numbers.greatest:,}"
    return words + (f" or {numbers.least}" if least != numbers.least else "")


def wrong_options(cell, options):
    """What is wrong with a cell of options: each is one of `serve`, with its range."""
    for text in filter(None, cell.split("; ")):
        found = CHANGED_BY.fullmatch(text)
        if not found or found[1] not in options:
            yield f"{text!r} is no option of `serve`"
        elif (numbers := options[found[1]].range) and found[2] != range_text(numbers):
            yield f"--{found[1]} has the range {found[2]!r}, and by the sources {range_text(numbers)!r}"


def wrong_default(option, value, unit):
    """What is wrong with the row of an option: its value is the default."""
    default = option.default and f"{int(option.default):,}"
    if default and value != default:
        yield f"--{option.name} has the value {value}, and by the sources the default {default}"
    if not default and re.search(r"\d", value):
        yield f"--{option.name} has the value {value}, and the sources have no default"
    if option.value in UNITS.values() and UNITS.get(unit) != option.value:
        yield f"--{option.name} has the unit {unit}, and its value the name {option.value}"


def wrong_constant(crate, expression, value, unit, sources):
    """What is wrong with what a row says of constants of one crate."""
    numbers = {}
    for path in NAME.findall(expression):
        constant, wrong = sources.one(crate, path)
        if wrong:
            yield wrong
            return
        numbers[path] = constant.number
        if unit in UNITS and not re.search(rf"\b{unit}\b", constant.comment, re.I):
            yield f"the comment of {path} of `{crate}` hasn't the unit {unit}"
    if None in numbers.values():
        yield f"the number of {expression} of `{crate}` can't be read"
        return
    number = number_of(NAME.sub(lambda it: str(numbers[it[0]]), expression), lambda _: None)
    if number is None or value != f"{number:,}":
        yield f"the value is {value}, and by the sources {expression} of `{crate}` is {'no number' if number is None else f'{number:,}'}"


def wrong_row(row, sources):
    """What is wrong with a row."""
    _, value, unit, cited, _, changed_by = row
    if not CITED.search(cited) or CITED.sub("", cited).strip("; "):
        yield f"{cited!r} isn't `CRATE`: `NAME`, or several of these with semicolons between them"
    for crate, name in CITED.findall(cited):
        if not name.startswith("--"):
            yield from wrong_constant(crate, name, value, unit, sources)
        elif (option := sources.options.get(name[2:])) is None:
            yield f"{name} is no option of `serve`"
        else:
            yield from wrong_default(option, value, unit)
            if f"`{name}`" not in changed_by:
                yield f"the last cell doesn't name {name}"
    yield from wrong_options(changed_by, sources.options)


def missing(rows, sources):
    """Constants and options without a row that aren't listed here either, and those that are listed and have a row or aren't there."""
    with_row = {id(it) for row in rows for crate, text in CITED.findall(row[3]) for path in NAME.findall(text)
                for it in chosen(sources.constants.get(crate, []), path)}
    listed = set()
    for crate, names in INSIDE.items():
        for path in names.split():
            constant, wrong = sources.one(crate, path)
            if wrong:
                yield f"INSIDE of tools/program/limit_rows.py: {wrong}"
            elif id(constant) in with_row:
                yield f"{path} of `{crate}` has a row, and is in INSIDE of tools/program/limit_rows.py"
            listed.add(id(constant))
    for crate, those in sources.constants.items():
        for constant in those:
            if id(constant) not in with_row | listed:
                yield f"{full_name(constant)} of `{crate}` has no row, and isn't in INSIDE of tools/program/limit_rows.py"
    named = {name for row in rows for name in re.findall(r"`--([\w-]+)`", row[5])}
    for name in sorted(it for it, option in sources.options.items() if option.range and it not in named | NO_LIMIT):
        yield f"no row names the option --{name}"


def wrong_limits(text, text_of, command_line):
    """Yields what the page of limits has otherwise than the sources. `command_line`: the text of each module of the command line."""
    sources, rows = Sources(text_of, command_line), []
    for part in parts(text):
        row = cells(part.text)
        if part.kind == "head" and row != COLUMNS:
            yield f"a table has the columns {row}, and not {COLUMNS}"
        elif part.kind == "row" and len(row) != len(COLUMNS):
            yield f"the row of {row[0]!r} has {len(row)} cells, and not {len(COLUMNS)}"
        elif part.kind == "row":
            rows.append(row)
            yield from (f"the row of {row[0]!r}: {it}" for it in wrong_row(row, sources))
    yield from missing(rows, sources)
