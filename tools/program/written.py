"""The kinds of lines that the sources write to standard error, and whether the table of docs/OPERATING.md has them."""
import pathlib
import re

from manpage import LINE_COLUMNS, LINES
from readme import cells, parts, spans

TOP = pathlib.Path(__file__).resolve().parent.parent.parent

# Crates that the program has nothing of.
OTHER_PROGRAMS = re.compile(r"bench|transcripts|client_transcripts|case_texts|test_kit|\w+_tests")

CALL = re.compile(r'\b(warn|info|error|debug|trace|eprintln|eprint)!\(\s*(?:[\w.]+;\s*(target: TARGET,\s*)?"((?:[^"\\]|\\.)*)")?')

# Where the lines of a file say that they come from, if that isn't its module.
TARGET = re.compile(r'^const TARGET: &str = "([\w:]+)";$', re.MULTILINE)

# A line with the program's name in place of a level and a source.
NAMED, OWN = "relay: ", re.compile(r'"relay: ((?:[^"\\]|\\.)*)"')

WRITE = re.compile(r'\bwrite!\(\s*f,\s*"((?:[^"\\]|\\.)*)"')

LEVELS = {"warn": "WARN ", "info": "INFO ", "error": "ERROR", "debug": "DEBUG", "trace": "TRACE"}

# A line of the script that runs the program. It has the script's name, which is this one in the package.
SCRIPT, SCRIPTED, SCRIPT_PATH = "vasklun: ", re.compile(r'\becho "\$\{0##\*/\}: ([^"]*)" >&2'), TOP / "dist" / "run.sh"

# What a line of the table begins with.
BEGIN = re.compile(rf"\[[A-Z]+ +[\w:]+\] |{NAMED}|{SCRIPT}")

# Lines of `talk` and `steps`, which the table doesn't have.
OF_TESTS = {"bad word", "bad line {number}", "stream fault {number}", "read failed", "write failed", "{fault}"}

# What is written in place of a value: the sources of its words. One text of each source has to be in the table as a line, and each
# of the others too, or in its chapter by its words.
VALUES = {
    ("relay_server::server", "{end}"): ("relay_accounts/src/ending.rt",),
    ("relay_server::events", "{counts}"): ("relay_accounts/src/counts.rt",),
    ("relay_server::refusing", "{why}"): ("server_counts/src/refusal.rt",),
    ("relay_server::refusing", "{line}"): ("relay_log/src/refused_line.rt",),
    ("relay_server::reports", "{line}"): ("status/src/mount_status.rt", "status/src/player_status.rt"),
    ("relay_pull::camera", "{line}"): ("relay_pull/src/line.rt",),
}

# The sources whose texts have to be in the chapter by their words in any case, and a text of theirs that no line has.
REASONS, NO_REASON = "relay_accounts/src/ending.rt", "done"

# A reason of these that has its texts in a source of its own, and the sources of values in it, of whose texts the chapter may have some.
REASON_WITHIN, FAULTS_WITHIN = "relay_accounts/src/header_end.rt", ("proxy_header/src/fault.rt",)

# Lines that have no words of their own: what the table calls them.
WORDLESS = {
    ("relay_main::serve", "{addr}: {error}"): "ADDR: ..",
    ("relay_main::serve", "{addr}: {error}: ADDRESS:PORT is asked for, as 127.0.0.1:8554, or 0.0.0.0:8554 for all addresses"): "ADDR: ..",
}

# A connection's part in a mount, which its lines leave out if it has none.
PART, IN_PLACE = "{part}: ", "{role} of {name}: "

# In a pattern: a value without blanks, and any text, also none.
ONE, ANY = "\1", "\2"

# How many letters a line of the table and one of the sources have in common, at least.
LETTERS = 4


def text_of(path):
    return "\n".join(re.sub(r"^\s*//.*", "", line) for line in path.read_text(encoding="utf-8").splitlines())


def kinds():
    """Yields each kind of line: its beginning, as `[WARN  relay_server::lines] ` or `relay: `, and its form; `None` if a call has none."""
    for path in sorted((TOP / "crates").glob("*/src/**/*.rt")):
        crate, _, *modules = path.relative_to(TOP / "crates").with_suffix("").parts
        if OTHER_PROGRAMS.fullmatch(crate):
            continue
        module, text = "::".join([crate, *(it for it in modules if it not in ("lib", "main"))]), text_of(path)
        named = TARGET.search(text)
        for call, has_target, form in CALL.findall(text):
            if call in LEVELS:
                target = named and named[1] if has_target else module
                yield f"[{LEVELS[call]} {target}] ", form or None
            elif not form.startswith(NAMED):
                yield "", form or None
        yield from ((NAMED, form) for form in OWN.findall(text))
    for line in SCRIPT_PATH.read_text(encoding="utf-8").splitlines():
        if ">&2" in line:
            found = SCRIPTED.search(line)
            yield SCRIPT, found and re.sub(r"\$(?:\{[^{}]*\}|\w+)", "{}", found[1])


def words_of(path):
    """Returns the texts that a source writes for a value."""
    within = words_of(REASON_WITHIN) if path == REASONS else []
    return [form for form in WRITE.findall(text_of(TOP / "crates" / path)) if (path, form) != (REASONS, NO_REASON)] + within


def forms_of(begin, form):
    """Returns the forms of a kind of line, one for each text that is written in place of its value; each with that text and its source."""
    target = begin[7:-2]
    for (module, value), sources in VALUES.items():
        if module == target and value in form:
            return [(form.replace(value, f"{ANY}{text}{ANY}"), text, path) for path in sources for text in words_of(path)]
    return [(form, "", "")]


def pattern(form):
    """Returns a form of the sources as a pattern."""
    return re.sub(r"\{[^{}]*\}", ONE, form.replace(PART, IN_PLACE)).replace('\\"', '"')


def common(source, said):
    """Returns how many letters two patterns have in common at most if a line can have both, or -1."""
    rest = {(len(source), len(said)): 0}
    for i in range(len(source), -1, -1):
        for j in range(len(said), -1, -1):
            one, other, ways = source[i: i + 1], said[j: j + 1], []
            if ANY in (one, other):
                ways += [((i, j + 1), 0), ((i + 1, j), 0)]
            if one == ONE and other not in (" ", ANY):
                ways += [((i + 1, j + 1), 0), ((i, j + 1), 0)]
            if one == other and one not in (ONE, ANY):
                ways.append(((i + 1, j + 1), one.isalpha()))
            found = [letters + rest[after] for after, letters in ways if after in rest]
            if found:
                rest[i, j] = max(found)
    return rest.get((0, 0), -1)


def fixed_words(text):
    """Returns the words of a form outside of its values."""
    return [run for run in (it.strip(" ,;:") for it in re.split(r"\{[^{}]*\}", text)) if re.search(r"[a-z]", run)]


def unwritten(words):
    """Whether no source writes words that the chapter has for a value."""
    texts = [text for sources in (*VALUES.values(), FAULTS_WITHIN) for path in sources for text in words_of(path)]
    return not any(run in words or words in run for text in texts for run in fixed_words(text) if len(run) >= LETTERS)


class Table:
    """The table of lines of docs/OPERATING.md, and its chapter. `said` has of each line its beginning, its pattern, and whether that is a whole one and no
    line's end; `words` has what the chapter's other tables begin with."""

    def __init__(self, text):
        here = [part for part in parts(text) if part.chapter == LINES]
        rows = [cells(part.text) for part in here if part.kind == "row"]
        self.chapter = "\n".join(part.text for part in here)
        self.said = [it for row in rows if len(row) == len(LINE_COLUMNS) for it in self.of_row(row)]
        self.words = [span for row in rows if len(row) != len(LINE_COLUMNS) for span in spans(row[0])]

    @staticmethod
    def of_row(row):
        begin, found = "", []
        for span in spans(row[0]):
            if prefix := BEGIN.match(span):
                begin, span = prefix[0], span[prefix.end():]
            found.append((begin, span, bool(prefix)))
        others = [span for cell in row[1:] for span in spans(cell) if span.startswith(NAMED)]
        return found + [(NAMED, span.removeprefix(NAMED), True) for span in others]

    def has(self, begin, form, which):
        """Whether a form of a line is in the table; `which` gets the places of those that it is at."""
        known = WORDLESS.get((begin[7:-2], form))
        found = []
        for place, (before, span, is_whole) in enumerate(self.said):
            if before == begin and (span == known or self.matches(form, span, is_whole)):
                found.append(place)
        which.update(found)
        return bool(found)

    @staticmethod
    def matches(form, span, is_whole):
        said = ("" if is_whole else ANY) + re.sub(r" ?\.\.", ANY, span)
        letters = common(pattern(form), said)
        return letters >= LETTERS or letters == sum(map(str.isalpha, said)) > 0
