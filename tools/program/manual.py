"""The man page and what docs/OPERATING.md says of lines: that they have each option and each line of the program, and no other line."""
import re
import shutil
import subprocess

from manpage import LINE_COLUMNS, LINES, man_page
from peers import leave_out
from readme import OPERATING, README, cells, parts, spans, table
from written import ANY, BEGIN, NAMED, OF_TESTS, REASONS, TOP, WORDLESS, Table
from written import common, fixed_words, forms_of, kinds, pattern, text_of, unwritten, words_of

# The page's line that finds what to alert on.
ALERTS = re.compile(r"(?m)^    journalctl .* grep -E '([^']+)'$")

# The counts of an account, and the reasons for which connections are refused.
COUNTS, REFUSALS = "relay_accounts/src/counts.rt", "server_counts/src/refusal.rt"

# The page's table of symptoms, and its column of the lines that the program writes then.
SYMPTOMS, SYMPTOM_LINE = "If something is wrong", "Line in the log"


def shown(page):
    """Returns the text of a man page without what roff reads as its own."""
    text = page.replace("\\&", "").replace("\\ ", " ").replace("\\-", "-").replace("\\e", "\\")
    return re.sub(r"\\f[BIR]", "", text)


def options_missing(program, page):
    """Options of a command's help that the man page doesn't have."""
    sections = dict(re.findall(r"(?ms)^\.SH ([^\n]+)\n(.*?)(?=^\.SH|\Z)", page))
    for command, section in (("serve", "OPTIONS OF SERVE"), ("pull", "HELP OF PULL"), ("talk", "HELP OF TALK"), ("steps", "HELP OF STEPS"), ("pass", "HELP OF PASS")):
        ran = subprocess.run([program, command, "--help"], capture_output=True, text=True, timeout=60)
        named = re.findall(r"(?m)^ +(?:-\w, )?(--[\w-]+(?: <\w+>)?)", ran.stdout)
        if ran.returncode or len(named) < 2:
            yield f"{command} --help: {ran}"
        for option in named:
            words = option if command != "serve" else option.replace("<", "").replace(">", "")
            begins = r"^\.TP\n(?:-\w, )?" if command == "serve" else r"^ +(?:-\w, )?"
            if not re.search(rf"(?m){begins}{re.escape(words)}(?![\w-])", shown(sections.get(section, ""))):
                yield f"the man page has no option {words} of {command}"


def rows_missing(text, page):
    """Rows of the table of lines that the man page doesn't have."""
    lines = text.partition("\n## Lines on standard error\n")[2].partition("\n## ")[0].splitlines()
    rows = [line for line in lines if re.match(rf"\| `({BEGIN.pattern})", line)]
    if not rows:
        yield f"{OPERATING} has no row of a line"
    for row in rows:
        first = re.match(r"\| `([^`]*)`", row)[1].replace("\\|", "|")
        if f".TP\n{first}" not in shown(page):
            yield f"the man page has no line {first}"


def lines_missing(text):
    """Kinds of lines that the chapter doesn't have, and what it has that no source writes."""
    said, which, there = Table(text), set(), set()
    for begin, form in kinds():
        there.add(form if begin == NAMED else (begin[7:-2], form))
        if form is None:
            yield f"{begin}a call has no text of its own"
        elif begin == NAMED and form in OF_TESTS:
            said.has(begin, form, which)
        else:
            yield from texts_missing(said, begin, form, which)
    for place, (begin, span, _) in enumerate(said.said):
        if place not in which:
            yield f"no source writes the line {begin}{span}"
    yield from (f"no source writes {words!r}" for words in said.words if unwritten(words))
    for known in (OF_TESTS | WORDLESS.keys()) - there:
        yield f"no source writes {known}, which a table of tools/program/written.py has"


def texts_missing(table, begin, form, which):
    """What the chapter hasn't of a kind of line: each of its texts, and of each of their sources one line. `which` gets the places of the rows
    that have them."""
    lines = {}
    for one, words, source in forms_of(begin, form):
        is_line = table.has(begin, one, which)
        is_said = words and all(run in table.chapter for run in fixed_words(words))
        lines[source] = lines.get(source, False) or is_line
        if words and not is_said and (source == REASONS or not is_line):
            yield f"{OPERATING} has no line {begin}{form} with {words!r}"
    if not all(lines.values()):
        yield f"{OPERATING} has no line {begin}{form}"


def alerts_missed(text):
    """What the page's pattern for lines to alert on finds otherwise than its table says."""
    found = ALERTS.search(text)
    if not found:
        yield f"{OPERATING} has no pattern for lines to alert on"
        return
    for row in (row for row in table(text, LINES) if len(row) == len(LINE_COLUMNS)):
        wanted = {"yes": True, "no": False}.get(row[2])
        for begin, span, _ in Table.of_row(row[:1]):
            if bool(re.search(found[1], begin + span)) != wanted:
                yield f"the pattern for alerts {'misses' if wanted else 'finds'} {begin}{span}, of which the table says {row[2]!r}"


def counts():
    """Returns the words of an account's counts, in order, each with whether it counts losses by `has_losses`."""
    text = text_of(TOP / "crates" / COUNTS)
    losses = re.findall(r"self\.(\w+) > 0", re.search(r"(?s)fn has_losses.*?\n    \}\n", text)[0])
    found = {}
    for form, fields in re.findall(r'write!\(\s*f,\s*"([^"]*)"((?:,\s*self\.\w+)*)', text):
        words = re.findall(r"([A-Za-z][A-Za-z ]*?) \{\}", form)
        found |= {word: field in losses for word, field in zip(words, re.findall(r"self\.(\w+)", fields), strict=True)}
    return found


def counts_missed(text):
    """Words of accounts and of refused connections that the page's pattern for alerts finds otherwise than by their counts."""
    if not (found := ALERTS.search(text)):
        return
    alerts, words = found[1], counts()
    for one, is_loss in words.items():
        account = ", ".join(f"{word} {int(word == one)}" for word in words)
        for role in ("publisher", "player"):
            if bool(re.search(alerts, f"[INFO  relay_server::events] 10.0.0.7:51034: {role} of cam: {account}")) != is_loss:
                yield f"the pattern for alerts {'misses' if is_loss else 'finds'} a {role}'s account with `{one} 1` and else 0"
    for why in words_of(REFUSALS):
        if not re.search(alerts, f"[WARN  relay_server::refusing] 1 {why}"):
            yield f"the pattern for alerts misses `1 {why}`"


def symptoms_unwritten(text):
    """Lines of the table of symptoms that no source writes, as a whole or in part. At least half of a line's lower-case letters have
    to be fixed words of a source: the others may be values, as a mount's name."""
    heads = [cells(part.text) for part in parts(text) if part.chapter == SYMPTOMS and part.kind == "head"]
    if [head.index(SYMPTOM_LINE) for head in heads if SYMPTOM_LINE in head] != [2]:
        yield f"{SYMPTOMS!r} has no table whose third column is {SYMPTOM_LINE!r}"
    forms = {begin + one.replace(ANY, "", 1) for begin, form in kinds() if form for one, _, _ in forms_of(begin, form)}
    for span in sorted({span for row in table(text, SYMPTOMS) for cell in row[2:3] for span in spans(cell)}):
        said, letters = ANY + re.sub(r" ?\.\.", ANY, span) + ANY, sum(map(str.islower, span))
        likely = (form for form in forms if any(word in form for word in re.findall(r"[a-z]{4,}", span)))
        if not any(2 * common(pattern(form), said) >= letters for form in likely):
            yield f"no source writes {span!r}, a line of {SYMPTOMS!r}"


def manual_is_whole(program):
    """The man page has each option, and each row of the table of lines of docs/OPERATING.md. The table has each kind of line that the
    sources write, and no other. The page's pattern finds those that it says to alert on, and each count of a loss. Each line of a symptom
    is written."""
    readme, operating = ((TOP / it).read_text(encoding="utf-8") for it in (README, OPERATING))
    page = man_page(readme, operating, program, "0")
    yield from options_missing(program, page)
    yield from rows_missing(operating, page)
    yield from lines_missing(operating)
    yield from alerts_missed(operating)
    yield from counts_missed(operating)
    yield from symptoms_unwritten(operating)
    if not shutil.which("groff"):
        leave_out(manual_is_whole, "groff isn't installed, which reports faults of the page")
        return
    ran = subprocess.run(["groff", "-Kutf8", "-man", "-Tutf8", "-ww"], input=page, capture_output=True, text=True, timeout=60)
    yield from ran.stderr.splitlines() or ([f"groff: status {ran.returncode}"] if ran.returncode else [])


PARTS = [(manual_is_whole, ())]
