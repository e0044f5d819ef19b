"""The man page of the Debian package, made from README, docs/OPERATING.md and the help of `pull`, `talk`, `steps` and `pass`."""
import re
import subprocess

from readme import SPAN, cells, parts

OPTIONS, OPTION_COLUMNS = "Options of `serve`", ["Option", "What it does", "Range", "Default"]

LINES, LINE_COLUMNS = "Lines on standard error", ["Line", "Means", "Alert"]

# What begins the page, before its description. `vasklun` is the program's name in the package.
HEAD = """\
.TH VASKLUN 1 "" "vasklun {number}"
.nh
.SH NAME
vasklun \\- live relay for RTSP 1.0
.SH SYNOPSIS
.B vasklun serve
.I ADDR
[options]
.br
.B vasklun pull
.I SOURCE TARGET
[options]
.br
.B vasklun talk
[\\-\\-word HEX8]
.br
.B vasklun steps
[\\-\\-stopped A]
.br
.B vasklun \\-\\-version
"""

HELP = "| `-h`, `--help` | Print all options with their ranges and defaults | | |"

SIGNALS = """\
INT, TERM and HUP stop `serve`: it closes all connections, writes their accounts and the last report, and exits with status 0. They \
stop `pull`: it tears its sessions down, writes the account of its last try, and exits with status 0. If one of them \
is still there after five seconds, it is killed. They are for `vasklun`, a script; the program that it runs ignores them."""

EXIT_STATUS = """\
0 when done, 1 after a failure that is reported on standard error, 2 if the command line isn't understood, 137 if the program was killed."""


def escaped(text):
    """Returns a text with nothing that roff reads as its own, but at the begin of a line. Two blanks are kept."""
    return text.replace("\\", "\\e").replace("-", "\\-").replace("  ", "\\ \\ ")


def begun(text):
    """Returns a line that isn't a request of roff."""
    return re.sub(r"^(\\fB)?([.'])", r"\1\\&\2", text)


def marked(found):
    link, bold, italic = found.groups()
    return f"\\fB{bold}\\fR" if bold else f"\\fI{italic}\\fR" if italic else link


def roff(text):
    """Returns a line of a page's text for roff: code and bold words in bold, words in italics so, and of links their texts."""
    found, end = [], 0
    for span in [*SPAN.finditer(text), None]:
        plain = escaped(text[end: span.start() if span else len(text)])
        found.append(re.sub(r"\[([^\]]*)\]\([^)]*\)|\*\*([^*]+)\*\*|(?<![*\w])\*([^*\s][^*]*)\*(?![*\w])", marked, plain))
        if span:
            found.append(f"\\fB{escaped(span[2])}\\fR")
            end = span.end()
    return begun("".join(found))


def sentence(text):
    """Returns a text of a page as a sentence, or nothing if it is empty or a dash."""
    text = text.strip(" -–—")
    return text + "." if re.search(r"[^.?!]$", text) else text


def told(name, text):
    """Returns a sentence that gives a cell's text a name, or nothing if the cell has no text."""
    return sentence(f"{name}: {text}") if sentence(text) else ""


def entry(head, row):
    """Returns the entry of a table's row: its first cell, and then what the others say of it."""
    row = row + [""] * (len(head) - len(row))
    if head == OPTION_COLUMNS:
        words = [sentence(row[1]), told("Range", row[2]), told("Default", row[3])]
    elif head == LINE_COLUMNS:
        words = [sentence(row[1]), told("Alert", row[2])]
    else:
        words = [sentence(it) for it in row[1:]]
    return [".TP", roff(row[0]), roff(" ".join(word for word in words if word)) or "\\&"]


def chapter(text, title):
    """Returns a chapter of a page: its paragraphs, its items and the rows of its tables."""
    made, head = [], []
    for part in parts(text):
        if part.chapter != title:
            continue
        if part.kind == "title" and part.text != title:
            made += [f".SS {roff(part.text)}"]
        elif part.kind in ("paragraph", "item"):
            made += [".PP", roff(part.text)]
        elif part.kind == "code":
            made += [".PP", ".nf", f"\\fB{roff(part.text)}\\fR", ".fi"]
        elif part.kind == "head":
            head = cells(part.text)
            made += [".PP", f"{roff(head[0])}:"] if head[0] and not head[1] else []
        elif part.kind == "row":
            made += entry(head, cells(part.text))
    return made


def options(text):
    """Returns the options of `serve`: the rows of README's table alone."""
    rows = [cells(part.text) for part in parts(text) if part.chapter == OPTIONS and part.kind == "row"]
    return [line for row in [*rows, cells(HELP)] if len(row) == len(OPTION_COLUMNS) for line in entry(OPTION_COLUMNS, row)]


def help_of(program, command):
    ran = subprocess.run(["vasklun", command, "--help"], executable=program, capture_output=True, text=True, check=True)
    lines = ran.stdout.rstrip().replace("./relay", "vasklun").splitlines()
    return [f".SH HELP OF {command.upper()}", ".nf", *(begun(escaped(line)) for line in lines), ".fi"]


def man_page(readme, operating, program, number):
    """Returns the man page by the texts of README and docs/OPERATING.md, of the program at a path, with the number of its version."""
    about = [part.text for part in parts(readme) if part.kind == "paragraph"][:2]
    page = [HEAD.format(number=number).rstrip(), ".SH DESCRIPTION", roff(about[0]), ".PP", roff(about[1])]
    page += [".SH OPTIONS OF SERVE", *options(readme), ".SH LINES ON STANDARD ERROR", *chapter(operating, LINES)]
    page += [*help_of(program, "pull"), *help_of(program, "talk"), *help_of(program, "steps"), *help_of(program, "pass"), ".SH SIGNALS", roff(SIGNALS), ".SH EXIT STATUS", EXIT_STATUS, ""]
    return "\n".join(page)
