"""The help of `serve`: it has the words, ranges and defaults of README's table of options, in its order."""
import pathlib
import re
import subprocess

from readme import README, table

TOP = pathlib.Path(__file__).resolve().parent.parent.parent

# An option's lines: its name with that of its value, and its text, which goes on in lines of its column.
OPTION = re.compile(r"(?m)^ {6}--([\w-]+)(?: <(\w+)>)? +(\S.*(?:\n {32}\S.*)*)$")

# A text of the help: what the option does, and its range and default if it has them.
TEXT = re.compile(r"(?P<does>.*?)(?: \((?P<range>[^()]*)\))?(?: \[default: (?P<default>[^]]*)\])?")

# What README's table says of an option without a value.
SWITCHES = {"off", "on"}


def of_help(program):
    """The rows that the help gives, as README has them."""
    text = subprocess.run([program, "serve", "--help"], capture_output=True, text=True, timeout=60).stdout
    for name, value, words in OPTION.findall(text):
        found = TEXT.fullmatch(" ".join(words.split()))
        yield [f"--{name} {value}".rstrip(), found["does"], found["range"] or "", found["default"] or ""]


def of_readme(text):
    """The rows of README's table, without the marks of code."""
    for row in table(text, "Options of `serve`"):
        name, does, range_, default = (it.replace("`", "") for it in row)
        yield [name, does, range_, "" if " " not in name and default in SWITCHES else default]


def help_has_readmes_words(program):
    """Each option has the same words in the help and in README."""
    helped, said = list(of_help(program)), list(of_readme((TOP / README).read_text(encoding="utf-8")))
    if [row[0] for row in helped] != [row[0] for row in said]:
        yield f"the help has the options {[row[0] for row in helped]}, and README {[row[0] for row in said]}"
    for ours, theirs in zip(helped, said):
        if ours != theirs:
            yield f"the help has {ours}, and README {theirs}"


PARTS = [(help_has_readmes_words, ())]
