"""The constants of the sources: each with its crate, modules, name, number and comment. For tools/program/limit_rows.py and facts.py."""
import ast
import collections
import glob
import os
import re

# A constant: its crate, the names of its folders and of its file (`["connection", "incoming"]`), its name, its number or `None` if that
# can't be read, and its comment.
Constant = collections.namedtuple("Constant", "crate modules name number comment")

# A constant of a type that has numbers, with the comment lines before it.
DECLARED = re.compile(
    r"(?P<comment>(?:^[ \t]*///?[^\n]*\n)*)^[ \t]*(?:pub(?:\([^)]*\))? )?const (?P<name>\w+): (?:u8|u16|u32|u64|usize|Duration) =(?P<value>[^;]*);",
    re.M,
)

OPERATIONS = {
    ast.Add: lambda a, b: a + b, ast.Sub: lambda a, b: a - b, ast.Mult: lambda a, b: a * b, ast.FloorDiv: lambda a, b: a // b,
    ast.LShift: lambda a, b: a << b, ast.RShift: lambda a, b: a >> b,
}

# The units of the calls that make a `Duration`.
DURATIONS = {"secs": "seconds", "millis": "milliseconds", "micros": "microseconds", "nanos": "nanoseconds"}

GREATEST = {f"u{bits}": 2**bits - 1 for bits in (8, 16, 32, 64)} | {"usize": 2**64 - 1}


def calculated(node, named):
    """Returns the number of a part of an expression, by the number of each name. Raises `ValueError` if it has none."""
    if isinstance(node, ast.Constant) and isinstance(node.value, int):
        return node.value
    if isinstance(node, ast.BinOp) and type(node.op) in OPERATIONS:
        return OPERATIONS[type(node.op)](calculated(node.left, named), calculated(node.right, named))
    if isinstance(node, ast.Name):
        if (number := named(node.id)) is not None:
            return number
    raise ValueError(ast.dump(node))


def number_of(expression, named):
    """Returns the number of an expression as `1 << 14`, `64 * 1024`, `16_384`, `Duration::from_millis(20)` or `OTHER + 1`, or `None`."""
    text = re.sub(r"\bDuration::from_\w+\(([^()]*)\)", r"(\1)", expression)
    text = re.sub(r"\b(u8|u16|u32|u64|usize)::MAX\b", lambda it: str(GREATEST[it[1]]), text)
    text = re.sub(r"\bas \w+|(?<=\d)_?(?:u8|u16|u32|u64|usize)\b", "", text).replace("/", "//")
    try:
        return calculated(ast.parse(text.strip(), mode="eval").body, named)
    except (SyntaxError, ValueError):
        return None


def modules_of(path):
    """Returns the folders and the file of a source below its crate's `src`, without those that have no name of their own."""
    inner = re.sub(r"^crates/\w+/src/|\.rt$", "", path).split("/")
    return [it for it in inner if it not in ("lib", "main")]


def declared_in(path, text):
    """Returns the constants of one file with their expressions: a constant without a comment has that of the constant before it."""
    crate, found, comment, end = path.split("/")[1], [], "", None
    for it in DECLARED.finditer(text):
        own = re.sub(r"(?m)^[ \t]*///? ?", "", it["comment"]).strip()
        is_next = end is not None and not text[end : it.start()].strip()
        comment, end = own or (comment if is_next else ""), it.end()
        unit = re.search(r"\bDuration::from_(secs|millis|micros|nanos)\b", it["value"])
        found.append((Constant(crate, modules_of(path), it["name"], None, f"{comment} {unit and DURATIONS[unit[1]] or ''}"), it["value"]))
    return found


def constants_of(crate, text_of):
    """Returns the constants of a crate that have a number's type, wherever its files are."""
    files = [declared_in(path, text_of(path)) for path in sorted(glob.glob(f"crates/{crate}/src/**/*.rt", recursive=True))]
    every = [it for those in files for it in those]
    found = []
    for those in files:
        for constant, expression in those:
            found.append(constant._replace(number=value_of(constant.name, expression, those, every)))
    return found


def value_of(name, expression, near, every, seen=()):
    """Returns the number of a constant's expression. A name in it is one of the same file, or the only one of the crate."""
    def named(other):
        if other in seen or other == name:
            return None
        texts = [text for it, text in near if it.name == other] or [text for it, text in every if it.name == other]
        return value_of(other, texts[0], near, every, (*seen, name)) if len(texts) == 1 else None

    return number_of(expression, named)


def chosen(constants, path):
    """Returns the constants that `NAME` or `module::NAME` is: the module is the file of the constant or one of its folders."""
    *modules, name = path.split("::")
    return [it for it in constants if it.name == name and set(modules) <= set(it.modules)]


def crates_of(program, text_of):
    """Returns the crates of this repository that a crate is built from, itself included, by `crates.txt`."""
    below = {name: rest.split() for name, _, rest in (line.partition(":") for line in text_of("crates.txt").splitlines())}
    found, left = set(), [program]
    while left:
        if (crate := left.pop()) not in found and os.path.isdir(f"crates/{crate}"):
            found.add(crate)
            left += below.get(crate, [])
    return found
