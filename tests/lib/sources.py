"""The functions of a crate, as its sources have them in the layout of `rt fmt`, and what the proof of a cycle says of
each of its functions."""
import os
import re
from typing import NamedTuple

FUNCTION = re.compile(r"( *)(?:pub(?:\([a-z]+\))? )?(const )?fn (\w+)")
TYPE = re.compile(r"^(?:pub(?:\([a-z]+\))? )?(?:struct|enum) (\w+)", re.M)
CONSTANT = re.compile(r"(?:pub(?:\([a-z]+\))? )?const (\w+):")
CYCLE = re.compile(r" *#\[cycle\((\w+)\)\]")
METHODS = re.compile(
    r"impl(?:<(?P<parameters>.*?)>)? (?:(?P<trait>.+) for )?(?P<type>[\w:]+(?:<.*>)?)(?: where .*)? \{"
)


class Function(NamedTuple):
    """A function of a crate: its file below src/; the lines that it stands in, with the one that opens its body, or 0
    where there is none; its path below the crate; the name of its cycle of calls, if it is in one; and whether it can
    be known by its contract alone, as each that is neither of a trait nor a `const fn`."""

    file: str
    first: int
    last: int
    body: int
    path: tuple
    cycle: str
    is_plain: bool


def read(path):
    """The text of a file, empty where there is none."""
    if not os.path.exists(path):
        return ""
    with open(path, encoding="utf-8") as it:
        return it.read()


def write(path, text):
    """Writes a file, with the directories that it lies in."""
    os.makedirs(os.path.dirname(path), exist_ok=True)
    with open(path, "w", encoding="utf-8") as it:
        it.write(text)


def drop_lines(lines, begin, end, pattern):
    """Empties those of these lines that begin so. Each line keeps its number."""
    for at in range(begin, end):
        if re.match(pattern, lines[at]):
            lines[at] = ""


def body_and_end(lines, at, margin):
    """The numbers of the line that opens the body of the function that begins there, or 0, and of its last line: a
    brace under its first letter, or what ends a declaration, which has no body."""
    depth, body = 0, 0
    for number, line in enumerate(lines[at:], at + 1):
        depth += line.count("{") - line.count("}")
        if not body and line.endswith("{") and line.startswith(margin) and line[len(margin)] != " ":
            body = number
        is_one_line = number == at + 1 and line.endswith("}")
        if line in (margin + "}", margin + "{}") or is_one_line or line.endswith(";") and depth == 0 and not body:
            return body, number
    raise ValueError(f"the function of line {at + 1} has no end")


def type_of(methods):
    """The name that the prover gives the type of these methods: for those of a trait, the type and the trait, with
    what these are for."""
    parameters = {it.strip().partition(":")[0] for it in (methods["parameters"] or "").split(",")}
    named = re.findall(r"\w+", re.sub(r"\w+::|'\w+", "", f"{methods['type']} {methods['trait'] or ''}"))
    return "".join(it for it in named if it not in parameters) if methods["trait"] else named[0]


def modules_of(file):
    """The modules that a file below src/ is of."""
    return [part for part in file.removesuffix(".rt").split("/") if part not in ("lib", "main", "mod")]


def function_in(file, lines, begun, at, methods, types):
    """The function whose head is line `at` and whose attributes begin at line `begun`, both counted from 0."""
    margin, is_const, name = FUNCTION.match(lines[at]).groups()
    body, last = body_and_end(lines, at, margin)
    of_type = margin and methods and type_of(methods)
    path = (*types.get(of_type, modules_of(file)), *filter(None, [of_type]), name)
    cycle = next((it[1] for it in map(CYCLE.match, lines[begun:at]) if it), "")
    is_free = not margin or methods and not methods["trait"]
    return Function(file, begun + 1, last, body, path, cycle, bool(body and is_free and not is_const))


def functions_of(texts):
    """The functions of the files with these texts: a blank line or a brace stands before each of them, attributes
    aside."""
    types = {name: modules_of(file) for file, text in texts.items() for name in TYPE.findall(text)}
    found = []
    for file, text in texts.items():
        lines, methods, begun = text.split("\n"), None, 0
        for at, line in enumerate(lines):
            if line and line[0] not in " }":
                methods = METHODS.match(line)
            if FUNCTION.match(line):
                found.append(function_in(file, lines, begun, at, methods, types))
            if not line or line.endswith("{"):
                begun = at + 1
    return found


def said_alone(function, text):
    """What a file of the proof of a cycle says of this function, as a proof of its own says it: without its name, and
    without what decreases."""
    of_it = rf"(?:invariant-)?(?:\w+::)*{function.path[-1]}-"
    goals = [(re.search(r": goal\.(\S+)", it), it) for it in text.split("\n\n")]
    text = "\n\n".join(it for goal, it in goals if not goal or re.match(of_it, goal[1]))
    place = ".".join(function.path)
    text = re.sub(r"(use Rattle\.\w+)\.proofs\.\S+\.(Given|Goals) as goal", rf"\1.proofs.{place}.\2 as goal", text)

    def own_names(found):
        own = [it for it in found[2].split(", ") if re.match(of_it, it)]
        return f"{found[1]}.proofs.{place}.Goals.{{{', '.join(own)}}}\n" if own else ""

    text = re.sub(r"(use Rattle\.\w+)\.proofs\.\S+\.Goals\.\{(.*)\}\n", own_names, text)
    named = rf"(^(?:abbrev )?(?:pub )?|goal\.|(?<=[ {{])(?=\w+::))(invariant-)?(?:\w+::)*{function.path[-1]}-"
    text = re.sub(named, r"\1\2", text, flags=re.M)
    return re.sub(r"^([^\s:]+(?: g)?) t c\b", r"\1 c", text, flags=re.M)


def dependencies_of(tree):
    """The libraries that each crate names in crates.txt."""
    found = {}
    with open(f"{tree}/crates.txt", encoding="utf-8") as lines:
        for line in lines:
            name, colon, below = line.partition("#")[0].partition(":")
            if colon:
                found[name.split()[0]] = below.split()
    return found
