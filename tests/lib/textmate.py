"""Applies a grammar of TextMate to a script, as editors do: what is read, line by line, is the rule that begins first,
and each rule goes on to its end. Each character has the letter of what it is shown as."""

import json
import pathlib
import re

LETTERS = {
    "comment": "c",
    "string.quoted": "q",
    "string.unquoted": "h",
    "variable.other.assignment": "a",
    "variable.other": "v",
    "keyword.control": "k",
    "keyword.operator": "o",
    "support.function": "b",
    "entity.name.function": "f",
    "entity.other.mark": "m",
    "constant.character": "p",
    "punctuation": "d",
}


def letter(name):
    """The letter of a scope, or nothing for one that isn't shown."""
    return next((each for scope, each in LETTERS.items() if name.startswith(scope)), None)


class Rule:
    """A rule that is being read: its end, which may repeat what its beginning captured, and its scope."""

    def __init__(self, source, anchor=None, captured=None, scope="."):
        self.source, self.anchor, self.scope = source, anchor, scope
        end = source.get("end", r"(?!)")
        if captured:
            end = re.sub(r"\\(\d)", lambda place: re.escape(captured[int(place[1])]), end)
        self.end = end


class Grammar:
    def __init__(self, path):
        self.source = json.loads(pathlib.Path(path).read_text())
        self.compiled = {}
        self.expanded = {}

    def find(self, pattern, line, start, anchor):
        """The first place from `start` on at which a pattern matches; \\G is the place where the rule began."""
        if pattern not in self.compiled:
            self.compiled[pattern] = re.compile(pattern.replace(r"\G", ""))
        if r"\G" in pattern:
            return self.compiled[pattern].match(line, start) if start == anchor else None
        return self.compiled[pattern].search(line, start)

    def rules(self, patterns):
        """The rules of a list, which belongs to the grammar, with those that it includes in their place."""
        if id(patterns) not in self.expanded:
            self.expanded[id(patterns)] = list(self.expand(patterns))
        return self.expanded[id(patterns)]

    def expand(self, patterns):
        for each in patterns:
            name = each.get("include")
            if name == "$self":
                yield from self.expand(self.source["patterns"])
            elif name:
                yield from self.expand([self.source["repository"][name[1:]]])
            elif "match" in each or "begin" in each:
                yield each
            else:
                yield from self.expand(each["patterns"])

    def next(self, rule, line, place):
        """The match of the rule's end or of one of its rules that begins first, and that rule, if it is not the end."""
        best = self.find(rule.end, line, place, rule.anchor), None
        patterns = rule.source.get("patterns")
        for each in self.rules(patterns) if patterns else ():
            found = self.find(each.get("match") or each["begin"], line, place, rule.anchor)
            if found and (not best[0] or found.start() < best[0].start()):
                best = found, each
        return best


def paint(shown, found, scope, captures):
    """Shows what was found by its scope, and what it captured by theirs."""
    for number in range(found.re.groups + 1):
        name = captures.get(str(number), {}).get("name")
        colour = letter(name) if name else scope if number == 0 else None
        if colour and found.start(number) >= 0:
            for place in range(found.start(number), found.end(number)):
                shown[place] = colour


def show_line(grammar, stack, line):
    """The letters of a line, which ends with a newline. `stack` has the rules that are being read."""
    shown = ["."] * len(line)
    place = 0
    for _ in range(4 * len(line) + 8):
        rule = stack[-1]
        found, source = grammar.next(rule, line, place)
        stop = found.start() if found else len(line)
        shown[place:stop] = rule.scope * (stop - place)
        if not found:
            return "".join(shown)
        scope = rule.scope
        if source is None:
            paint(shown, found, scope, rule.source.get("endCaptures", {}))
            stack.pop()
        elif "match" in source:
            paint(shown, found, letter(source.get("name", "")) or scope, source.get("captures", {}))
        else:
            scope = letter(source.get("name", "")) or scope
            paint(shown, found, scope, source.get("beginCaptures", {}))
            stack.append(Rule(source, found.end(), found, scope))
        place = found.end()
    raise ValueError(f"the grammar does not get through the line {line}")


def show(grammar, text):
    """The letters of each line of a script."""
    stack = [Rule({"patterns": grammar.source["patterns"]})]
    shown = []
    for line in text.splitlines():
        for rule in stack:
            rule.anchor = None
        shown.append(show_line(grammar, stack, line + "\n")[: len(line)])
    return shown
