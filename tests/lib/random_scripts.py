"""Random scripts of the grammar of docs/language.md, with blanks, newlines, comments and here documents wherever they
may stand. The shell refuses a few of them."""
import random


class Script:
    """A script that is written from left to right."""

    def __init__(self, seed):
        self.random = random.Random(seed)
        self.pieces = []
        self.marks = []

    def text(self):
        return "".join(self.pieces)

    def write(self, *texts):
        self.pieces.extend(texts)

    def chance(self, percent):
        return self.random.randrange(100) < percent

    def choose(self, *texts):
        self.write(self.random.choice(texts))

    def several(self, most, between, one):
        """Up to so many things, with something between them."""
        for number in range(self.random.randint(0, most)):
            if number:
                between()
            one()

    # blanks, newlines and comments
    def blank(self):
        self.choose(" ", " ", " ", " ", "  ", "\t", " \\\n ")

    def maybe_blank(self):
        if self.chance(30):
            self.blank()

    def newline(self):
        if self.chance(15):
            self.choose("", " ", "   ")
            self.choose("# why", "#", "# it's { not (", "# ends with \\", "#\ttab ")
        self.write("\n")
        for mark in self.marks:
            self.several(3, str, lambda: self.choose("$x and $$\n", "\ttab\n", "# text\n", "it's }\n", "$x^y\n", "\n"))
            self.write(mark, "\n")
        self.marks = []

    def newlines(self, percent):
        while self.chance(percent):
            self.newline()
            self.maybe_blank()
            percent -= 5

    # arguments
    def word(self):
        self.choose("a", "b", "-n", "*.rc", "[a-z]", "a\\b", "back\\", "case", "not", "for", "é", "@x", "[2]", "~", "!~")

    def first(self):
        self.choose("a", "echo", "cat", "./x", "long" * self.random.randint(1, 6), "back\\")

    def quoted(self):
        self.choose("'q'", "'a  b'", "'it''s'", "''", "'new\nline'", "'# no'", "'{'", "'a\\'")

    def variable(self):
        self.choose("$", "$", "$$", "$#", '$"')
        self.choose("x", "status", "*", "1", "'q'")

    def members(self, depth):
        self.write("(")
        self.newlines(10)
        self.several(3, lambda: (self.blank(), self.newlines(15)), lambda: self.argument(depth - 1))
        self.newlines(10)
        self.write(")")

    def part(self, depth):
        kind = self.random.randrange(9 if depth > 0 else 6)
        if kind < 3:
            self.word()
        elif kind == 3:
            self.quoted()
        elif kind < 6:
            self.variable()
        elif kind == 6:
            self.write("$x")
            self.members(depth)
        elif kind == 7:
            self.members(depth)
        else:
            self.write("`")
            self.braces(depth - 1)

    def argument(self, depth):
        self.part(depth)
        while self.chance(15):
            self.maybe_blank()
            self.write("^")
            self.maybe_blank()
            self.part(depth)
        if self.chance(10):
            self.choose("^a'b'", "^a$x", "^a`{b}", "^'a'b")

    # redirections and commands
    def redirection(self, depth):
        kind = self.random.randrange(6)
        if kind < 4:
            self.choose(">", ">>", "<", ">[2]", ">>[1]", "<[0]")
            self.choose("", " ", " [2]^")
            self.first()
        elif kind == 4:
            self.choose(">[2=1]", ">[1=2]")
        else:
            mark = self.random.choice((".", "END", "back\\")) + str(len(self.pieces))
            self.choose("<<", "<<[0]", "<< ", "<< \\\n")
            self.choose(mark, f"'{mark}'")
            self.marks.append(mark)

    def simple(self, depth):
        self.first()
        for _ in range(self.random.choice((0, 1, 1, 2, 2, 5, 9))):
            self.blank()
            self.argument(depth)
        while self.chance(15):
            self.blank()
            self.redirection(depth)

    def braces(self, depth):
        self.write("{")
        self.commands(depth, self.chance(50))
        self.write("}")

    def condition(self, depth):
        self.maybe_blank()
        self.write("(")
        self.commands(depth, self.chance(85))
        self.write(")")

    def commands(self, depth, is_on_one_line):
        """The commands of a list."""
        if not is_on_one_line:
            self.newlines(50)
        for _ in range(self.random.choice((0, 1, 1, 2, 3) if depth > 0 else (0, 1))):
            self.maybe_blank()
            if self.chance(10):
                self.alternative(depth)
            else:
                self.command(depth)
            self.end(is_on_one_line)

    def end(self, is_on_one_line):
        """The end of a command."""
        self.maybe_blank()
        if self.chance(15):
            self.write("&")
        elif is_on_one_line or self.chance(15):
            self.choose(";", "; ", ";;")
        else:
            self.newline()
            self.newlines(30)

    def switch(self, depth):
        self.choose("switch(a) ", "switch $x", "switch 'a'", "switch\ta\n")
        self.write("{")
        self.newlines(40)
        for _ in range(self.random.randint(0, 3)):
            self.write("case")
            self.several(2, str, lambda: (self.blank(), self.argument(depth - 1)))
            self.end_case()
            self.several(2, str, lambda: (self.command(depth - 1), self.end(False)))
        self.write("}")

    def end_case(self):
        if self.chance(20):
            self.write(";")
        else:
            self.newline()

    def stage(self, depth):
        kind = self.random.randrange(10 if depth > 0 else 6)
        if kind < 6:
            self.simple(depth)
        elif kind == 6:
            self.braces(depth - 1)
        elif kind == 7:
            self.switch(depth)
        elif kind == 8:
            self.choose("~ ", "~")
            self.write("$x a")
        else:
            self.choose("fn f", "fn f g ", "fn $x")
            self.braces(depth - 1)

    def operand(self, depth):
        kind = self.random.randrange(14 if depth > 0 else 6)
        if kind < 6:
            self.stage(depth)
            while self.chance(25):
                self.maybe_blank()
                self.choose("|", "|", "|[2]")
                self.newlines(10)
                self.blank()
                self.stage(depth)
        elif kind == 6:
            self.choose("! ", "@ ", "x=a ", "x = a ", "x=(a b) y=c ", ">f ", "< f >[2=1] ")
            self.operand(depth - 1)
        elif kind == 7:
            self.choose("!$x ", "@ ! ~ $x ", "x = ", "x=(a b) y=")
            self.argument(depth)
        else:
            self.control(depth)

    def control(self, depth):
        if self.chance(70):
            self.choose("if", "while")
            self.condition(depth - 1)
        else:
            self.choose("for(x)", "for ( x )", "for(x in a $y b)", "for(x in `{a})")
        self.body(depth)

    def body(self, depth):
        if self.chance(90):
            self.blank()
            self.newlines(20)
            self.command(depth - 1)

    def alternative(self, depth):
        self.write("if")
        self.condition(depth - 1)
        self.blank()
        self.simple(depth)
        self.end_case()
        self.write("if not")
        self.body(depth)

    def command(self, depth):
        self.operand(depth)
        while self.chance(15):
            self.maybe_blank()
            self.choose("&&", "||")
            self.newlines(20)
            self.maybe_blank()
            self.simple(depth)


def random_script(seed):
    """The script of a seed."""
    script = Script(seed)
    if script.chance(20):
        script.write("#!/bin/rc\n")
    for _ in range(script.random.randint(1, 6)):
        script.newlines(20)
        script.command(script.random.randint(1, 4))
        script.end(False)
    script.newline()
    return script.text()
