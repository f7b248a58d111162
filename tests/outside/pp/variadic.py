"""Macros with variable arguments, by hand and against another preprocessor.

  python3 variadic.py PROGRAM [COUNT]

PROGRAM pp main.c writes the tokens of main.c with one space between, or the line of a fault. It is asked for the sources of
variadic.txt, whose tokens or fault stand there; for sources about limits; and for COUNT sources (300) made from a fixed seed:
definitions with and without an ellipsis, and calls with commas, parentheses, literals, white space and line ends in their
arguments. Of three quarters of them gcc -E -P -std=c11 -pedantic-errors gives tokens, which must be PROGRAM's. In each fourth
one thing is wrong that the standard forbids: gcc has to refuse it, and PROGRAM to say the code and the line that are known here.
The last line is 'N passed, M failed'.
"""

import subprocess
import sys
from itertools import chain
from pathlib import Path

HERE = Path(__file__).resolve().parent
sys.path.insert(0, str(HERE.parent.parent))
import harness
from model import spellings

# so many sources stand in variadic.txt and in limits()
ROWS = 118 + 12
TEXTS = {
    201: "macro redefined differently",
    202: "bad macro definition",
    203: "# not before a parameter",
    204: "## at an end of a replacement",
    205: "reserved macro name",
    208: "__VA_ARGS__ outside its macro",
    211: "macro arguments not closed",
    212: "wrong number of macro arguments",
    214: "no variable argument",
    705: "limit: macro parameters",
}


class Fault(str):
    """The line of a fault, where no tokens are wanted."""


def fault(line, code):
    return Fault("main.c:%d: %d %s" % (line, code, TEXTS[code]))


# ---- sources by hand


def by_hand():
    """The name, the source and the answer of each block of variadic.txt."""
    blocks = (HERE / "variadic.txt").read_text().split("\n=== ")[1:]
    for block in blocks:
        name, rest = block.split("\n", 1)
        if "\n--- fault\n" in rest:
            text, want = rest.split("\n--- fault\n")
            yield name, text + "\n", Fault(want.strip())
        else:
            text, want = rest.split("\n--- tokens\n")
            yield name, text + "\n", want.replace("\n", " ").strip()


def limits():
    """The name, the source and the answer of sources about the limit of 127 parameters and arguments."""
    names = ",".join("p%d" % i for i in range(1, 127))
    numbers = ",".join(str(i) for i in range(1, 127))
    most = "#define f(%s,...) p1 p126 [__VA_ARGS__]\n" % names
    yield "126 parameters and an ellipsis", most + "f(%s,a)\nf(%s,a,b)\n" % (numbers, numbers), "1 126 [ a ] 1 126 [ a , b ]"
    yield "126 arguments and an empty one", most + "f(%s,)\n" % numbers, "1 126 [ ]"
    many = ",".join(["a"] * 300)
    yield "300 variable arguments", most + "f(%s,%s)\n" % (numbers, many), "1 126 [ %s ]" % " , ".join(["a"] * 300)
    yield "300 variable arguments alone", "#define f(...) __VA_ARGS__\nf(%s)\n" % many, " , ".join(["a"] * 300)
    yield "126 arguments alone", most + "f(%s)\n" % numbers, fault(2, 214)
    yield "125 arguments", most + "\nf(%s)\n" % numbers[: numbers.rindex(",")], fault(3, 212)
    over = "#define f(%s,p127,...) __VA_ARGS__\n" % names
    yield "127 parameters and an ellipsis", over, fault(1, 705)
    yield "705 before 201", "#define f 1\n" + over, fault(2, 705)
    yield "208 before 705", "#define f(%s,p127,p128) __VA_ARGS__\n" % names, fault(1, 208)
    yield "204 before 705", over.replace("__VA_ARGS__", "##"), fault(1, 204)
    plain = "#define g(a) a\n#define f(...) g(__VA_ARGS__)\n"
    yield "128 arguments by an ellipsis for one", plain + "f(%s)\n" % ",".join(["a"] * 128), fault(3, 705)
    yield "127 arguments by an ellipsis for one", plain + "f(%s)\n" % ",".join(["a"] * 127), fault(3, 212)


# ---- random sources

PLAIN = ["a", "b", "x1", "7", "0x1p", "+", "->", "<<=", "...", "[", "{", ";", "'c'", "'\\''", '"s,t"', '"\\"("', 'L"w"', "__VA_ARGS"]
IDENTIFIERS = ["a", "b", "x1", "_n"]


class Source:
    """One source in the making: its macros, each with its number of named parameters and whether an ellipsis ends them."""

    def __init__(self, rng):
        self.rng = rng
        self.lines = []
        self.macros = {}

    def define(self, name, named, variadic, joins, strings):
        rng = self.rng
        parameters = ["p%d" % i for i in range(named)]
        operands = parameters + ["__VA_ARGS__"] * (2 if variadic else 0)
        body = []
        for _ in range(rng.randrange(1, 7)):
            kind = rng.randrange(10)
            if not operands or kind < 2:
                body.append(rng.choice(["a", "b", "(", ")", ",", "|", "7"]))
            elif kind == 2 and strings:
                body.append(rng.choice(["#", "# "]) + rng.choice(operands))
            elif kind == 3 and joins:
                # gcc takes a comma before ## __VA_ARGS__, which the standard does not
                left = rng.choice(operands + ["a"])
                right = rng.choice(parameters + ["a"] if left == "__VA_ARGS__" else operands)
                body.append(left + rng.choice([" ## ", "##"]) + right)
            elif kind == 4 and self.macros:
                callee = rng.choice(sorted(self.macros))
                body.append("%s(%s)" % (callee, rng.choice(operands) if rng.random() < 0.6 else "a, " + rng.choice(operands)))
            else:
                body.append(rng.choice(operands))
        written = ", ".join(parameters + ["..."] * variadic)
        if rng.random() < 0.3:
            written = " " + written.replace(", ", rng.choice([",", " , "])) + " "
        self.lines.append("#define %s(%s) %s" % (name, written, rng.choice([" ", "  "]).join(body)))
        self.macros[name] = (named, variadic)

    def argument(self, depth, empty):
        rng = self.rng
        if empty and rng.random() < 0.2:
            return ""
        words = []
        for _ in range(rng.randrange(1, 4)):
            kind = rng.randrange(8)
            if kind == 0 and depth < 2:
                words.append("(" + self.arguments(rng.randrange(1, 4), depth + 1, True) + ")")
            elif kind == 1 and depth < 2:
                words.append(self.call(depth + 1))
            elif kind < 5:
                words.append(rng.choice(IDENTIFIERS))
            else:
                words.append(rng.choice(PLAIN))
        return rng.choice([" ", " ", "  ", "\n", "/**/"]).join(words)

    def arguments(self, count, depth, empty):
        return self.rng.choice([",", ", ", " ,", " , ", ",\n"]).join(self.argument(depth, empty) for _ in range(count))

    def count(self, name):
        named, variadic = self.macros[name]
        return named + self.rng.randrange(1, 5) if variadic else max(named, 1)

    def call(self, depth=0):
        name = self.rng.choice(sorted(self.macros))
        if self.macros[name] == (0, False):
            return name + "()"
        return name + self.rng.choice(["(", "(", " (", "( "]) + self.arguments(self.count(name), depth, True) + ")"

    def definitions(self):
        rng = self.rng
        for i in range(rng.randrange(2, 6)):
            self.define("m%d" % i, rng.randrange(4), rng.random() < 0.75, rng.random() < 0.5, rng.random() < 0.6)
        if not any(variadic for named, variadic in self.macros.values()):
            self.define("mv", 1, True, False, True)

    def line(self):
        """The number of the line that comes next."""
        return sum(line.count("\n") + 1 for line in self.lines) + 1

    def uses(self, count):
        for _ in range(count):
            self.lines.append("<%s> ;" % self.call())

    def text(self):
        return "".join(line + "\n" for line in self.lines)


def forbidden(source):
    """Puts one thing into the source that is wrong; the line of its fault, and the code."""
    rng = source.rng
    name = rng.choice(sorted(name for name, (named, variadic) in source.macros.items() if variadic))
    named = source.macros[name][0]
    plain = ",".join(rng.choice(IDENTIFIERS) for _ in range(named))
    kind = rng.choice([0, 0, 0, 1, 1, 1, 2, 3, 3, 4, 5, 6, 7, 8])
    line = source.line()
    if kind == 0 and named:
        source.lines.append("%s(%s)" % (name, plain))
        return line, 214
    if kind == 1 and named > 1:
        source.lines.append("%s(%s)" % (name, plain[: plain.rindex(",")]))
        return line, 212
    if kind == 2:
        source.lines.append("%s(%s,\n#define o\n1)" % (name, plain or "a"))
        return line, 211
    if kind == 3:
        source.lines.append(rng.choice(["#define k(a) a __VA_ARGS__", "#define k __VA_ARGS__", "#define k() (__VA_ARGS__)"]))
        return line, 208
    if kind == 4:
        lists = ["..., a", "a ...", "a, ..., b", "...,", "..", ", ...", "..., ...", "1, ...", "a, a, ..."]
        source.lines.append("#define k(%s) 1" % rng.choice(lists))
        return line, 202
    if kind == 5:
        source.lines.append(rng.choice(["#define __VA_ARGS__ 1", "#define k(__VA_ARGS__) 1", "#undef __VA_ARGS__"]))
        return line, 205
    if kind == 6:
        before, after = rng.choice([("a", "a, ..."), ("a, ...", "a"), ("...", ""), ("", "..."), ("a, ...", "b, ..."), ("...", "a")])
        source.lines += ["#define k(%s) 1" % before, "#define k(%s) 1" % after]
        return line + 1, 201
    if kind == 7:
        source.lines.append("#define k(...) %s" % rng.choice(["# a", "#", "__VA_ARGS__ #"]))
        return line, 203
    source.lines.append("#define k(a, ...) %s" % rng.choice(["## a", "__VA_ARGS__ ##", "## __VA_ARGS__", "##"]))
    return line, 204


def of_gcc(text):
    """The tokens that gcc gives, or nothing where it refuses."""
    told = subprocess.run(["gcc", "-E", "-P", "-std=c11", "-pedantic-errors", "-"], input=text, capture_output=True, text=True, check=False)
    return " ".join(spellings(told.stdout)) if told.returncode == 0 else None


def sources(count):
    """The name, the text and the answer of each random source."""
    rng = harness.seeded(6103)
    made = 0
    while made < count:
        source = Source(rng)
        source.definitions()
        if made % 4 == 3:
            source.uses(1)
            if of_gcc(source.text()) is None:
                continue
            line, code = forbidden(source)
            source.uses(1)
            assert of_gcc(source.text()) is None, source.text()
            made += 1
            yield "random %d" % made, source.text(), fault(line, code)
            continue
        source.uses(rng.randrange(1, 4))
        tokens = of_gcc(source.text())
        if tokens is not None:
            made += 1
            yield "random %d" % made, source.text(), tokens


# ---- asking


def held(case, text, want, name=""):
    """What is wanted is a line of tokens, or the line of a fault."""
    case.program.write("main.c", text)
    wanted = (1, b"", want.encode() + b"\n") if isinstance(want, Fault) else (0, want.encode() + b"\n", b"")
    case.expect(name + text, case.program.run("pp", "main.c"), wanted)


def held_at_random(case, count):
    """So many sources of the seed. They are made when the case runs, since gcc is asked of each."""
    harness.needs("gcc")
    for name, text, want in sources(count):
        held(case, text, want, name + ": ")


def cases(_, count="300"):
    yield harness.Row("random", held_at_random, int(count))
    rows = list(chain(by_hand(), limits()))
    for name, text, want in rows:
        yield harness.Row(name, held, text, want)
    yield harness.number_of("sources by hand", len(rows), ROWS)


if __name__ == "__main__":
    sys.exit(harness.main(cases))
