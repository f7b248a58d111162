"""Sets of files that include one another, against two other preprocessors.

  python3 includes.py PROGRAM [COUNT]

PROGRAM pp main.c FILES writes the tokens of main.c with one space between. COUNT sets (300) are made from a fixed seed: up to seven
headers, with and without guards, included in quotes and by macros, at the top, within conditionals and from one another, and a header
that includes itself a few times; #line, __FILE__ and __LINE__ on both sides of an #include; macros that headers define and undefine;
and the built-in headers. Every token stands apart, so that words can be compared. `gcc -E -P -std=c11` and `clang -E -P -std=c11`
say what comes of each; they are given texts of the built-in headers. Each tenth set names a file that is not there, leaves a conditional open in a header, or closes one there that it has
not opened; PROGRAM has to name the file and the line that are known here.
"""

import sys
from pathlib import Path

HERE = Path(__file__).resolve().parent
sys.path.insert(0, str(HERE.parent.parent))
import harness

NAMES = ["A", "B", "C", "D"]
HEADERS = 7
LIMITS = """#define CHAR_BIT 8
#define SCHAR_MAX 127
#define UCHAR_MAX 255
#define INT_MAX 2147483647
#define LONG_MAX 2147483647L
"""
BOOLEANS = """#define bool _Bool
#define true 1
#define false 0
#define __bool_true_false_are_defined 1
"""
WORDS = {"limits.h": ["CHAR_BIT", "SCHAR_MAX", "UCHAR_MAX", "INT_MAX", "LONG_MAX"], "stdbool.h": ["bool", "true", "false"]}


class Maker:
    """A set in the making: the lines of each file, by its name."""

    def __init__(self, rng):
        self.rng = rng
        self.files = {}
        self.word = 0

    def name(self, number):
        return "h%d.h" % number

    def include(self, lines, after):
        """A line that includes a header of a greater number, so that none includes itself."""
        rng = self.rng
        if after >= HEADERS:
            return self.text(lines)
        name = self.name(rng.randrange(after, HEADERS))
        kind = rng.randrange(6)
        if kind == 0:
            self.word += 1
            lines.append("#define H%d \"%s\"" % (self.word, name))
            lines.append("# include H%d" % self.word)
        elif kind == 1:
            header = rng.choice(sorted(WORDS))
            lines.append("#include <%s>" % header)
            lines.append(" ".join(rng.sample(WORDS[header], 2)))
        elif kind == 2:
            lines.append("#include \\")
            lines.append("\"%s\" /* here */" % name)
        else:
            lines.append("#include \"%s\"" % name)

    def text(self, lines):
        self.word += 1
        kind = self.rng.randrange(3)
        if kind == 0:
            lines.append("w%d __LINE__ __FILE__" % self.word)
        else:
            lines.append(" ".join(["w%d" % self.word] + self.rng.sample(NAMES, 2)))

    def define(self, lines):
        name = self.rng.choice(NAMES)
        lines.append("#undef " + name)
        if self.rng.random() < 0.7:
            lines.append("#define %s %s" % (name, self.rng.choice(["1", "0", "B C", "D", "2"])))

    def lines(self, after, depth):
        rng = self.rng
        lines = []
        for _ in range(rng.randrange(2, 6)):
            kind = rng.randrange(8)
            if kind < 3:
                self.text(lines)
            elif kind == 3:
                self.define(lines)
            elif kind == 4:
                lines.append("#line %d%s" % (rng.randrange(1, 10000), rng.choice(["", " \"other.c\""])))
                self.text(lines)
            elif kind == 5 and depth < 2:
                lines.append("#if%s %s" % (rng.choice(["def", "ndef"]), rng.choice(NAMES)))
                lines += self.lines(after, depth + 1)
                if rng.random() < 0.5:
                    lines.append("#else")
                    lines += self.lines(after, depth + 1)
                lines.append("#endif")
            else:
                self.include(lines, after)
        return lines

    def header(self, number):
        rng = self.rng
        lines = self.lines(number + 1, 0)
        kind = rng.randrange(4)
        if kind < 2:
            lines = ["#ifndef G%d" % number, "#define G%d" % number] + lines + ["#endif"]
        elif kind == 2:
            # includes itself, as often as its counter allows
            lines = ["#ifndef S%d" % number, "#define S%d 1" % number, "#include \"%s\"" % self.name(number), "#elif S%d == 1" % number,
                     "#undef S%d" % number, "#define S%d 2" % number, "#include \"%s\"" % self.name(number), "#endif"] + lines
        self.files[self.name(number)] = lines

    def made(self):
        for number in range(HEADERS):
            self.header(number)
        self.files["main.c"] = self.lines(0, 0) + ["#include \"h0.h\""] + self.lines(0, 0)
        return self.files

    def broken(self):
        """The file and the line that are told, and the number of the fault."""
        kind = self.rng.randrange(3)
        main = self.files["main.c"]
        main[:] = [line for line in main if not line.startswith("#line")]
        if kind == 0:
            main[:0] = ["#include \"none.h\""]
            return "main.c", 1, 232
        if kind == 1:
            self.files["broken.h"] = ["x", "#if 1", "#if 0", "#endif"]
            main[:0] = ["#include \"broken.h\"", "#endif"]
            return "broken.h", 2, 231
        self.files["broken.h"] = ["x", "#endif"]
        main[:0] = ["#if 1", "#include \"broken.h\""]
        return "broken.h", 2, 231


def words_of(done):
    """Status, words and errors; clang names a header in quotes by a path."""
    status, out, err = done
    return status, out.decode("latin-1").replace('"./', '"').split(), err.decode("latin-1")


def held(case, files, known):
    """The words of gcc and clang; or, where the set has a fault, that they refuse it too, and its file and line."""
    peers = harness.needs("gcc", "clang")
    for name, lines in files.items():
        case.program.write(name, "\n".join(lines) + "\n")
    Path(case.program.at("built_in")).mkdir()
    case.program.write("built_in/limits.h", LIMITS)
    case.program.write("built_in/stdbool.h", BOOLEANS)
    others = sorted(name for name in files if name != "main.c")
    ours = words_of(case.program.run("pp", "main.c", *others))
    words = ["-E", "-P", "-std=c11", "-w", "-nostdinc", "-Ibuilt_in", "main.c"]
    theirs = [words_of(case.program.run(*words, by=[peer])) for peer in peers]
    if known is None:
        good = ours[0] == 0 and all(status == 0 and tokens == ours[1] for status, tokens, _ in theirs)
    else:
        good = ours[0] == 1 and ours[2].startswith("%s:%d: %d " % known) and all(status != 0 for status, _, _ in theirs)
    case.holds("the others %s, the program %s: %s" % ([status for status, _, _ in theirs], ours[0], ours[2].splitlines()[:1]), good)


def cases(_, count="300"):
    rng = harness.seeded(20260202)
    for number in range(int(count)):
        maker = Maker(rng)
        files = maker.made()
        yield harness.Row("set %d" % number, held, files, maker.broken() if number % 10 == 9 else None)


if __name__ == "__main__":
    sys.exit(harness.main(cases))
