"""Files of conditionals within conditionals, against another preprocessor.

  python3 nested.py PROGRAM [COUNT]

PROGRAM pp main.c writes the tokens of main.c with one space between. COUNT files (200) are made from a fixed seed, with every kind
of conditional, macros that are defined and undefined within them, #line, text and skipped lines that would be refused elsewhere;
`gcc -E -P -std=c11` says what comes of each. Every token stands apart, so that words can be compared. Each tenth file lacks an
#endif, has one too many or a branch behind its #else; both have to refuse it, and PROGRAM has to name the line that is known here.
"""

import sys
from pathlib import Path

HERE = Path(__file__).resolve().parent
sys.path.insert(0, str(HERE.parent.parent))
import harness

NAMES = ["A", "B", "C", "D", "E"]


class File:
    """One file in the making: its lines, and the line of each fault that was put in."""

    def __init__(self, rng):
        self.rng = rng
        self.lines = []
        self.word = 0

    def put(self, line):
        self.lines.append(line)
        return len(self.lines)

    def operand(self, depth):
        rng = self.rng
        kind = rng.randrange(6)
        if kind == 0:
            return str(rng.randrange(4))
        if kind == 1:
            return rng.choice(NAMES)
        if kind == 2:
            return "defined " + rng.choice(NAMES)
        if kind == 3:
            return "defined ( " + rng.choice(NAMES) + " )"
        if kind == 4:
            return "! " + self.operand(depth + 1)
        return "( " + self.condition(depth + 1) + " )"

    def condition(self, depth=0):
        rng = self.rng
        if depth > 2 or rng.random() < 0.4:
            return self.operand(depth)
        operator = rng.choice(["&&", "||", "==", "<", ">=", "+", "-", "|", "^"])
        return self.operand(depth + 1) + " " + operator + " " + self.operand(depth + 1)

    def text(self):
        self.word += 1
        self.put(" ".join(["w%d" % self.word] + self.rng.sample(NAMES, 2)))

    def directive(self):
        rng = self.rng
        name = rng.choice(NAMES)
        if rng.random() < 0.5:
            self.put("#undef " + name)
            self.put("#define %s %d" % (name, rng.randrange(4)))
        else:
            self.put("# undef " + name)

    def refused(self):
        """A line that is fine where it is skipped alone."""
        self.put(self.rng.choice(["#unknown x", "#line 0", "#define 3", "# 33", "#error no", "#undef"]))

    def group(self, depth, skipped):
        for _ in range(self.rng.randrange(1, 4)):
            kind = self.rng.randrange(8)
            if kind < 3:
                self.text()
            elif kind == 3:
                self.directive()
            elif kind == 4 and not skipped:
                self.put("#line %d" % self.rng.randrange(1, 100000))
                self.put("l __LINE__")
            elif kind == 5 and skipped:
                self.refused()
            elif depth < 5:
                self.section(depth + 1, skipped)

    def section(self, depth, skipped):
        rng = self.rng
        never = skipped or rng.random() < 0.2
        kind = rng.randrange(4)
        if never:
            self.put("#if 0")
        elif kind == 0:
            self.put("#ifdef " + rng.choice(NAMES))
        elif kind == 1:
            self.put("#ifndef " + rng.choice(NAMES))
        else:
            self.put("# if " + self.condition())
        self.group(depth, never)
        taken = False
        for _ in range(rng.randrange(3)):
            if skipped:
                self.put("#elif ( not a condition")
            elif never and rng.random() < 0.3 and not taken:
                self.put("#elif 1")
                taken = True
                self.group(depth, False)
                continue
            elif taken:
                self.put("#elif ) neither")
                self.group(depth, True)
                continue
            else:
                self.put("#elif " + self.condition())
            self.group(depth, skipped)
        if rng.random() < 0.5:
            self.put("#else" + (" x" if skipped else ""))
            self.group(depth, skipped or taken)
        self.put("#endif" + (" x" if skipped else ""))


def made(rng):
    file = File(rng)
    for name in NAMES:
        if rng.random() < 0.5:
            file.put("#define %s %d" % (name, rng.randrange(3)))
    for _ in range(4):
        file.section(1, False)
        file.text()
    return file


def broken(rng, file):
    """The file with a fault at its end, and the line that is told."""
    kind = rng.randrange(3)
    if kind == 0:
        line = file.put("#if 1")
        file.put("#ifdef A")
        file.text()
        file.put("#endif")
        return line
    if kind == 1:
        return file.put("#endif")
    file.put("#if 0")
    file.put("#else")
    line = file.put("#elif 1")
    file.put("#endif")
    return line


def held(case, text, line):
    """The words of gcc; or, where the file has a fault, that gcc refuses it too, and its line."""
    gcc = harness.needs("gcc")
    case.program.write("main.c", text)
    theirs = case.program.run("-E", "-P", "-std=c11", "-w", "main.c", by=[gcc])
    ours = case.program.run("pp", "main.c")
    if line is None:
        case.expect("", (theirs[0], ours[0], ours[1].split()), (0, 0, theirs[1].split()))
    else:
        case.holds("gcc %s, the program %s: %r" % (theirs[0], ours[0], ours[2][:100]), theirs[0] != 0 and ours[0] == 1 and ours[2].startswith(b"main.c:%d: 231 " % line))


def cases(_, count="200"):
    rng = harness.seeded(20260101)
    for number in range(int(count)):
        file, line = made(rng), None
        if number % 10 == 9:
            file.lines = [l for l in file.lines if not l.startswith("#line")]
            line = broken(rng, file)
        yield harness.Row("file %d" % number, held, "\n".join(file.lines) + "\n", line)


if __name__ == "__main__":
    sys.exit(harness.main(cases))
