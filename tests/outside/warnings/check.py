"""Holds the warnings of `zkc check` against sources with known mistakes, and right ones without.

    python3 tests/outside/warnings/check.py [CC]

Each folder is named as a warning. Its with.c has the warning at the places below, written by hand: line, column, and what it is about. Its without.c looks
like it and is right: it has no warning of any kind. The last line is `N passed, M failed`."""
import json
import os
import re
import subprocess
import sys
import tempfile

sys.path.insert(0, os.path.dirname(os.path.dirname(os.path.dirname(os.path.abspath(__file__)))))
import harness

here = os.path.dirname(os.path.abspath(__file__))
sys.path.insert(0, os.path.dirname(here))
import sarif

top = os.path.dirname(os.path.dirname(os.path.dirname(here)))
cc = os.path.abspath(sys.argv[1] if len(sys.argv) > 1 else os.path.join(top, "bin/cc"))
verdict = harness.Verdict()

WANTED = {
    "unused-variable": [("with.c", 3, 12, "never_read"), ("with.c", 7, 9, "unused"), ("with.c", 8, 9, "unset")],
    "unused-but-set-variable": [("with.c", 4, 9, "set"), ("with.c", 5, 9, "stepped"), ("with.c", 6, 9, "row")],
    "unused-parameter": [("with.c", 1, 29, "b"), ("with.c", 2, 30, "text")],
    "unused-but-set-parameter": [("with.c", 1, 22, "a")],
    "unused-function": [("with.c", 2, 12, "unused"), ("with.c", 3, 12, "only_itself")],
    "unused-value": [("with.c", 5, 7, "=="), ("with.c", 6, 7, "+"), ("with.c", 7, 5, "-"), ("with.c", 8, 10, "i"),
                     ("with.c", 8, 22, "+"), ("with.c", 10, 14, "j")],
    "unused-result": [("with.c", 11, 5, "square"), ("with.c", 12, 5, "sum")],
    "parentheses": [("with.c", 5, 11, "="), ("with.c", 7, 14, "="), ("with.c", 9, 14, "="), ("with.c", 13, 14, "=")],
    "chained-comparison": [("with.c", 3, 15, "<"), ("with.c", 5, 16, "=="), ("with.c", 7, 16, ">")],
    "empty-body": [("with.c", 5, 16, ";"), ("with.c", 9, 9, ";"), ("with.c", 10, 31, ";"), ("with.c", 14, 23, ";")],
    "implicit-fallthrough": [("with.c", 8, 5, "case"), ("with.c", 11, 5, "default"), ("with.c", 15, 5, "case")],
    "shadow": [("with.c", 4, 20, "total"), ("with.c", 8, 14, "i"), ("with.c", 11, 13, "limit")],
    "static-in-two-files": [("two.c", 1, 12, "count")],
    "return-type": [("with.c", 3, 12, "sign"), ("with.c", 9, 12, "find"), ("with.c", 14, 12, "chosen")],
    "maybe-uninitialized": [("with.c", 6, 16, "a"), ("with.c", 9, 16, "b"), ("with.c", 14, 16, "c"), ("with.c", 22, 5, "d")],
    "array-bounds": [("with.c", 4, 56, "["), ("with.c", 7, 8, "["), ("with.c", 8, 8, "["), ("with.c", 9, 12, "["),
                     ("with.c", 10, 9, "["), ("with.c", 11, 15, "["), ("with.c", 11, 29, "[")],
    "type-limits": [("with.c", 8, 11, ">="), ("with.c", 10, 11, "<"), ("with.c", 12, 11, "=="), ("with.c", 14, 11, "<"),
                    ("with.c", 16, 11, "!="), ("with.c", 18, 18, ">"), ("with.c", 20, 11, "<=")],
    "macro-parentheses": [("with.c", 1, 23, "x"), ("with.c", 2, 9, "SUM"), ("with.c", 3, 9, "SIZE"), ("with.c", 4, 28, "n"),
                          ("with.c", 5, 28, "x"), ("with.c", 6, 18, "x")],
}


def check(what, holds, said=""):
    verdict.holds(f"{what}: {said}", holds)


def run(folder, words):
    """The status, standard output and standard error of `zkc check` in a folder."""
    ran = subprocess.run([cc, "check", *words], cwd=os.path.join(here, folder), capture_output=True, text=True, timeout=60)
    return ran.returncode, ran.stdout, ran.stderr


def files(folder, main):
    """The words for the main file, and what it may include."""
    return [main, *sorted(it for it in os.listdir(os.path.join(here, folder)) if it not in ("with.c", "without.c"))]


LINE = re.compile(r"^([^ :]+):(\d+):(\d+): warning: (.*) '(.*)' \[(.*)\]$")


def places(text, kind):
    """The places of the warnings of a kind in a text."""
    found = []
    for line in text.splitlines():
        told = LINE.match(line)
        if told and told[6] == kind:
            found.append((told[1], int(told[2]), int(told[3]), told[5]))
    return found


for kind, wanted in WANTED.items():
    status, out, err = run(kind, [*files(kind, "with.c"), f"--warn={kind}"])
    check(f"{kind}: places", places(err, kind) == wanted, f"{places(err, kind)}, wanted {wanted}\n{err[:600]}")
    check(f"{kind}: status and output", (status, out) == (0, ""), f"{status} {out[:200]}")
    check(f"{kind}: as an error", run(kind, [*files(kind, "with.c"), f"--warn={kind}", "--werror"])[0] == 1)
    check(f"{kind}: not asked for", run(kind, [*files(kind, "with.c"), "--warn=none", "--werror"]) == (0, "", ""))
    said = run(kind, [*files(kind, "without.c"), "--werror"])
    check(f"{kind}: without", said == (0, "", ""), said)
    status, out, err = run(kind, [*files(kind, "with.c"), f"--warn={kind}", "--json"])
    objects = [json.loads(line) for line in out.splitlines()]
    found = [(it["file"], it["line"], it["column"]) for it in objects if it["code"] == kind]
    check(f"{kind}: JSON", found == [it[:3] for it in wanted], found)
    status, out, err = run(kind, [*files(kind, "with.c"), f"--warn={kind}", "--sarif"])
    check(f"{kind}: SARIF by the schema", not list(sarif.faults(json.loads(out))), list(sarif.faults(json.loads(out))))
    log = json.loads(out)["runs"][0]
    regions = [it["locations"][0]["physicalLocation"]["region"] for it in log["results"] if it["ruleId"] == kind]
    check(f"{kind}: SARIF", [(it["startLine"], it["startColumn"]) for it in regions] == [it[1:3] for it in wanted], regions)
    check(f"{kind}: rule", kind in [it["id"] for it in log["tool"]["driver"]["rules"]])

# each kind has a section in docs/DIAGNOSTICS.md, and a folder here
with open(os.path.join(top, "docs/DIAGNOSTICS.md")) as document:
    sections = re.findall(r"^### ([a-z-]+)$", document.read(), re.M)
check("docs/DIAGNOSTICS.md has other sections", sorted(sections) == sorted(WANTED), sections)
folders = sorted(it for it in os.listdir(here) if os.path.isdir(os.path.join(here, it)) and it != "__pycache__")
check("folders", folders == sorted(WANTED), folders)
check("rules", sorted(it["id"] for it in log["tool"]["driver"]["rules"]) == sorted(WANTED))

# no warning on the ten programs of docs/LANGUAGE.md, whose files stand there each behind its name
with open(os.path.join(top, "docs/LANGUAGE.md")) as document:
    shown = dict(re.findall(r"\*\*([a-z]+\.[ch])\*\*\n\n```c\n(.*?)```\n", document.read(), re.S))
programs = [name for name in shown if name.endswith(".c")]
check("ten programs", len(programs) == 10, programs)
with tempfile.TemporaryDirectory() as work:
    for name, text in shown.items():
        with open(os.path.join(work, name), "w") as file:
            file.write(text)
    for name in programs:
        ran = subprocess.run([cc, "check", name, "-I", ".", "--werror"], cwd=work, capture_output=True, text=True, timeout=60)
        check(f"{name} of LANGUAGE", (ran.returncode, ran.stdout, ran.stderr) == (0, "", ""), ran.stderr[:400])

# a refused program has the line of build; words that name no warning are not taken
ran = subprocess.run([cc, "check", "-"], input="int main(void) { return x; }\n", capture_output=True, text=True, timeout=60)
built = subprocess.run([cc, "build", "-", "-o", os.devnull], input="int main(void) { return x; }\n", capture_output=True, text=True, timeout=60)
check("refused", (ran.returncode, ran.stdout, ran.stderr) == (1, "", "stdin.c:1: 528 undeclared name\n") and ran.stderr == built.stderr, ran)
ran = subprocess.run([cc, "check", "-", "--json"], input="int main(void) { return x; }\n", capture_output=True, text=True, timeout=60)
one = json.loads(ran.stdout.splitlines()[0])
check("refused, as JSON", (ran.returncode, ran.stderr, one["code"], one["line"], one["column"], one["token"]) == (1, "", "528", 1, 25, "x"), ran)
ran = subprocess.run([cc, "check", "-", "--sarif"], input="int main(void) { return x; }\n", capture_output=True, text=True, timeout=60)
results = json.loads(ran.stdout)["runs"][0]["results"]
check("refused, as SARIF", (ran.returncode, ran.stderr, [it["ruleId"] for it in results]) == (1, "", ["528"]), ran)
with tempfile.TemporaryDirectory() as work:
    ran = subprocess.run([cc, "check", "none.c", "--json"], cwd=work, capture_output=True, text=True, timeout=60)
check("no such file, as JSON", (ran.returncode, ran.stderr, json.loads(ran.stdout)["code"]) == (1, "", "802"), ran)
ran = subprocess.run([cc, "check", "-", "--warn=shadow,nonsense"], input="int main(void) { }\n", capture_output=True, text=True, timeout=60)
check("no such warning", ran.returncode == 2 and ran.stdout == "", ran)
# where lines mean something there is no column, and the line is right
text = "#include <rvio.h>\nint main(void) {\n    int unused = __LINE__;\n    return 0;\n}\n"
ran = subprocess.run([cc, "check", "-"], input=text, capture_output=True, text=True, timeout=60)
check("__LINE__", ran.stderr.startswith("stdin.c:3: warning: ") and "'unused' [unused-variable]" in ran.stderr, ran.stderr)
# with a macro of the command line there are columns
ran = subprocess.run([cc, "check", "-", "-D", "N=4 + 1"], input="int main(void) {\n    int unused = N;\n    return 0;\n}\n", capture_output=True, text=True, timeout=60)
check("-D", ran.stderr.startswith("stdin.c:2:9: warning: ") and ran.stderr.count("warning") == 1, ran.stderr)

sys.exit(verdict.end())
