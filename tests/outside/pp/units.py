"""Whole sources of zlib, Lua and musl with their headers, against what gcc and clang made of them.

  python3 units.py PROGRAM

PROGRAM pp FILE HEADERS writes the tokens of FILE with one space between. units.tar.xz has the sources and headers, units.txt for each source
the number of words of its tokens and their SHA-256; make_units.py made both, and README.md says how. A source is given with every file
that it includes, directly or through others.
"""

import hashlib
import re
import sys
import tarfile
import tempfile
import threading
from pathlib import Path

HERE = Path(__file__).resolve().parent
sys.path.insert(0, str(HERE.parent.parent))
import harness

INCLUDE = re.compile(rb'^[ \t]*#[ \t]*include[ \t]*"([^"\n]+)"', re.M)
UNITS = 1026


def included(root, name, known):
    """The names that a file's #include lines have, as far as they are files here."""
    if name not in known:
        names = [found.decode() for found in INCLUDE.findall((root / name).read_bytes())]
        known[name] = [n for n in names if (root / n).is_file()]
    return known[name]


def needed(root, name, known):
    """Every file that a source includes, also through others."""
    seen, todo = {name}, [name]
    while todo:
        for other in included(root, todo.pop(), known):
            if other not in seen:
                seen.add(other)
                todo.append(other)
    return sorted(seen - {name})


class Sources:
    """The sources and headers, unpacked once for all cases."""

    def __init__(self):
        self.folder, self.lock, self.unpacked, self.known = tempfile.TemporaryDirectory(), threading.Lock(), False, {}

    def root(self):
        with self.lock:
            if not self.unpacked:
                with tarfile.open(HERE / "units.tar.xz") as archive:
                    archive.extractall(self.folder.name)
                self.unpacked = True
        return Path(self.folder.name)


SOURCES = Sources()


def held(case, name, count, digest):
    """The tokens of a source are those of gcc and clang."""
    root = SOURCES.root()
    done = case.program.go("pp", name, *needed(root, name, SOURCES.known), folder=root)
    if done.status or done.err:
        case.expect("", (done.status, done.err), (0, b""))
        return
    tokens = done.out[:-1]
    case.holds("other tokens, %d and not %s words" % (len(tokens.split()), count), done.out.endswith(b"\n") and hashlib.sha256(tokens).hexdigest() == digest)


def cases(_):
    rows = [row.split() for row in (HERE / "units.txt").read_text().splitlines()]
    for row in rows:
        yield harness.Row(row[0], held, *row)
    yield harness.number_of("sources", len(rows), UNITS)


if __name__ == "__main__":
    sys.exit(harness.main(cases))
