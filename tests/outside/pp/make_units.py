"""Makes units.tar.xz and units.txt: python3 make_units.py ZLIB LUA MUSL PROGRAM, from the source folders of Debian's packages.

Each source of the three programs is given to gcc, to clang and to PROGRAM, with every file that it includes. Those on which gcc and clang
agree and that PROGRAM does not refuse are kept; what is left out, and each source on which PROGRAM differs, is told. PROGRAM's tokens are
never the expected ones. Needs gcc and clang.
"""

import hashlib
import io
import os
import re
import subprocess
import sys
import tarfile
import tempfile
from pathlib import Path

import model
from units import HERE, needed

FLAGS = ["-std=c11", "-undef", "-nostdinc", "-ffreestanding", "-funsigned-char", "-w", "-E", "-P", "-x", "c", "-iquote", "."]
INCLUDE = re.compile(rb'^([ \t]*#[ \t]*include[ \t]*)([<"])([^>"\n]+)[>"]', re.M)
# Where musl's build looks for a name in brackets, and where the other two programs do.
INTERNAL = ["musl/" + f for f in ("arch/riscv64/", "arch/generic/", "obj/src/internal/", "src/include/", "src/internal/", "obj/include/", "include/")]
PUBLIC = ["musl/" + f for f in ("arch/riscv64/", "arch/generic/", "obj/include/", "include/")]


def generated(musl):
    """What musl's Makefile makes: two headers and a version."""
    arch = musl / "arch" / "riscv64"
    types = subprocess.run(["sed", "-f", str(musl / "tools/mkalltypes.sed"), str(arch / "bits/alltypes.h.in"), str(musl / "include/alltypes.h.in")],
                           stdout=subprocess.PIPE, check=True).stdout
    calls = (arch / "bits/syscall.h.in").read_bytes()
    names = b"".join(line.replace(b"__NR_", b"SYS_") + b"\n" for line in calls.split(b"\n") if b"__NR_" in line)
    return {"musl/obj/include/bits/alltypes.h": types, "musl/obj/include/bits/syscall.h": calls + names,
            "musl/obj/src/internal/version.h": b'#define VERSION "1.2.3"\n'}


def collected(zlib, lua, musl):
    """All files of the three programs, by their names in the archive."""
    files = {}
    folders = [("zlib/", zlib, zlib, "*.[ch]"), ("lua/", lua, lua / "src", "*.[ch]")]
    folders += [("musl/", musl, musl / part, "**/*.[ch]") for part in ("src", "include", "arch/generic", "arch/riscv64", "ldso", "crt")]
    for prefix, top, folder, pattern in folders:
        for path in sorted(folder.glob(pattern)):
            files[prefix + str(path.relative_to(top))] = path.read_bytes()
    files.update(generated(musl))
    return files


def resolved(files, name, form, wanted):
    """The file that an #include of a file means, or None."""
    places = [os.path.dirname(name) + "/"] if form == b'"' else []
    places += INTERNAL if name.startswith("musl/") else PUBLIC
    for place in places:
        found = os.path.normpath(place + wanted)
        if found in files:
            return found
    return None


def in_quotes(files, name):
    """The file, in which each #include names its file from the top, in quotes. A wide character constant, which is not in the profile, is its value."""
    def put(match):
        found = resolved(files, name, match.group(2), match.group(3).decode())
        return match.group(0) if found is None else match.group(1) + b'"' + found.encode() + b'"'
    return INCLUDE.sub(put, files[name]).replace(b"#if L'\\0'-1 > 0", b"#if 0-1 > 0")


def outside(program, name, root):
    """The tokens that a preprocessor writes of a source, without its #pragma lines, and its status."""
    done = subprocess.run([program, *FLAGS, name], cwd=root, stdout=subprocess.PIPE, stderr=subprocess.PIPE, check=False,
                          env={**os.environ, "LC_ALL": "C"})
    text = re.sub(r"^#pragma .*$", "", done.stdout.decode("latin-1"), flags=re.M)
    return " ".join(model.spellings(text)), done.returncode


def row(program, name, root, known):
    """A source's line in units.txt and the files that it needs, or None where it is left out."""
    others = needed(root, name, known)
    done = subprocess.run([program, "pp", name, *others], cwd=root, stdout=subprocess.PIPE, stderr=subprocess.PIPE, check=False)
    if done.returncode:
        print("refused:", done.stderr.decode("latin-1").strip(), file=sys.stderr)
        return None
    gcc, clang = outside("gcc", name, root), outside("clang", name, root)
    if gcc != clang or gcc[1]:
        print("gcc and clang differ or refuse:", name, file=sys.stderr)
        return None
    if done.stdout.decode("latin-1") != gcc[0] + "\n":
        print("DIFFERS:", name, file=sys.stderr)
    return "%s %d %s" % (name, len(gcc[0].split()), hashlib.sha256(gcc[0].encode("latin-1")).hexdigest()), others


def archive(files, names):
    """A tar.xz of the files, the same bytes each time."""
    made = io.BytesIO()
    with tarfile.open(fileobj=made, mode="w:xz", preset=9) as tar:
        for name in sorted(names):
            entry = tarfile.TarInfo(name)
            entry.size = len(files[name])
            tar.addfile(entry, io.BytesIO(files[name]))
    return made.getvalue()


def main():
    zlib, lua, musl = map(Path, sys.argv[1:4])
    program = os.path.abspath(sys.argv[4])
    files = collected(zlib, lua, musl)
    files = {name: in_quotes(files, name) for name in files}
    rows, used, known = [], set(), {}
    with tempfile.TemporaryDirectory() as folder:
        root = Path(folder)
        for name, data in files.items():
            (root / name).parent.mkdir(parents=True, exist_ok=True)
            (root / name).write_bytes(data)
        for name in sorted(name for name in files if name.endswith(".c")):
            made = row(program, name, root, known)
            if made:
                rows.append(made[0])
                used.update([name, *made[1]])
    files["zlib/README"] = (zlib / "README").read_bytes()
    files["musl/COPYRIGHT"] = (musl / "COPYRIGHT").read_bytes()
    (HERE / "units.tar.xz").write_bytes(archive(files, used | {"zlib/README", "musl/COPYRIGHT"}))
    (HERE / "units.txt").write_text("\n".join(rows) + "\n")


main()
