#!/usr/bin/env python3
"""run.py [CRATE ..]: tries the edits of this folder, as `rt ci` tries those of crates/NAME/must-fail: the prover must refuse each.
run.sh says how it is called. Crates are tried side by side; of one crate each edit is checked over what the check of the crate
as it is has proved. Edits of the bodies of different functions are checked together, since a proof rests on no other body:
each of them is refused where the prover says of its own function that it is not proved. What is left is checked edit by edit,
and what was not refused so once more from nothing.

A file of an edit may be one of a crate that this one names (`file: ../select/specs/Selected.antt`): that crate has to be proved
with its part of the edit, and this one must be refused over it. So a definition and the code that meets it are changed
together, and a law above has to refuse both."""
import concurrent.futures
import os
import re
import shutil
import subprocess
import sys
import tempfile
import threading

import tried

KIT = '/opt/rattle'
LIBRARIES = os.environ.get('LIBRARIES', '')
# Whether a run of `rt ci` just proved the crates as they are: then the first check of edits is the first one.
IS_PROVED = os.environ.get('PROVED') == '1'
LOCK = threading.Lock()


def say(text):
    with LOCK:
        print(text, flush=True)


def library(crate):
    """Where the proved library of a crate lies."""
    if LIBRARIES:
        return os.path.join(LIBRARIES, crate + '.rlib')
    return os.path.join(tried.ROOT, 'crates', crate, 'out/rlib', crate + '.rlib')


def words(crate, all_of_them, instead=None):
    """What `rattle check` is given of a crate, with other libraries in place of some."""
    instead = instead or {}
    own = tried.below(crate, all_of_them)
    roots = [root for root in ('src/main.rt', 'src/lib.rt') if os.path.isfile(os.path.join(tried.ROOT, 'crates', crate, root))]
    given = ['--crate-name', crate, *roots]
    for name in ['std'] + [it for it in all_of_them[crate] if it not in all_of_them]:
        given += ['--extern', f'{name}={KIT}/rlibs/{name}.rlib']
    given += ['-L', f'dependency={KIT}/rlibs']
    for name in all_of_them[crate]:
        if name in all_of_them:
            given += ['--extern', f'{name}={instead.get(name, library(name))}']
    for place in dict.fromkeys(os.path.dirname(instead.get(name, library(name))) for name in own):
        given += ['-L', f'dependency={place}']
    return given + ['--antt-project', f'{KIT}/rattle/logic/antt-project.json', '--logic-built', f'{KIT}/logic_built', '--jobs', '1']


def build(crate, all_of_them):
    """Proves a library that is not there, and says why it could not."""
    to = library(crate)
    os.makedirs(os.path.dirname(to), exist_ok=True)
    command = [f'{KIT}/bin/rattle', 'build', *words(crate, all_of_them), '--statements', '-o', to]
    ran = subprocess.run(command, cwd=os.path.join(tried.ROOT, 'crates', crate), stdin=subprocess.DEVNULL, capture_output=True, text=True, errors='replace')
    return '' if ran.returncode == 0 else f'{crate} is not proved: {(ran.stdout + ran.stderr)[:600]}'


PLACE = re.compile(r'(?:\.\./(\w+)/)?(src|specs|proofs)/')


def edited(edit, folder):
    """The texts of the files that an edit changes, or why it cannot be applied."""
    path, old, texts = '', None, {}
    for line in tried.text_of(edit).split('\n'):
        if line.startswith('file: '):
            path = line[6:].strip()
            if os.path.normpath(path) != path or not PLACE.match(path):
                return None, "a 'file:' line names no file below src/, specs/ or proofs/"
        elif line.startswith('old: '):
            old = line[5:]
        elif line.startswith('new:'):
            if not path or not old:
                return None, "a 'new:' line stands before any 'file:' or 'old:' line"
            if path not in texts:
                if not os.path.isfile(f'{folder}/{path}'):
                    return None, f'there is no file {path}'
                texts[path] = tried.text_of(f'{folder}/{path}')
            if texts[path].count(old) != 1:
                return None, f"an 'old:' text is in {path} {texts[path].count(old)} times, and not once"
            texts[path], old = texts[path].replace(old, line[5:]), None
    return (texts, '') if texts else (None, "it has no 'old:' and 'new:' pair")


def copied(crate, texts, room):
    """Puts a copy of a crate into a folder, with these texts in place of its own."""
    for part in ('src', 'specs', 'proofs'):
        if os.path.isdir(f'{tried.ROOT}/crates/{crate}/{part}'):
            shutil.copytree(f'{tried.ROOT}/crates/{crate}/{part}', f'{room}/{part}')
    for path, text in texts.items():
        with open(f'{room}/{path}', 'w', encoding='utf-8') as file:
            file.write(text)


def check(crate, all_of_them, texts, kept, instead=None):
    """Checks a copy of the crate with these texts in place of its own, over what `kept` holds where it is given, and over these
    libraries in place of others."""
    with tempfile.TemporaryDirectory(prefix='edit-') as room:
        copied(crate, texts, room)
        command = [f'{KIT}/bin/rattle', 'check', *words(crate, all_of_them, instead), *(['--incremental', kept] if kept else [])]
        ran = subprocess.run(command, cwd=room, stdin=subprocess.DEVNULL, stdout=subprocess.PIPE, stderr=subprocess.STDOUT, text=True, errors='replace')
    return ran.returncode, ran.stdout.rstrip('\n').split('\n')


def with_lower(crate, all_of_them, texts, place):
    """Proves the crates below that an edit changes, into this folder: their libraries, or why there are none."""
    made = {}
    lower = {PLACE.match(path)[1] for path in texts} - {None}
    for name in (it for it in tried.below(crate, all_of_them) if it in lower):
        between = [it for it in tried.below(crate, all_of_them) if it not in lower and name in tried.below(it, all_of_them)]
        if between:
            return None, f'{between[0]} stands between {crate} and {name}, and would have to be proved anew'
        with tempfile.TemporaryDirectory(prefix='edit-') as room:
            copied(name, {path.split('/', 2)[2]: text for path, text in texts.items() if PLACE.match(path)[1] == name}, room)
            made[name] = f'{place}/{name}.rlib'
            command = [f'{KIT}/bin/rattle', 'build', *words(name, all_of_them, made), '--statements', '-o', made[name]]
            ran = subprocess.run(command, cwd=room, stdin=subprocess.DEVNULL, stdout=subprocess.PIPE, stderr=subprocess.STDOUT, text=True, errors='replace')
        if ran.returncode:
            said = next((line for line in ran.stdout.split('\n') if ': error' in line), ran.stdout[:200])
            return None, f'{name} is not proved with it, so that an edit of {name} says more: {said[:200]}'
    return made, '' if lower == set(made) else f'{crate} does not name all that it changes'


def unread(line, changed):
    """Whether the prover could not read an edited text, which says nothing of a contract."""
    at = re.match(r'(?:\./)?(\S+?):\d+:\d+: error: (?:(`[^`]*`): )?(.*)', line)
    if not at or at[1] not in changed and not at[1].startswith(('src/', 'specs/')):
        return False
    # What follows from a refusal above.
    if re.match(r'\d+ declarations? that depends? on `[^`]*`, which was (rejected|not admitted)', at[3]):
        return False
    said = re.sub(r'`[^`]*`', '', at[3])
    return not at[2] or bool(re.search(r'is not in scope|has no field|is no name|operand is missing|expected the end|cannot continue', said))


def refused(crate, all_of_them, edit, kept):
    """Whether the prover refuses the crate with this edit, and what to say."""
    texts, why = edited(edit, f'{tried.ROOT}/crates/{crate}')
    if why:
        return False, 'BAD EDIT: ' + why
    with tempfile.TemporaryDirectory(prefix='edited-') as place:
        made, why = with_lower(crate, all_of_them, texts, place)
        if why:
            return False, 'BAD EDIT: ' + why
        own = {path: text for path, text in texts.items() if not PLACE.match(path)[1]}
        status, lines = check(crate, all_of_them, own, kept, made)
    bad = next((line for line in lines if unread(line, own)), '')
    if bad:
        return False, 'BAD EDIT: the prover cannot read the edited text: ' + bad[:200]
    if status == 0:
        return False, 'NOT REFUSED: the crate is still proved with this edit'
    if status != 1 or not lines[-1].startswith('logic=not-proved'):
        return False, 'BAD EDIT: it did not reach the prover: ' + ' '.join(lines[:4])[:400]
    told = [line for line in lines if re.match(r'(note: )?\S+:\d+:\d+:', line)]
    told = [line for line in told if ': error' in line or line.startswith('note: ')] or told
    by_name = r'(\./)?proofs/.*(has no field|is not in scope|has no `|was not admitted)'
    first = next((line for line in told if not re.match(by_name, line)), '')
    if told and not first:
        return True, 'refused, only because a proof file names what the edit took away: write it anew: ' + told[0][:160]
    return True, 'refused: ' + first[:160]


HEAD = re.compile(r'^ *(pub(\(\w+\))? )?(const |unsafe )*fn (?P<name>\w+)')
ANSWERED = re.compile(r'(?:^|\n)(?:\./)?proofs/(\S+)/(?:Answers|Invariants)\.antt:\d+:\d+: error: (.*)')
NOTED = re.compile(r'note: (src/\S+?):(\d+):\d+: it is not proved')


def function_at(lines, number):
    """The line, from 0, at which the function begins that holds this line, and that of the brace behind its clauses."""
    indent = len(lines[number]) - len(lines[number].lstrip())
    first = next((at for at in range(number, -1, -1) if HEAD.match(lines[at]) and len(lines[at]) - len(lines[at].lstrip()) <= indent), None)
    if first is None:
        return None, None
    at = len(lines[first]) - len(lines[first].lstrip())
    opened = next((k for k in range(first, len(lines)) if lines[k].rstrip().endswith('{') and (k == first or lines[k] == ' ' * at + '{')), None)
    closed = next((k for k in range(first, len(lines)) if lines[k] == ' ' * at + '}'), None)
    if opened is None or closed is None or not opened < number <= closed:
        return None, None
    return first, opened


def pairs_of(edit):
    """The file, the old and the new text of each change."""
    found, path, old = [], '', None
    for line in tried.text_of(edit).split('\n'):
        if line.startswith('file: '):
            path = line[6:].strip()
        elif line.startswith('old: '):
            old = line[5:]
        elif line.startswith('new:'):
            found.append((path, old, line[5:]))
    return found


def bodies_of(edit, folder):
    """The functions, as a file and a line of it as it is, whose bodies alone an edit changes; nothing where it changes more."""
    found = set()
    for path, old, _ in pairs_of(edit):
        if not path.startswith('src/') or not old or not os.path.isfile(f'{folder}/{path}'):
            return set()
        text = tried.text_of(f'{folder}/{path}')
        if text.count(old) != 1:
            return set()
        lines, at = text.split('\n'), text.index(old)
        first, _ = function_at(lines, text[:at].count('\n'))
        if first is None:
            return set()
        found.add((path, first))
    return found


def chosen(edits, bodies):
    """As many edits, in their order, as have no function in common."""
    taken, used = [], set()
    for edit in edits:
        if bodies[edit] and not bodies[edit] & used:
            taken.append(edit)
            used |= bodies[edit]
    return taken


def failures(said, folder):
    """The functions, as a file and a line, of which the prover says that they are not proved: by a goal, or by an answer to one
    that no longer fits. An edit is one line for one line, so each line stands where it stood."""
    found = set()
    for path, number in re.findall(NOTED, said):
        lines, at = tried.text_of(f'{folder}/{path}').split('\n'), int(number) - 1
        while lines[at].strip().startswith(('#[', '///')):
            at += 1
        found.add((path, next((k for k in range(at, -1, -1) if HEAD.match(lines[k])), None)))
    for place, why in re.findall(ANSWERED, said):
        *modules, name = place.split('/')
        path = next((f'src/{"/".join(modules[:k])}.rt' for k in range(len(modules), 0, -1) if os.path.isfile(f'{folder}/src/{"/".join(modules[:k])}.rt')), None)
        if path and not re.search(r'has no field|is not in scope|has no `|was not admitted', why):
            lines = tried.text_of(f'{folder}/{path}').split('\n')
            found |= {(path, at) for at, line in enumerate(lines) if HEAD.match(line) and HEAD.match(line)['name'] == name}
    return found


def refused_together(crate, all_of_them, edits, bodies, kept):
    """Those of these edits, of different functions, that the prover refuses in one check."""
    folder = f'{tried.ROOT}/crates/{crate}'
    texts = {path: tried.text_of(f'{folder}/{path}') for edit in edits for path, _, _ in pairs_of(edit)}
    for edit in edits:
        for path, old, new in pairs_of(edit):
            if texts[path].count(old) != 1:
                return []
            texts[path] = texts[path].replace(old, new)
    status, lines = check(crate, all_of_them, texts, kept)
    if status != 1 or not lines[-1].startswith('logic=not-proved') or any(unread(line, texts) for line in lines):
        return []
    failed = failures('\n'.join(lines), folder)
    return [edit for edit in edits if bodies[edit] & failed]


def try_together(crate, all_of_them, edits, kept):
    """Those of the edits that were not refused by checks of many at once, and how many were."""
    folder = f'{tried.ROOT}/crates/{crate}'
    bodies = {edit: bodies_of(edit, folder) for edit in edits}
    left, alone = list(edits), []
    while left:
        group = chosen(left, bodies)
        gone = refused_together(crate, all_of_them, group, bodies, kept) if len(group) > 1 else []
        for edit in gone:
            say(f'{crate}/{os.path.basename(edit)[:-5]}: refused, beside others')
        # Where no progress is made, whoever was asked for is asked for alone.
        if not gone:
            alone += group or left
        left = [edit for edit in left if edit not in gone and edit not in alone]
    return alone, len(edits) - len(alone)


def try_crate(crate, all_of_them):
    """How many edits of a crate there are, and how many were refused."""
    edits = tried.files(f'{tried.ROOT}/tests/edits/{crate}', '.edit')
    before = tried.digest(crate, all_of_them)
    with tempfile.TemporaryDirectory(prefix='edits-') as kept:
        status, lines = (0, []) if IS_PROVED else check(crate, all_of_them, {}, kept)
        if status:
            say(f'{crate}: NOT PROVED as it is: {" ".join(lines[:4])[:400]}')
            return len(edits), 0
        left, count = try_together(crate, all_of_them, edits, kept)
        for edit in left:
            is_refused, why = refused(crate, all_of_them, edit, kept)
            if not is_refused and not why.startswith('BAD EDIT: an'):
                is_refused, why = refused(crate, all_of_them, edit, None)
            say(f'{crate}/{os.path.basename(edit)[:-5]}: {why}')
            count += is_refused
    if count == len(edits) and before == tried.digest(crate, all_of_them):
        with LOCK:
            tried.write({**tried.read(), crate: before})
    return len(edits), count


def main():
    all_of_them = tried.libraries()
    crates = sys.argv[1:] or tried.crates_with_edits()
    lower = []
    for crate in crates:
        lower += [name for name in tried.below(crate, all_of_them) if name not in lower]
    for name in lower:
        if not os.path.exists(library(name)):
            say(f'proving {name}, which is not in {os.path.dirname(library(name))}')
            why = build(name, all_of_them)
            if why:
                say(why)
                return 1
    jobs = int(os.environ.get('JOBS') or os.cpu_count() or 1)
    edits = count = 0
    with concurrent.futures.ThreadPoolExecutor(jobs) as pool:
        for all_edits, all_refused in pool.map(lambda crate: try_crate(crate, all_of_them), crates):
            edits, count = edits + all_edits, count + all_refused
    print(f'{count} refused, {edits - count} not')
    return count != edits or count == 0


if __name__ == '__main__':
    sys.exit(main())
