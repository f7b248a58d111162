#!/usr/bin/env python3
"""Mistakes and what `cc explain` shows of them: line, column and token as cases.py marks them by hand; the same as JSON and as a SARIF
log, whose members are asked for as the standards name them; further faults; undefined acts; includes; colours; bad words.

    python3 tests/outside/mistakes/check.py CC

The last line is 'N passed, M failed'."""
import json, os, pty, re, subprocess, sys, tempfile

sys.path[:0] = [os.path.dirname(os.path.abspath(__file__)), os.path.join(os.path.dirname(os.path.abspath(__file__)), '..'), os.path.join(os.path.dirname(os.path.abspath(__file__)), '..', '..')]
import sarif
from harness import verdict
from cases import CASES, FURTHER, UNDEFINED

CC = os.path.abspath(sys.argv[1])
passed = failed = 0

def check(name, holds, *more):
    global passed, failed
    if holds:
        passed += 1
    else:
        failed += 1
        print('FAIL', name, *more)

def run(files, words, text=b'', env=None):
    with tempfile.TemporaryDirectory() as work:
        for name, body in files.items():
            with open(os.path.join(work, name), 'w', newline='', encoding='utf-8') as file:
                file.write(body)
        before = sorted(os.listdir(work))
        done = subprocess.run([CC, *words], cwd=work, input=text, stdout=subprocess.PIPE, stderr=subprocess.PIPE, timeout=120, env=env)
        return done.returncode, done.stdout.decode('utf-8', 'replace'), done.stderr.decode('utf-8', 'replace'), sorted(os.listdir(work)) == before

def marked(source):
    """The files without marks, and where the mark is: (file, line, column, token)."""
    files = {'main.c': source} if isinstance(source, str) else source
    clean, place = {}, None
    for name, text in files.items():
        if '«' in text:
            start, end = text.index('«'), text.index('»')
            place = (name, text.count('\n', 0, start) + 1, start - text.rfind('\n', 0, start), text[start + 1:end])
        clean[name] = text.replace('«', '').replace('»', '')
    return clean, place

def words_of(files):
    return ['main.c'] + [name for name in files if name != 'main.c']

def mistakes():
    for name, code, source, note in CASES:
        files, (file, line, column, token) = marked(source)
        status, out, err, kept = run(files, ['explain', 'build', *words_of(files)])
        head = '%s:%d:%d: %d ' % (file, line, column, code)
        first = err.split('\n', 1)[0]
        check(name, status == 1 and out == '' and kept and first.startswith(head) and first.endswith(" '%s'" % token), err)
        caret = err.split('\n')[2:3]
        row = files[file].split('\n')[line - 1]
        wanted = '      | ' + re.sub(r'[^\t]', ' ', row[:column - 1]) + '^' + '~' * (len(token) - 1)
        check(name + ': caret', caret == [wanted] and err.split('\n')[1] == '%5d | %s' % (line, row), err)
        if note:
            check(name + ': note', note in err, err)
        # the line that `cc build` says is the same fault
        plain = run(files, ['build', *words_of(files), '-o', 'out'])[2]
        check(name + ': fault', plain.startswith('%s:%d: %d ' % (file, line, code)), plain)
        as_json(name, files, (file, line, column, token), code)

def as_json(name, files, place, code):
    file, line, column, token = place
    status, out, err, _ = run(files, ['explain', 'build', '--json', *words_of(files)])
    one = json.loads(out.split('\n')[0])
    wanted = dict(file=file, line=line, column=column, end=column + len(token.encode()), code=str(code), token=token)
    check(name + ': json', status == 1 and err == '' and all(one.get(k) == v for k, v in wanted.items()) and isinstance(one['text'], str)
          and all(set(n) >= {'topic', 'text'} for n in one['notes']), out)
    status, out, err, _ = run(files, ['explain', 'build', '--sarif', *words_of(files)])
    log = json.loads(out)
    check(name + ': sarif', status == 1 and is_sarif(log), out)
    result = log['runs'][0]['results'][0]
    where = result['locations'][0]['physicalLocation']
    check(name + ': sarif place', result['ruleId'] == str(code) and where['artifactLocation']['uri'] == file
          and where['region'] == dict(startLine=line, startColumn=column, endColumn=column + len(token)), out)

def is_sarif(log):
    """What the schema says, and of each rule its texts, of each result its rule."""
    wrong = list(sarif.faults(log))
    if wrong:
        print('\n'.join(wrong))
        return False
    for one in log['runs']:
        if not isinstance(one['tool']['driver']['name'], str) or one['columnKind'] not in ('utf16CodeUnits', 'unicodeCodePoints'):
            return False
        if not re.fullmatch(r'\d+(\.\d+)*', one['tool']['driver']['version']):
            return False
        rules = one['tool']['driver']['rules']
        if not all(isinstance(rule['shortDescription']['text'], str) and isinstance(rule['help']['text'], str) and rule['name'].isalnum() for rule in rules):
            return False
        for result in one['results']:
            if [rule['id'] for rule in rules].count(result['ruleId']) != 1 or not all(is_fix(fix) for fix in result.get('fixes', [])):
                return False
            if not isinstance(result['message']['text'], str) or result['level'] not in ('none', 'note', 'warning', 'error'):
                return False
            for place in result.get('locations', []) + result.get('relatedLocations', []):
                physical = place['physicalLocation']
                if not isinstance(physical['artifactLocation']['uri'], str) or any(v < 1 for v in physical.get('region', {}).values()):
                    return False
    return True

def is_fix(fix):
    """The members of a change (3.55 to 3.57)."""
    return all(isinstance(change['artifactLocation']['uri'], str) and all(isinstance(one['insertedContent']['text'], str)
               and all(one['deletedRegion'][key] >= 1 for key in ('startLine', 'startColumn', 'endLine', 'endColumn'))
               for one in change['replacements']) for change in fix['artifactChanges'])

def further():
    for name, heads, source in FURTHER:
        files = {'main.c': source} if isinstance(source, str) else source
        status, out, err, _ = run(files, ['explain', 'build', *words_of(files)])
        said = [line for line in err.split('\n') if re.match(r'[\w.]+:\d+:(\d+:)? \d+ ', line)]
        check(name, [re.match(r'(.*?: \d+) ', line)[1] for line in said] == heads, err)
        status, out, err, _ = run(files, ['explain', 'build', '--json', *words_of(files)])
        check(name + ': json', len(out.splitlines()) == len(heads) and all(json.loads(line) for line in out.splitlines()), out)

def undefined():
    for name, act, source, text, output, values in UNDEFINED:
        files, (file, line, column, token) = marked(source)
        status, out, err, kept = run(files, ['explain', 'interp', *words_of(files)], text)
        first = err.split('\n', 1)[0]
        check(name, status == 123 and kept and out == output and first.startswith('%s:%d:%d: U%d undefined: ' % (file, line, column, act))
              and first.endswith(" '%s'" % token), out, err)
        check(name + ': values', err.split('\n')[3] == '  note: ' + values, err)
        status, out, err, _ = run(files, ['explain', 'interp', '--json', *words_of(files)], text)
        one = json.loads(out)
        wanted = dict(file=file, line=line, column=column, code='U%d' % act, token=token)
        check(name + ': json', status == 123 and err == '' and all(one[k] == v for k, v in wanted.items())
              and one['notes'][0] == dict(topic='value', text=values), out)
        log = json.loads(run(files, ['explain', 'interp', '--sarif', *words_of(files)], text)[1])
        result = log['runs'][0]['results'][0]
        check(name + ': sarif', is_sarif(log) and result['ruleId'] == 'U%d' % act and values in result['message']['text'], log)
    calls = 'int zero(int n) {\n    if (n == 0)\n        return 1 / n;\n    return zero(n - 1);\n}\nint main(void) {\n    int s = 1;\n    s += zero(2);\n    return s;\n}\n'
    err = run({'main.c': calls}, ['explain', 'interp', 'main.c'])[2]
    active = [line for line in err.split('\n') if ': in `' in line]
    check('active calls', active == ['  note: main.c:3: in `zero`', '  note: main.c:4: in `zero`', '  note: main.c:4: in `zero`', '  note: main.c:8: in `main`'], err)

def others():
    good = {'main.c': '#include <rvio.h>\nint main(void) { rv_putbyte(104); return 3; }\n'}
    check('nothing to explain', run(good, ['explain', 'build', 'main.c'])[:3] == (0, '', ''))
    check('interp of what is defined', run(good, ['explain', 'interp', 'main.c'])[:3] == (3, 'h', ''))
    status, out, err, _ = run(good, ['explain', 'build', '--sarif', 'main.c'])
    check('empty log', status == 0 and is_sarif(json.loads(out)) and json.loads(out)['runs'][0]['results'] == [], out)
    log = json.loads(run({}, ['explain', 'build', '--sarif', 'main.c'])[1])
    check('a log of what cannot be read', is_sarif(log) and [one['ruleId'] for one in log['runs'][0]['results']] == ['802'], log)
    one = json.loads(run({}, ['explain', 'build', '--json', 'main.c'])[1])
    check('an object of what cannot be read', (one['file'], one['code'], one['column']) == ('main.c', '802', None), one)
    wide = {'main.c': 'int main(void) { /* \u00e9\U0001F600 */ return cuont; }\n'}
    region = json.loads(run(wide, ['explain', 'build', '--sarif', 'main.c'])[1])['runs'][0]['results'][0]['locations'][0]['physicalLocation']['region']
    check('columns of SARIF', region == dict(startLine=1, startColumn=wide['main.c'].index('cuont') + 1, endColumn=wide['main.c'].index('cuont') + 6), region)
    endless = {'main.c': 'int f(void) { return 1; }\nint main(void) { while (f()) ; }\n'}
    for words in (['--json'], []):
        check('interp within a bound ' + ' '.join(words), run(endless, ['explain', 'interp', 'main.c', '--max', '9', *words])[:3] == (124, '', 'cc: budget used\n'))
    heavy = {'main.c': 'int f(void) { char a[9000]; a[0] = 1; return a[0]; }\nint main(void) { return f(); }\n'}
    check('a small stack', run(heavy, ['explain', 'build', 'main.c', '--stack', '8192'])[2].startswith('main.c:1:5: 714 '))
    check('a stack that serves', run(heavy, ['explain', 'build', 'main.c', '--stack', '12288'])[:3] == (0, '', ''))
    late = {'main.c': 'int main(void) { return x; }\n'}
    check('pp stops before', run(late, ['explain', 'pp', 'main.c'])[:3] == (0, '', ''))
    check('pp', run({'main.c': '#error no\n'}, ['explain', 'pp', 'main.c'])[2].startswith('main.c:1:2: 234 #error no'))
    for words in (['explain'], ['explain', 'build'], ['explain', 'list', 'main.c'], ['explain', 'build', 'main.c', '--json', '--sarif'], ['explain', 'build', 'main.c', '--color', 'red'], ['explain', 'interp', 'main.c', '--max', '0'], ['explain', 'build', 'main.c', '--stack', '5000'], ['explain', 'build', 'main.c', '--stack', '0']):
        status, out, err, kept = run(good, words)
        check(' '.join(words), status == 2 and out == '' and err != '' and kept, err)
    status, out, err, _ = run({}, ['explain', 'build', 'main.c'])
    check('no such file', status == 1 and err == 'main.c:0: 802 cannot read\n  help: there is no such file\n', err)
    unused = {'main.c': 'int twice(int x);\nint main(void) { return twice(1); }\n', 'twice.c': 'int twice(int x) { return 2 * x; }\n'}
    err = run(unused, ['explain', 'build', 'main.c', 'twice.c'])[2]
    check('a file that nothing includes', '`twice.c` of FILES is included by nothing' in err, err)
    bare = {'main.c': 'int main(void) { return x; }\n'}
    check('no colours', '\x1b' not in run(bare, ['explain', 'build', 'main.c'])[2])
    check('colours', '\x1b[1;31m528\x1b[0m' in run(bare, ['explain', 'build', 'main.c', '--color', 'always'])[2])
    one = json.loads(run({'main.c': 'int f(void) { return 0; }\n'}, ['explain', 'build', '--json', 'main.c', '-D', 'N=1'])[1])
    check('a fault of the unit with -D', (one['file'], one['code']) == ('main.c', '551'), one)
    beside = {'main.c': '#include "util.h"\nint main(void) { return N; }\n', 'util.h': '#define N 3\n'}
    help = 'it lies beside the file that includes it: name `util.h` behind MAIN, or give -I .'
    check('an included file beside', run(beside, ['explain', 'build', 'main.c'])[2] == "main.c:1:10: 232 include file not found '\"util.h\"'\n    1 | #include \"util.h\"\n      |          ^~~~~~~~\n  help: " + help + '\n')
    notes = json.loads(run(beside, ['explain', 'build', '--json', 'main.c'])[1])['notes']
    check('an included file beside, as JSON', notes == [dict(topic='hint', text=help)], notes)
    check('an included file beside, with -I', run(beside, ['explain', 'build', 'main.c', '-I', '.'])[:3] == (0, '', ''))
    check('an included file that is nowhere', 'it lies beside' not in run({'main.c': beside['main.c']}, ['explain', 'build', 'main.c'])[2])
    wide = {'main.c': 'int main(void) { /*' + 'a' * 4096 + '*/ return x; }\n'}
    said = run(wide, ['explain', 'build', 'main.c'])[2]
    check('a line that is too long to be shown', said == "main.c:1:4126: 528 undeclared name 'x'\n", said[:200])
    many = {'main.c': ''.join('int f%d(void) { return a; }\n' % n for n in range(9)) + 'int main(void) { return 0; }\n'}
    check('--errors', run(many, ['explain', 'build', 'main.c', '--errors', '3'])[2].count(' 528 ') == 3)
    mended = json.loads(run({'main.c': 'int main(void) {\n    return 0\n}\n'}, ['explain', 'build', '--json', 'main.c'])[1])['fix']
    check('a fix', mended == dict(line=2, column=13, end_line=2, end=13, text=';'), mended)
    for source in ('#include <rvio.h\n', '#include "a\n', '#include rvio.h\n', '#include\n', '#define H <rvio.h>\n#include H\n'):
        said = json.loads(run({'main.c': source}, ['explain', 'build', '--json', 'main.c'])[1].split('\n')[0])
        check('no fix: ' + source, said['code'] == '233' and 'fix' not in said, said)
    said = run({'main.c': '#define H <rvio.h>\n#include H\n'}, ['explain', 'build', 'main.c'])[2]
    check('a header that a macro makes', '<NAME>' not in said, said)
    for source in ('#if 1 + X > 2.0 (\n#endif\n', '#line N 8\n', '#define N 1\n#if (N\n#endif\n'):
        said = json.loads(run({'main.c': source}, ['explain', 'build', '--json', 'main.c'])[1].split('\n')[0])
        check('no column that is not sure: ' + source, said['column'] is None, said)
    mended = json.loads(run({'main.c': '#include <a.h>\nint main(void) { return 0; }\n', 'a.h': '\n'}, ['explain', 'build', '--json', 'main.c', 'a.h'])[1])['fix']
    check('a fix of brackets', mended == dict(line=1, column=10, end_line=1, end=15, text='"a.h"'), mended)
    mended = json.loads(run({'main.c': 'enum { A }\nint main(void) { return A; }\n'}, ['explain', 'build', '--json', 'main.c'])[1])
    check('a fix behind enumerators', mended['fix'] == dict(line=1, column=11, end_line=1, end=11, text=';') and len(mended['notes']) == 1, mended)
    for source in ('int main(void) { return sizeof(); }\n', 'int main(void) { return 1 - () - 4; }\n', 'int main(void)\n'):
        said = json.loads(run({'main.c': source}, ['explain', 'build', '--json', 'main.c'])[1].split('\n')[0])
        check('no fix: ' + source, said['code'] == '401' and 'fix' not in said, said)
    mended = json.loads(run({'main.c': '#include <rvio.h>;\n'}, ['explain', 'build', '--json', 'main.c'])[1])['fix']
    check('a fix behind a header', mended == dict(line=1, column=18, end_line=1, end=19, text=''), mended)
    for name in ('ifdef', 'ifndef', 'undef'):
        said = run({'main.c': '#%s\n#endif\n' % name}, ['explain', 'build', 'main.c'])[2]
        check('no other directive: ' + name, ' 233 ' in said and 'did you mean' not in said, said)
    for source, code in (('int main(void) { int n = 3; for (int i = n); i < 3; i++) n++; return n; }\n', '401'),
                         ('#define REG(n) reg_ ## n\nint reg_1;\nint main(void) { return REG(2); }\n', '528'), ('#define CAT(a, b) a##b\nint main(void) { return CAT(un, decl); }\n', '528'),
                         ('#define F(x) (x)\nint main(void) { return F(none); }\n', '528'), ('#define F(n) f(g_ ## n)\nint f(int a) { return a; }\nint main(void) { return F(1); }\n', '528'),
                         ('int a[4] = { 1, 2, ... };\nint main(void) { return 0; }\n', '401'), ('long long x;\nint main(void) { return 0; }\n', '511'),
                         ('int a[2];\nint main(void) { return (a[) + 1; }\n', '401'), ('int main(void) { return 0xg; }\n', '301'),
                         ('int main(void) { int alphab\\\netical = 0; return alphabeticol; }\n', '528')):
        said = json.loads(run({'main.c': source}, ['explain', 'build', '--json', 'main.c'])[1].split('\n')[0])
        check('nothing that is not sure: ' + source, said['code'] == code and not any(word in note['text'] for note in said['notes']
              for word in ('nothing is open', 'octal', 'did you mean', 'which the macro makes', 'functions with', 'expected `;`')), said)
    line = "main.c:1: 528 undeclared name\r\n"
    shown = on_terminal(bare, {'NO_COLOR': '1'}, ['build', 'main.c', '-o', 'out'])
    check('build on a terminal', shown == line + '    1 | int main(void) { return x; }\r\n      |                         ^\r\n', shown)
    check('build --plain on a terminal', on_terminal(bare, {'NO_COLOR': '1'}, ['build', '--plain', 'main.c', '-o', 'out']) == line)
    check('build on no terminal', run(bare, ['build', 'main.c', '-o', 'out'])[2] == 'main.c:1: 528 undeclared name\n')
    for name, env, wanted in (('terminal', {}, True), ('terminal and NO_COLOR', {'NO_COLOR': '1'}, False)):
        check(name, ('\x1b' in on_terminal(bare, env)) == wanted)

def on_terminal(files, env, words=('explain', 'build', 'main.c')):
    """What is written to standard error where that is a pseudo terminal."""
    with tempfile.TemporaryDirectory() as work:
        for name, body in files.items():
            open(os.path.join(work, name), 'w').write(body)
        ours, theirs = pty.openpty()
        done = subprocess.Popen([CC, *words], cwd=work, stdin=subprocess.DEVNULL, stdout=subprocess.DEVNULL, stderr=theirs, env={**{k: v for k, v in os.environ.items() if k != 'NO_COLOR'}, **env})
        os.close(theirs)
        said = b''
        try:
            while True:
                more = os.read(ours, 4096)
                if not more:
                    break
                said += more
        except OSError:
            pass
        done.wait(timeout=60)
        os.close(ours)
        return said.decode()

mistakes()
further()
undefined()
others()
print(verdict.line(passed, failed))
sys.exit(failed != 0)
