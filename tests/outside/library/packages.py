#!/usr/bin/env python3
"""The packages of the library, each built and used as its language has it: `packages.py [OUT]`. OUT is where `sh bindings/build.sh OUT` left the
library, by default bindings/out. What needs a tool that is not there is left out with a word, and counted as skipped.
"""
import json
import os
import re
import shutil
import subprocess
import sys
import tempfile

ROOT = os.path.abspath(os.path.join(os.path.dirname(os.path.abspath(__file__)), '..', '..', '..'))
OUT = os.path.abspath(sys.argv[1] if len(sys.argv) > 1 else os.path.join(ROOT, 'bindings', 'out'))
passed = failed = skipped = 0

RIGHT = 'int main(void) { return 42; }\n'
ADDS = '#include <rvio.h>\nint main(void) { rv_putbyte(rv_getbyte() + 1); return 42; }\n'
ECHO = '#include <rvio.h>\nint main(void) { for (int c = rv_getbyte(); c != -1; c = rv_getbyte()) { rv_putbyte(c); rv_putbyte(c); } return 0; }\n'
WRONG = 'int main(void)\n{\n    return x;\n}\n'


def check(name, holds, *more):
    global passed, failed
    if holds:
        passed += 1
    else:
        failed += 1
        print('FAIL', name, *[str(one)[-600:] for one in more])


def leave_out(what):
    global skipped
    skipped += 1
    print('left out: ' + what)


def call(words, work, **more):
    env = {**os.environ, 'ZIKORAPE_LIB': OUT, 'PIP_NO_INDEX': '1', 'npm_config_offline': 'true', 'CARGO_NET_OFFLINE': 'true', **more}
    done = subprocess.run(words, cwd=work, env=env, stdin=subprocess.DEVNULL, capture_output=True, text=True, timeout=600)
    return done.returncode, done.stdout, done.stderr


def documented(language):
    """The lines of docs/LIBRARY.md in a language; the one block of it, or the blocks of Python one after another."""
    with open(os.path.join(ROOT, 'docs', 'LIBRARY.md'), encoding='utf-8') as file:
        found = re.findall(r'```%s\n(.*?)```' % language, file.read(), re.S)
    check('docs/LIBRARY.md has lines of ' + language, len(found) == (2 if language == 'python' else 1), len(found))
    return ''.join(found)


PYTHON = """
import zikorape
zk = zikorape.Library()
answer = zk.build({'main.c': %r}, 'main.c').check()
assert zk.run(answer.output).status == 42
try:
    zk.build({'w.c': %r}, 'w.c').check()
    raise SystemExit('no fault')
except zikorape.Fault as fault:
    assert (fault.file, fault.line, fault.code) == ('w.c', 3, 528), fault
print(zikorape.__file__)
""" % (RIGHT, WRONG)


def python(work):
    wheels = os.path.join(work, 'wheels')
    status, out, err = call([sys.executable, '-m', 'pip', 'wheel', os.path.join(ROOT, 'bindings', 'python'), '-w', wheels, '--no-deps'], work)
    check('pip wheel', status == 0, out, err)
    found = os.listdir(wheels) if os.path.isdir(wheels) else []
    check('one wheel', len(found) == 1 and found[0].startswith('zikorape-'), found)
    if len(found) != 1:
        return
    place = os.path.join(work, 'venv')
    check('a venv', call([sys.executable, '-m', 'venv', place], work)[0] == 0)
    own = os.path.join(place, 'bin', 'python')
    status, out, err = call([own, '-m', 'pip', 'install', os.path.join(wheels, found[0])], work)
    check('pip install', status == 0, out, err)
    status, out, err = call([own, '-c', PYTHON], work, PYTHONPATH='')
    check('python: ten lines', status == 0 and out.startswith(place), out, err)
    status, out, err = call([own, '-c', documented('python')], work, PYTHONPATH='')
    check('python: the lines of docs/LIBRARY.md', status == 0 and "{'event': 'get', 'byte': 97}" in out, out, err)


NODE = """
import { load, serve } from 'zikorape';
const zk = await load();
const built = zk.build([['main.c', %s]], 'main.c');
if (built.status !== 0 || zk.run(built.output, 'a.out').status !== 42) throw new Error('status');
const wrong = zk.build([['w.c', %s]], 'w.c');
if (!wrong.message.startsWith('w.c:3: 528 ')) throw new Error(wrong.message);
const tree = JSON.parse(new TextDecoder().decode(zk.form([['main.c', %s]], 'main.c', 1).output));
if (tree.node !== 'unit') throw new Error('tree');
const machine = zk.machine(zk.build([['main.c', %s]], 'main.c').output);
if (machine.run(1000) !== 5) throw new Error('it waits for input');
const there = machine.snapshot();
for (const [byte, put] of [['a', 'b'], ['x', 'y']]) {
  machine.input(byte);
  if (machine.run(1000) !== 1 || machine.detail() !== 42 || new TextDecoder().decode(machine.output()) !== put) throw new Error(byte);
  machine.restore(there);
}
machine.free();
const echo = zk.machine(zk.build([['main.c', %s]], 'main.c').output);
const parts = [], given = ['a', 'bc', null, 'd', ''];
const text = () => parts.map(part => new TextDecoder().decode(part)).join('');
const served = { get: () => given.shift(), put: part => parts.push(part) };
if (serve(echo, served) !== 5 || text() !== 'aabbcc') throw new Error('it waits: ' + text());
if (serve(echo, served) !== 1 || text() !== 'aabbccdd') throw new Error('it goes on: ' + text());
const endless = zk.machine(zk.build([['main.c', 'int main(void) { for (;;) ; }\\n']], 'main.c').output);
if (serve(endless, { max: 100000 }) !== 0 || endless.steps() !== 100000) throw new Error('it is left');
""" % tuple(repr(text) for text in (RIGHT, WRONG, RIGHT, ADDS, ECHO))


KEPT_RUN = """
import { Interpreter, load } from 'zikorape';
const zk = await load();
const files = [['main.c', %s]];
let whole;
try { whole = new TextDecoder().decode(zk.trace(files, 'main.c', 'ab', 0, 100000).output); } catch { console.log('no zk_trace'); process.exit(); }
const run = new Interpreter(zk, files, 'main.c'), told = [], rest = ['a', 'b'];
for (let until = 3; ; ) {
  told.push(...run.run(until));
  if (run.outcome === 0) until += 3;
  else if (run.outcome !== 5) break;
  else if (rest.length) run.input(rest.shift());
  else run.closeInput();
}
if (run.outcome !== 1 || run.detail !== 0) throw new Error('it ends: ' + run.outcome);
if (JSON.stringify(told) !== JSON.stringify(whole.split('\\n').filter(line => line).map(line => JSON.parse(line)))) throw new Error('what is told');
const wrong = new Interpreter(zk, [['w.c', 'int main(void) { int a; return a; }\\n']], 'w.c');
wrong.run(100);
if (wrong.outcome !== 2 || wrong.message !== 'w.c:1: undefined U6') throw new Error(wrong.message);
const refused = new Interpreter(zk, [['w.c', 'int main(void) { return x; }\\n']], 'w.c');
refused.run(100);
if (refused.outcome !== 4 || !refused.message.startsWith('w.c:1: 528')) throw new Error(refused.message);
const there = new Interpreter(zk, files, 'main.c');
if (there.run(100000).length === 0 || there.outcome !== 5) throw new Error('it waits');
const place = there.snapshot();
for (const given of ['a', 'bc']) {
  const put = [], rest = [given, ''], seen = [];
  if (there.serve({ get: () => rest.shift(), put: part => put.push(...part), observe: one => seen.push(one) }) !== 1) throw new Error('served: ' + there.outcome);
  if (new TextDecoder().decode(Uint8Array.from(put)) !== [...given].map(c => c + c).join('')) throw new Error('put: ' + put);
  if (seen.filter(one => one.event === 'get' && one.byte !== null).length !== given.length) throw new Error('got');
  there.restore(place);
}
if (there.outcome !== 5) throw new Error('it stands there again');
console.log('told');
""" % repr(ECHO)


PARTS = """
import { loadAnalysis, loadDiagnostics } from 'zikorape';
const text = answer => new TextDecoder().decode(answer.output), right = [['main.c', %s]], wrong = [['w.c', %s]], unset = [['u.c', 'int main(void) { int a; return a; }\\n']];
const diagnostics = await loadDiagnostics(), analysis = await loadAnalysis();
const fault = JSON.parse(text(diagnostics.explain(wrong, 'w.c')));
console.log(fault.code, fault.line, diagnostics.explain(right, 'main.c').output.length, diagnostics.warn(right, 'main.c').status);
const act = analysis.explainRun(unset, 'u.c'), told = JSON.parse(text(act));
console.log(act.status, act.message === '', told.code, told.line, told.notes[0].text);
console.log(analysis.explainRun(right, 'main.c').status, analysis.verify(right, 'main.c').status, analysis.verify(unset, 'u.c').status);
""" % (repr(RIGHT), repr(WRONG))
PARTS_SAY = '528 3 0 0\n123 true U6 1 `a` has no value\n42 0 3\n'


def node(work):
    if not shutil.which('npm') or not shutil.which('node'):
        return leave_out('the npm package: no npm')
    status, out, err = call(['sh', os.path.join(ROOT, 'bindings', 'npm', 'pack.sh'), work], work)
    check('npm pack', status == 0, out, err)
    packed = [name for name in os.listdir(work) if name.endswith('.tgz')]
    check('one package', packed == ['zikorape-1.1.0.tgz'], packed)
    if not packed:
        return
    with open(os.path.join(work, 'package.json'), 'w') as file:
        file.write('{ "name": "user", "version": "1.0.0", "type": "module", "private": true }')
    with open(os.path.join(work, 'use.mjs'), 'w') as file:
        file.write(NODE)
    status, out, err = call(['npm', 'install', '--offline', './' + packed[0]], work)
    check('npm install', status == 0, out, err)
    status, out, err = call(['node', 'use.mjs'], work)
    check('node: ten lines', status == 0, out, err)
    with open(os.path.join(work, 'documented.mjs'), 'w') as file:
        file.write(documented('js'))
    status, out, err = call(['node', 'documented.mjs'], work)
    with open(os.path.join(work, 'kept.mjs'), 'w') as file:
        file.write(KEPT_RUN)
    if call(['node', 'kept.mjs'], work)[1] == 'no zk_trace\n':
        leave_out('runs of the interpreter in Node: the module has no zk_trace')
    else:
        status, kept, said = call(['node', 'kept.mjs'], work)
        check('node: a run that is kept', (status, kept) == (0, 'told\n'), kept, said)
    with open(os.path.join(work, 'parts.mjs'), 'w') as file:
        file.write(PARTS)
    parts = call(['node', 'parts.mjs'], work)
    check('node: the modules that explain and verify', parts[:2] == (0, PARTS_SAY), *parts[1:])
    check('node: the lines of docs/LIBRARY.md', (status, out, err) == (0, '1 42 b\n', ''), out, err)


RUST = """fn main() {
    let built = zikorape::build(&[("main.c", %s.as_bytes())], "main.c").check().unwrap();
    assert_eq!(zikorape::run(&built.output, "a.out", b"", 1_000_000).status, 42);
    match zikorape::build(&[("w.c", %s.as_bytes())], "w.c").check() {
        Err(zikorape::Error::Fault { file, line, code, .. }) => assert_eq!((file.as_str(), line, code), ("w.c", 3, 528)),
        other => panic!("{other:?}"),
    }
    let mut machine = zikorape::KeptMachine::new(&zikorape::build(&[("main.c", %s.as_bytes())], "main.c").check().unwrap().output).unwrap();
    assert_eq!(machine.run(1000), zikorape::Ran::WantsInput);
    let there = machine.snapshot();
    for (byte, put) in [(b"a", b"b"), (b"x", b"y")] {
        assert_eq!(machine.input(byte), 1);
        assert_eq!(machine.run(1000), zikorape::Ran::Ended(42));
        assert_eq!(machine.output(), put);
        machine.restore(&there).unwrap();
    }
    served();
    traced();
}

// Input and output by a reader and a writer, and a program without an end that is left.
fn served() {
    let mut machine = zikorape::KeptMachine::new(&zikorape::build(&[("main.c", ECHO.as_bytes())], "main.c").check().unwrap().output).unwrap();
    let mut put = Vec::new();
    assert_eq!(machine.serve(&mut &b"abc"[..], &mut put, u64::MAX).unwrap(), zikorape::Ran::Ended(0));
    assert_eq!(put, b"aabbcc");
    struct Full;
    impl std::io::Write for Full {
        fn write(&mut self, _: &[u8]) -> std::io::Result<usize> { Err(std::io::ErrorKind::StorageFull.into()) }
        fn flush(&mut self) -> std::io::Result<()> { Ok(()) }
    }
    let mut machine = zikorape::KeptMachine::new(&zikorape::build(&[("main.c", ECHO.as_bytes())], "main.c").check().unwrap().output).unwrap();
    assert_eq!(machine.serve(&mut &b"a"[..], &mut Full, 1_000_000).unwrap_err().kind(), std::io::ErrorKind::StorageFull);
    let endless = "int main(void) { for (;;) ; }\\n";
    let mut machine = zikorape::KeptMachine::new(&zikorape::build(&[("main.c", endless.as_bytes())], "main.c").check().unwrap().output).unwrap();
    assert_eq!(machine.serve(&mut &b""[..], &mut put, 100_000).unwrap(), zikorape::Ran::GoesOn);
    assert_eq!(machine.steps(), 100_000);
}

// A run of the interpreter in slices, over input that comes while it runs.
fn traced() {
    let files = [("main.c", ECHO.as_bytes())];
    let whole = zikorape::trace(&files, "main.c", b"ab", false, 100_000, 0).check().unwrap();
    let (mut run, mut told, mut until) = (zikorape::Interpreter::new(&files, "main.c"), String::new(), 3);
    let mut rest = b"ab".iter();
    loop {
        told += &run.run(until).unwrap();
        match run.stands() {
            zikorape::Stands::WantsInput => match rest.next() {
                Some(byte) => run.input(&[*byte]),
                None => run.close_input(),
            },
            zikorape::Stands::GoesOn => until += 3,
            zikorape::Stands::Ended(status) => break assert_eq!(*status, 0),
            other => panic!("{other:?}"),
        }
    }
    assert_eq!(told.as_bytes(), whole.output);
    let mut wrong = zikorape::Interpreter::new(&[("w.c", b"int main(void) { int a; return a; }\\n")], "w.c");
    wrong.run(100).unwrap();
    assert_eq!(wrong.stands(), &zikorape::Stands::Undefined("w.c:1: undefined U6".to_string()));
    assert!(zikorape::Interpreter::new(&[("w.c", b"int main(void) { return x; }\\n")], "w.c").run(100).is_err());
}

const ECHO: &str = %s;
""" % tuple('"%s"' % text.replace('\n', '\\n') for text in (RIGHT, WRONG, ADDS, ECHO))


def rust(work):
    if not shutil.which('cargo'):
        return leave_out('the Rust crate: no cargo')
    crate = os.path.join(work, 'crate')
    shutil.copytree(os.path.join(ROOT, 'bindings', 'rust'), crate, ignore=shutil.ignore_patterns('target'))
    os.mkdir(os.path.join(crate, 'lib'))
    shutil.copy(os.path.join(OUT, 'libzikorape.a'), os.path.join(crate, 'lib'))
    target = {'CARGO_TARGET_DIR': os.path.join(work, 'target'), 'ZIKORAPE_LIB': ''}
    status, out, err = call(['cargo', 'package', '--offline', '--allow-dirty'], crate, **target)
    check('cargo package', status == 0, out, err)
    user = os.path.join(work, 'user')
    os.makedirs(os.path.join(user, 'src'))
    with open(os.path.join(user, 'Cargo.toml'), 'w') as file:
        file.write('[package]\nname = "user"\nversion = "1.0.0"\nedition = "2021"\n[dependencies]\nzikorape = { path = "%s" }\n' % crate)
    with open(os.path.join(user, 'src', 'main.rs'), 'w') as file:
        file.write(RUST)
    os.mkdir(os.path.join(user, 'src', 'bin'))
    with open(os.path.join(user, 'src', 'bin', 'documented.rs'), 'w') as file:
        file.write(documented('rust'))
    status, out, err = call(['cargo', 'run', '--offline', '--quiet', '--bin', 'user'], user, **target)
    check('rust: ten lines', status == 0, out, err)
    status, out, err = call(['cargo', 'run', '--offline', '--quiet', '--bin', 'documented'], user, **target)
    check('rust: the lines of docs/LIBRARY.md', status == 0 and out.startswith('{"event":"enter","function":"main"}\n'), out, err)


C = """#include <string.h>
#include <zikorape_machine.h>
int main(void) {
    static unsigned char out[65536], line[256];
    const char text[] = "main.cint main(void) { return 42; }\\n";
    struct zk_file file = { 6, sizeof text - 1 - 6 };
    struct zk_sizes sizes;
    if (zk_build((const uint8_t *)text, sizeof text - 1, &file, 1, (const uint8_t *)"main.c", 6, out, sizeof out, line, sizeof line, &sizes) != 0) return 1;
    uint32_t why;
    zk_kept *m = zk_machine_new(out, sizes.output, &why);
    if (!m || zk_machine_run(m, 1000) != 1 || zk_machine_detail(m) != 42) return 2;
    zk_machine_free(m);
    return (int)zk_run(out, sizes.output, (const uint8_t *)"a.out", 5, line, 0, 1000000, line, 0, line, sizeof line, &sizes) - 42;
}
"""


def c_user(work):
    prefix = os.path.join(work, 'usr')
    own = os.path.join(ROOT, 'bindings', 'out')
    if OUT != own or not os.path.exists(os.path.join(own, 'libzikorape.a')):
        return leave_out('what install.sh puts: the library is not at bindings/out')
    status, out, err = call(['sh', os.path.join(ROOT, 'install.sh'), prefix], work)
    check('install.sh', status == 0 and os.path.exists(os.path.join(prefix, 'lib', 'libzikorape.a')), out, err)
    with open(os.path.join(work, 'use.c'), 'w') as file:
        file.write(C)
    if shutil.which('pkg-config') and shutil.which('gcc'):
        where = {'PKG_CONFIG_PATH': os.path.join(prefix, 'lib', 'pkgconfig')}
        status, out, err = call(['sh', '-c', 'gcc use.c $(pkg-config --cflags --libs --static zikorape) -o use && LD_LIBRARY_PATH=%s/lib ./use' % prefix], work, **where)
        check('pkg-config: ten lines', status == 0, out, err)
    else:
        leave_out('pkg-config')
    if shutil.which('cmake'):
        with open(os.path.join(work, 'CMakeLists.txt'), 'w') as file:
            file.write('cmake_minimum_required(VERSION 3.13)\nproject(user C)\nfind_package(zikorape REQUIRED)\nadd_executable(with_cmake use.c)\ntarget_link_libraries(with_cmake zikorape::zikorape)\n')
        status, out, err = call(['sh', '-c', 'cmake -S . -B made -DCMAKE_PREFIX_PATH=%s >said 2>&1 && cmake --build made >>said 2>&1 && made/with_cmake || { cat said; exit 1; }' % prefix], work)
        check('cmake: ten lines', status == 0, out, err)
    else:
        leave_out('CMake')


GRADED = {
    'right.c': ('#include <rvio.h>\nint main(void) { int n = 0; for (int c = rv_getbyte(); c != -1; c = rv_getbyte()) { rv_putbyte(c + 1); n = n + (c == 122); } return n ? 3 : 0; }\n',
                'right.c: 3 of 3\n'),
    'unset.c': ('#include <rvio.h>\nint main(void) { int n; for (int c = rv_getbyte(); c != -1; c = rv_getbyte()) rv_putbyte(c + 1); return n == 3 ? 3 : 0; }\n',
                'unset.c: 0 of 3\n    letters: unset.c:2: undefined U6\n    none: unset.c:2: undefined U6\n    zs: unset.c:2: undefined U6\n'),
    'refused.c': ('int main(void) { return cuont; }\n', 'refused.c: 0 of 3\n    refused.c:1:25: 528 undeclared name\n'),
    'long.c': ('int main(void) { for (;;) ; }\n', 'long.c: 0 of 3\n' + ''.join('    %s: no end within 10000000 instructions\n' % name for name in ('letters', 'none', 'zs'))),
    'other.c': ('#include <rvio.h>\nint main(void) { for (int c = rv_getbyte(); c != -1; c = rv_getbyte()) rv_putbyte(c == 99 ? 99 : c + 1); return 0; }\n',
                "other.c: 1 of 3\n    letters: byte 2 is 'c' and not 'd'\n    zs: status 0 and not 3\n"),
}


def grader(work):
    """examples/grader over five sources and three tests."""
    for name, text in {'tests/letters.in': 'abc', 'tests/letters.out': 'bcd', 'tests/none.in': '', 'tests/zs.in': 'zz', 'tests/zs.out': '{{', 'tests/zs.status': '3',
                       **{name: text for name, (text, _) in GRADED.items()}}.items():
        os.makedirs(os.path.dirname(os.path.join(work, name)), exist_ok=True)
        with open(os.path.join(work, name), 'w') as file:
            file.write(text)
    status, out, err = call([sys.executable, os.path.join(ROOT, 'examples', 'grader', 'grade.py'), 'tests', *GRADED], work, ZIKORAPE=os.path.join(OUT, 'libzikorape.so'))
    check('the grader', (status, out, err) == (1, ''.join(told for _, told in GRADED.values()), ''), out, err)


def fuzz_target(work):
    """examples/fuzz over an input that is defined and one that is not, and by libFuzzer, which finds the second kind."""
    folder = os.path.join(ROOT, 'examples', 'fuzz')
    words = ['-I' + os.path.join(ROOT, 'include'), '-DPROGRAM="%s"' % os.path.join(folder, 'checksum.c'), os.path.join(folder, 'target.c'), os.path.join(OUT, 'libzikorape.a'), '-lpthread', '-o']
    with open(os.path.join(work, 'undefined'), 'wb') as file:
        file.write(b'{' * 20)
    if shutil.which('gcc'):
        status, out, err = call(['gcc', '-DWITH_MAIN', *words, 'tried'], work)
        check('the fuzz target by gcc', status == 0, out, err)
        corpus = os.path.join(folder, 'corpus')
        check('inputs that are defined', call(['./tried', *[os.path.join(corpus, name) for name in sorted(os.listdir(corpus))]], work)[0] == 0)
        status, out, err = call(['./tried', 'undefined'], work)
        check('one that is not', status == -6 and 'program.c:11: undefined U5\n' in err, status, err)
    else:
        leave_out('the fuzz target: no gcc')
    if not shutil.which('clang') or call(['clang', '-g', '-fsanitize=fuzzer', *words, 'fuzz'], work)[0] != 0:
        return leave_out('the fuzz target by libFuzzer: no clang with it')
    os.mkdir(os.path.join(work, 'found'))
    status, out, err = call(['./fuzz', os.path.join(work, 'found'), os.path.join(folder, 'corpus'), '-seed=1', '-runs=2000000', '-max_len=64', '-max_total_time=120'], work)
    check('libFuzzer finds it', status != 0 and 'undefined U5' in err, status, err)


NOTEBOOK = """
import sys
sys.path.insert(0, %r)
from IPython.core.interactiveshell import InteractiveShell
import zikorape
zikorape._beside = lambda: %r
shell = InteractiveShell.instance()
shell.run_line_magic('load_ext', 'zikorape.magic')
for words, cell in (('--input "ab c"', '#include <rvio.h>\\nint main(void) { for (int c = rv_getbyte(); c != -1; c = rv_getbyte()) rv_putbyte(c ^ 32); return 42; }\\n'),
                    ('', 'int main(void) { return cuont; }\\n'), ('', 'int main(void) { int a[2]; return a[0]; }\\n'),
                    ('--verify', 'int main(void) { return 0; }\\n'), ('--verify', 'int rv_getbyte(void);\\nint main(void) { return 7 / rv_getbyte(); }\\n')):
    shell.run_cell_magic('zikorape', words, cell)
"""


CELLS = """
import json
import sys
sys.path.insert(0, %r)
from IPython.core.interactiveshell import InteractiveShell
from IPython.utils.capture import capture_output
import zikorape
zikorape._beside = lambda: %r
shell = InteractiveShell.instance()
with open(%r, encoding='utf-8') as file:
    cells = [cell for cell in json.load(file)['cells'] if cell['cell_type'] == 'code']
for cell in cells:
    with capture_output() as shown:
        shell.run_cell(''.join(cell['source']))
    print(json.dumps([shown.stdout + shown.stderr, ''.join(''.join(output['text']) for output in cell['outputs'])]))
"""


def example_notebook(work):
    """Each cell of examples/jupyter/first.ipynb shows what stands under it, which was written by hand; the weight is that of tests/outside/constraints/model.py."""
    if call([sys.executable, '-c', 'import IPython'], work)[0] != 0:
        return leave_out('the notebook: no IPython')
    path = os.path.join(ROOT, 'examples', 'jupyter', 'first.ipynb')
    status, out, err = call([sys.executable, '-c', CELLS % (os.path.join(ROOT, 'bindings', 'python'), os.path.join(OUT, 'libzikorape.so'), path)], work, IPYTHONDIR=work)
    shown = [json.loads(line) for line in out.splitlines() if line.startswith('[')]
    check('the notebook has cells', status == 0 and len(shown) == 7, out, err)
    for number, (found, wanted) in enumerate(shown):
        check('cell %d of the notebook' % number, found == wanted, repr(found), repr(wanted))


def notebook(work):
    """The magic of a notebook, in IPython's own shell."""
    if call([sys.executable, '-c', 'import IPython'], work)[0] != 0:
        return leave_out('the magic: no IPython')
    status, out, err = call([sys.executable, '-c', NOTEBOOK % (os.path.join(ROOT, 'bindings', 'python'), os.path.join(OUT, 'libzikorape.so'))], work, IPYTHONDIR=work)
    wanted = ['AB\0Cstatus 42', 'cell.c:1:25: 528 undeclared name', 'cell.c:1: undefined U6', 'cell.c: verdict defined on every input; stack at most 16 of 1048576 bytes']
    lines = out.split('\n')
    check('the magic', status == 0 and lines[:4] == wanted and lines[4].startswith('cell.c:2:27: U2 may be undefined: division by zero'), out, err)


if not os.path.exists(os.path.join(OUT, 'libzikorape.so')):
    leave_out('the packages: there is no library at %s: sh bindings/build.sh bindings/out' % OUT)
else:
    for part in (python, node, rust, c_user, grader, fuzz_target, notebook, example_notebook):
        with tempfile.TemporaryDirectory() as work:
            part(work)
print('%d passed, %d failed%s' % (passed, failed, ', %d skipped' % skipped if skipped else ''))
sys.exit(failed != 0)
