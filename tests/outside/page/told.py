"""told.py CC: a JSON line for some of the sources that the page is tried with: name, files, input, and what the program CC tells of it, by the calls of
the page's modules: [status, output, message]. Bytes are Latin-1."""
import concurrent.futures
import json
import os
import subprocess
import sys
import tempfile

sys.path.insert(0, os.path.join(os.path.dirname(os.path.abspath(__file__)), '..', 'library'))
import sources  # noqa: E402

EVERY = 8            # each eighth of the kept sources
TICKS = 5000
FORMS = ['tokens', 'tree', 'typed', 'tac', 'flat', 'items']
CC = os.path.abspath(sys.argv[1])


def call(folder, *words, given=b''):
    done = subprocess.run([CC, *words], cwd=folder, input=given, capture_output=True, timeout=120)
    return [done.returncode, done.stdout.decode('latin-1'), done.stderr.decode('latin-1')]


def traced(folder, names, given):
    status, _, said = call(folder, 'interp', *names, '--trace', '--json', '--max', str(TICKS), given=given)
    lines = said.splitlines(keepends=True)
    return [status, ''.join(line for line in lines if line.startswith('{')), ''.join(line for line in lines if not line.startswith('{'))]


def answers(files, given):
    """What is told where the program is built; else why it is refused alone."""
    with tempfile.TemporaryDirectory() as folder:
        for name, text in files:
            with open(os.path.join(folder, name), 'wb') as file:
                file.write(text)
        names = [name for name, _ in files]
        built, explained = call(folder, 'build', *names, '-o', 'a.out'), call(folder, 'explain', 'build', *names, '--json')
        found = {'explain': [0, explained[1], '']}
        if built[0] != 0:
            return found
        for number, form in enumerate(FORMS):
            found['form %d' % number] = call(folder, 'show', form, *names, '--json')
        found['warn'] = call(folder, 'check', *names, '--json')
        found['verify'] = call(folder, 'verify', *names, '--json')
        found['explain interp'] = call(folder, 'explain', 'interp', *names, '--json', '--max', str(TICKS), given=given)
        found['trace'] = traced(folder, names, given)
        return found


def main():
    chosen = [one for k, one in enumerate(sources.all_of_them()) if k % EVERY == 0 and not one[0].startswith('sets/')]
    with concurrent.futures.ThreadPoolExecutor(2) as pool:
        for (name, files, given), wanted in zip(chosen, pool.map(lambda one: answers(one[1], one[2]), chosen)):
            print(json.dumps({'name': name, 'files': [[n, t.decode('latin-1')] for n, t in files], 'input': given.decode('latin-1'), 'ticks': TICKS, 'wanted': wanted}))


if __name__ == '__main__':
    main()
