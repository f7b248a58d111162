#!/usr/bin/env python3
"""The files of sources/ and what `zkc explain` has to say of them: the words of wanted.txt, which are written by hand.

    python3 tests/outside/mistakes/wanted.py CC

The last line is 'N passed, M failed'."""
import os, subprocess, sys

HERE = os.path.dirname(os.path.abspath(__file__))
sys.path.insert(0, os.path.dirname(os.path.dirname(HERE)))
from harness import verdict
CC = os.path.abspath(sys.argv[1])

def rows():
    for line in open(os.path.join(HERE, 'wanted.txt'), encoding='utf-8'):
        if line.strip() and not line.startswith('#'):
            name, command, words = line.rstrip('\n').split(': ', 2)
            yield name, command, words.split(' | ')

passed = failed = 0
names = set()
for name, command, words in rows():
    names.add(name + '.c')
    done = subprocess.run([CC, 'explain', command, name + '.c'], cwd=os.path.join(HERE, 'sources'), stdin=subprocess.DEVNULL,
                          stdout=subprocess.PIPE, stderr=subprocess.PIPE, timeout=60)
    said = done.stderr.decode('utf-8', 'replace')
    if words == ['-']:
        missing = [] if done.returncode == 0 and said == '' else ['silence']
    else:
        missing = [word for word in words if word not in said]
    if missing:
        failed += 1
        print('FAIL %s: no %s in\n%s' % (name, ', '.join(missing), said))
    else:
        passed += 1
if names == set(os.listdir(os.path.join(HERE, 'sources'))):
    passed += 1
else:
    failed += 1
    print('FAIL not each file of sources/ has its line')
print(verdict.line(passed, failed))
sys.exit(failed != 0)
