#!/usr/bin/env python3
"""grade.py TESTS SOURCE..: compiles each source and runs it over the tests in a folder.

TESTS holds pairs NAME.in and NAME.out (what is read, what has to be written) and, where the status is not to be 0, NAME.status. A line a source,
`SOURCE: 3 of 4`, and under it why: the fault with its column and hint, the first byte that differs, the limit, the trap, or the undefined behaviour,
which the interpreter finds also where the output is right. The exit status is 1 where a source misses a test.

The library is found as `import zikorape` finds it, or as ZIKORAPE names its file."""
import json
import os
import sys

sys.path.insert(0, os.path.join(os.path.dirname(os.path.abspath(__file__)), '..', '..', 'bindings', 'python'))
import zikorape

LIMIT = 10_000_000


class Test:
    """What is read, and what has to come of it."""

    def __init__(self, folder, name):
        self.name = name
        self.given = self._read(folder, '.in')
        self.wanted = self._read(folder, '.out')
        self.status = int(self._read(folder, '.status') or b'0')

    def _read(self, folder, end):
        path = os.path.join(folder, self.name + end)
        if not os.path.exists(path):
            return b''
        with open(path, 'rb') as file:
            return file.read()


def tests_of(folder):
    return [Test(folder, name[:-3]) for name in sorted(os.listdir(folder)) if name.endswith('.in')]


def why_refused(zk, files, main):
    """Each fault of a program that is refused, as `zkc explain` tells it."""
    for line in zk.explain(files, main).output.splitlines():
        fault = json.loads(line)
        column = ':%d' % fault['column'] if fault['column'] else ''
        yield '%s:%d%s: %s %s' % (fault['file'], fault['line'], column, fault['code'], fault['text'])
        yield from ('    ' + note['text'] for note in fault['notes'])


def first_difference(got, wanted):
    for at, (one, other) in enumerate(zip(got, wanted)):
        if one != other:
            return 'byte %d is %r and not %r' % (at, chr(one), chr(other))
    return 'the output has %d bytes and not %d' % (len(got), len(wanted))


def why_missed(zk, files, main, built, test):
    """Why a test is missed; None where it is not."""
    meant = zk.interpret(files, main, test.given, LIMIT)
    if meant.status == 123 and meant.message:
        return meant.message.strip()
    with zk.machine(built) as machine:
        machine.input(test.given)
        machine.close_input()
        outcome = machine.run(LIMIT)
        got, detail = machine.output(), machine.detail
    if outcome == zikorape.GOES_ON:
        return 'no end within %d instructions' % LIMIT
    if outcome != zikorape.ENDED:
        return 'a trap (cause %d): the stack does not suffice' % detail
    if got != test.wanted:
        return first_difference(got, test.wanted)
    if detail != test.status:
        return 'status %d and not %d' % (detail, test.status)
    return None


def grade(zk, path, tests):
    """How many tests a source passes, and why it misses the others."""
    with open(path, 'rb') as file:
        files = {os.path.basename(path): file.read()}
    main = os.path.basename(path)
    answer = zk.build(files, main)
    if answer.status:
        return 0, list(why_refused(zk, files, main))
    missed = [(test.name, why_missed(zk, files, main, answer.output, test)) for test in tests]
    return sum(why is None for _, why in missed), ['%s: %s' % (name, why) for name, why in missed if why]


def main():
    if len(sys.argv) < 3:
        sys.exit(__doc__)
    zk, tests, all_right = zikorape.Library(os.environ.get('ZIKORAPE')), tests_of(sys.argv[1]), True
    for path in sys.argv[2:]:
        passed, why = grade(zk, path, tests)
        all_right = all_right and passed == len(tests)
        print('%s: %d of %d' % (path, passed, len(tests)))
        for line in why:
            print('    ' + line)
    return 0 if all_right else 1


if __name__ == '__main__':
    sys.exit(main())
