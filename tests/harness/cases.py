"""Cases of `unittest`, rows as cases, and their run: side by side, with each check counted.

A test of the list in ../../test.sh ends with `sys.exit(harness.main(cases))`. It takes the words

    CC [-k WORD].. [--list] [--cases FILE] [MORE]..

`-k`: only cases whose name has a word. `--list` prints the names. `--cases` writes a case of JUnit for each."""
import argparse
import concurrent.futures
import os
import shutil
import sys
import threading
import time
import traceback
import unittest
from xml.sax.saxutils import escape, quoteattr

from .program import Program
from .verdict import Verdict, jobs

PROGRAMS = {}
RUNNING = threading.local()


def program_at(path):
    """The program at a path: one for all cases."""
    return PROGRAMS.setdefault(path, Program(path))


def needs(*tools):
    """The paths of tools; the case is skipped, with the reason, where one is missing."""
    for tool in tools:
        if not shutil.which(tool):
            raise unittest.SkipTest(f'{tool} is missing')
    paths = [shutil.which(tool) for tool in tools]
    return paths[0] if len(paths) == 1 else paths


class Case(unittest.TestCase):
    """A case makes checks by `expect` and `holds`; all are made, also behind one that fails. A case without a check fails."""

    path = None

    def __init__(self, method='runTest'):
        super().__init__(method)
        self.verdict, self.left = Verdict(quiet=True), None

    @property
    def program(self):
        """The program under test."""
        return program_at(self.path)

    def name(self):
        """The case's name, by which it is chosen: that of its class and of its method."""
        return f'{type(self).__name__}.{self._testMethodName.removeprefix("test_")}'

    def expect(self, what, found, wanted):
        return self.verdict.expect(f'{self.name()}: {what}' if what else self.name(), found, wanted)

    def holds(self, what, right):
        return self.verdict.holds(f'{self.name()}: {what}', right)

    def skip(self, count, why):
        self.verdict.skip(count, why)

    def leave(self, why):
        """Lets the case be without a check, and says why: another test makes it."""
        self.left = why

    def tool(self, name, checks=1):
        """A tool's path, or None where it is missing: then so many checks are skipped."""
        path = shutil.which(name)
        if not path:
            self.skip(checks, f'{name} is missing')
        return path


class Current:
    """Stands for the case that runs in this thread, so that functions which make checks need not be handed it."""

    def __getattr__(self, name):
        return getattr(RUNNING.case, name)


class Row(Case):
    """A case of a table: its name, and the function that makes its checks of the case and of the values."""

    def __init__(self, name, function, *values):
        super().__init__()
        self.called, self.function, self.values = name, function, values

    def name(self):
        return self.called

    def runTest(self):
        self.function(self, *self.values)


def number_of(name, found, wanted):
    """A case: so many there are, so that rows which are lost do not go unseen."""
    return Row(f'number of {name}', lambda case: case.expect('', found, wanted))


class Told(unittest.TestResult):
    """Takes what `unittest` says of one case into its verdict."""

    def addSkip(self, test, reason):
        super().addSkip(test, reason)
        test.verdict.skip(1, reason)

    def addFailure(self, test, err):
        super().addFailure(test, err)
        test.verdict.fail(f'{test.name()}: {err[1]}')

    def addError(self, test, err):
        super().addError(test, err)
        where = traceback.extract_tb(err[2])[-1]
        test.verdict.fail(f'{test.name()}: {err[0].__name__}: {err[1]} ({os.path.basename(where.filename)}, line {where.lineno})')


def parts(*functions):
    """Functions as cases, which make their checks by `Current`."""
    for function in functions:
        yield Row(function.__name__, lambda _, function=function: function())


def classes_of(*modules):
    """The cases of the classes of modules."""
    for module in modules:
        yield from flat(unittest.defaultTestLoader.loadTestsFromModule(module))


def flat(tests):
    """The cases of suites within suites."""
    for test in tests:
        if isinstance(test, unittest.TestSuite):
            yield from flat(test)
        else:
            yield test


def run(test):
    """Runs one case in an empty folder; its seconds."""
    program_at(test.path).fresh()
    RUNNING.case = test
    begun = time.monotonic()
    test.run(Told())
    made = test.verdict
    if made.passed + made.failed + made.skipped == 0 and not test.left:
        made.fail(f'{test.name()}: the case makes no check')
    return time.monotonic() - begun


def as_junit(test, seconds):
    """The case as an element of JUnit's XML (https://github.com/testmoapp/junitxml)."""
    made = test.verdict
    inside = ''
    if made.failed:
        inside = '<failure>%s</failure>' % escape(printable('\n'.join(made.lines)))
    elif not made.passed:
        inside = '<skipped message=%s/>' % quoteattr(printable(test.left or '; '.join(made.reasons)))
    return '<testcase name=%s time="%.3f">%s</testcase>\n' % (quoteattr(printable(test.name())), seconds, inside)


def printable(text):
    return ''.join(letter if letter.isprintable() or letter == '\n' else '?' for letter in text)


def words():
    parser = argparse.ArgumentParser(prog=sys.argv[0], description='Runs cases; the last line counts the checks.')
    parser.add_argument('cc', help='the program, or what else is tested')
    parser.add_argument('more', nargs='*', help='further words of this test')
    parser.add_argument('-k', action='append', default=[], metavar='WORD', help='only cases whose name has a word')
    parser.add_argument('--list', action='store_true', help='prints the names of the cases')
    parser.add_argument('--cases', metavar='FILE', help='writes a case of JUnit for each')
    return parser.parse_args()


def main(cases, checks=None, most=None):
    """Runs the cases that `cases(PATH, *MORE)` gives, and returns the exit status. `checks`: so many there are of all; `most`: so many cases
    at most go side by side."""
    given = words()
    Case.path = os.path.abspath(given.cc)
    tests = [test for test in flat(cases(Case.path, *given.more)) if not given.k or any(word in test.name() for word in given.k)]
    if given.list:
        for test in tests:
            print(test.name().replace('\n', ' '))
        return 0
    verdict, junit = Verdict(), []
    with concurrent.futures.ThreadPoolExecutor(min(jobs(), most or jobs())) as pool:
        for test, seconds in zip(tests, pool.map(run, tests)):
            verdict.add(test.verdict)
            if given.cases:
                junit.append(as_junit(test, seconds))
            test.verdict.lines = []
    made = verdict.passed + verdict.failed + verdict.skipped
    if checks is not None and made != checks and not given.k and not given.more:
        verdict.fail(f'{made} checks were made, not {checks}')
    if given.cases:
        with open(given.cases, 'w', encoding='utf-8') as file:
            file.writelines(junit)
    return verdict.end()
