"""Counted checks, and the last line of every test."""
import concurrent.futures
import os
import threading

from . import seeds
from .compare import short


def line(passed, failed, skipped=0):
    """The last line of a test. It is made here and nowhere else."""
    return f'{passed} passed, {failed} failed' + (f', {skipped} skipped' if skipped else '')


def jobs():
    """How many runs go side by side: JOBS, else a processor each."""
    return max(1, int(os.environ.get('JOBS') or os.cpu_count() or 1))


class Verdict:
    """Checks that passed, failed and were skipped. A failed one is a line, printed as it comes, or kept where `quiet`."""

    def __init__(self, quiet=False):
        self.passed = self.failed = self.skipped = 0
        self.lines, self.reasons, self.quiet = [], {}, quiet
        self.lock = threading.Lock()

    def expect(self, name, found, wanted):
        """Whether what was found is what was wanted."""
        if found == wanted:
            with self.lock:
                self.passed += 1
            return True
        self.fail(f'{name}: {short(found, wanted)}')
        return False

    def holds(self, name, right):
        """Whether a statement holds; its name says what is wrong where it does not."""
        if right:
            with self.lock:
                self.passed += 1
        else:
            self.fail(name)
        return bool(right)

    def fail(self, text):
        text = f'FAIL {text}{seeds.told()}'
        with self.lock:
            self.failed += 1
            self.lines.append(text)
        if not self.quiet:
            print(text, flush=True)

    def skip(self, count, why):
        """So many checks are left out, and why."""
        if not count:
            return
        with self.lock:
            self.skipped += count
            self.reasons[why] = self.reasons.get(why, 0) + count

    def add(self, other):
        """Adds the checks of another; its lines are printed where this one prints."""
        with self.lock:
            self.passed, self.failed, self.skipped = self.passed + other.passed, self.failed + other.failed, self.skipped + other.skipped
            self.lines += other.lines
            for why, count in other.reasons.items():
                self.reasons[why] = self.reasons.get(why, 0) + count
        if not self.quiet and other.quiet:
            for text in other.lines:
                print(text, flush=True)

    def line(self):
        return line(self.passed, self.failed, self.skipped)

    def end(self):
        """Prints the reasons of what was skipped and the last line, and returns the exit status."""
        for why, count in sorted(self.reasons.items()):
            print(f'skipped {count}: {why}')
        print(self.line(), flush=True)
        return 0 if not self.failed and (self.passed or self.skipped) else 1


def side_by_side(function, rows):
    """What the function returns for each row, in their order."""
    with concurrent.futures.ThreadPoolExecutor(jobs()) as pool:
        yield from pool.map(function, rows)
