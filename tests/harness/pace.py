"""Time, measured against a short run of the same program on this machine. No limit is a fixed number of seconds: a run is stopped only
where it takes so many times as long as a short run takes now, with all that the machine does beside."""
import subprocess
import tempfile
import threading
import time

# A loop of 40,000 ticks, so that the time is the program's and not that of its start alone.
LOOP = b'int main(void) { int n = 0; for (int i = 0; i < 10000; i++) n = n + 1; return n == 10000; }\n'
# What the start of a process takes on any machine.
SHORTEST = 0.005
SHORT_RUNS = {}
LOCK = threading.Lock()


class Pace:
    """The seconds of a short run of the program: the slowest of those that were measured."""

    def __init__(self, words):
        self.words, self.slowest = words, 0.0
        self.measure()

    def measure(self):
        """Makes the short run, and returns its seconds."""
        with tempfile.TemporaryDirectory() as folder:
            with open(f'{folder}/main.c', 'wb') as file:
                file.write(LOOP)
            begun = time.monotonic()
            subprocess.run(self.words, cwd=folder, stdin=subprocess.DEVNULL, stdout=subprocess.DEVNULL, stderr=subprocess.DEVNULL, check=False)
        seconds = max(time.monotonic() - begun, SHORTEST)
        self.slowest = max(self.slowest, seconds)
        return seconds

    def allowed(self, times):
        """The seconds that so many short runs take at the slowest."""
        return times * self.slowest


def of_program(path):
    """The pace of a program, measured once."""
    with LOCK:
        if path not in SHORT_RUNS:
            SHORT_RUNS[path] = Pace([path, 'interp', 'main.c'])
        return SHORT_RUNS[path]


class Deadline:
    """So many short runs from now. Where they have passed, the short run is made again before that is believed."""

    def __init__(self, pace, times):
        self.pace, self.times, self.begun = pace, times, time.monotonic()

    def left(self):
        """The seconds that are left, and at least a moment."""
        return max(0.01, self.pace.allowed(self.times) - (time.monotonic() - self.begun))

    def has_passed(self):
        if time.monotonic() - self.begun < self.pace.allowed(self.times):
            return False
        self.pace.measure()
        return time.monotonic() - self.begun >= self.pace.allowed(self.times)


def communicate(process, pace, times, given=None):
    """Output and errors of a process, which has so many short runs. Past its time it is killed, and TimeoutExpired is raised."""
    end = Deadline(pace, times)
    while True:
        try:
            return process.communicate(given, timeout=end.left())
        except subprocess.TimeoutExpired:
            given = None
            if end.has_passed():
                process.kill()
                raise
