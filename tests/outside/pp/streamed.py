#!/usr/bin/env python3
"""Mutated sources, from a fixed seed: phase 4 and the C tokens come to the same, whole and as streams.

    python3 tests/outside/pp/streamed.py CALLS [COUNT [SEED]]

COUNT sources (3,000) are made of those of this folder and of examples: lines are left out, doubled and swapped, tokens put in and moved between
sources, bytes changed. CALLS (crates/test_calls, as the gate builds it) has to end with status 0, and to say of each that both were the
same. The last line is 'N passed, M failed'."""
import glob
import os
import random
import re
import resource
import subprocess
import sys
from concurrent.futures import ThreadPoolExecutor

HERE = os.path.dirname(os.path.abspath(__file__))
import stream

SAME = re.compile(r'same, (\d+ tokens, )?(\d+ C tokens|fault \d{3} at \d+)')
TOKENS = ['#', '##', '(', ')', ',', '"a"', '"', "'", '\\\n', '/*', '*/', '//', '??/\n', '...', '__VA_ARGS__', '__LINE__', '__FILE__', 'defined', '08', "'\\400'", 'f', 'f(',
          '\n#define f(a) a ## a #a\n', '\n#undef f\n', '\n#if 1\n', '\n#if 0\n', '\n#else\n', '\n#endif\n', '\n#line 7 "x.c"\n', '\n#error e\n', '\n#include "row.c"\n',
          '\n#include <limits.h>\n', '\n#\n', '\n']
BATCH = 50
MOST_BYTES = 50000


def sources():
    """Those of this folder that are one file, and the examples."""
    found = []
    for name in ('standard.txt', 'random.txt', 'rules.txt', 'faults.txt', 'variadic.txt'):
        found += [source for source, _ in stream.blocks(name)]
    found += [source for source, _ in stream.sets()]
    for path in sorted(glob.glob(os.path.join(HERE, '../../../examples/*.c'))):
        with open(path, encoding='latin-1', newline='') as file:
            found.append(file.read())
    return [source for source in found if len(source) <= MOST_BYTES]


def with_lines(chance, text):
    """Some lines left out, doubled or swapped."""
    lines = text.splitlines(keepends=True) or ['\n']
    at, other = chance.randrange(len(lines)), chance.randrange(len(lines))
    kind = chance.randrange(3)
    if kind == 0:
        del lines[at:at + chance.choice([1, 1, 2, 4])]
    elif kind == 1:
        lines[at:at] = lines[at:at + chance.choice([1, 1, 2, 4])] * chance.choice([1, 2, 5])
    else:
        lines[at], lines[other] = lines[other], lines[at]
    return ''.join(lines)


def with_tokens(chance, text, others):
    """A token put in, or a piece of another source."""
    at = chance.randrange(len(text) + 1)
    piece = chance.choice(TOKENS)
    if chance.randrange(3) == 0:
        other = chance.choice(others)
        start = chance.randrange(len(other) + 1)
        piece = other[start:start + chance.choice([1, 5, 20, 80])]
    return text[:at] + piece + text[at:]


def with_bytes(chance, text):
    """Some bytes changed."""
    at = chance.randrange(len(text) + 1)
    count = chance.choice([1, 1, 2, 5])
    return text[:at] + ''.join(chr(chance.randrange(256)) for _ in range(count)) + text[at + count:]


def mutated(chance, others):
    text = chance.choice(others)
    for _ in range(chance.choice([1, 1, 2, 3, 6])):
        kind = chance.randrange(5)
        text = with_lines(chance, text) if kind < 2 else with_tokens(chance, text, others) if kind < 4 else with_bytes(chance, text)
    text = text.replace('@', '$')[:MOST_BYTES]
    return text if text.endswith('\n') or chance.randrange(8) == 0 else text + '\n'


def limits():
    resource.setrlimit(resource.RLIMIT_AS, (4 << 30, 4 << 30))
    resource.setrlimit(resource.RLIMIT_CORE, (0, 0))


def answers(program, batch):
    """What the program says of each source, or once what is wrong with its run."""
    given = b''.join(stream.row(source) + b'\n' for source in batch)
    try:
        done = subprocess.run([program], input=given, capture_output=True, timeout=300, check=False, preexec_fn=limits)
    except subprocess.TimeoutExpired:
        return ['no end'] * len(batch)
    lines = done.stdout.decode('latin-1').splitlines()
    if done.returncode or done.stderr or len(lines) != len(batch):
        return [f'status {done.returncode}, {len(lines)} lines, {done.stderr[:80]!r}'] * len(batch)
    return lines


def main():
    program = os.path.abspath(sys.argv[1])
    count, seed = (int(word) for word in (sys.argv[2:4] + ['3000', '20261127'][len(sys.argv[2:4]):]))
    chance, others = random.Random(seed), sources()
    made = [mutated(chance, others) for _ in range(count)]
    batches = [made[at:at + BATCH] for at in range(0, count, BATCH)]
    counted = stream.harness.Verdict()
    with ThreadPoolExecutor(os.cpu_count()) as pool:
        for batch, lines in zip(batches, pool.map(lambda batch: answers(program, batch), batches)):
            for source, line in zip(batch, lines):
                counted.expect(repr(source[:400]), line if not SAME.fullmatch(line) else 'same', 'same')
    return counted.end()


if __name__ == '__main__':
    sys.exit(main())
