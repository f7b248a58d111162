#!/usr/bin/env python3
"""Mutated sources and files, from a fixed seed: the program answers each, by no signal, in time and room.

    python3 tests/outside/hostile/mutate.py bin/cc [SOURCES [FILES [SEED]]]

20,000 sources, made of the programs of tests/outside (bytes changed, pieces left out, doubled and moved between programs), go through
pp, build and interp; what build makes goes through run. Wanted of each: a status that the command has, and for status 1 one
line of standard error that is a fault's. 5,000 ELF files, made of built ones by changes of their headers, bytes and length, are
loaded by run beside a reader of the headers that is written here from the gABI: the same fault, or none.
It takes minutes, so sh test.sh tries a part (600 and 1,500). The last line is 'N passed, M failed'."""
import os
import re
import struct
import sys

HERE = os.path.dirname(os.path.abspath(__file__))
sys.path.insert(0, os.path.dirname(os.path.dirname(HERE)))
import harness

LINE = re.compile(rb'(cc: 801 [^\n]*|[^\n]*:\d+: \d{3} [^\n]*)\n')
MOST = 134217728


def programs():
    """The sources of tests/outside, each a text."""
    found = []
    for name in ('interp/by_hand.txt', 'interp/random.txt', 'interp/undefined.txt', 'scalars/by_hand.txt', 'scalars/random.txt', 'pp/rules.txt', 'pp/variadic.txt', 'pp/conditions.txt'):
        with open(os.path.join(HERE, '..', name), encoding='utf-8', errors='surrogateescape') as file:
            parts = re.split(r'^===.*\n', file.read(), flags=re.M)[1:]
        found += [part.encode(errors='surrogateescape') for part in parts if 20 < len(part) < 20000]
    return found


def mutated(chance, sources):
    text = bytearray(chance.choice(sources))
    for _ in range(chance.choice([1, 1, 2, 3, 6])):
        at, length = chance.randrange(len(text) + 1), chance.choice([1, 1, 2, 5, 20, 80])
        kind = chance.randrange(7)
        if kind == 0:
            text[at:at + length] = b''
        elif kind == 1:
            text[at:at] = text[at:at + length] * chance.choice([1, 2, 300])
        elif kind == 2 and at < len(text):
            text[at] = chance.randrange(256)
        elif kind == 3:
            other = chance.choice(sources)
            start = chance.randrange(len(other))
            text[at:at] = other[start:start + length]
        elif kind == 4:
            text[at:at] = chance.choice([b'(', b')', b'{', b'}', b'#', b'##', b'\\\n', b'"', b"'", b'/*', b'??/', b',', b'...', b'__VA_ARGS__', b'\n#define ', b'\n#if ', b'\n#endif\n', b'2147483648', b'0x', b'[', b']', b'static ', b'const '])
        elif kind == 5:
            text[at:at + length] = bytes(chance.choice(b'abfx01(){};,=+-*/<>&|#"\n ') for _ in range(length))
        else:
            text += b'\n'
    return bytes(text[:200000])


def ran(program, words):
    return program.run(*words, given=b'0123456789\n', memory=1500 << 20)


def source_answers(program, text):
    """What is wrong with the answers to a source."""
    program.fresh()
    program.write('main.c', text)
    wrong = []
    for words in (['pp', 'main.c'], ['build', 'main.c', '-o', 'out'], ['interp', 'main.c', '--max', '200000']):
        status, _, said = ran(program, words)
        plain = words[0] != 'interp'
        # (a program of interp may end with any status; what it says then is nothing)
        if not isinstance(status, int) or status < 0 or plain and status > 1:
            wrong.append(f'{words[0]} ends with {status}')
        elif plain and (status == 1) != bool(LINE.fullmatch(said)) or plain and status == 0 and said:
            wrong.append(f'{words[0]} ends with {status} and says {said[:80]!r}')
        elif not plain and said and not re.fullmatch(rb'[^\n]*\n', said):
            wrong.append(f'interp says {said[:80]!r}')
    if os.path.exists(program.at('out')):
        status, _, said = ran(program, ['run', 'out', '--max', '2000000'])
        if not isinstance(status, int) or status < 0 or status == 1 and LINE.fullmatch(said) or said and not re.fullmatch(rb'[^\n]*\n', said):
            wrong.append(f'run ends with {status} and says {said[:80]!r}')
    return wrong


def fault_of(file):
    """The first of 901 to 907 that stands in an ELF file, or None (System V gABI, chapters 4 and 5; limits of docs/TOOLS.md)."""
    if len(file) < 52:
        return 901
    if file[:7] != b'\x7fELF\x01\x01\x01' or struct.unpack_from('<I', file, 20)[0] != 1:
        return 902
    kind, machine = struct.unpack_from('<HH', file, 16)
    offset, flags = struct.unpack_from('<I', file, 28)[0], struct.unpack_from('<I', file, 36)[0]
    size, count = struct.unpack_from('<HH', file, 42)
    if kind != 2:
        return 903
    if machine != 243 or flags != 0:
        return 904
    if size != 32 or count == 0 or count > 16 or offset + 32 * count > len(file):
        return 905
    loads = [struct.unpack_from('<8I', file, offset + 32 * k) for k in range(count)]
    loads = [(start, address, inside, whole) for kind, start, address, _, inside, whole, _, _ in loads if kind == 1]
    if any(inside > whole or inside > 0 and start + inside > len(file) for start, _, inside, whole in loads):
        return 905
    spans = sorted((address, address + whole) for _, address, _, whole in loads if whole)
    if any(end > 1 << 32 for _, end in spans) or any(a[1] > b[0] for a, b in zip(spans, spans[1:])):
        return 906
    if sum(whole for *_, whole in loads) > MOST:
        return 907
    return None


def changed(chance, files):
    file = bytearray(chance.choice(files))
    for _ in range(chance.choice([1, 1, 1, 2, 3])):
        kind = chance.randrange(6)
        if kind == 0:
            file[chance.randrange(min(160, len(file)))] = chance.choice([0, 1, 2, 3, 0x7f, 0x80, 0xff, chance.randrange(256)])
        elif kind == 1:
            at = 52 + 4 * chance.randrange(24)
            old = struct.unpack_from('<I', file, at)[0] if at + 4 <= len(file) else 0
            new = chance.choice([0, 1, old + 1, max(old, 1) - 1, old + 4096, 0x7fffffff, 0x80000000, 0xfffff000, 0xffffffff, 0x08000000, chance.randrange(1 << 32)])
            if at + 4 <= len(file):
                struct.pack_into('<I', file, at, new & 0xffffffff)
        elif kind == 2:
            del file[chance.randrange(len(file) + 1):]
        elif kind == 3 and len(file) >= 46:
            struct.pack_into('<H', file, chance.choice([16, 18, 42, 44]), chance.choice([0, 1, 2, 3, 4, 16, 17, 32, 243, 0xffff]))
        elif kind == 4 and file:
            file[chance.randrange(len(file))] = chance.randrange(256)
        elif kind == 5:
            file += bytes(chance.randrange(256) for _ in range(chance.choice([1, 40, 4096])))
    return bytes(file) or b'\0'


def file_answer(program, file):
    program.write('file', file)
    status, _, said = ran(program, ['run', 'file', '--max', '20000'])
    wanted = fault_of(file)
    told = re.fullmatch(rb'[^\n]*:0: (9\d\d) [^\n]*\n', said)
    found = int(told.group(1)) if told else None
    if not isinstance(status, int) or status < 0 or found != wanted or wanted and status != 1:
        return [f'a file is {found} with status {status}, {said[:60]!r}, and by the gABI {wanted}: {file[:160].hex()}, {len(file)} bytes']
    return []


def built(program, sources):
    """The files of the first sources that build."""
    for text in sources[:40]:
        program.fresh()
        program.write('main.c', text)
        if ran(program, ['build', 'main.c', '-o', 'out'])[0] == 0:
            yield program.read('out')


def main():
    program, verdict = harness.Program(sys.argv[1]), harness.Verdict()
    count, files, seed = (int(word) for word in (sys.argv[2:] + ['20000', '5000', '20261126'][len(sys.argv) - 2:])[:3])
    chance, sources = harness.seeded(seed), programs()
    made = list(built(program, sources))
    texts = [mutated(chance, sources) for _ in range(count)]
    images = [changed(chance, made) for _ in range(files)]
    for text, wrong in zip(texts, harness.side_by_side(lambda text: source_answers(program, text), texts)):
        verdict.holds(f'{"".join(wrong[:1])} of {text[:300]!r}', not wrong)
    for wrong in harness.side_by_side(lambda file: file_answer(program, file), images):
        verdict.holds(''.join(wrong), not wrong)
    return verdict.end()


if __name__ == '__main__':
    sys.exit(main())
