#!/usr/bin/env python3
"""The rows of crates/test_calls that are made of the rows here; `../rows.py` writes them. The first lines of each file say what its rows are and
where what they want comes from."""
import os
import re
import struct
import sys

HERE = os.path.dirname(os.path.abspath(__file__))
sys.path.insert(0, os.path.dirname(os.path.dirname(HERE)))
import harness

NOTHING = 0x13
# the letters by which the crate takes calls
CALLS = {'step': 's', 'pc': 'p', 'advance': 'a', 'jump': 'j', 'read': 'r', 'write': 'w', 'fetch': 'f', 'load_word': 'W', 'load_half': 'H', 'load_byte': 'B',
         'can_write': 'c', 'store_word': 'o', 'store_half': 'h', 'store_byte': 'b'}
FAULTS = {'801': 'Memory', '802': 'Read', '803': 'Write'}


def lines(name):
    with open(os.path.join(HERE, name + '.txt'), encoding='ascii') as file:
        return [line.rstrip('\n') for line in file if not line.startswith('#')]


# ---- files

def numbers(name):
    """The hexadecimal numbers of a file; what follows # in a line is a remark."""
    with open(os.path.join(HERE, name + '.txt'), encoding='ascii') as file:
        return [int(word, 16) for line in file for word in line.split('#')[0].split()]


def words(name):
    return struct.pack('<%dI' % len(numbers(name)), *numbers(name))


def sample():
    """The sample file, whose last 12 numbers are its text."""
    found = bytes(numbers('sample'))
    return (found[:-12].ljust(0x1000, b'\0') + found[-12:]).ljust(0x2010, b'\0')


def put(file, place, data):
    return file[:place] + data + file[place + len(data):]


def file_with(text, entry=0x11000, flags=None):
    """The sample file with this entry and text, and with what may be done with the text."""
    file = put(sample(), 24, struct.pack('<I', entry))
    file = put(put(file, 68, struct.pack('<II', 0x40, 0x40)), 0x1000, text)
    return file if flags is None else put(file, 76, bytes([flags]))


def changed(changes):
    file = sample()
    for change in changes.split():
        place, value = change.split('=')
        file = put(file, int(place), bytes([int(value, 16)]))
    return file


def shown(file):
    """`SIZE PLACE=BYTES ..`, without the zeros."""
    return ' '.join([str(len(file))] + ['%d=%s' % (found.start(), found.group().hex()) for found in re.finditer(rb'(?s)[^\0](?:.{0,8}[^\0])*', file)])


def program_of(name, entry):
    if name == 'linked':
        return words('linked')
    if name in ('rewriting', 'read_only'):
        return file_with(words('rewriting'), int(entry, 16), 7 if name == 'rewriting' else 5)
    return file_with(words('echo'), int(entry, 16))


# ---- instructions and items

def listed(text):
    """A text of GNU as, as a listing has it."""
    name, _, operands = text.partition(' ')
    parts = [part.strip() for part in operands.split(',')] if operands else []
    if name in ('lui', 'auipc'):
        parts[1] = '0x%X' % int(parts[1], 0)
    parts = [re.sub(r'^\.\+?', '', part) for part in parts]
    return f'{name} {",".join(parts)}' if parts else name


def word_rows():
    for row in lines('words'):
        word, text = row.split('|')
        yield 'word|' + word, f'00000000 {word.upper()}  {listed(text)}|'
    for row in lines('texts'):
        word, text = row.split('|')
        yield 'word|%x' % int(word), '00000000 %08X  %s|' % (int(word), text)
    for row in lines('other_words'):
        yield 'word|' + row.split('|')[0], 'none'


def expanded(text):
    for word in text.split(' '):
        value, _, count = word.partition('*')
        yield from [int(value)] * int(count or 1)


def run_lengths(values):
    found = []
    for value in values:
        if found and found[-1][0] == value:
            found[-1][1] += 1
        else:
            found.append([value, 1])
    return ' '.join('%x*%d' % (value, count) for value, count in found)


def item_rows():
    for row in lines('code'):
        base, items, text = row.split('|')
        yield 'code|%x|%s' % (int(base), items), run_lengths(expanded(text))
    for row in lines('sizes'):
        items, size = row.split('|')
        yield f'size|11000|{items}', size
    for row in lines('jumps'):
        items, told = row.split('|')
        yield f'jump|0|{items}', '0 0 true' if told == 'reaches' else f'{told} {told} false'
    for row in lines('listings'):
        base, items, *text = row.split('|')
        yield f'listing|{base}|{items}', ''.join(line + '|' for line in text) + str(sum(len(line) + 1 for line in text))
    for row in lines('sound'):
        labels, items, told = row.split('|')
        yield f'sound|{labels}|{items}', 'true' if told == 'sound' else 'false'
    for row in lines('low'):
        base, items, told = row.split('|')
        yield f'low|{base}|{items}', 'true' if told == 'low' else 'false'


# ---- memory

def answer(call, told):
    """An answer of a row, as it is printed."""
    name = call.split(' ')[0]
    if name == 'step':
        return told.capitalize() if told in ('went', 'call') else f'Trap({told})'
    if name in ('advance', 'jump', 'write'):
        return ''
    if name in ('pc', 'read'):
        return told
    if told in ('yes', 'no'):
        return 'true' if told == 'yes' else 'false'
    return 'None' if told == 'none' else 'Some(%d)' % int(told, 16)


def letters(call):
    """A call as the crate takes it."""
    name, *rest = call.split(' ')
    return ' '.join([CALLS[name], *rest])


def calls(script):
    pairs = [line.split('=') for line in script.split(';')]
    return ';'.join(letters(call) for call, _ in pairs), ''.join(answer(call, told) + ';' for call, told in pairs)


def memory_rows():
    for name in ('memory', 'steps'):
        for row in lines(name):
            text, script = row.split('|')
            asked, wanted = calls(script)
            yield f'memory|{text}|{asked}', wanted
    for row in lines('images'):
        changes, script = row.split('|')
        asked, wanted = calls(script)
        yield f'image|{shown(changed(changes))}|{asked}', wanted


# ---- runs

def outcome(told):
    kind, *parts = told.split()
    if kind == 'trapped':
        return f'Trapped({int(parts[0], 16)}, {parts[1]})'
    if kind == 'port':
        return f'Port({FAULTS[parts[0]]})'
    return f'Ended({parts[0]})' if kind == 'ended' else 'Budget'


def put_bytes(data):
    return ''.join(f' {byte:x}' for byte in data)


def run_rows():
    for row in lines('runs'):
        name, entry, given, runs, output, after = row.split('|')
        steps, wanted = [], ''
        for part in runs.split(';'):
            times, told = part.split('=')
            count, most = times.split('*')
            steps += [most] * int(count)
            wanted += (outcome(told) + ';') * int(count)
        left = f'Some({int(after[:2], 16)})' if after else 'None'
        yield f'run|{shown(program_of(name, entry))}|{given}|{" ".join(steps)}', f'{wanted}{put_bytes(bytes.fromhex(output))};Ok({left});0'


def call_text(a0, a1, a2, a7):
    """An environment call with these registers, and then the end with its answer: addi, lui, addi, addi, ecall, addi, ecall."""
    return struct.pack('<7I', 0x513 + a0 * 0x100000, 0x5b7 + a1, 0x613 + a2 * 0x100000, 0x893 + a7 * 0x100000, 0x73, 0x05d00893, 0x73)


def call_rows():
    for row in lines('calls'):
        call, told, left = row.split('|')
        a0, a1, a2, a7 = [int(word, 16 if place == 1 else 10) for place, word in enumerate(call.split())]
        # the byte at 12000 is 0
        output = ' 0' if a7 == 64 and told.startswith('ended') else ''
        after = 'Some(120)' if left == 'left' else 'None'
        yield f'run|{shown(file_with(call_text(a0, a1, a2, a7)))}|78|9', f'{outcome(told)};{output};Ok({after});0'


def port_rows():
    echo = shown(file_with(words('echo')))
    for row in lines('ports'):
        given, ends, room, runs, output, left, finish = row.split('|')
        told = [outcome(part) for part in runs.split(';')]
        finished = 'Ok(())' if finish == 'done' else f'Err({FAULTS[finish]})'
        yield f'port|{echo}|{given}|{ends}|{room}|{" ".join(["10000"] * len(told))}', ''.join(it + ';' for it in told) + f'{finished};{output};{left}'
    for row in lines('silent'):
        parts = [part.split('=') for part in row.split(';')]
        told = [text.rsplit(' ', 1) for _, text in parts]
        yield f'silent|{echo}|{" ".join(steps for steps, _ in parts)}', ''.join(f'{outcome(text)} {failures};' for text, failures in told)


def called(kind):
    """The rows of a kind, with tabs between their fields, and what is wanted."""
    def rows():
        for row, wanted in kind():
            yield harness.row_of(*row.split('|')), wanted.encode()
    rows.__name__ = kind.__name__
    return rows


# so many rows there are of each
KINDS = [(called(kind), count) for kind, count in [(word_rows, 454), (item_rows, 89), (memory_rows, 3), (run_rows, 10), (call_rows, 10), (port_rows, 4)]]
