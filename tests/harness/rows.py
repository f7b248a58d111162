"""Files of rows: fields with tabs between, or blocks behind headings."""
import re

PLAIN = {b'\\\\': b'\\', b'\\n': b'\n', b'\\t': b'\t'}


def bytes_of(field):
    """A field's bytes: a backslash begins `\\\\`, `\\n`, `\\t` or `\\x` and two digits."""
    return re.sub(rb'\\x([0-9a-f]{2})|\\[\\nt]', lambda m: bytes([int(m.group(1), 16)]) if m.group(1) else PLAIN[m.group()], field)


def field_of(data):
    """The field of these bytes, as `bytes_of` reads it."""
    plain = {92: b'\\\\', 10: b'\\n', 9: b'\\t'}
    return b''.join(plain.get(byte) or (bytes([byte]) if 0x20 <= byte <= 0x7e else b'\\x%02x' % byte) for byte in data)


def row_of(*parts):
    """A row for a program of rows: its subject and its fields, texts or bytes."""
    return b'\t'.join(field_of(part if isinstance(part, bytes) else str(part).encode()) for part in parts)


def fields(path):
    """The rows of a file of fields with tabs between them, after its first line."""
    with open(path, 'rb') as file:
        for line in file.read().split(b'\n')[1:]:
            if line:
                yield [bytes_of(field) for field in line.split(b'\t')]


def lines(path, encoding='utf-8'):
    """The lines of a file without comments (`#`) and without empty lines."""
    with open(path, encoding=encoding) as file:
        for line in file:
            if line.strip() and not line.startswith('#'):
                yield line.rstrip('\n')


def blocks(path, encoding='latin-1'):
    """The blocks of a file: the text after `=== ` in a line, and the lines that follow it."""
    with open(path, encoding=encoding) as file:
        for block in re.split(r'^=== ', file.read(), flags=re.M)[1:]:
            head, _, text = block.partition('\n')
            yield head, text


def code_and_line(told):
    """`ok`, or `CODE LINE` of a fault's line."""
    fault = re.fullmatch(r'[^:]*:(\d+): (\d+) .*', told)
    return f'{fault.group(2)} {fault.group(1)}' if fault else told
