"""A plain program of phases 1 to 3 (ISO/IEC 9899:2011 5.1.1.2): all characters first, then each token as the longest front that is a whole
token of 6.4. It is written from the standard and shares nothing with the scanner. Spellings that are too long are not looked for."""
import re

TRIGRAPHS = dict(zip(b"=(/)'<!>-", b'#[\\]^{|}~'))
WHITE = b' \t\x0b\x0c'
PUNCTUATORS = set(b'''[ ] ( ) { } . -> ++ -- & * + - ~ ! / % << >> < > <= >= == != ^ | && || ? : ; ... = *= /= %= += -= <<= >>= &= ^= |= , # ##
<: :> <% %> %: %:%:'''.split())
# 6.4.2.1, 6.4.8, 6.4.4.4, 6.4.5, 6.4.7: whole tokens. A closing quote is one that no backslash stands before.
FORMS = [
    ('Identifier', re.compile(rb'[A-Za-z_][A-Za-z_0-9]*')),
    ('Number', re.compile(rb'\.?[0-9](?:[eEpP][+-]|[A-Za-z_0-9.])*')),
    ('CharacterConstant', re.compile(rb"[LuU]?'(?:\\[^\n]|[^'\\\n])+'")),
    ('StringLiteral', re.compile(rb'(?:u8|[LuU])?"(?:\\[^\n]|[^"\\\n])*"')),
]
HEADERS = re.compile(rb'<[^>\n]+>|"[^"\n]+"')


class Fault(Exception):
    """A code and its line."""


def mapped(text):
    """Phase 1: characters with their lines. A line may end in two bytes."""
    found, line, at = [], 1, 0
    while at < len(text):
        byte, size = text[at], 1
        if text[at:at + 2] == b'??' and text[at + 2:at + 3] and text[at + 2] in TRIGRAPHS:
            byte, size = TRIGRAPHS[text[at + 2]], 3
        elif text[at:at + 2] == b'\r\n':
            byte, size = 10, 2
        found.append((byte, line))
        line += byte == 10
        at += size
    return found


def joined(characters):
    """Phase 2: a backslash and the end of the line behind it go."""
    found, at = [], 0
    while at < len(characters):
        if characters[at][0] == 92 and at + 1 < len(characters) and characters[at + 1][0] == 10:
            at += 2
        else:
            found.append(characters[at])
            at += 1
    return found


def check_end(characters):
    """5.1.1.2: a file that is not empty ends in a newline, and no backslash stands directly before that."""
    if characters and characters[-1][0] != 10:
        raise Fault(111, characters[-1][1])
    if len(characters) > 1 and characters[-2][0] == 92:
        raise Fault(112, characters[-1][1])


def longest(text, is_header):
    """6.4: the kind and the length of the longest front that is a token, and else of one character."""
    if is_header:
        header = HEADERS.match(text)
        if header:
            return 'HeaderName', header.end()
    found = [(match.end(), kind) for kind, form in FORMS for match in [form.match(text)] if match]
    found += [(size, 'Punctuator') for size in (1, 2, 3, 4) if text[:size] in PUNCTUATORS and len(text) >= size]
    if not found:
        return 'Other', 1
    size, kind = max(found)
    return kind, size


def scanned(text):
    """The lines of tokens, each its kind, spelling, line and whether white space stands before it."""
    characters = mapped(text)
    check_end(characters)
    characters = joined(characters)
    rest = bytes(byte for byte, _ in characters)
    lines, line, space, at = [], [], False, 0
    while at < len(rest):
        if rest[at] == 10:
            lines.append(line)
            line, space = [], False
            at += 1
        elif rest[at] in WHITE:
            space = True
            at += 1
        elif rest[at:at + 2] == b'//':
            at = rest.index(b'\n', at)
            space = True
        elif rest[at:at + 2] == b'/*':
            close = rest.find(b'*/', at + 2)
            if close < 0:
                raise Fault(113, characters[at][1])
            at = close + 2
            space = True
        else:
            # 6.4.7: a header name stands behind `# include` alone.
            is_header = len(line) == 2 and line[0][1] in (b'#', b'%:') and line[1][1] == b'include'
            kind, size = longest(rest[at:at + 5000], is_header)
            line.append((kind, rest[at:at + size], characters[at][1], space))
            space = False
            at += size
    return lines + [line] if line else lines
