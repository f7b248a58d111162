"""Differences in a line: where two values first differ, and what stands there."""

MOST = 400
AROUND = 24


def shortened(value, most=MOST):
    text = repr(value)
    return text if len(text) <= most else f'{text[:most]}.. ({len(text)} characters)'


def first_difference(found, wanted):
    """The first index at which two sequences differ."""
    for at, (left, right) in enumerate(zip(found, wanted)):
        if left != right:
            return at
    return min(len(found), len(wanted))


def of_texts(found, wanted):
    """Of two long texts: the line and the offset at which they differ, and what stands around it."""
    at = first_difference(found, wanted)
    newline = b'\n' if isinstance(found, bytes) else '\n'
    number, start = found[:at].count(newline) + 1, max(0, at - AROUND)
    left, right = found[start:at + AROUND], wanted[start:at + AROUND]
    return f'differs at byte {at}, line {number}: {left!r}, not {right!r} (lengths {len(found)} and {len(wanted)})'


def of_lists(found, wanted):
    """Of two long sequences: the first element that differs."""
    at = first_difference(found, wanted)
    if at < len(found) and at < len(wanted):
        return f'element {at}: {short(found[at], wanted[at])}'
    return f'{len(found)} elements, not {len(wanted)}; from {at}: {shortened(list(found[at:at + 4]), 200)}, not {shortened(list(wanted[at:at + 4]), 200)}'


def short(found, wanted):
    """What was found, and what was wanted: both in full where they are short, else where they differ."""
    if len(repr(found)) + len(repr(wanted)) <= MOST or type(found) is not type(wanted):
        return f'{shortened(found)}, not {shortened(wanted)}'
    if isinstance(found, (bytes, str)):
        return of_texts(found, wanted)
    if isinstance(found, (list, tuple)):
        return of_lists(found, wanted)
    return f'{shortened(found)}, not {shortened(wanted)}'
