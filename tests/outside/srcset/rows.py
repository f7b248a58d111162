#!/usr/bin/env python3
"""The rows of crates/test_calls for `srcset`; `../rows.py` writes them. By hand: the text of each fault and the built-in headers, typed anew, each
byte that may stand in a file's name, each limit of a set of files at it and one past it, numbers of texts, faults as one line, writes that are
interrupted.
"""
import os
import sys

HERE = os.path.dirname(os.path.abspath(__file__))
sys.path[:0] = [os.path.dirname(os.path.dirname(HERE)), HERE]
import harness

# Every code and its text, one a line.
TEXTS = """\
101 file name given twice
102 bad file name
103 main file not given
111 file does not end in a newline
112 file ends in a splice
113 comment not closed
201 macro redefined differently
202 bad macro definition
203 # not before a parameter
204 ## at an end of a replacement
205 reserved macro name
206 ## makes no token
207 # makes no string literal
208 __VA_ARGS__ outside its macro
211 macro arguments not closed
212 wrong number of macro arguments
213 function-like macro name ends its run
214 no variable argument
221 not a constant expression in #if
222 #if arithmetic out of range
223 defined made by a macro
231 unbalanced conditional
232 include file not found
233 bad directive
234 #error
235 bad #line
301 not a token
302 bad escape or byte in a literal
303 constant out of range
401 syntax error
501 not a constant expression
502 constant expression out of range
503 constant division by zero
511 bad type specifiers
512 bad storage class
513 declaration declares nothing
514 name declared twice in a scope
515 redeclared with another type
516 linkage conflict
517 defined twice
518 bad array type
519 object of incomplete type
520 too many initialisers
521 bad initialiser form
523 static assertion failed
524 enumerator does not fit int
525 bad enum tag
526 void parameter
527 parameter without a name
528 undeclared name
529 bad subscript
530 called name is no function
531 wrong number of arguments
532 argument of wrong type
533 not a modifiable lvalue
534 void value assigned
535 void operand
536 bad sizeof operand
537 bad cast
538 arms of ?: do not match
539 controlling expression is void
540 case or default twice
541 case or default outside switch
542 break or continue outside its statement
543 return does not match its function
544 bad declaration in for
551 no int main(void)
552 used but not defined
553 built-in defined again
601 left out: float, double, _Complex, _Imaginary
602 left out: struct, union, typedef
603 left out: goto
604 left out: volatile, restrict, _Atomic, _Thread_local, auto, register
605 left out: inline, _Noreturn, _Alignas, _Alignof, _Generic
606 left out: floating constant
607 left out: prefixed or multi-character literal
608 left out: _Pragma, __func__
609 left out: long long constant
620 left out: array or function as a value
621 left out: reversed subscript
622 left out: brace elision
623 left out: label not directly in its switch
701 limit: file size
702 limit: files
703 limit: token length
704 limit: macros
705 limit: macro parameters
706 limit: macro replacements
707 limit: nesting of includes or conditionals
708 limit: tokens
709 limit: depth
710 limit: nodes of a function
711 limit: nodes of the program
712 limit: object size
713 limit: static objects
714 limit: function weight
715 limit: functions
716 limit: jump distance
801 out of memory
802 cannot read
803 cannot write
901 ELF header too short
902 not ELF32 little endian
903 not an executable
904 not RISC-V
905 bad program header
906 segments overlap
907 too much memory
"""

# The rows of <limits.h>, <stdbool.h> and <iso646.h>, each a name and its replacement.
LIMITS = (
    'CHAR_BIT 8; SCHAR_MIN (-128); SCHAR_MAX 127; UCHAR_MAX 255; CHAR_MIN 0; CHAR_MAX 255; MB_LEN_MAX 1; SHRT_MIN (-32768); SHRT_MAX 32767; USHRT_MAX '
    '65535; INT_MIN (-2147483647-1); INT_MAX 2147483647; UINT_MAX 4294967295U; LONG_MIN (-2147483647L-1L); LONG_MAX 2147483647L; ULONG_MAX 4294967295UL')
STDBOOL = 'bool _Bool; true 1; false 0; __bool_true_false_are_defined 1'
ISO646 = (
    'and &&; and_eq &=; bitand &; bitor |; compl ~; not !; not_eq !=; or ||; or_eq |=; xor ^; xor_eq ^=')
CALLS = b'int rv_getbyte(void);\nvoid rv_putbyte(int c);\nvoid rv_exit(int status);\n'

# Every byte that may stand in a file's name.
NAME_BYTES = (
    " !#$%&'()*+,-./0123456789:;=?@ABCDEFGHIJKLMNOPQRST"
    'UVWXYZ[]^_`abcdefghijklmnopqrstuvwxyz{|}~')

# how often an interrupted write is tried
TRIES = 1000
MOST_BYTES = 1048576


def messages():
    texts = dict(line.split(' ', 1) for line in TEXTS.splitlines())
    for code, text in texts.items():
        yield harness.row_of('message', code), f'{text}\ttrue'
    yield harness.row_of('messages'), len(texts)


def headers():
    yield harness.row_of('header', 'rvio.h'), harness.field_of(CALLS)
    for name, rows in (('limits.h', LIMITS), ('stdbool.h', STDBOOL), ('iso646.h', ISO646)):
        yield harness.row_of('header', name), harness.field_of(''.join(f'#define {row}\n' for row in rows.split('; ')).encode())
    for name in ('', 'rvio', 'rvio.h ', 'RVIO.H', 'limits.H', 'stdio.h'):
        yield harness.row_of('header', name), 'none'


def told(code, count, has_name, held):
    """What a set has then: how many files, none, the one with the name, and `0.c`."""
    return f'{code} {count} {str(count == 0).lower()} {str(has_name).lower()} {held}'


def files():
    for byte in range(256):
        is_good = chr(byte) in NAME_BYTES
        yield harness.row_of('file', 0, f'a{chr(byte)}b', 1), told(0 if is_good else 102, int(is_good), is_good, 'none')
    for length, size, code in ((0, 0, 102), (1, 0, 0), (255, MOST_BYTES, 0), (256, 0, 102), (1, MOST_BYTES + 1, 701)):
        yield harness.row_of('file', 0, 'n' * length, size), told(code, int(code == 0), code == 0, 'none')
    # of several rules that are broken the first one speaks
    for name, size, code in (('a', 0, 702), ('a', MOST_BYTES + 1, 701), ('0.c', MOST_BYTES + 1, 101), ('<', MOST_BYTES + 1, 102)):
        yield harness.row_of('file', 256, name, size), told(code, 256, name == '0.c', '0.c')
    for count, name, size, line, held in ((1, '0.c', 0, '0.c:0: 101 file name given twice', '0.c'), (256, '255.c', 0, '255.c:0: 101 file name given twice', '255.c')):
        yield harness.row_of('refused', count, name, size), f'{line} {held}'


def faults():
    for code, file, line, text, wanted in ((234, 'b.c', 4294967295, ' no way', 'b.c:4294967295: 234 #error no way'), (803, '', 0, '', 'cc: 803 cannot write'),
                                           (401, 'a b.c', 1, '', 'a b.c:1: 401 syntax error')):
        yield harness.row_of('fault', code, file, line, text), wanted
    yield harness.row_of('out_of_memory'), ' '.join(['cc: 801 out of memory'] * 2)
    for code, file, text, wanted in ((401, b'z.c', '', 'z.c:7: 401 syntax error'), (401, b'\xc3(', '', 'cc: 401 syntax error'), (401, b'', '', 'cc: 401 syntax error'),
                                     (234, b'z.c', ' no way', 'z.c:7: 234 #error no way')):
        yield harness.row_of('refusal', code, file, 7, text), wanted


def names():
    yield harness.row_of('names', 'y', 'x', '', 'x', b'\xff\0', ''), 'true 0:true:x 1:true: 0:true:x 2:true:\\xff\\x00 1:true: 3 false false'
    # a table that scanned would not end in time
    yield harness.row_of('many', 200000), '200000 200000'


def writes():
    """A write that was interrupted is tried again, up to the last try."""
    for interrupts, room, is_whole, taken in ((0, 9, 'true', 'abcde'), (TRIES - 1, 9, 'true', 'abcde'), (TRIES, 9, 'false', ''), (3, 4, 'false', 'abcd')):
        yield harness.row_of('write', interrupts, room, 'abcde'), f'{is_whole} {taken}'


# so many rows there are of each
KINDS = [(messages, 109), (headers, 10), (files, 267), (faults, 8), (names, 2), (writes, 4)]
