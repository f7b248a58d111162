#!/usr/bin/env python3
"""people.py CC: the command line as people write it who come from other compilers, under a stack of 1 MiB.

Words of gcc's habit, each of which works or is told in one line; includes that are found, and those that are not; macros of the words; rules for
make, with make; the program of examples/firmware by make and by CMake; texts to files; packages. Expected values are by hand; what needs a tool
that is missing is skipped. The last line counts."""
import json
import os
import re
import shutil
import subprocess
import sys
import tempfile

HERE = os.path.dirname(os.path.abspath(__file__))
ROOT = os.path.dirname(os.path.dirname(os.path.dirname(HERE)))
sys.path.insert(0, os.path.dirname(os.path.dirname(HERE)))
import harness
from harness import program

CC = os.path.abspath(sys.argv[1])
counted, PROGRAM = harness.Current(), harness.Program(CC)
MAIN = 'int main(void) { return 3; }\n'
NO_OBJECTS = 'error: there are no object files: a program is one unit; write zkc build MAIN -I DIR -o OUT, and in MAIN #include of the others\n'
NO_WRAP = 'error: signed arithmetic does not wrap: compute with unsigned ints, and leave the word out\n'
NO_RULE_HERE = 'error: only zkc build writes a rule for make: leave -MD and its like out\n'
ONE_ERROR = 'error: write --warn=NAME --werror for a warning that is an error\n'
ONE_TEXT = 'error: -E and -S write one file: leave --listing and the rule for make out\n'
ONE_INPUT = 'error: - is standard input, and stands for MAIN alone\n'
RULE_TAKEN = 'error: the file of the rule is OUT, the listing or one of the files that are read: write -MF FILE\n'
NO_LINKER = 'error: nothing is linked: leave the word out\n'
OTHER_MACHINE = 'error: the code is for RV32IM with the calling convention ILP32: leave the word out\n'
ONLY_WITH_M = 'error: the code has the instructions of RV32M, so it is for a core that has them: write -march=rv32im\n'
UNSIGNED_CHAR = 'error: a char has no sign: write signed char where one is needed, and leave the word out\n'
OTHER_CHARSET = 'error: a source is read as ASCII or UTF-8: convert it, and leave the word out\n'
OTHER_LANGUAGE = 'error: the language is a part of C11: leave the word out, or write -std=c11\n'


def zkc(work, *words, given=b''):
    status, out, err = PROGRAM.run(*words, folder=work, given=given, stack=1 << 20)
    return status, out.decode('latin-1'), err.decode('latin-1')


def put(work, **files):
    for name, text in files.items():
        put_at(work, name.replace('__', '/').replace('_', '.'), text)


def put_at(work, path, text):
    path = os.path.join(work, path)
    os.makedirs(os.path.dirname(path), exist_ok=True)
    with open(path, 'w') as file:
        file.write(text)


def read(work, name):
    path = os.path.join(work, name)
    if not os.path.exists(path):
        return None
    with open(path, 'rb') as file:
        return file.read().decode('latin-1')


def habits():
    """Each command line builds `out`, which ends with the status beside it; or says one line with status 2."""
    works = [
        ('main.c -o out', 3), ('-o out main.c', 3), ('-oout main.c', 3), ('build -o out main.c', 3),
        ('-O2 -Wall -Wextra -Werror -pedantic -std=c11 -g main.c -o out', 3), ('build -O0 -g3 main.c -o out', 3), ('build main.c -o out -Os -std=gnu17', 3),
        ('build -march=rv32im -mabi=ilp32 main.c -o out', 3), ('build -march=rv32imac_zicsr main.c -o out', 3), ('-march=rv32gc main.c -o out', 3),
        ('-x c main.c -o out', 3), ('-xc main.c -o out', 3), ('-funsigned-char -finput-charset=UTF-8 -mlittle-endian main.c -o out', 3), ('build -ffreestanding -nostdlib -static -fno-common main.c -o out', 3),
        ('build -pipe -w -v main.c -o out', 3), ('-DN=4 n.c -o out', 4), ('build n.c -D N=5 -o out', 5), ('build n.c -DN -o out', 1), ('build n.c -o out -UM', 9),
        ('build n.c -DN=6 -UN -o out', 9), ('build n.c -UN -DN=6 -o out', 6), ('build n.c -DN=6 -U N -D N=5 -o out', 5), ('build n.c -UN -DN=6 -UN -o out', 9),
        ('-pthread -static-libgcc --specs=nano.specs -specs=nosys.specs -no-pie -trigraphs -undef main.c -o out', 3), ('build twice.c -DTWICE(x)=((x)+(x)) -o out', 8), ('build n.c -DN=/*one*/7 -o out', 7), ('build n.c -DN=sizeof"/*" -o out', 3),
        ('build -I. in.c -o out', 7), ('build -I . in.c -o out', 7), ('build -Iinclude far.c -o out', 11), ('build -isystem include far.c -o out', 11),
        ('build -iquote include far.c -o out', 11), ('build -I none -I include far.c -o out', 11), ('build in.c near.h -o out', 7),
        ('build --stack 8K main.c -o out', 3), ('build --stack 1M main.c -o out', 3), ('build --stack=65536 main.c -o out', 3),
    ]
    tells = [
        ('-c main.c -o main.o', NO_OBJECTS), ('build -c main.c', NO_OBJECTS), ('main.c -lm -o out', NO_LINKER), ('build main.c -L. -o out', NO_LINKER),
        ('-shared main.c -o out', NO_LINKER), ('build -Wl,-Map=m main.c -o out', NO_LINKER), ('build -T link.ld main.c -o out', NO_LINKER),
        ('-M main.c', 'error: write zkc build MAIN -I DIR -o OUT -MD -MF FILE\n'), ('-MM main.c', 'error: write zkc build MAIN -I DIR -o OUT -MD -MF FILE\n'),
        ('-fsanitize=undefined main.c -o out', 'error: there are no sanitizers: zkc interp MAIN tells each undefined act at its line\n'),
        ('-std=c89 main.c -o out', OTHER_LANGUAGE), ('-ansi main.c -o out', OTHER_LANGUAGE), ('-x c++ main.c -o out', OTHER_LANGUAGE), ('main.c -o out -x', OTHER_LANGUAGE),
        ('-m64 main.c -o out', OTHER_MACHINE), ('-march=native main.c -o out', OTHER_MACHINE), ('build -mabi=lp64 main.c -o out', OTHER_MACHINE),
        ('-march=rv32i main.c -o out', ONLY_WITH_M), ('-march=rv32ic main.c -o out', ONLY_WITH_M), ('-march=rv32e main.c -o out', OTHER_MACHINE), ('-mno-div main.c -o out', ONLY_WITH_M),
        ('-mbig-endian main.c -o out', 'error: the code is for a little-endian machine: leave the word out\n'), ('-fsigned-char main.c -o out', UNSIGNED_CHAR),
        ('-fno-unsigned-char main.c -o out', UNSIGNED_CHAR), ('-fshort-enums main.c -o out', 'error: an enumeration is an int: leave the word out\n'),
        ('-ftrapv main.c -o out', 'error: an overflow does not stop a program: zkc interp MAIN tells each undefined act at its line\n'),
        ('-finput-charset=utf-16 main.c -o out', OTHER_CHARSET), ('-fwrapv main.c -o out', NO_WRAP), ('interp -fwrapv main.c', NO_WRAP), ('verify -fno-strict-overflow main.c', NO_WRAP),
        ('-static-pie main.c -o out', NO_LINKER), ('--specs=rdimon.specs main.c -o out', NO_LINKER),
        ('-Wp,-MD,x.d main.c -o out', 'error: write the options that follow -Wp, as words of their own\n'), ('-Xlinker -s main.c -o out', NO_LINKER),
        ('-E -P main.c', 'error: zkc pp MAIN prints the tokens without markers: write it in place of -E -P\n'),
        ('build main.c -o out -isystem', 'error: the folder is missing: -isystem DIR\n'), ('pp main.c -iquote', 'error: the folder is missing: -iquote DIR\n'),
        ('check main.c -idirafter', 'error: the folder is missing: -idirafter DIR\n'), ('build main.c -o out -MF', 'error: the file of the rule is missing: -MF FILE\n'),
        ('build main.c -o out -MT', 'error: the target of the rule is missing: -MT NAME or -MQ NAME\n'),
        ('verify -MD main.c', NO_RULE_HERE), ('check -MMD -MF x.d main.c', NO_RULE_HERE), ('interp -MP main.c', NO_RULE_HERE), ('pp -MT x main.c', NO_RULE_HERE),
        ('check -Werror=unused-parameter main.c', ONE_ERROR), ('check -Werror -Wno-error=shadow main.c', ONE_ERROR),
        ('-E main.c -MD -MF dep.d', ONE_TEXT), ('-E main.c --listing l', ONE_TEXT), ('build -S main.c --listing l', ONE_TEXT), ('build -S main.c -MMD', ONE_TEXT),
        ('build main.c -MD -MF one -o one', RULE_TAKEN), ('build main.c -MD -MF ./one -o one', RULE_TAKEN), ('build main.c -MD -o one.d', RULE_TAKEN),
        ('build main.c -MD -MF l --listing l -o one', RULE_TAKEN), ('build main.c -MD -MF main.c -o one', RULE_TAKEN), ('build in.c -I. -MD -MF near.h -o one', RULE_TAKEN),
        ('build main.c -MD -MF - -o -', RULE_TAKEN), ('build main.c --listing ./one -o one', 'error: the listing is OUT or one of the files that are read\n'),
        ('build main.c - -o out', ONE_INPUT), ('build - - -o out', ONE_INPUT), ('pp main.c -', ONE_INPUT),
        ('-include near.h main.c -o out', 'error: write the #include in MAIN\n'), ('main.c', 'error: the file to write is missing: -o OUT\n'),
        ('build main.c --stack 5000 -o out', 'error: the bytes of the stack are no multiple of 4096 from 4096 to 16777216, as 65536, 64K or 1M\n'),
        ('build main.c --stack 32M -o out', 'error: the bytes of the stack are no multiple of 4096 from 4096 to 16777216, as 65536, 64K or 1M\n'),
        ('build main.c -D +=2 -o out', 'error: a macro is written -D NAME, -D NAME=VALUE or -U NAME, on one line\n'),
        ('build main.c -D A=\\ -o out', 'error: a macro is written -D NAME, -D NAME=VALUE or -U NAME, on one line\n'),
        ('build main.c -D A=2??/ -o out', 'error: a macro is written -D NAME, -D NAME=VALUE or -U NAME, on one line\n'),
        ('build main.c -DA=1/* -o out', 'error: a macro is written -D NAME, -D NAME=VALUE or -U NAME, on one line\n'),
        ('build main.c -DA=/**/1/*/ -o out', 'error: a macro is written -D NAME, -D NAME=VALUE or -U NAME, on one line\n'),
        ('build main.c -U A=2 -o out', 'error: a macro is written -D NAME, -D NAME=VALUE or -U NAME, on one line\n'),
        ('run out -I include', 'error: --stack, -I, -D and -U are for --map here\n'),
    ]
    with tempfile.TemporaryDirectory() as work:
        put(work, main_c=MAIN, n_c='#ifdef N\nint main(void) { return N; }\n#else\nint main(void) { return 9; }\n#endif\n', twice_c='int main(void) { return TWICE(4); }\n',
            in_c='#include "near.h"\nint main(void) { return NEAR; }\n', near_h='#define NEAR 7\n', far_c='#include "deep/far.h"\nint main(void) { return FAR; }\n', include__deep__far_h='#define FAR 11\n')
        for words, status in works:
            if os.path.exists(os.path.join(work, 'out')):
                os.remove(os.path.join(work, 'out'))
            counted.expect(words, zkc(work, *words.split()), (0, '', ''))
            counted.expect(words + ': run', zkc(work, 'run', 'out'), (status, '', ''))
        before = sorted(os.listdir(work))
        for words, line in tells:
            counted.expect(words, zkc(work, *words.split()), (2, '', line))
        counted.expect('nothing more is written', sorted(os.listdir(work)), before)
        version = zkc(work, '--version')
        put(work, idle_c='int f(int a) { return 1; }\nint main(void) { return f(2); }\n')
        for word, status in (('-Werror', 1), ('--werror', 1), ('-Wall', 0), ('-Werror -Werror', 1), ('-Werror -Wno-unused-parameter', 0), ('-Werror -w', 0), ('-w -Werror --warn=all', 0),
                             ('-Werror -Wno-unused-variable', 1), ('-Werror -Wno-pointer-sign', 1), ('-Werror=implicit-int --werror', 1)):
            counted.expect('check ' + word, zkc(work, 'check', *word.split(), 'idle.c')[0], status)
        counted.expect('check -Wno-unused-parameter', zkc(work, 'check', '-Wno-unused-parameter', 'idle.c'), (0, '', ''))
        counted.expect('help does not show the words of others', [word for word in ('folder-', 'no-warn', 'depend-quoted') if word in zkc(work, 'help', 'build')[1] + zkc(work, 'help', 'check')[1]], [])
        counted.expect('--version', (version[0], version[2], version[1][:4]), (0, '', 'zkc '))
        counted.expect('-v', zkc(work, '-v'), version)
        counted.expect('help', zkc(work, 'help'), zkc(work, '--help'))
        counted.expect('help build', zkc(work, 'help', 'build'), zkc(work, 'build', '--help'))
        counted.expect('help names zkc', 'Usage: zkc build ' in zkc(work, 'help', 'build')[1], True)
        counted.expect('standard input', zkc(work, 'build', '-', '-o', 'out', given=b'int main(void) { return 42; }\n'), (0, '', ''))
        counted.expect('standard input: run', zkc(work, 'run', 'out')[0], 42)
        counted.expect('standard input: its name', zkc(work, 'build', '-', '-o', 'out', given=b'int main(void) { return x; }\n'), (1, '', 'stdin.c:1: 528 undeclared name\n'))
        counted.expect('interp of standard input', zkc(work, 'interp', '-', given=b'int main(void) { return 5; }\n'), (5, '', ''))
        zkc(work, 'build', 'main.c', '-o', 'out')
        status, out, err = zkc(work, 'build', 'main.c', '-o', '-')
        counted.expect('standard output', (status, out, err), (0, read(work, 'out'), ''))
        for command in ('build', 'pp', 'list'):
            plain = zkc(work, command, 'main.c', '-o', '-')
            counted.expect(command + ' from standard input to standard output', zkc(work, command, '-', '-o', '-', given=read(work, 'main.c').encode('latin-1')), plain)
            counted.expect(command + ' writes there', (plain[0], plain[1] != '', plain[2]), (0, True, ''))
        counted.expect('no file -', os.path.exists(os.path.join(work, '-')), False)


def texts():
    with tempfile.TemporaryDirectory() as work:
        put(work, main_c='#include "a.h"\n\nint main(void) {\n    return\n        A;\n}\n', a_h='enum {\n    A = 1\n};\n')
        lines = '# 1 "a.h"\nenum {\nA = 1\n} ;\n# 3 "main.c"\nint main ( void ) {\nreturn\nA ;\n}\n'
        counted.expect('-E', zkc(work, '-E', '-I.', 'main.c'), (0, lines, ''))
        counted.expect('pp --lines', zkc(work, 'pp', '--lines', 'main.c', 'a.h'), (0, lines, ''))
        counted.expect('-E -o', zkc(work, '-E', '-I.', 'main.c', '-o', 'main.i'), (0, '', ''))
        counted.expect('main.i', read(work, 'main.i'), lines)
        counted.expect('pp', zkc(work, 'pp', '-I.', 'main.c'), (0, 'enum { A = 1 } ; int main ( void ) { return A ; }\n', ''))
        put(work, gap_c='int a;\n' + '\n' * 20 + 'int b;\n#line 5 "made.y"\nint c; int d;\n')
        counted.expect('-E of gaps', zkc(work, '-E', 'gap.c')[1], '# 1 "gap.c"\nint a ;\n# 22 "gap.c"\nint b ;\n# 5 "made.y"\nint c ; int d ;\n')
        put(work, bad_c='#error no\n')
        counted.expect('-E of a fault', zkc(work, '-E', 'bad.c', '-o', 'bad.i'), (1, '', 'bad.c:1: 234 #error no\n'))
        counted.expect('-E of a fault: no file', read(work, 'bad.i'), None)
        put(work, main_c=MAIN)
        plain = zkc(work, 'list', 'main.c')
        counted.expect('-S', zkc(work, '-S', 'main.c'), plain)
        counted.expect('-S -o', zkc(work, 'build', '-S', 'main.c', '-o', 'main.s'), (0, '', ''))
        counted.expect('main.s', read(work, 'main.s'), plain[1])
        counted.expect('list -o', (zkc(work, 'list', 'main.c', '-o', 'main.lst'), read(work, 'main.lst')), ((0, '', ''), plain[1]))
        counted.expect('OUT is a source', zkc(work, 'pp', 'main.c', '-o', './main.c'), (2, '', 'error: OUT is one of the files that are read\n'))
        counted.expect('the source is kept', read(work, 'main.c'), MAIN)


def includes():
    with tempfile.TemporaryDirectory() as work:
        put(work, src__main_c='#include "mid/one.h"\n#include "limits.h"\n#include <rvio.h>\n#if 0\n#include "off.h"\n#endif\n#include "gone.h"\nint main(void) { return ONE; }\n',
            src__mid__one_h='#include "two.h"\n#define ONE TWO\n', src__mid__two_h='#define TWO 2\n', lib__off_h='\n')
        files = 'src/main.c\tsrc/main.c\nmid/one.h\tsrc/mid/one.h\noff.h\tlib/off.h\ntwo.h\tsrc/mid/two.h\n'
        counted.expect('--list-files', zkc(work, 'build', '-Ilib', 'src/main.c', '--list-files'), (0, files, ''))
        counted.expect('not found', zkc(work, 'build', '-Ilib', 'src/main.c', '-o', 'out'), (1, '', 'src/main.c:7: 232 include file not found\n'))
        counted.expect('as before without -I', zkc(work, 'build', 'src/main.c', '-o', 'out'), (1, '', 'src/main.c:1: 232 include file not found\n'))
        put(work, lib__gone_h='\n')
        counted.expect('found', zkc(work, 'build', '-Ilib', 'src/main.c', '-o', 'out'), (0, '', ''))
        counted.expect('found: run', zkc(work, 'run', 'out')[0], 2)
        counted.expect('interp', zkc(work, 'interp', '-Ilib', 'src/main.c')[0], 2)
        counted.expect('frames', zkc(work, 'frames', '-Ilib', 'src/main.c')[0], 0)
        counted.expect('symbols', zkc(work, 'symbols', '-Ilib', 'src/main.c', '-o', 'out.sym')[0], 0)
        counted.expect('run --map', zkc(work, 'run', 'out', '--map', 'src/main.c', '-Ilib', '--at', '0')[0], 0)
        put(work, src__mid__two_h='int broken(void) { return x; }\n')
        counted.expect('a fault in a header', zkc(work, 'build', '-Ilib', 'src/main.c', '-o', 'out'), (1, '', 'two.h:1: 528 undeclared name\n'))
        # two files of one name
        put(work, src__mid__two_h='#define TWO 2\n', lib__one_h='#include "x.h"\n', lib__x_h='\n', src__x_h='\n', src__main_c='#include "x.h"\n#include "one.h"\nint main(void) { return 0; }\n')
        counted.expect('one name', zkc(work, 'build', '-Ilib', 'src/main.c', '-o', 'out'), (1, '', 'x.h:0: 101 file name given twice: src/x.h and lib/x.h\n'))
        # the same file by two ways has one name
        put(work, lib__one_h='#include "../lib/y.h"\n#include "y.h"\n', lib__y_h='#define Y 1\n', src__main_c='#include "one.h"\nint main(void) { return Y; }\n')
        counted.expect('two names of one file', zkc(work, 'build', '-Ilib', 'src/main.c', '-o', 'out')[0], 0)
        # of several folders that have the file the one that gcc takes, whatever their order among the words
        put(work, order_c='#include "o.h"\nint main(void) { return O; }\n', q__o_h='#define O 1\n', i__o_h='#define O 2\n', s__o_h='#define O 3\n', a__o_h='#define O 4\n')
        for words, status in (('-idirafter a -isystem s -I i -iquote q', 1), ('-idirafter a -isystem s -I i', 2), ('-idirafter a -isystem s', 3), ('-idirafter a', 4), ('-isystem s -isystem i', 3)):
            counted.expect(words, zkc(work, 'interp', *words.split(), 'order.c')[0], status)
        # a file without token lines is told where it is included
        put(work, src__main_c='#include "open.h"\nint main(void) { return 0; }\n', lib__open_h='/* open\n')
        counted.expect('an open comment', zkc(work, 'build', '-Ilib', 'src/main.c', '-o', 'out'), (1, '', 'open.h:1: 113 comment not closed\n'))
        # a C file among FILES that nothing includes is no part of the program
        put(work, src__main_c='int f(void);\nint main(void) { return f(); }\n', f_c='int f(void) { return 1; }\n')
        status, out, err = zkc(work, 'build', '-I.', 'src/main.c', 'f.c', '-o', 'out')
        note = 'note: no file includes f.c, so it is no part of the program, which is one unit: write #include "f.c" in MAIN'
        counted.expect('several main files', (status, err.splitlines()[0], len(err.splitlines())), (1, note, 2))
        put(work, one_c='int main(void) { return 4; }\n', made_c='#define F "f.c"\n#include F\nint main(void) { return f(); }\n', named_c='#include "f.c"\nint main(void) { return f(); }\n')
        counted.expect('a further main file without -I', zkc(work, 'build', 'one.c', 'f.c', '-o', 'out'), (0, '', note + '\n'))
        counted.expect('a further file that is included', zkc(work, 'build', 'named.c', 'f.c', '-o', 'out'), (0, '', ''))
        counted.expect('a further file that a macro may name', zkc(work, 'build', 'made.c', 'f.c', '-o', 'out'), (0, '', ''))


def macros():
    with tempfile.TemporaryDirectory() as work:
        put(work, m_c='int main(void) { return N; }\n', none_c='int f(void) { return N; }\n', line_c='int main(void) {\n    return x + N;\n}\n', deep_c='#include <rvio.h>\nint main(void) { return 1 / (N - 1); }\n')
        counted.expect('a fault in a macro', zkc(work, 'build', 'm.c', '-D', 'N(=1', '-o', 'out'), (1, '', '-D N:1: 202 bad macro definition\n'))
        counted.expect('no name of a macro', zkc(work, 'build', 'm.c', '-D', '1=2', '-o', 'out'), (1, '', '-D 1:1: 202 bad macro definition\n'))
        counted.expect('the second macro', zkc(work, 'build', 'm.c', '-DN', '-D', 'M(a', '-o', 'out'), (1, '', '-D M:1: 202 bad macro definition\n'))
        counted.expect('a fault in the file', zkc(work, 'build', 'line.c', '-DN', '-o', 'out'), (1, '', 'line.c:2: 528 undeclared name\n'))
        counted.expect('a fault of the whole', zkc(work, 'build', 'none.c', '-DN', '-o', 'out'), (1, '', 'none.c:1: 551 no int main(void)\n'))
        counted.expect('frames: a fault of the whole', zkc(work, 'frames', 'none.c', '-DN'), (1, '', 'none.c:1: 551 no int main(void)\n'))
        counted.expect('an undefined act', zkc(work, 'interp', 'deep.c', '-DN'), (123, '', 'deep.c:2: undefined U2\n'))
        counted.expect('pp', zkc(work, 'pp', 'm.c', '-DN=1 + 1'), (0, 'int main ( void ) { return 1 + 1 ; }\n', ''))
        counted.expect('-E', zkc(work, '-E', 'm.c', '-DN=1'), (0, '# 1 "m.c"\nint main ( void ) { return 1 ; }\n', ''))
        counted.expect('interp', zkc(work, 'interp', 'm.c', '-DN=6')[0], 6)
        counted.expect('a newline', zkc(work, 'pp', 'm.c', '-DN=1\n#error'), (2, '', 'error: a macro is written -D NAME, -D NAME=VALUE or -U NAME, on one line\n'))
        counted.expect('explain: a fault of the whole', zkc(work, 'explain', 'build', 'none.c', '-DN')[2].splitlines()[0], 'none.c:1: 551 no int main(void)')
        counted.expect('interp with a trace', zkc(work, 'interp', '--trace', 'm.c', '-DN=6'), (6, '', 'enter main\nm.c:1: int main(void) { return N; }\nleave main: 6\n'))
        counted.expect('run --map with macros', (zkc(work, 'build', 'm.c', '-DN=6', '-o', 'six')[0], zkc(work, 'run', 'six', '--map', 'm.c', '-DN=6', '--at', '9000')[0]), (0, 6))
        counted.expect('list-files', zkc(work, 'build', 'm.c', '-DN', '--list-files'), (0, 'm.c\tm.c\n', ''))
        put(work, file_c='#define S(x) #x\nint main(void) { const char *none; return 0; }\n')
        counted.expect('explain', zkc(work, 'explain', 'build', 'line.c', '-DN')[0], 1)
        counted.expect('explain: the line', 'line.c:2' in zkc(work, 'explain', 'build', 'line.c', '-DN')[2], True)


def rules():
    with tempfile.TemporaryDirectory() as work:
        put(work, src__a_c='#include "b.h"\nint main(void) { return 0; }\n', inc__b_h='\n')
        build = ['build', '-Iinc', 'src/a.c', '-o', 'bin.elf']
        counted.expect('-MD', (zkc(work, *build, '-MD'), read(work, 'bin.d')), ((0, '', ''), 'bin.elf: src/a.c inc/b.h\n'))
        counted.expect('-MF', (zkc(work, *build, '-MD', '-MF', 'x.d'), read(work, 'x.d')), ((0, '', ''), 'bin.elf: src/a.c inc/b.h\n'))
        counted.expect('-MFy.d', (zkc(work, *build, '-MMD', '-MFy.d'), read(work, 'y.d')), ((0, '', ''), 'bin.elf: src/a.c inc/b.h\n'))
        counted.expect('-MT -MP', (zkc(work, *build, '-MD', '-MT', 't', '-MP'), read(work, 'bin.d')), ((0, '', ''), 't: src/a.c inc/b.h\ninc/b.h:\n'))
        counted.expect('-MF is a source', zkc(work, *build, '-MF', 'inc/b.h')[::2], (2, RULE_TAKEN))
        counted.expect('the header is kept', read(work, 'inc/b.h'), '\n')
        counted.expect('-MT twice', (zkc(work, *build, '-MD', '-MT', 'x', '-MQ', 'a b$c', '-MT', 'y z'), read(work, 'bin.d')), ((0, '', ''), 'x y z a\\ b$$c: src/a.c inc/b.h\n'))
        counted.expect('-MQ', (zkc(work, *build, '-MD', '-MQa#b'), read(work, 'bin.d')), ((0, '', ''), 'a\\#b: src/a.c inc/b.h\n'))
        counted.expect('of standard input', (zkc(work, 'build', '-', '-MD', '-o', 'in.elf', given=b'int main(void) { return 0; }\n'), read(work, 'in.d')), ((0, '', ''), 'in.elf:\n'))
        put_at(work, 'my file.c', '#include "d$.h"\nint main(void) { return 0; }\n')
        put_at(work, 'd$.h', '\n')
        counted.expect('names', (zkc(work, 'build', '-I.', 'my file.c', '-o', 'm', '-MD'), read(work, 'm.d')), ((0, '', ''), 'm: my\\ file.c d$$.h\n'))
        put(work, bad_c='int main(void) { return x; }\n')
        counted.expect('no rule of a refused program', (zkc(work, 'build', 'bad.c', '-o', 'bad', '-MD')[0], read(work, 'bad.d')), (1, None))


def firmware():
    if not shutil.which('make'):
        counted.skip(6, 'make is missing')
        return
    with tempfile.TemporaryDirectory() as top:
        work = os.path.join(top, 'firmware')
        shutil.copytree(os.path.join(ROOT, 'examples', 'firmware'), work)

        def make():
            done = subprocess.run(['make', 'ZKC=' + CC], cwd=work, capture_output=True, preexec_fn=program.bounded(stack=1 << 20), check=False)
            return done.returncode, len(re.findall(r' build ', done.stdout.decode()))

        counted.expect('make', make(), (0, 1))
        counted.expect('make: run', zkc(work, 'run', 'main.elf'), (7, '3+-+-+-\n', ''))
        counted.expect('main.d', read(work, 'main.d'), 'main.elf: src/main.c include/uart.h include/board/pins.h src/uart.c src/blink.c\ninclude/uart.h:\ninclude/board/pins.h:\nsrc/uart.c:\nsrc/blink.c:\n')
        counted.expect('make again', make(), (0, 0))
        pins = read(work, 'include/board/pins.h').replace('#define BLINKS 3', '#define BLINKS 2')
        put_at(work, 'include/board/pins.h', pins)
        late = os.stat(os.path.join(work, 'main.elf')).st_mtime + 10
        os.utime(os.path.join(work, 'include/board/pins.h'), (late, late))
        counted.expect('a changed header', make(), (0, 1))
        counted.expect('a changed header: run', zkc(work, 'run', 'main.elf'), (7, '2+-+-\n', ''))
        if shutil.which('cmake'):
            built = os.path.join(top, 'build')
            steps = [['cmake', '-S', work, '-B', built, '-DZKC=' + CC], ['cmake', '--build', built]]
            done = [subprocess.run(step, capture_output=True, check=False) for step in steps]
            counted.expect('cmake', [one.returncode for one in done], [0, 0])
            counted.expect('cmake: run', zkc(built, 'run', 'main.elf'), (7, '2+-+-\n', ''))
        else:
            counted.skip(2, 'cmake is missing')


def page():
    """docs/TOOLS.md: vim reads a fault by its errorformat, and the log of the job is one of SARIF 2.1.0 that names the line."""
    with open(os.path.join(ROOT, 'docs', 'TOOLS.md')) as file:
        text = file.read()
    with tempfile.TemporaryDirectory() as work:
        put(work, src__main_c='#include "u.h"\nint main(void) { return x; }\n', include__u_h='\n')
        log = json.loads(zkc(work, 'explain', 'build', '-I', 'include', 'src/main.c', '--sarif')[1])
        place = log['runs'][0]['results'][0]['locations'][0]['physicalLocation']
        counted.expect('SARIF', (log['version'], place['artifactLocation']['uri'], place['region']['startLine']), ('2.1.0', 'src/main.c', 2))
        counted.expect('the job says so', 'zkc explain build -I include src/main.c --sarif > zkc.sarif' in text, True)
        if shutil.which('vim'):
            form = re.search(r'^    (set errorformat=.*)$', text, re.M)[1]
            put(work, said=zkc(work, 'build', '-I', 'include', 'src/main.c', '-o', 'out')[2])
            script = form + '\ncgetfile said\ncall writefile([getqflist()[0].lnum . " " . getqflist()[0].nr . " " . getqflist()[0].text], "found")\nqa!\n'
            put(work, vimrc=script)
            subprocess.run(['vim', '-es', '-N', '-u', 'NONE', '-S', 'vimrc'], cwd=work, stdin=subprocess.DEVNULL, capture_output=True, timeout=60, check=False)
            counted.expect('vim', read(work, 'found'), '2 528 undeclared name\n')
        else:
            counted.skip(1, 'vim is missing')


def packages():
    if not os.path.exists(os.path.join(ROOT, 'release', 'cc')):
        counted.skip(1, 'release/cc is missing')
        return
    if not (shutil.which('tar') and shutil.which('gzip')):
        counted.skip(3, 'tar or gzip is missing')
        return
    with tempfile.TemporaryDirectory() as work:
        done = subprocess.run(['sh', os.path.join(ROOT, 'release', 'pack.sh'), work], capture_output=True, check=False)
        made = sorted(os.listdir(work))
        counted.expect('pack.sh', (done.returncode, [re.sub(r'\d+\.\d+', 'V', name) for name in made if name.endswith('gz')]), (0, ['zkc-V-linux-amd64.tar.gz']))
        listed = subprocess.run(['tar', 'tzf', made[0]], cwd=work, capture_output=True, check=False).stdout.decode().split()
        top = listed[0]
        counted.expect('the tarball', [name for name in ('LICENSE', 'README.md', 'bin/zkc', 'share/man/man1/zkc.1') if top + name not in listed], [])
        if shutil.which('dpkg-deb'):
            package = [name for name in made if name.endswith('.deb')][0]
            listed = subprocess.run(['dpkg-deb', '-c', package], cwd=work, capture_output=True, check=False).stdout.decode()
            counted.expect('the Debian package', [name for name in ('./usr/bin/zkc', './usr/share/man/man1/zkc.1.gz', './usr/share/doc/zkc/copyright') if name + '\n' not in listed], [])
        else:
            counted.skip(1, 'dpkg-deb is missing')


def scripts():
    """What the scripts of the top say where they are asked, and where they are given what they do not take."""
    for name in ('run.sh', 'test.sh', 'prove.sh', 'install.sh', 'release/pack.sh'):
        done = subprocess.run(['sh', name, '--help'], cwd=ROOT, capture_output=True, check=False)
        counted.expect(name + ' --help', (done.returncode, done.stdout.startswith(b'usage: '), done.stderr), (0, True, b''))
        done = subprocess.run(['sh', name, '--wrong'], cwd=ROOT, capture_output=True, check=False)
        counted.expect(name + ' --wrong', (done.returncode, done.stderr.startswith(b'usage: '), done.stdout), (2, True, b''))
    done = subprocess.run(['sh', 'run.sh', 'foo'], cwd=ROOT, capture_output=True, check=False)
    counted.expect('run.sh foo', (done.returncode, done.stderr.count(b'\n'), b'usage: ' in done.stderr), (2, 1, True))


def cases(_):
    return harness.parts(habits, texts, includes, macros, rules, firmware, page, packages, scripts)


if __name__ == '__main__':
    sys.exit(harness.main(cases))
