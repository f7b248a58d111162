#!/usr/bin/env python3
"""Writes the man page and the completions for bash, zsh and fish from what the program says of itself.

    python3 share/tables.py CC FOLDER     writes zkc.1, zkc.bash, _zkc and zkc.fish into FOLDER
    python3 share/tables.py CC --check    compares those of share/ with what it would write; the last line is 'N passed, M failed'
    python3 share/tables.py CC --list     the commands with their options, a line each

The table is that of `zkc --help` and `zkc COMMAND --help`: nothing stands here a second time."""
import os, re, subprocess, sys

# What the man page says beside the table. A line that begins with a dot is one of man's own.
DESCRIPTION = """MAIN is the source file that is translated; FILES are the others that it may include, each by its path as it stands in the command.
A program is one unit: where it has several C files, MAIN includes the others.
.PP
With -I DIR the program reads what is included itself: each name in quotes in an #include line of a file that is read, also in groups that are skipped, is looked for beside the including file and then in each DIR, in their order; the file that is found is read under the name as it stands there.
A name that is found nowhere is fault 232 where it is included. Two different files that would have one name are fault 101. -I . finds what lies beside the including file. A name that a macro makes is not found: give that file among FILES.
.PP
-D and -U hold for the whole program, in their order. A fault in a macro names the word: -D SIZE:1: 202. One level of includes fewer is left.
.PP
A fault is one line on standard error, FILE:LINE: CODE TEXT; one that no file is to blame for, and how a run stopped, begins with cc: in place of a file.
.PP
Words that other compilers take are taken where they change nothing: -W.., -w, -O.., -g.., -f.., -m.., -pedantic, -pipe, -pthread, -static, -no-pie, -nostdlib and its like, and -std= of C99, C11 and C17. -MD, -MMD, -MF, -MT, -MQ and -MP of build stand for --depend and its like. Folders are searched in the order -iquote, -I, -isystem, -idirafter. check takes -Werror, -w, and -Wno-NAME for a warning that has this name. Other words of theirs (-c, -l, -L, -shared, -M, -x of another language, -include, -fsanitize, -fwrapv, -march of another machine) are refused in a line that says what to write. Where no command stands first, it is build."""

BEHIND = """.SH EXIT STATUS
.TP
0
done
.TP
1
a fault
.TP
2
the command line is wrong
.TP
3
verify: not shown to be defined, or the stack may not suffice
.PP
A program that is run or interpreted ends with its own status, or with 123 (undefined behaviour), 124 (budget used), 125 (trap) or 126 (port fault).
.SH EXAMPLES
.TP
.B zkc build -I include src/main.c -o main.elf
builds a program of several files in two folders.
.TP
.B zkc -O2 -Wall -I include -MD src/main.c -o main.elf
does the same, and writes main.d for make.
.TP
.B echo 27 | zkc run main.elf
runs it; so does qemu-riscv32 main.elf.
.TP
.B zkc interp -I include src/main.c
does what the source means, and reports undefined behaviour with its line.
.TP
.B zkc explain build -I include src/main.c
tells a fault with its line, its column and a hint.
.TP
.B zkc list --labels --abi -I include src/main.c
prints the code with the names of functions.
.TP
.B zkc image main.elf --ihex
prints what a flash tool loads.
.SH SEE ALSO
.BR gcc (1),
.BR make (1),
.BR qemu-user (1),
.BR objdump (1)
.PP
The project's docs/TOOLS.md, docs/LANGUAGE.md, docs/DIAGNOSTICS.md and docs/VERIFY.md."""

def said(cc, *words):
    done = subprocess.run([cc, *words, '--help'], stdout=subprocess.PIPE, check=True)
    return done.stdout.decode()

def section(text, title):
    """The lines of a section, as (left, right) by the first two spaces behind the left part."""
    found = re.search(r'^%s:\n((?:[ ].*\n?)*)' % title, text, re.M)
    rows = []
    for line in found[1].splitlines() if found else []:
        row = re.match(r'^ {2,}(\S.*?)(?: {2,}(\S.*))?$', line)
        rows.append((row[1], row[2] or ''))
    return rows

def option(left):
    """(short, long, value) of an option as it is shown: `-o <OUT>`, `--max <N>`, `-D <NAME[=VALUE]>`, `-h, --help`."""
    short = re.search(r'(?:^|\s)(-\w)\b', left)
    long = re.search(r'--[\w-]+', left)
    value = re.search(r'<([^>]+)>', left)
    return (short[1] if short else '', long[0] if long else '', value[1] if value else '')

def choices(right):
    found = re.search(r'\[possible values: ([^\]]*)\]', right)
    return found[1].split(', ') if found else []

def is_number(value):
    return value == 'N'

def table(cc):
    text = said(cc)
    about = text.split('\n', 1)[0]
    commands = []
    for name, what in section(text, 'Commands'):
        inner = said(cc, name)
        usage = re.search(r'^Usage: zkc (.*)$', inner, re.M)[1]
        commands.append((name, what, usage, section(inner, 'Arguments'), section(inner, 'Options')))
    return about, commands, section(text, 'Options')

def manual(about, commands, options):
    escape = lambda text: text.replace('\\', '\\e').replace('-', '\\-')
    out = ['.TH ZKC 1', '.SH NAME', 'zkc \\- %s' % escape(about[0].lower() + about[1:]), '.SH SYNOPSIS']
    for name, _, usage, _, _ in commands:
        out += ['.B zkc', escape(usage), '.br']
    out += ['.SH DESCRIPTION'] + [escape(line) if not line.startswith('.') else line for line in DESCRIPTION.splitlines()]
    for name, what, usage, arguments, own in commands:
        out += ['.SS zkc %s' % escape(usage), escape(what) + '.']
        for left, right in arguments + own:
            out += ['.TP', '.B %s' % escape(left), escape(right)]
    out += ['.SH OPTIONS']
    for left, right in options:
        out += ['.TP', '.B %s' % escape(left), escape(right)]
    for line in BEHIND.splitlines():
        out += [line if line.startswith('.') else escape(line)]
    return '\n'.join(out) + '\n'

def bash(commands, options):
    top = ' '.join([name for name, *_ in commands] + [o for left, _ in options for o in option(left)[:2] if o])
    out = ['# completions of zkc for bash', '_zkc() {', '    local word=${COMP_WORDS[COMP_CWORD]} before=${COMP_WORDS[COMP_CWORD-1]}', '    COMPREPLY=()',
           '    if [ "$COMP_CWORD" = 1 ]; then', "        COMPREPLY=($(compgen -W '%s' -- \"$word\"))" % top, '        return', '    fi', '    case ${COMP_WORDS[1]}:$before in']
    for name, _, _, _, own in commands:
        for left, right in own:
            short, long, value = option(left)
            for o in (short, long):
                if o and choices(right):
                    out += ["    %s:%s) COMPREPLY=($(compgen -W '%s' -- \"$word\")); return ;;" % (name, o, ' '.join(choices(right)))]
                elif o and is_number(value):
                    out += ["    %s:%s) return ;;" % (name, o)]
    out += ['    esac', '    case ${COMP_WORDS[1]} in']
    for name, _, _, arguments, own in commands:
        words = ' '.join(o for left, _ in own for o in option(left)[:2] if o)
        first = [c for left, right in arguments[:1] for c in choices(right)]
        extra = ''
        if first:
            extra = "[ \"$COMP_CWORD\" = 2 ] && { COMPREPLY=($(compgen -W '%s' -- \"$word\")); return; }; " % ' '.join(first)
        out += ["    %s) %scase $word in -*) COMPREPLY=($(compgen -W '%s' -- \"$word\")) ;; *) mapfile -t COMPREPLY < <(compgen -f -- \"$word\") ;; esac ;;" % (name, extra, words)]
    out += ['    esac', '}', 'complete -o filenames -F _zkc zkc']
    return '\n'.join(out) + '\n'

def zsh(commands, options):
    quote = lambda text: text.replace("'", "'\\''").replace('[', '(').replace(']', ')').replace(':', ',')
    out = ['#compdef zkc', '# completions of zkc for zsh', '_zkc() {', '    local -a commands options', '    commands=(']
    out += ["        '%s:%s'" % (name, quote(what)) for name, what, *_ in commands]
    out += ['    )', '    options=(']
    out += ["        '%s:%s'" % (o, quote(right)) for left, right in options for o in option(left)[:2] if o]
    out += ['    )', '    if (( CURRENT == 2 )); then', "        if [[ $words[2] == -* ]]; then _describe -o 'option' options; else _describe 'command' commands; fi", '        return', '    fi', '    local command=$words[2]', '    (( CURRENT-- ))', '    shift words', '    case $command in']
    for name, _, _, arguments, own in commands:
        specs = []
        for left, right in own:
            short, long, value = option(left)
            for o in (short, long):
                if o:
                    tail = ''
                    if value:
                        tail = ':%s:%s' % (re.sub(r'\W.*', '', value), '(%s)' % ' '.join(choices(right)) if choices(right) else ' ' if is_number(value) else '_files')
                    specs.append("'%s[%s]%s'" % (o, quote(right), tail))
        for left, right in arguments:
            rest = '*' if left.endswith('...') else ''
            specs.append("'%s:%s:%s'" % (rest, quote(re.sub(r'[<>\[\].]', '', left)), '(%s)' % ' '.join(choices(right)) if choices(right) else '_files'))
        out += ['    %s) _arguments %s ;;' % (name, ' '.join(specs))]
    out += ['    esac', '}', '_zkc "$@"']
    return '\n'.join(out) + '\n'

def fish(commands, options):
    quote = lambda text: text.replace("'", "\\'")
    out = ['# completions of zkc for fish']
    for left, right in options:
        short, long, _ = option(left)
        out += ["complete -c zkc -f -n __fish_use_subcommand%s%s -d '%s'" % (' -s %s' % short[1:] if short else '', ' -l %s' % long[2:] if long else '', quote(right))]
    for name, what, _, arguments, own in commands:
        out += ["complete -c zkc -f -n __fish_use_subcommand -a %s -d '%s'" % (name, quote(what))]
        for left, right in arguments[:1]:
            if choices(right):
                given = ' '.join(choices(right))
                out += ["complete -c zkc -f -n '__fish_seen_subcommand_from %s; and not __fish_seen_subcommand_from %s' -a '%s'" % (name, given, given)]
        for left, right in own:
            short, long, value = option(left)
            flags = (' -s %s' % short[1:] if short else '') + (' -l %s' % long[2:] if long else '')
            if value:
                flags += ' -x -a \'%s\'' % ' '.join(choices(right)) if choices(right) else ' -x' if is_number(value) else ' -r'
            out += ["complete -c zkc -n '__fish_seen_subcommand_from %s'%s -d '%s'" % (name, flags, quote(right))]
    return '\n'.join(out) + '\n'

def main():
    cc, to = os.path.abspath(sys.argv[1]), sys.argv[2]
    about, commands, options = table(cc)
    if to == '--list':
        for name, _, usage, _, _ in commands:
            print(usage)
        return
    files = {'zkc.1': manual(about, commands, options), 'zkc.bash': bash(commands, options), '_zkc': zsh(commands, options), 'zkc.fish': fish(commands, options)}
    if to == '--check':
        here = os.path.dirname(os.path.abspath(__file__))
        failed = 0
        for name, text in files.items():
            path = os.path.join(here, name)
            if not os.path.exists(path) or open(path).read() != text:
                failed += 1
                print('FAIL share/%s is not what share/tables.py writes' % name)
        print('%d passed, %d failed' % (len(files) - failed, failed))
        sys.exit(failed != 0)
    for name, text in files.items():
        with open(os.path.join(to, name), 'w') as file:
            file.write(text)

main()
