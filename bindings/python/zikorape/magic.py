"""C in a notebook of Jupyter, or in IPython:

    %load_ext zikorape.magic

    %%zikorape --input "some text"
    #include <rvio.h>
    int main(void) {
        for (int c = rv_getbyte(); c != -1; c = rv_getbyte()) rv_putbyte(c ^ 32);
        return 42;
    }

A cell is compiled, and its file is run: what it writes is shown, then how it ended. A program that is refused is explained, and one that does something
undefined is told so, with the line. Words: --input TEXT, --max N (instructions, 10,000,000 where that is not said), --show FORM (tokens, tree, typed, tac,
flat, listing, frames) in place of a run, --verify."""
import argparse
import json
import shlex

import zikorape

NAME = 'cell.c'
_words = argparse.ArgumentParser(prog='%%zikorape', add_help=False)
_words.add_argument('--input', default='')
_words.add_argument('--max', type=int, default=10_000_000)
_words.add_argument('--show', choices=(*zikorape.FORMS, 'listing', 'frames'))
_words.add_argument('--verify', action='store_true')


def _explained(text):
    """Faults and places as `explain` and `verify` give them, an object a line, each as a line with its notes under it."""
    for object_ in text.splitlines():
        one = json.loads(object_)
        place = ':'.join([one['file'], *[str(number) for number in (one['line'], one['column']) if number]])
        yield '%s: %s %s' % (place, one['code'], one['text'])
        yield from ('    ' + note['text'] for note in one['notes'])


def told(zk, line, cell):
    """What is shown of a cell."""
    words = _words.parse_args(shlex.split(line))
    files = {NAME: cell if cell.endswith('\n') else cell + '\n'}
    built = zk.build(files, NAME)
    if built.status:
        return '\n'.join(_explained(zk.explain(files, NAME).output.decode()))
    if words.verify:
        return '\n'.join(_explained(zk.verify(files, NAME).output.decode()))
    if words.show:
        shown = {'listing': zk.listing, 'frames': zk.frames}.get(words.show)
        return (shown(files, NAME) if shown else zk.form(files, NAME, words.show)).check().output.decode()
    meant = zk.interpret(files, NAME, words.input, words.max)
    if meant.status == 123 and meant.message:
        return meant.output.decode(errors='replace') + meant.message.strip()
    ran = zk.run(built.output, words.input, words.max)
    return ran.output.decode(errors='replace') + (ran.message.strip() or 'status %d' % ran.status)


def load_ipython_extension(ipython):
    zk = zikorape.Library()

    def magic(line, cell):
        print(told(zk, line, cell))

    ipython.register_magic_function(magic, 'cell', 'zikorape')
