#!/usr/bin/env python3
"""The rows of syntax trees of crates/test_calls; `../rows.py` writes them. `sources` holds sources with a line `@` between, and `trees` what each is
read as, with a line `@` behind: the tree, or the line of the fault; of a source behind a line `$`, how many nodes the tree has and how deep it is.

A tree has a pair of parentheses around each expression that has operands, a pair of brackets around each statement that has a statement in it, and
none of the parentheses of the source. There are

- 126 expressions and 44 statements, whose grouping another parser of C gave (pycparser 3.0, its tree printed in this form), and one by hand;
- 24 declarations in a block and 16 at file scope, whose trees were written down by hand from ISO/IEC 9899:2011 6.7 and 6.9;
- 179 sources that are not in the language, with the line of the first token at which nothing in the language goes on, most with each token on a
  line of its own (6.5 to 6.9, by hand);
- for each form that nests (of expressions, braced lists and statements) and for a size in a declarator and in a type name, the deepest tree that is
  read and one that is a level too deep, with the token that is blamed on a line of its own; 10,000 opening parentheses; 300 nested branches;
- the counts of six trees at the limit of depth (parentheses, signs, arguments, blocks, branches, braced lists), by hand.
"""
import os
import sys

HERE = os.path.dirname(os.path.abspath(__file__))
sys.path[:0] = [os.path.dirname(os.path.dirname(HERE)), HERE]
import harness


def read(name):
    with open(os.path.join(HERE, name), 'rb') as file:
        return file.read()


def trees():
    sources = read('sources').split(b'@\n')
    for source, tree in zip(sources, read('trees').split(b'@\n')):
        is_counted = source.startswith(b'$\n')
        # a fault and counts are one line
        is_line = is_counted or tree.startswith(b'row.c:')
        subject = 'counts' if is_counted else 'tree'
        yield harness.row_of(subject, source[2:] if is_counted else source), tree[:-1] if is_line else harness.field_of(tree)


# so many rows there are
KINDS = [(trees, 244)]
