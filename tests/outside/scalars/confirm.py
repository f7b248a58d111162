#!/usr/bin/env python3
"""Confirms by gcc and clang with their sanitizers (`outsiders.py`), and by `../interp/ticks.py`, what the files of programs say:
`confirm.py [--ticks] FILE ..`; with --ticks it writes the ticks into them. It is `../interp/confirm.py` with other answers.
"""
import sys

import outsiders

import confirm as whole
import others
import ticks

others.all_of_them = outsiders.all_of_them

if __name__ == '__main__':
    sys.exit(ticks.deep(whole.main) != 0)
