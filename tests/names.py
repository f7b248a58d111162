#!/usr/bin/env python3
"""The scripts of this tree are clean: each in Python compiles, imports nothing that it does not use and uses no name that is not there;
of each in sh shellcheck warns of nothing.

    python3 tests/names.py

pyflakes where it is there, and beside it a reading of each script by `ast`; what shellcheck needs is skipped where it is missing. Called
from the repository's root. A check for each script; the last line counts them."""
import ast
import builtins
import os
import shutil
import subprocess
import sys

import harness

FOLDERS = ('tests', 'share', 'bench', 'boards', 'bindings', 'page', 'release')
ALWAYS = set(dir(builtins)) | {'__file__', '__name__', '__doc__'}
# Warnings of the scripts of bench, which split the output of commands into words and redirect to files with names of commands.
ALLOWED = 'SC2207,SC2238'


def scripts(ending):
    """The scripts of the tree."""
    found = [name for name in os.listdir('.') if name.endswith(ending)]
    for folder in FOLDERS:
        for at, folders, names in os.walk(folder):
            folders[:] = sorted(it for it in folders if it not in ('out', 'data', 'target', '__pycache__'))
            found += [os.path.join(at, name) for name in names if name.endswith(ending)]
    return sorted(found)


def bound(tree):
    """Every name that is bound somewhere in a script, whatever its scope."""
    for node in ast.walk(tree):
        if isinstance(node, (ast.FunctionDef, ast.ClassDef)):
            yield node.name
        elif isinstance(node, ast.Name) and not isinstance(node.ctx, ast.Load):
            yield node.id
        elif isinstance(node, ast.arg):
            yield node.arg
        elif isinstance(node, ast.alias):
            yield (node.asname or node.name).split('.')[0]
        elif isinstance(node, ast.ExceptHandler) and node.name:
            yield node.name
        elif isinstance(node, (ast.MatchAs, ast.MatchStar)) and node.name:
            yield node.name
        elif isinstance(node, ast.MatchMapping) and node.rest:
            yield node.rest


def wrong_names(path):
    """Imports that are not used, and names that are not there."""
    with open(path, encoding='utf-8') as file:
        tree = ast.parse(file.read(), path)
    used = {node.id for node in ast.walk(tree) if isinstance(node, ast.Name)}
    listed = {item.value for node in ast.walk(tree) if isinstance(node, ast.List) for item in node.elts if isinstance(item, ast.Constant)}
    imported = {(node.asname or node.name).split('.')[0] for node in ast.walk(tree) if isinstance(node, ast.alias)}
    loaded = {node.id for node in ast.walk(tree) if isinstance(node, ast.Name) and isinstance(node.ctx, ast.Load)}
    unused = sorted(imported - used - (listed if path.endswith('__init__.py') else set()) - {'*'})
    missing = sorted(loaded - set(bound(tree)) - ALWAYS)
    return [f'{name} is imported and not used' for name in unused] + [f'{name} is not there' for name in missing]


def in_python(verdict):
    flakes = shutil.which('pyflakes3') or shutil.which('pyflakes')
    for path in scripts('.py'):
        try:
            wrong = wrong_names(path)
        except SyntaxError as error:
            wrong = [str(error)]
        if flakes and not wrong:
            wrong = subprocess.run([flakes, path], capture_output=True, text=True, check=False).stdout.splitlines()
        verdict.holds(f'{path}: {"; ".join(wrong)}', not wrong)


def in_sh(verdict):
    paths = scripts('.sh')
    if not shutil.which('shellcheck'):
        verdict.skip(len(paths), 'shellcheck is missing')
        return
    for path in paths:
        told = subprocess.run(['shellcheck', '-S', 'warning', '-e', ALLOWED, '-f', 'gcc', path], capture_output=True, text=True, check=False).stdout
        verdict.holds(f'{path}: {told}', not told)


def main():
    verdict = harness.Verdict()
    in_python(verdict)
    in_sh(verdict)
    return verdict.end()


if __name__ == '__main__':
    sys.exit(main())
