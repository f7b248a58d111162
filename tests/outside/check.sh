#!/bin/sh
# The built program from outside: the command line, sources that are refused, programs that run.
#
#   sh tests/outside/check.sh [CC [-k WORD]..]
#
# Called from the repository's root; CC is the program, bin/cc by default. -k: only cases whose name has the word. Each part ends with a
# line that counts; the exit status is not 0 where one failed.
set -u
[ $# -gt 0 ] || set -- bin/cc
status=0
for part in cli faults run; do
    echo "$part:"
    python3 "tests/$part/check.py" "$@" || status=1
done
exit $status
