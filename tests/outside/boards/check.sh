#!/bin/sh
# sh tests/outside/boards/check.sh PROGRAM: runs built programs on the boards of boards/, with PROGRAM as the compiler.
exec python3 "$(dirname "$0")/check.py" "$@"
