"""What the tests stand on: cases that run alone or side by side, and one line at the end that counts.

- `cases`: a case (of `unittest`), rows as cases, and `main`, which runs them
- `verdict`: counted checks and the last line, `N passed, M failed[, K skipped]`
- `program`: the program under test, each run in a folder with its files, input and limits
- `pace`: how fast the program is on this machine now, by which time is limited
- `elf`: ELF files made of fields, changed and cut
- `compare`: differences in a line
- `seeds`: seeded random sources; every failure tells the seed
- `rows`: files of rows; `made`: files of a crate that are made of rows

README.md beside this folder says how a case is added and run."""
from .cases import Case, Current, Row, classes_of, main, needs, number_of, parts
from .compare import short
from .made import made
from .program import Done, Program, in_folder
from .rows import blocks, bytes_of, code_and_line, field_of, fields, lines, row_of
from .seeds import seeded
from .verdict import Verdict, side_by_side

__all__ = ['Case', 'Current', 'Done', 'Program', 'Row', 'Verdict', 'blocks', 'bytes_of', 'classes_of', 'code_and_line', 'field_of', 'fields', 'in_folder', 'lines', 'made', 'main', 'needs', 'number_of', 'parts', 'row_of',
           'seeded', 'short', 'side_by_side']
