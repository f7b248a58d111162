"""Zikorape from Python, by ctypes: `build`, `functions`, `frames`, `warnings`, `verify`, `explain`, `explain_run`, `preprocess`, `listing`, `form`, `interpret`,
`trace`, `interpreter`, `run`, `step`, `machine`, `image`, `message`, `version`.

    import zikorape
    zk = zikorape.Library()
    answer = zk.build({'main.c': b'int main(void) { return 42; }\n'}, 'main.c')      # files by name, or a list of pairs
    zk.run(answer.check().output).status             # 42; check() raises a Fault where the program is refused

A machine that is kept runs in slices, takes input while it runs, shows itself, and goes back to where it stood:

    with zk.machine(answer.output) as machine:
        while machine.run(1000) == zikorape.GOES_ON:
            print(machine.steps, machine.pc)

Input and output may be callbacks or files, `machine.serve(sys.stdin.buffer, sys.stdout.buffer)`. `zk.interpreter(files, main)` is a run of the source that is
kept: it goes on by ticks, and tells each statement, each value, each call, each byte.

A text (of a file, an input, a built file) is bytes, str (UTF-8), or a path (pathlib.Path), whose file is read; anything else is a TypeError.
The library is shared: `gcc -shared -o libzikorape.so -Wl,--whole-archive libzikorape.a`, which
`sh install.sh` does. Calls release the interpreter's lock, and each thread may make
them; a thread needs a stack of 2.25 MiB (`threading.stack_size(8 << 20)`), and the main thread has it."""
import ctypes
import json
import os
import re
from dataclasses import dataclass
from typing import Any, BinaryIO, Callable, Dict, Iterable, List, Mapping, Optional, Tuple, Union

Name = Union[str, bytes, 'os.PathLike[Any]']
Text = Union[bytes, bytearray, memoryview, str, 'os.PathLike[Any]']
Files = Union[Mapping[Name, Text], Iterable[Tuple[Name, Text]]]
Getter = Union[Callable[[], Optional[bytes]], BinaryIO, None]
Putter = Union[Callable[[bytes], Any], BinaryIO, None]
Event = Dict[str, Any]

MAX = 1_000_000_000
FORMS = ('tokens', 'tree', 'typed', 'tac', 'flat', 'items', 'passes')
IMAGES = ('binary', 'intel', 'verilog')
STACK = 1 << 20
GOES_ON, ENDED, TRAPPED, OUT_OF_MEMORY, WANTS_INPUT = 0, 1, 2, 3, 5
UNDEFINED = TRAPPED         # of a run of the interpreter, which stops there as a machine does at a trap
_WAITS = 257
_FILE, _LOAD, _INPUT, _CLOSE, _RUN, _DETAIL, _STEPS, _OUTPUT, _REGISTER, _SET_REGISTER, _READ, _WRITE = range(12)


class File(ctypes.Structure):
    _fields_ = [('name', ctypes.c_uint64), ('bytes', ctypes.c_uint64)]


class Sizes(ctypes.Structure):
    _fields_ = [('output', ctypes.c_uint64), ('message', ctypes.c_uint64)]


class Seen(ctypes.Structure):
    _fields_ = [('detail', ctypes.c_uint32), ('pc', ctypes.c_uint32), ('registers', ctypes.c_uint32 * 32), ('steps', ctypes.c_uint64), ('output', ctypes.c_uint64)]


class Fault(Exception):
    """A fault of a program: `file`, `line`, `code` (docs/DIAGNOSTICS.md) and `text`. Where memory ran out, the file is empty and the code 801."""

    def __init__(self, message: str):
        super().__init__(message.strip())
        found = re.fullmatch(r'(?:(.*):(\d+)|cc): (\d+) (.*)\n', message)
        self.file, self.line, self.code, self.text = (found[1] or '', int(found[2] or 0), int(found[3]), found[4]) if found else ('', 0, 0, message.strip())


@dataclass
class Answer:
    """`status` as the program zkc has it (256: no files), the output, and the line of a fault or of why a program stopped."""
    status: int
    output: bytes
    message: str

    def check(self) -> 'Answer':
        """The same answer; a `Fault` where a program was refused, and a ValueError where the files are none."""
        if self.status == 256:
            raise ValueError('no such files, or no such form')
        if self.status == 1 and self.message:
            raise Fault(self.message)
        return self


@dataclass
class Machine:
    """A machine after `steps` instructions. `outcome`: 0 it goes on, 1 it ended, 2 it trapped, 3 memory ran out, 4 the file is not loaded;
    `detail`: the status, the number of the cause, or the code of the fault (zikorape.h)."""
    outcome: int
    detail: int
    steps: int
    pc: int
    registers: list
    window: bytes
    output: bytes


@dataclass(frozen=True)
class Snapshot:
    """Where a machine stood: how many instructions it had taken, over which input, and how many bytes of the output had been taken."""
    steps: int
    given: bytes
    closed: bool
    taken: int


class KeptMachine:
    """A machine that is kept (`Library.machine`). A run answers GOES_ON, ENDED, TRAPPED, OUT_OF_MEMORY or WANTS_INPUT; `detail` has the status
    or the number of the cause. Only one thread may use it."""

    def __init__(self, library, file):
        self._c = library._c
        size = self._c.zk_machine_size()
        self._room = ctypes.create_string_buffer(size + 15)
        self._at = ctypes.c_void_p((ctypes.addressof(self._room) + 15) // 16 * 16)
        self._c.zk_machine_place(self._at)
        self._given, self._closed, self._taken = bytearray(), False, 0
        for byte in _bytes(file):
            self._must(self._ask(_FILE, byte))
        self._must(self._ask(_LOAD))

    def close(self) -> None:
        """Gives back its memory; nothing may be asked then."""
        if self._at is not None:
            self._c.zk_machine_clear(self._at)
            self._at = None

    def __enter__(self):
        return self

    def __exit__(self, *_):
        self.close()

    def __del__(self):
        if getattr(self, '_at', None) is not None:
            self.close()

    def _ask(self, number, a=0, b=0):
        if self._at is None:
            raise ValueError('the machine is closed')
        return self._c.zk_machine_ask(self._at, number, a, b)

    def _must(self, code):
        if code == 801:
            raise MemoryError('801 out of memory')
        if code:
            raise Fault('cc: %d not loaded\n' % code)

    def run(self, max: int = MAX, to: int = 1) -> int:
        """At most `max` instructions, or, after one, to where that at the address `to` is next."""
        return self._ask(_RUN, max, to)

    def step(self) -> int:
        return self.run(1)

    @property
    def detail(self) -> int:
        return self._ask(_DETAIL)

    @property
    def steps(self) -> int:
        return self._ask(_STEPS)

    @property
    def pc(self) -> int:
        return self._ask(_REGISTER, 32)

    @property
    def registers(self) -> List[int]:
        return [self._ask(_REGISTER, k) for k in range(32)]

    def read(self, start: int, length: int) -> bytes:
        """Bytes of its memory; 0 for each that the program can't read."""
        return bytes(self._ask(_READ, start + k) for k in range(length))

    def write(self, start: int, data: bytes) -> int:
        """Outside the theorem: sets bytes, where the program may write them; answers how many were set."""
        return sum(self._ask(_WRITE, start + k, byte) for k, byte in enumerate(data))

    def set_register(self, number: int, value: int) -> None:
        """Outside the theorem: sets a register, or the pc by 32."""
        if self._ask(_SET_REGISTER, number, value & 0xffffffff):
            raise ValueError('no register %d' % number)

    def input(self, data: Text) -> None:
        """Gives input."""
        for byte in _bytes(data):
            answer = self._ask(_INPUT, byte)
            if answer == 1:
                raise ValueError('the input is closed')
            self._must(answer)
            self._given.append(byte)

    def close_input(self) -> None:
        """The input ends here: a program that reads on is told so, and does not wait."""
        self._ask(_CLOSE)
        self._closed = True

    def output(self) -> bytes:
        """What it has put since the last call."""
        found = bytearray()
        while True:
            byte = self._ask(_OUTPUT)
            if byte > 255:
                self._taken += len(found)
                return bytes(found)
            found.append(byte)

    def serve(self, get: Getter = None, put: Putter = None, max: int = MAX, slice: int = 1 << 16) -> int:
        """At most `max` instructions more, with input and output by callback. `get` is called where input is wanted, and answers bytes, b'' at the end of the
        input, or None where there is none yet, which ends the call with WANTS_INPUT; `put` is called with bytes, before input is asked for and at the latest after
        `slice` instructions. Each may be a binary file in place of a function. An exception of theirs leaves the machine where it stands."""
        get, put, last = _reading(get), _writing(put), self.steps + max
        while True:
            outcome = self.run(min(slice, last - self.steps))
            found = self.output()
            if found:
                put(found)
            if outcome == WANTS_INPUT:
                given = get()
                if given is None:
                    return outcome
                if given:
                    self.input(given)
                else:
                    self.close_input()
            elif outcome != GOES_ON or self.steps >= last:
                return outcome

    def snapshot(self) -> Snapshot:
        """Where it stands. What was set by `write` and `set_register` is no part of it."""
        return Snapshot(self.steps, bytes(self._given), self._closed, self._taken)

    def restore(self, snapshot: Snapshot) -> None:
        """Stands there again, by a run from the start over what had been given."""
        self._must(self._ask(_LOAD))
        self._given, self._closed, self._taken = bytearray(), False, 0
        self.input(snapshot.given)
        if snapshot.closed:
            self.close_input()
        self.run(snapshot.steps)
        if self.steps != snapshot.steps:
            raise MemoryError('801 out of memory')
        while self._taken < snapshot.taken and self._ask(_OUTPUT) < 256:
            self._taken += 1


@dataclass(frozen=True)
class Place:
    """Where a run of the interpreter stood (`Interpreter.snapshot`)."""
    start: int
    least: int
    told: int
    given: bytes
    closed: bool
    outcome: int
    detail: int
    message: str


class Interpreter:
    """A run of the interpreter that is kept (`Library.interpreter`): it goes on by ticks and tells what it does. What is kept is the input and how much was told; the
    run is done from the start in each call, so calls that go further by doubling cost a run. A run answers GOES_ON, ENDED, UNDEFINED, OUT_OF_MEMORY or WANTS_INPUT;
    `detail` has the status where it ended, `message` the undefined act and its place."""

    def __init__(self, library, files, main):
        self._library, self._main = library, main
        self._files = [(name, _bytes(text)) for name, text in (files.items() if hasattr(files, 'items') else files)]
        self._put, self._events = bytearray(), []
        self.restore(Place(0, 0, 0, b'', False, GOES_ON, 0, ''))
        self.run(0)

    def run(self, until: int = MAX) -> int:
        """Goes on to the tick `until`, counted from the start."""
        until = max(until, self._least)
        if self.outcome not in (GOES_ON, WANTS_INPUT) or until < self._start:
            return self.outcome
        answer = self._library.trace(self._files, self._main, bytes(self._given), until, self._start, not self._closed).check()
        self._note([json.loads(line) for line in answer.output[self._told:].splitlines()])
        self._stand(answer, until)
        return self.outcome

    def _note(self, events):
        self._events += events
        self._put += bytes(event['byte'] for event in events if event['event'] == 'put')

    def _stand(self, answer, until):
        if answer.status == _WAITS:
            self.outcome, self._told, self._least = WANTS_INPUT, len(answer.output), until
            return
        self._told = self._least = 0
        if not answer.message:
            self.outcome, self.detail = ENDED, answer.status
        elif answer.status == 124:
            self.outcome, self._start = GOES_ON, until + 1
        else:
            self.outcome, self.message = UNDEFINED if answer.status == 123 else OUT_OF_MEMORY, answer.message.strip()

    def events(self) -> List[Event]:
        """What it did since the last call, a dict for each statement, value, call and byte (docs/TOOLS.md)."""
        found, self._events = self._events, []
        return found

    def output(self) -> bytes:
        """What it has put since the last call."""
        found, self._put = bytes(self._put), bytearray()
        return found

    def input(self, data: Text) -> None:
        """Gives input."""
        if self._closed:
            raise ValueError('the input is closed')
        self._given += _bytes(data)

    def close_input(self) -> None:
        """The input ends here."""
        self._closed = True

    def serve(self, get: Getter = None, put: Putter = None, observe: Optional[Callable[[Event], Any]] = None, until: int = MAX) -> int:
        """Goes on to the tick `until` with input and output by callback, as those of a machine, in slices that double; `observe` is called with each event."""
        get, put, slice = _reading(get), _writing(put), 4096
        while True:
            self.run(min(self._start + slice, until))
            events, found = self.events(), self.output()
            for event in events if observe else ():
                observe(event)
            if found:
                put(found)
            if self.outcome == WANTS_INPUT:
                given = get()
                if given is None:
                    return self.outcome
                if given:
                    self.input(given)
                else:
                    self.close_input()
            elif self.outcome != GOES_ON or self._start > until:
                return self.outcome
            else:
                slice *= 2

    def snapshot(self) -> Place:
        return Place(self._start, self._least, self._told, bytes(self._given), self._closed, self.outcome, self.detail, self.message)

    def restore(self, place: Place) -> None:
        """Stands there again."""
        self._start, self._least, self._told, self._closed = place.start, place.least, place.told, place.closed
        self._given, self.outcome, self.detail, self.message = bytearray(place.given), place.outcome, place.detail, place.message


def _reading(get):
    """A callable that answers bytes, of one or of a binary file; of None, one that has no input."""
    if get is None:
        return lambda: b''
    if callable(get):
        return get
    return lambda: get.read1(1 << 12) if hasattr(get, 'read1') else get.read(1)


def _writing(put):
    """A callable that takes bytes, of one or of a binary file; of None, one that drops them."""
    if put is None:
        return lambda found: None
    if callable(put):
        return put

    def write(found):
        put.write(found)
        put.flush()
    return write


def _bytes(text):
    """The bytes of a text: a path (os.PathLike) stands for what its file holds. A number is none, for which `bytes` would make zeros."""
    if isinstance(text, str):
        return text.encode()
    if isinstance(text, (bytes, bytearray, memoryview)):
        return bytes(text)
    if isinstance(text, os.PathLike):
        with open(text, 'rb') as file:
            return file.read()
    raise TypeError('a text is bytes, str or a path, and not %s' % type(text).__name__)


def _name(name):
    name = os.fspath(name)
    return name.encode('utf-8', 'surrogateescape') if isinstance(name, str) else name


def _slice(data):
    return (ctypes.c_char_p(data), ctypes.c_size_t(len(data)))


def _beside() -> str:
    """The library beside this module, as a wheel has it; else the system's."""
    path = os.path.join(os.path.dirname(os.path.abspath(__file__)), 'libzikorape.so')
    return path if os.path.exists(path) else 'libzikorape.so'


class Library:
    def __init__(self, path: Union[str, 'os.PathLike[str]', None] = None):
        self._c = ctypes.CDLL(os.fspath(path) if path is not None else _beside())
        for name in ('build', 'build_with', 'functions', 'warn', 'verify', 'explain', 'explain_run', 'image', 'frames', 'preprocess', 'list', 'form', 'interpret', 'trace', 'run', 'step'):
            getattr(self._c, 'zk_' + name).restype = ctypes.c_uint32
        for name in ('message', 'version'):
            getattr(self._c, 'zk_' + name).restype = ctypes.c_uint64
        c = self._c
        c.zk_machine_size.restype, c.zk_machine_size.argtypes = ctypes.c_uint64, []
        c.zk_machine_ask.restype, c.zk_machine_ask.argtypes = ctypes.c_uint64, [ctypes.c_void_p, ctypes.c_uint32, ctypes.c_uint64, ctypes.c_uint64]
        for name in ('zk_machine_place', 'zk_machine_clear'):
            getattr(c, name).restype, getattr(c, name).argtypes = None, [ctypes.c_void_p]

    def build(self, files: Files, main: Name, stack: Optional[int] = None) -> Answer:
        """The executable file, with a stack of so many bytes; without it 1,048,576."""
        if stack is None:
            return self._over(self._c.zk_build, files, main)
        return self._over(self._c.zk_build_with, files, main, ctypes.c_uint32(stack))

    def functions(self, files: Files, main: Name, stack: int = STACK) -> Answer:
        """The functions, with addresses, sizes, frames, weights, calls and lines, and the objects, as JSON (zikorape.h)."""
        return self._over(self._c.zk_functions, files, main, ctypes.c_uint32(stack))

    def warnings(self, files: Files, main: Name, stack: int = STACK) -> Answer:
        """The warnings as JSON, an object a line."""
        return self._over(self._c.zk_warn, files, main, ctypes.c_uint32(stack))

    def verify(self, files: Files, main: Name, stack: int = STACK) -> Answer:
        """Whether it does anything undefined, on any input, and how much of its stack it takes: status 0 where it is defined and the stack suffices, 3 where
        that was not shown, with the places and the verdict as JSON, an object a line."""
        return self._over(self._c.zk_verify, files, main, ctypes.c_uint32(stack))

    def explain(self, files: Files, main: Name, stack: int = STACK) -> Answer:
        """Why the program is refused, as JSON, an object a fault; nothing where it is not."""
        return self._over(self._c.zk_explain, files, main, ctypes.c_uint32(stack))

    def explain_run(self, files: Files, main: Name, input: Text = b'', max: int = MAX) -> Answer:
        """What a run does undefined, as JSON: the values that make it undefined, and the calls that are active; nothing where it does nothing undefined."""
        return self._over(self._c.zk_explain_run, files, main, *_slice(_bytes(input)), ctypes.c_uint64(max))

    def image(self, file: Text, form: str = 'binary', name: Name = 'a.out') -> Answer:
        """The bytes that a built file loads: one of IMAGES."""
        return self._call(self._c.zk_image, *_slice(_bytes(file)), *_slice(_name(name)), ctypes.c_uint32(IMAGES.index(form)))

    def frames(self, files: Files, main: Name) -> Answer:
        return self._over(self._c.zk_frames, files, main)

    def preprocess(self, files: Files, main: Name) -> Answer:
        return self._over(self._c.zk_preprocess, files, main)

    def listing(self, files: Files, main: Name) -> Answer:
        return self._over(self._c.zk_list, files, main)

    def form(self, files: Files, main: Name, form: str) -> Answer:
        """A form of the program as JSON: one of FORMS; 'tokens' are those of `preprocess`, with their places."""
        return self._over(self._c.zk_form, files, main, ctypes.c_uint32(FORMS.index(form)))

    def interpret(self, files: Files, main: Name, input: Text = b'', max: int = MAX) -> Answer:
        return self._over(self._c.zk_interpret, files, main, *_slice(_bytes(input)), ctypes.c_uint64(max))

    def trace(self, files: Files, main: Name, input: Text = b'', max: int = MAX, start: int = 0, is_open: bool = False) -> Answer:
        """The same run, told as JSON lines (docs/TOOLS.md), from the tick `start` on. Where the input is open, a read behind it is answered by the status 257."""
        return self._over(self._c.zk_trace, files, main, *_slice(_bytes(input)), ctypes.c_uint32(is_open), ctypes.c_uint64(max), ctypes.c_uint64(start))

    def interpreter(self, files: Files, main: Name) -> Interpreter:
        """A run of the interpreter that is kept, before its first tick; a Fault where the program is refused."""
        return Interpreter(self, files, main)

    def run(self, file: Text, input: Text = b'', max: int = MAX, name: Name = 'a.out') -> Answer:
        return self._call(self._c.zk_run, *_slice(_bytes(file)), *_slice(_name(name)), *_slice(_bytes(input)), ctypes.c_uint64(max))

    def step(self, file: Text, count: int, input: Text = b'', after: int = 0, halt: int = 1, start: int = 0, length: int = 0) -> Machine:
        """The machine after `count` instructions, or, once it has done `after`, where the one at the address `halt` is next; with `length`
        bytes of its memory from the address `start` on."""
        file, room, window = _bytes(file), 1 << 16, ctypes.create_string_buffer(max(length, 1))
        while True:
            out, seen = ctypes.create_string_buffer(room), Seen()
            outcome = self._c.zk_step(*_slice(file), *_slice(_bytes(input)), ctypes.c_uint64(count), ctypes.c_uint64(after), ctypes.c_uint32(halt),
                                      ctypes.c_uint32(start), window, ctypes.c_size_t(length), out, ctypes.c_size_t(room), ctypes.byref(seen))
            if seen.output <= room:
                return Machine(outcome, seen.detail, seen.steps, seen.pc, list(seen.registers), window.raw[:length], out.raw[:seen.output])
            room = seen.output

    def machine(self, file: Text) -> KeptMachine:
        """A machine that is kept, before the first instruction of a built file; a Fault where the file is not loaded."""
        return KeptMachine(self, file)

    def message(self, code: int) -> str:
        return self._text(self._c.zk_message, ctypes.c_uint16(code))

    def version(self) -> str:
        return self._text(self._c.zk_version)

    def _over(self, call, files, main, *more):
        names = [(_name(name), _bytes(text)) for name, text in (files.items() if hasattr(files, 'items') else files)]
        lengths = (File * max(len(names), 1))(*[File(len(name), len(text)) for name, text in names])
        texts = b''.join(name + text for name, text in names)
        return self._call(call, *_slice(texts), lengths, ctypes.c_size_t(len(names)), *_slice(_name(main)), *more)

    def _call(self, call, *arguments):
        room, lines, sizes = 1 << 16, 1 << 12, Sizes()
        while True:
            out, message = ctypes.create_string_buffer(room), ctypes.create_string_buffer(lines)
            status = call(*arguments, out, ctypes.c_size_t(room), message, ctypes.c_size_t(lines), ctypes.byref(sizes))
            if sizes.output <= room and sizes.message <= lines:
                return Answer(status, out.raw[:sizes.output], message.raw[:sizes.message].decode('utf-8', 'replace'))
            room, lines = max(room, sizes.output), max(lines, sizes.message)

    def _text(self, call, *arguments):
        out = ctypes.create_string_buffer(256)
        length = call(*arguments, out, ctypes.c_size_t(256))
        return out.raw[:length].decode()
