//! Zikorape from Rust: the calls of `zikorape.h` over slices, with answers that own their bytes.
//!
//! ```no_run
//! let answer = zikorape::build(&[("main.c", b"int main(void) { return 42; }\n")], "main.c").check().unwrap();
//! assert_eq!(zikorape::run(&answer.output, "a.out", b"", 1_000_000).status, 42);
//! ```
//!
//! A call takes up to 2.25 MiB of its thread's stack: start threads with 4 MiB or more.

use std::io::{self, Read, Write};

#[repr(C)]
#[derive(Clone, Copy)]
struct File {
    name: u64,
    bytes: u64,
}

#[repr(C)]
#[derive(Default)]
struct Sizes {
    output: u64,
    message: u64,
}

#[repr(C)]
#[derive(Default)]
struct Seen {
    detail: u32,
    pc: u32,
    registers: [u32; 32],
    steps: u64,
    output: u64,
}

type Out = *mut u8;
type In = *const u8;
type Over = unsafe extern "C" fn(In, usize, *const File, usize, In, usize, Out, usize, Out, usize, *mut Sizes) -> u32;
type OverStack = unsafe extern "C" fn(In, usize, *const File, usize, In, usize, u32, Out, usize, Out, usize, *mut Sizes) -> u32;

extern "C" {
    fn zk_build(texts: In, n: usize, files: *const File, k: usize, main: In, m: usize, out: Out, o: usize, message: Out, l: usize, sizes: *mut Sizes) -> u32;
    fn zk_frames(texts: In, n: usize, files: *const File, k: usize, main: In, m: usize, out: Out, o: usize, message: Out, l: usize, sizes: *mut Sizes) -> u32;
    fn zk_preprocess(
        texts: In, n: usize, files: *const File, k: usize, main: In, m: usize, out: Out, o: usize, message: Out, l: usize, sizes: *mut Sizes,
    ) -> u32;
    fn zk_list(texts: In, n: usize, files: *const File, k: usize, main: In, m: usize, out: Out, o: usize, message: Out, l: usize, sizes: *mut Sizes) -> u32;
    fn zk_form(
        texts: In, n: usize, files: *const File, k: usize, main: In, m: usize, form: u32, out: Out, o: usize, message: Out, l: usize, sizes: *mut Sizes,
    ) -> u32;
    fn zk_interpret(
        texts: In, n: usize, files: *const File, k: usize, main: In, m: usize, input: In, i: usize, max: u64,
        out: Out, o: usize, message: Out, l: usize, sizes: *mut Sizes,
    ) -> u32;
    fn zk_trace(
        texts: In, n: usize, files: *const File, k: usize, main: In, m: usize, input: In, i: usize, is_open: u32, max: u64, from: u64,
        out: Out, o: usize, message: Out, l: usize, sizes: *mut Sizes,
    ) -> u32;
    fn zk_run(file: In, n: usize, name: In, m: usize, input: In, i: usize, max: u64, out: Out, o: usize, message: Out, l: usize, sizes: *mut Sizes) -> u32;
    fn zk_step(
        file: In, n: usize, input: In, i: usize, count: u64, after: u64, halt: u32, from: u32, window: Out, w: usize, out: Out, o: usize, seen: *mut Seen,
    ) -> u32;
    fn zk_build_with(
        texts: In, n: usize, files: *const File, k: usize, main: In, m: usize, stack: u32, out: Out, o: usize, message: Out, l: usize, sizes: *mut Sizes,
    ) -> u32;
    fn zk_functions(
        texts: In, n: usize, files: *const File, k: usize, main: In, m: usize, stack: u32, out: Out, o: usize, message: Out, l: usize, sizes: *mut Sizes,
    ) -> u32;
    fn zk_warn(
        texts: In, n: usize, files: *const File, k: usize, main: In, m: usize, stack: u32, out: Out, o: usize, message: Out, l: usize, sizes: *mut Sizes,
    ) -> u32;
    fn zk_verify(
        texts: In, n: usize, files: *const File, k: usize, main: In, m: usize, stack: u32, out: Out, o: usize, message: Out, l: usize, sizes: *mut Sizes,
    ) -> u32;
    fn zk_explain(
        texts: In, n: usize, files: *const File, k: usize, main: In, m: usize, stack: u32, out: Out, o: usize, message: Out, l: usize, sizes: *mut Sizes,
    ) -> u32;
    fn zk_explain_run(
        texts: In, n: usize, files: *const File, k: usize, main: In, m: usize, input: In, i: usize, max: u64,
        out: Out, o: usize, message: Out, l: usize, sizes: *mut Sizes,
    ) -> u32;
    fn zk_image(file: In, n: usize, name: In, m: usize, form: u32, out: Out, o: usize, message: Out, l: usize, sizes: *mut Sizes) -> u32;
    fn zk_machine_size() -> u64;
    fn zk_machine_place(at: *mut u8);
    fn zk_machine_ask(at: *mut u8, number: u32, a: u64, b: u64) -> u64;
    fn zk_machine_clear(at: *mut u8);
    fn zk_message(code: u16, out: Out, o: usize) -> u64;
    fn zk_version(out: Out, o: usize) -> u64;
}

/// A status as the program zkc has it (256: no files), an output, and the line of a fault or of why a program stopped.
#[derive(Clone, Debug, PartialEq, Eq)]
pub struct Answer {
    pub status: u32,
    pub output: Vec<u8>,
    pub message: String,
}

/// Why a program was refused.
#[derive(Clone, Debug, PartialEq, Eq)]
pub enum Error {
    /// A fault in a file, at a line counted from 1, or 0 where it concerns the whole file.
    Fault { file: String, line: u32, code: u16, text: String },
    /// Memory ran out.
    OutOfMemory,
    /// The files are none, or there is no such form.
    NoFiles,
}

impl std::fmt::Display for Error {
    fn fmt(&self, f: &mut std::fmt::Formatter<'_>) -> std::fmt::Result {
        match self {
            Error::Fault { file, line, code, text } => write!(f, "{file}:{line}: {code} {text}"),
            Error::OutOfMemory => write!(f, "801 out of memory"),
            Error::NoFiles => write!(f, "no such files"),
        }
    }
}

impl std::error::Error for Error {}

/// The parts of `FILE:LINE: CODE TEXT`.
fn fault(message: &str) -> Option<Error> {
    let (place, rest) = message.trim_end().split_once(": ")?;
    let (file, line) = place.rsplit_once(':')?;
    let (code, text) = rest.split_once(' ')?;
    Some(Error::Fault { file: file.to_string(), line: line.parse().ok()?, code: code.parse().ok()?, text: text.to_string() })
}

impl Answer {
    /// The same answer, or why the program was refused.
    pub fn check(self) -> Result<Answer, Error> {
        match self.status {
            256 => Err(Error::NoFiles),
            1 if !self.message.is_empty() => Err(fault(&self.message).unwrap_or(Error::OutOfMemory)),
            _ => Ok(self),
        }
    }
}

/// Calls with buffers, and again with larger ones where they were too small.
fn with_room(call: impl Fn(&mut [u8], &mut [u8], &mut Sizes) -> u32) -> Answer {
    let (mut out, mut message, mut sizes) = (vec![0; 1 << 16], vec![0; 1 << 12], Sizes::default());
    loop {
        let status = call(&mut out, &mut message, &mut sizes);
        let (outs, lines) = (sizes.output as usize, sizes.message as usize);
        if outs <= out.len() && lines <= message.len() {
            out.truncate(outs);
            message.truncate(lines);
            return Answer { status, output: out, message: String::from_utf8_lossy(&message).into_owned() };
        }
        out.resize(out.len().max(outs), 0);
        message.resize(message.len().max(lines), 0);
    }
}

/// The files as the library takes them: all texts, and their lengths.
fn given(files: &[(&str, &[u8])]) -> (Vec<u8>, Vec<File>) {
    let texts = files.iter().flat_map(|(name, bytes)| name.bytes().chain(bytes.iter().copied())).collect();
    (texts, files.iter().map(|(name, bytes)| File { name: name.len() as u64, bytes: bytes.len() as u64 }).collect())
}

fn over(call: Over, files: &[(&str, &[u8])], main: &str) -> Answer {
    let (texts, lengths) = given(files);
    with_room(|out, message, sizes| unsafe {
        call(texts.as_ptr(), texts.len(), lengths.as_ptr(), lengths.len(), main.as_ptr(), main.len(),
            out.as_mut_ptr(), out.len(), message.as_mut_ptr(), message.len(), sizes)
    })
}

fn over_stack(call: OverStack, files: &[(&str, &[u8])], main: &str, stack: u32) -> Answer {
    let (texts, lengths) = given(files);
    with_room(|out, message, sizes| unsafe {
        call(texts.as_ptr(), texts.len(), lengths.as_ptr(), lengths.len(), main.as_ptr(), main.len(), stack,
            out.as_mut_ptr(), out.len(), message.as_mut_ptr(), message.len(), sizes)
    })
}

/// The executable file of the program in the file `main`, with a stack of so many bytes, a multiple of 4,096 up to 16,777,216.
pub fn build_with(files: &[(&str, &[u8])], main: &str, stack: u32) -> Answer {
    over_stack(zk_build_with, files, main, stack)
}

/// The functions of that program, with addresses, sizes, frames, weights, calls and lines, and its objects, as JSON.
pub fn functions(files: &[(&str, &[u8])], main: &str, stack: u32) -> Answer {
    over_stack(zk_functions, files, main, stack)
}

/// The warnings of that program as JSON, an object a line.
pub fn warnings(files: &[(&str, &[u8])], main: &str, stack: u32) -> Answer {
    over_stack(zk_warn, files, main, stack)
}

/// Whether that program does anything undefined, on any input, and how much of its stack it takes: status 0 where it is defined and the stack suffices, 3 where that was not
/// shown, with the places and the verdict as JSON, an object a line.
pub fn verify(files: &[(&str, &[u8])], main: &str, stack: u32) -> Answer {
    over_stack(zk_verify, files, main, stack)
}

/// Why that program is refused, as JSON, an object a fault; nothing where it is not.
pub fn explain(files: &[(&str, &[u8])], main: &str, stack: u32) -> Answer {
    over_stack(zk_explain, files, main, stack)
}

/// What a run of that program does undefined, within at most `max` ticks, as JSON: the values that make it undefined, and the calls that are active there; nothing where it
/// does nothing undefined.
pub fn explain_run(files: &[(&str, &[u8])], main: &str, input: &[u8], max: u64) -> Answer {
    let (texts, lengths) = given(files);
    with_room(|out, message, sizes| unsafe {
        zk_explain_run(texts.as_ptr(), texts.len(), lengths.as_ptr(), lengths.len(), main.as_ptr(), main.len(), input.as_ptr(), input.len(), max,
            out.as_mut_ptr(), out.len(), message.as_mut_ptr(), message.len(), sizes)
    })
}

/// How the bytes that a file loads are written.
#[derive(Clone, Copy, Debug, PartialEq, Eq)]
pub enum Image {
    Binary,
    Intel,
    Verilog,
}

/// The bytes that an executable file of this name loads.
pub fn image(file: &[u8], name: &str, form: Image) -> Answer {
    with_room(|out, message, sizes| unsafe {
        zk_image(file.as_ptr(), file.len(), name.as_ptr(), name.len(), form as u32, out.as_mut_ptr(), out.len(), message.as_mut_ptr(), message.len(), sizes)
    })
}

/// The executable file of the program in the file `main`.
pub fn build(files: &[(&str, &[u8])], main: &str) -> Answer {
    over(zk_build, files, main)
}

/// A line for each function: its name, the bytes of its frame, its weight.
pub fn frames(files: &[(&str, &[u8])], main: &str) -> Answer {
    over(zk_frames, files, main)
}

/// The tokens after preprocessing.
pub fn preprocess(files: &[(&str, &[u8])], main: &str) -> Answer {
    over(zk_preprocess, files, main)
}

/// The listing of the code.
pub fn list(files: &[(&str, &[u8])], main: &str) -> Answer {
    over(zk_list, files, main)
}

/// A form that the compiler makes of a program between its phases.
#[derive(Clone, Copy, Debug, PartialEq, Eq)]
pub enum Form {
    Tokens,
    Tree,
    Typed,
    Tac,
    Flat,
    Items,
}

/// A form of the program as JSON.
pub fn form(files: &[(&str, &[u8])], main: &str, form: Form) -> Answer {
    let (texts, lengths) = given(files);
    with_room(|out, message, sizes| unsafe {
        zk_form(texts.as_ptr(), texts.len(), lengths.as_ptr(), lengths.len(), main.as_ptr(), main.len(), form as u32,
            out.as_mut_ptr(), out.len(), message.as_mut_ptr(), message.len(), sizes)
    })
}

/// What the program means over this input, for at most `max` ticks.
pub fn interpret(files: &[(&str, &[u8])], main: &str, input: &[u8], max: u64) -> Answer {
    let (texts, lengths) = given(files);
    with_room(|out, message, sizes| unsafe {
        zk_interpret(texts.as_ptr(), texts.len(), lengths.as_ptr(), lengths.len(), main.as_ptr(), main.len(), input.as_ptr(), input.len(), max,
            out.as_mut_ptr(), out.len(), message.as_mut_ptr(), message.len(), sizes)
    })
}

/// The status of a traced run that wants more input than it was given.
pub const WAITS: u32 = 257;

/// The same run told as JSON lines, from the tick `from` on. Where the input is open, a read behind it is answered by the status `WAITS`.
pub fn trace(files: &[(&str, &[u8])], main: &str, input: &[u8], is_open: bool, max: u64, from: u64) -> Answer {
    let (texts, lengths) = given(files);
    with_room(|out, message, sizes| unsafe {
        zk_trace(texts.as_ptr(), texts.len(), lengths.as_ptr(), lengths.len(), main.as_ptr(), main.len(), input.as_ptr(), input.len(),
            u32::from(is_open), max, from, out.as_mut_ptr(), out.len(), message.as_mut_ptr(), message.len(), sizes)
    })
}

/// Runs an executable file of this name over this input, for at most `max` instructions.
pub fn run(file: &[u8], name: &str, input: &[u8], max: u64) -> Answer {
    with_room(|out, message, sizes| unsafe {
        zk_run(file.as_ptr(), file.len(), name.as_ptr(), name.len(), input.as_ptr(), input.len(), max,
            out.as_mut_ptr(), out.len(), message.as_mut_ptr(), message.len(), sizes)
    })
}

/// How a machine stands.
#[derive(Clone, Copy, Debug, PartialEq, Eq)]
pub enum Outcome {
    GoesOn,
    /// It ended with this status.
    Ended(u32),
    /// It trapped for the cause with this number (`zikorape.h`).
    Trapped(u32),
    /// Memory ran out for the output.
    OutOfMemory,
    /// The file is not loaded, for the fault with this code.
    NotLoaded(u32),
}

/// A machine after some instructions.
#[derive(Clone, Debug, PartialEq, Eq)]
pub struct Machine {
    pub outcome: Outcome,
    pub pc: u32,
    pub registers: [u32; 32],
    /// How many instructions it took, with that at which it stopped.
    pub steps: u64,
    /// The bytes of its memory, 0 for each that can't be read.
    pub window: Vec<u8>,
    pub output: Vec<u8>,
}

/// Where a run is to halt: before the instruction at an address, once it has done so many.
#[derive(Clone, Copy, Debug, PartialEq, Eq)]
pub struct Halt {
    pub after: u64,
    pub at: u32,
}

/// No instruction stands at an odd address.
pub const NEVER: Halt = Halt { after: 0, at: 1 };

/// The machine after `count` instructions, or where it is to halt; with `length` bytes of its memory from the address `from` on.
pub fn step(file: &[u8], input: &[u8], count: u64, halt: Halt, from: u32, length: usize) -> Machine {
    let (mut window, mut out, mut seen) = (vec![0; length], vec![0; 1 << 16], Seen::default());
    loop {
        let number = unsafe {
            zk_step(file.as_ptr(), file.len(), input.as_ptr(), input.len(), count, halt.after, halt.at, from,
                window.as_mut_ptr(), window.len(), out.as_mut_ptr(), out.len(), &mut seen)
        };
        let outs = seen.output as usize;
        if outs > out.len() {
            out.resize(outs, 0);
            continue;
        }
        out.truncate(outs);
        let outcome = match number {
            0 => Outcome::GoesOn,
            1 => Outcome::Ended(seen.detail),
            2 => Outcome::Trapped(seen.detail),
            3 => Outcome::OutOfMemory,
            _ => Outcome::NotLoaded(seen.detail),
        };
        return Machine { outcome, pc: seen.pc, registers: seen.registers, steps: seen.steps, window, output: out };
    }
}

/// What a run of a kept machine came to.
#[derive(Clone, Copy, Debug, PartialEq, Eq)]
pub enum Ran {
    GoesOn,
    /// It ended with this status.
    Ended(u32),
    /// It trapped for the cause with this number (`zikorape.h`).
    Trapped(u32),
    /// Memory ran out for the output.
    OutOfMemory,
    /// It reads, and the input that was given is used up and not closed.
    WantsInput,
}

/// Where a machine stood.
#[derive(Clone, Debug, PartialEq, Eq)]
pub struct Snapshot {
    steps: u64,
    given: Vec<u8>,
    closed: bool,
    taken: usize,
}

/// A machine that is kept: it runs in slices, takes input while it runs, shows itself, and goes back to where it stood.
///
/// ```no_run
/// # let elf = [];
/// let mut machine = zikorape::KeptMachine::new(&elf).unwrap();
/// while machine.run(1000) == zikorape::Ran::GoesOn {
///     println!("{} {:#x}", machine.steps(), machine.pc());
/// }
/// ```
///
/// It stays on its thread.
pub struct KeptMachine {
    memory: Vec<u128>,
    given: Vec<u8>,
    closed: bool,
    taken: usize,
    here: std::marker::PhantomData<*mut u8>,
}

impl KeptMachine {
    /// A machine before the first instruction of the file; or the code for which the file is not loaded.
    pub fn new(file: &[u8]) -> Result<Self, u32> {
        let size = unsafe { zk_machine_size() } as usize;
        let mut machine =
            KeptMachine { memory: vec![0; size.div_ceil(16)], given: Vec::new(), closed: false, taken: 0, here: std::marker::PhantomData };
        unsafe { zk_machine_place(machine.memory.as_mut_ptr().cast()) };
        for byte in file {
            machine.must(0, u64::from(*byte))?;
        }
        machine.must(1, 0)?;
        Ok(machine)
    }

    fn ask(&mut self, number: u32, a: u64, b: u64) -> u64 {
        unsafe { zk_machine_ask(self.memory.as_mut_ptr().cast(), number, a, b) }
    }

    fn must(&mut self, number: u32, a: u64) -> Result<(), u32> {
        match self.ask(number, a, 0) as u32 {
            0 => Ok(()),
            code => Err(code),
        }
    }

    /// At most `max` instructions more.
    pub fn run(&mut self, max: u64) -> Ran {
        self.run_to(max, 1)
    }

    /// The same, or, after one, to where the instruction at the address `halt` is next.
    pub fn run_to(&mut self, max: u64, halt: u32) -> Ran {
        match self.ask(4, max, u64::from(halt)) {
            0 => Ran::GoesOn,
            1 => Ran::Ended(self.ask(5, 0, 0) as u32),
            2 => Ran::Trapped(self.ask(5, 0, 0) as u32),
            3 => Ran::OutOfMemory,
            _ => Ran::WantsInput,
        }
    }

    /// How many instructions it took.
    pub fn steps(&mut self) -> u64 {
        self.ask(6, 0, 0)
    }

    /// The address of the instruction that is next.
    pub fn pc(&mut self) -> u32 {
        self.ask(8, 32, 0) as u32
    }

    pub fn registers(&mut self) -> [u32; 32] {
        std::array::from_fn(|k| self.ask(8, k as u64, 0) as u32)
    }

    /// Bytes of its memory, 0 for each that the program can't read.
    pub fn read(&mut self, from: u32, length: usize) -> Vec<u8> {
        (0..length).map(|k| self.ask(10, u64::from(from) + k as u64, 0) as u8).collect()
    }

    /// Outside the theorem: sets bytes, where the program may write them; answers how many were set.
    pub fn write(&mut self, from: u32, bytes: &[u8]) -> usize {
        bytes.iter().enumerate().map(|(k, byte)| self.ask(11, u64::from(from) + k as u64, u64::from(*byte)) as usize).sum()
    }

    /// Outside the theorem: sets a register, or the pc by 32; answers whether there is such a one.
    pub fn set_register(&mut self, number: u32, value: u32) -> bool {
        self.ask(9, u64::from(number), u64::from(value)) == 0
    }

    /// Gives input; answers how many bytes it took: fewer where the input is closed or memory runs out.
    pub fn input(&mut self, bytes: &[u8]) -> usize {
        for (k, byte) in bytes.iter().enumerate() {
            if self.ask(2, u64::from(*byte), 0) != 0 {
                return k;
            }
            self.given.push(*byte);
        }
        bytes.len()
    }

    /// The input ends here: a program that reads on is told so, and does not wait.
    pub fn close_input(&mut self) {
        self.ask(3, 0, 0);
        self.closed = true;
    }

    /// What it has put since the last call.
    pub fn output(&mut self) -> Vec<u8> {
        let found: Vec<u8> = std::iter::from_fn(|| u8::try_from(self.ask(7, 0, 0)).ok()).collect();
        self.taken += found.len();
        found
    }

    /// At most `max` instructions more, with input and output by a reader and a writer. What was put is written before more is read, and at the latest after
    /// 65,536 instructions. Read errors end the run as `Err`; the machine stands where it stood, and goes on in the next call.
    pub fn serve(&mut self, input: &mut impl Read, output: &mut impl Write, max: u64) -> io::Result<Ran> {
        let last = self.steps().saturating_add(max);
        loop {
            let left = last - self.steps();
            let ran = self.run(left.min(1 << 16));
            output.write_all(&self.output())?;
            match ran {
                Ran::WantsInput => {
                    output.flush()?;
                    self.give(input)?;
                }
                Ran::GoesOn if self.steps() < last => {}
                _ => return output.flush().map(|()| ran),
            }
        }
    }

    /// Gives a byte of a reader, or the end of the input.
    fn give(&mut self, input: &mut impl Read) -> io::Result<()> {
        let mut byte = [0];
        match input.read(&mut byte) {
            Ok(0) => self.close_input(),
            Ok(_) if self.input(&byte) == 1 => {}
            Ok(_) => return Err(io::ErrorKind::OutOfMemory.into()),
            Err(error) if error.kind() == io::ErrorKind::Interrupted => {}
            Err(error) => return Err(error),
        }
        Ok(())
    }

    /// Where it stands. What was set by `write` and `set_register` is no part of it.
    pub fn snapshot(&mut self) -> Snapshot {
        Snapshot { steps: self.steps(), given: self.given.clone(), closed: self.closed, taken: self.taken }
    }

    /// Stands there again, by a run from the start over what had been given. The error is 801, out of memory.
    pub fn restore(&mut self, snapshot: &Snapshot) -> Result<(), u32> {
        self.must(1, 0)?;
        self.given.clear();
        self.closed = false;
        self.taken = 0;
        if self.input(&snapshot.given) < snapshot.given.len() {
            return Err(801);
        }
        if snapshot.closed {
            self.close_input();
        }
        self.run(snapshot.steps);
        if self.steps() != snapshot.steps {
            return Err(801);
        }
        while self.taken < snapshot.taken && self.ask(7, 0, 0) < 256 {
            self.taken += 1;
        }
        Ok(())
    }
}

impl Drop for KeptMachine {
    fn drop(&mut self) {
        unsafe { zk_machine_clear(self.memory.as_mut_ptr().cast()) }
    }
}

/// How a run of the interpreter stands.
#[derive(Clone, Debug, PartialEq, Eq)]
pub enum Stands {
    GoesOn,
    /// It ended with this status.
    Ended(u32),
    /// It did something undefined: `FILE:LINE: undefined U`n.
    Undefined(String),
    /// Memory ran out.
    OutOfMemory,
    /// It reads, and the input that was given is used up and not closed.
    WantsInput,
}

/// A run of the interpreter that is kept: it goes on by ticks, and tells what it does. A copy of it is a snapshot.
///
/// What is kept is the input and how much was told; the run is done from the start in each call, so calls that go further by doubling cost a run.
#[derive(Clone)]
pub struct Interpreter {
    files: Vec<(String, Vec<u8>)>,
    main: String,
    given: Vec<u8>,
    closed: bool,
    // The ticks that the next slice is told from, and that it goes to at least; how much of it was told before it wanted input.
    from: u64,
    least: u64,
    told: usize,
    stands: Stands,
}

impl Interpreter {
    /// A run before its first tick.
    pub fn new(files: &[(&str, &[u8])], main: &str) -> Self {
        Interpreter {
            files: files.iter().map(|(name, text)| (name.to_string(), text.to_vec())).collect(),
            main: main.to_string(),
            given: Vec::new(),
            closed: false,
            from: 0,
            least: 0,
            told: 0,
            stands: Stands::GoesOn,
        }
    }

    /// How it stands.
    pub fn stands(&self) -> &Stands {
        &self.stands
    }

    /// Gives input, in vain where it is closed.
    pub fn input(&mut self, bytes: &[u8]) {
        if !self.closed {
            self.given.extend_from_slice(bytes);
        }
    }

    /// The input ends here.
    pub fn close_input(&mut self) {
        self.closed = true;
    }

    /// Goes on to the tick `until`, counted from the start. Answers what that tells: JSON lines, of each statement, value, call and byte. The error is why the program
    /// is refused.
    pub fn run(&mut self, until: u64) -> Result<String, Error> {
        let until = until.max(self.least);
        if !matches!(self.stands, Stands::GoesOn | Stands::WantsInput) || until < self.from {
            return Ok(String::new());
        }
        let files: Vec<(&str, &[u8])> = self.files.iter().map(|(name, text)| (name.as_str(), text.as_slice())).collect();
        let answer = trace(&files, &self.main, &self.given, !self.closed, until, self.from).check()?;
        let lines = String::from_utf8_lossy(answer.output.get(self.told..).unwrap_or_default()).into_owned();
        self.least = 0;
        self.told = 0;
        self.stands = match (answer.status, answer.message.is_empty()) {
            (WAITS, _) => {
                self.least = until;
                self.told = answer.output.len();
                Stands::WantsInput
            }
            (status, true) => Stands::Ended(status),
            (124, _) => {
                self.from = until.saturating_add(1);
                Stands::GoesOn
            }
            (123, _) => Stands::Undefined(answer.message.trim_end().to_string()),
            _ => Stands::OutOfMemory,
        };
        Ok(lines)
    }
}

fn text(call: impl Fn(&mut [u8]) -> u64) -> String {
    let mut out = [0; 256];
    let length = call(&mut out) as usize;
    String::from_utf8_lossy(&out[..length.min(256)]).into_owned()
}

/// The text of the fault with this code; empty where there is none.
pub fn message(code: u16) -> String {
    text(|out| unsafe { zk_message(code, out.as_mut_ptr(), out.len()) })
}

/// The version.
pub fn version() -> String {
    text(|out| unsafe { zk_version(out.as_mut_ptr(), out.len()) })
}
