/** A text: a string stands for its UTF-8. */
export type Text = string | Uint8Array;
/** Files, each with its name and its text. */
export type Files = ReadonlyArray<readonly [name: string, text: Text]>;

/** A status as of the program zkc (256: no files, or no such form), an output, and the line of a fault or of why a program stopped. */
export interface Answer {
  status: number;
  output: Uint8Array;
  message: string;
}

/** A machine after some instructions. `outcome`: 0 it goes on, 1 it ended, 2 it trapped, 3 memory ran out, 4 the file is not loaded. */
export interface Machine {
  outcome: number;
  detail: number;
  pc: number;
  registers: number[];
  steps: number;
  window: Uint8Array;
  output: Uint8Array;
}

/** Where a kept machine stood. */
export interface Snapshot {
  readonly steps: number;
  readonly given: readonly number[];
  readonly closed: boolean;
  readonly taken: number;
}

/** A machine that is kept. A run answers 0 where it goes on, 1 it ended, 2 it trapped, 3 memory ran out for the output, 5 it wants input. */
export interface KeptMachine {
  run(max?: number, to?: number): number;
  step(): number;
  /** The status, or the number of the cause. */
  detail(): number;
  steps(): number;
  pc(): number;
  registers(): number[];
  read(from: number, length: number): Uint8Array;
  /** Outside the theorem. */
  write(from: number, bytes: Iterable<number>): number;
  /** Outside the theorem; 32 is the pc. */
  setRegister(number: number, value: number): boolean;
  input(text: Text): void;
  closeInput(): void;
  output(): Uint8Array;
  snapshot(): Snapshot;
  restore(snapshot: Snapshot): void;
  free(): void;
}

export interface Library {
  build(files: Files, main: string): Answer;
  /** With a stack of so many bytes, a multiple of 4,096 up to 16,777,216. */
  buildWith(files: Files, main: string, stack: number): Answer;
  /** JSON: functions with addresses, sizes, frames, weights, calls and lines, and objects. */
  functions(files: Files, main: string, stack?: number): Answer;
  /** The bytes that a file loads: 0 as they are, 1 Intel's hexadecimal records, 2 for Verilog. */
  image(file: Uint8Array, form?: number, name?: string): Answer;
  frames(files: Files, main: string): Answer;
  preprocess(files: Files, main: string): Answer;
  list(files: Files, main: string): Answer;
  /** JSON: 0 tokens, 1 syntax tree, 2 typed program, 3 three-address code, 4 flat code, 5 the items that the file is assembled from, 6 flat code after each of its passes. */
  form(files: Files, main: string, form: number): Answer;
  interpret(files: Files, main: string, input?: Text, max?: number): Answer;
  /** The same run as JSON lines, from the tick `from` on; where the input is open (1), a read behind it is answered by the status 257. */
  trace(files: Files, main: string, input?: Text, isOpen?: 0 | 1, max?: number, from?: number): Answer;
  run(file: Uint8Array, name: string, input?: Text, max?: number): Answer;
  step(file: Uint8Array, input: Text, count: number, after: number, halt: number, from: number, length: number): Machine;
  /** Throws where the file is not loaded. */
  machine(file: Uint8Array): KeptMachine;
  message(code: number): string;
  version(): string;
  memory(): number;
}

/** What `serve` asks for input, and gives output to. */
export interface Service {
  /** A text; an empty one at the end of the input; null where there is none yet. */
  get?: () => Text | null;
  put?: (bytes: Uint8Array) => void;
  max?: number;
  slice?: number;
}

/** At most `max` instructions more of a machine, with input and output by functions. Answers as `run` does. */
export function serve(machine: KeptMachine, service?: Service): number;

/** What a run of the interpreter did: the events of `zkc interp --trace --json`. */
export type Event =
  | { event: 'enter'; function: string }
  | { event: 'statement'; file: string; line: number }
  | { event: 'set'; name: string; path: number[]; value: number }
  | { event: 'further'; name: string }
  | { event: 'leave'; function: string; value: number | null }
  | { event: 'put'; byte: number }
  | { event: 'get'; byte: number | null };

/** A run of the interpreter that is kept. */
export class Interpreter {
  constructor(zk: Library, files: Files, main: string);
  /** 0 it goes on, 1 it ended, 2 it did something undefined, 3 memory ran out, 4 the program is refused, 5 it wants input. */
  readonly outcome: number;
  /** The status. */
  readonly detail: number;
  /** What was undefined and where, or the fault. */
  readonly message: string;
  input(text: Text): void;
  closeInput(): void;
  /** Goes on to the tick `until`, counted from the start. */
  run(until?: number): Event[];
  /** The same with input and output by functions, as `serve` of a machine; `observe` is called with each event. */
  serve(service?: { get?: () => Text | null; put?: (bytes: Uint8Array) => void; observe?: (event: Event) => void; until?: number }): number;
  snapshot(): Place;
  restore(place: Place): void;
}

/** Where a run of the interpreter stood. */
export interface Place {
  readonly from: number;
  readonly least: number;
  readonly told: number;
  readonly given: readonly number[];
  readonly closed: boolean;
  readonly outcome: number;
  readonly detail: number;
  readonly message: string;
}

/** Why a program is refused, and its warnings, as JSON, an object a line. */
export interface Diagnostics {
  explain(files: Files, main: string, stack?: number): Answer;
  warn(files: Files, main: string, stack?: number): Answer;
  message(code: number): string;
  version(): string;
  memory(): number;
}

/** Whether a program does anything undefined, on any input (status 0 or 3) or in a run (123), with the places or the act as JSON. */
export interface Analysis {
  verify(files: Files, main: string, stack?: number): Answer;
  explainRun(files: Files, main: string, input?: Text, max?: number): Answer;
  trace(files: Files, main: string, input?: Text, isOpen?: 0 | 1, max?: number, from?: number): Answer;
  message(code: number): string;
  version(): string;
  memory(): number;
}

export function load(at?: URL | string): Promise<Library>;
export function loadDiagnostics(at?: URL | string): Promise<Diagnostics>;
export function loadAnalysis(at?: URL | string): Promise<Analysis>;
export function compile(bytes: BufferSource): WebAssembly.Module;
export function open(module: WebAssembly.Module): Library;
