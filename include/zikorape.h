/* Zikorape as a library: a C compiler for RISC-V RV32IM, its simulator and its interpreter. Link libzikorape.a; of
   the C library it calls malloc, realloc, free and the copying of memory, nothing else.

   Each call takes numbers and slices of bytes, keeps nothing between calls, and may be made from several threads at once.
   A slice is a pointer and a length; a pointer is never null, also where the length is 0, and no two slices that a call
   writes overlap each other or one that it reads. Nothing else is asked of the caller.

   FILES. A call over source files takes `texts`: the name of each file and its bytes, one after another, with nothing
   between; and `files`: of each, how long these are. `main` is the name of the main file. A name has 1 to 255 printable
   ASCII bytes without " \ < >, a file at most 1,048,576 bytes, a set at most 256 files.

   ANSWERS. A call fills `out` and `message` as far as there is room, leaves what is behind, and tells in `sizes` how long
   the output and the message are: a buffer of fewer bytes was too small, and one of so many is large enough. A message is
   one line with a newline, or empty; neither has a zero at its end.
   After status 1 or 256 of zk_build, zk_frames, zk_preprocess, zk_list and zk_form the output is empty, and `out` is as it was. The output of
   zk_interpret and zk_run is what the program has put, whatever the status: nothing, where it did not begin.

   STATUS, as of the program zkc:
     0    done; zk_interpret and zk_run: the program's own status, 0 to 255
     1    a fault, which the message tells: FILE:LINE: CODE TEXT (docs/DIAGNOSTICS.md), or cc: 801 out of memory
     123  zk_interpret, zk_trace, zk_explain_run: an undefined act; the message tells which, and where
     124  zk_interpret, zk_trace, zk_explain_run, zk_run: the program goes on after so many ticks or instructions
     125  zk_run: a trap; the message tells which, and where
     126  zk_interpret, zk_trace, zk_run: memory ran out for the output
     256  the lengths of `files` do not add up to that of `texts`; zk_form: there is no such form
     257  zk_trace: it wants more input than it was given
   A program can end with any status from 0 to 255; where it ended by itself, the message is empty.

   STACK. A call takes up to 2.25 MiB of its thread's stack, for a source of depth 256. A thread of glibc has 8 MiB by default; those
   of musl have 128 KiB, and of macOS, but for the first, 512 KiB, which is too small. */
#ifndef ZIKORAPE_H
#define ZIKORAPE_H
#include <stddef.h>
#include <stdint.h>
#ifdef __cplusplus
extern "C" {
#endif

/* How long a file's name is and how long its text, in bytes. */
struct zk_file { uint64_t name, bytes; };

/* How many bytes the output and the message of a call have. */
struct zk_sizes { uint64_t output, message; };

/* The executable file (ELF32) of the program: `out`. */
uint32_t zk_build(const uint8_t *texts, size_t texts_length, const struct zk_file *files, size_t files_length,
                  const uint8_t *main, size_t main_length,
                  uint8_t *out, size_t out_length, uint8_t *message, size_t message_length, struct zk_sizes *sizes);

/* The same with a stack of so many bytes, a multiple of 4,096 from 4,096 to 16,777,216 (zk_build: 1,048,576); with another number the
   status is 256. So it is for zk_functions, zk_warn, zk_verify and zk_explain. */
uint32_t zk_build_with(const uint8_t *texts, size_t texts_length, const struct zk_file *files, size_t files_length,
                       const uint8_t *main, size_t main_length, uint32_t stack,
                       uint8_t *out, size_t out_length, uint8_t *message, size_t message_length, struct zk_sizes *sizes);

/* The functions of the program, in order, and its objects with static storage, by their addresses, as JSON: { "functions": [{ "name", "address",
   "size", "frame", "weight", "calls": [names], "file", "line", "lines": [{ "file", "line", "address" }] }], "objects": [{ "name", which a string
   literal has not, "address", "size" }] }; sizes, frames and weights are bytes. The file and the line are those of the function's name; its lines begin
   with that one, at its first instruction, and go on with those of its statements, in the order of their code. Of several at one address those before the
   last have no code. */
uint32_t zk_functions(const uint8_t *texts, size_t texts_length, const struct zk_file *files, size_t files_length,
                      const uint8_t *main, size_t main_length, uint32_t stack,
                      uint8_t *out, size_t out_length, uint8_t *message, size_t message_length, struct zk_sizes *sizes);

/* The warnings of the program, as JSON, an object a line: those that `zkc check --json` tells. A program that is refused has its fault. */
uint32_t zk_warn(const uint8_t *texts, size_t texts_length, const struct zk_file *files, size_t files_length,
                 const uint8_t *main, size_t main_length, uint32_t stack,
                 uint8_t *out, size_t out_length, uint8_t *message, size_t message_length, struct zk_sizes *sizes);

/* Whether the program does anything undefined, on any input, and how much of its stack it takes: the status is 0 where it is defined and the stack
   suffices, and 3 where that was not shown; with the places and the verdict as JSON, an object a line, as `zkc verify --json` tells them. A program that is refused has its fault. */
uint32_t zk_verify(const uint8_t *texts, size_t texts_length, const struct zk_file *files, size_t files_length,
                   const uint8_t *main, size_t main_length, uint32_t stack,
                   uint8_t *out, size_t out_length, uint8_t *message, size_t message_length, struct zk_sizes *sizes);

/* Why the program is refused, as JSON, an object a fault: those that `zkc explain build --json` tells, the one that zk_build answers first, at most
   20. The status is 0, also where the program is not refused and the text is empty. */
uint32_t zk_explain(const uint8_t *texts, size_t texts_length, const struct zk_file *files, size_t files_length,
                    const uint8_t *main, size_t main_length, uint32_t stack,
                    uint8_t *out, size_t out_length, uint8_t *message, size_t message_length, struct zk_sizes *sizes);

/* What the program does undefined over this input, within at most `max` ticks of the abstract machine, as JSON: the object that `zkc explain interp --json` tells,
   with the values that make the act undefined, and the calls that are active there. The status and the message are those of zk_interpret; the output is empty
   where the run does nothing undefined, and so is the message where it does. */
uint32_t zk_explain_run(const uint8_t *texts, size_t texts_length, const struct zk_file *files, size_t files_length,
                        const uint8_t *main, size_t main_length, const uint8_t *input, size_t input_length, uint64_t max,
                        uint8_t *out, size_t out_length, uint8_t *message, size_t message_length, struct zk_sizes *sizes);

/* The bytes that an executable file, which a message calls by this name, loads: `form` 0 as they are from the first to the last, 1 as Intel's
   hexadecimal records, 2 as Verilog's $readmemh reads them; with another number the status is 256. */
uint32_t zk_image(const uint8_t *file, size_t file_length, const uint8_t *name, size_t name_length, uint32_t form,
                  uint8_t *out, size_t out_length, uint8_t *message, size_t message_length, struct zk_sizes *sizes);

/* A line for each function, in order: its name, the bytes of its frame on the stack, and its weight, a bound on these that the
   source alone gives; one space between. */
uint32_t zk_frames(const uint8_t *texts, size_t texts_length, const struct zk_file *files, size_t files_length,
                   const uint8_t *main, size_t main_length,
                   uint8_t *out, size_t out_length, uint8_t *message, size_t message_length, struct zk_sizes *sizes);

/* The tokens after preprocessing, one space between, and a newline. With their places: form 0 of zk_form. */
uint32_t zk_preprocess(const uint8_t *texts, size_t texts_length, const struct zk_file *files, size_t files_length,
                       const uint8_t *main, size_t main_length,
                       uint8_t *out, size_t out_length, uint8_t *message, size_t message_length, struct zk_sizes *sizes);

/* A line for each word of the program's code: its address, the word, the instruction. */
uint32_t zk_list(const uint8_t *texts, size_t texts_length, const struct zk_file *files, size_t files_length,
                 const uint8_t *main, size_t main_length,
                 uint8_t *out, size_t out_length, uint8_t *message, size_t message_length, struct zk_sizes *sizes);

/* A form that the compiler makes of the program between its phases, as JSON: a node is an object with `node` (its kind), attributes, `file` and `line`
   where it has a place, and `parts`. `form`: 0 the tokens after preprocessing, 1 the syntax tree, 2 the typed program, 3 three-address code,
   4 flat code, 5 the items that the file is assembled from, 6 flat code after each of its passes; with another number the status is 256. */
uint32_t zk_form(const uint8_t *texts, size_t texts_length, const struct zk_file *files, size_t files_length,
                 const uint8_t *main, size_t main_length, uint32_t form,
                 uint8_t *out, size_t out_length, uint8_t *message, size_t message_length, struct zk_sizes *sizes);

/* What the program means, over this input, for at most `max` ticks of the abstract machine; the output is what it has put. */
uint32_t zk_interpret(const uint8_t *texts, size_t texts_length, const struct zk_file *files, size_t files_length,
                      const uint8_t *main, size_t main_length, const uint8_t *input, size_t input_length, uint64_t max,
                      uint8_t *out, size_t out_length, uint8_t *message, size_t message_length, struct zk_sizes *sizes);

/* The same run, told: JSON lines, as `zkc interp --trace --json` writes them (docs/TOOLS.md), of each statement, each object that gets a value, each function
   that is entered and left, each byte that is got and put. `max` counts ticks from the start; what comes before the tick `from` is left out, and 0 leaves
   out nothing. The status is that of zk_interpret, and the output is as far as the run came. Where `is_open` is not 0, the input may go on: a read behind
   it is answered by 257, and the run waits.
   Nothing is kept between calls. After 124 the next slice is from `max` + 1 to a greater `max`; after 257 the same slice over more input begins with
   the lines that this one had. Each call runs from the start, and a tick that is not told costs about what one of zk_interpret does. */
uint32_t zk_trace(const uint8_t *texts, size_t texts_length, const struct zk_file *files, size_t files_length,
                  const uint8_t *main, size_t main_length, const uint8_t *input, size_t input_length,
                  uint32_t is_open, uint64_t max, uint64_t from,
                  uint8_t *out, size_t out_length, uint8_t *message, size_t message_length, struct zk_sizes *sizes);

/* Runs an executable file, which a message calls by this name, over this input, for at most `max` instructions; the output is
   what it has put. */
uint32_t zk_run(const uint8_t *file, size_t file_length, const uint8_t *name, size_t name_length,
                const uint8_t *input, size_t input_length, uint64_t max,
                uint8_t *out, size_t out_length, uint8_t *message, size_t message_length, struct zk_sizes *sizes);

/* A machine after some instructions. `detail`: the status with which it ended; why it trapped (1 illegal word, 2 fetch fault, 3 target
   of a jump, 4 misaligned address, 5 load fault, 6 store fault, 7 break, 8 unknown call); the code for which the file is not loaded
   (801, 901 to 907); else 0. `pc`: the address of the instruction that is next, or at which it stopped. `steps`: how many instructions
   it took, with that at which it ended or trapped. `output`: how many bytes it has put; `out` was too small where it has fewer. */
struct zk_machine { uint32_t detail, pc, registers[32]; uint64_t steps, output; };

/* Runs an executable file from its start for `count` instructions, or to where it stops before, or, once it has done `after`, to where
   the instruction at the address `halt` is next (none stands at an odd one); and shows the machine there: `window` gets the bytes
   of its memory from the address `from` on, 0 for each that the program can't read, as its own code. Answers 0 where it goes on,
   1 where it ended, 2 where it trapped, 3 where memory ran out for the output, 4 where the file is not loaded: then `detail` and
   `output` alone are set, the window and `out` are as they were, and nothing was put. */
uint32_t zk_step(const uint8_t *file, size_t file_length, const uint8_t *input, size_t input_length,
                 uint64_t count, uint64_t after, uint32_t halt, uint32_t from, uint8_t *window, size_t window_length,
                 uint8_t *out, size_t out_length, struct zk_machine *machine);

/* A machine that is kept. It lives in the caller's memory: zk_machine_size tells how many bytes it takes, at an address that is a
   multiple of 16. Place it there before all else, and clear it before the memory goes; between, nobody else writes there, and it does
   not move. A machine is asked by one thread at a time, and many machines by many. zikorape_machine.h has a function for each question.

   zk_machine_ask asks what has this number, and answers:
     ZK_FILE a          one byte more of its file: 0, or 801
     ZK_LOAD            it stands before the first instruction of its file, without input and output: 0, or the code for which the file is
                        not loaded (801, 901 to 907): then it is as it was
     ZK_INPUT a         one byte more of the input: 0; 1 where the input is closed; 801
     ZK_CLOSE           the input has its end here: 0
     ZK_RUN a b         at most a instructions, or, after one, to where that at the address b is next (none is at an odd one): 0 it goes
                        on, 1 it ended, 2 it trapped, 3 memory ran out for the output, 5 it wants input. After 1 and 2 it answers the same
                        again; after 3 and 5 it stands before the call that was refused, and asks again.
     ZK_DETAIL          the status with which it ended, or the number of why it trapped; else 0
     ZK_STEPS           how many instructions it took, with that at which it ended or trapped
     ZK_OUTPUT          the next byte of the output that was not taken; 256 where there is none
     ZK_REGISTER a      the register a; the pc for 32
     ZK_READ a          the byte at the address a, 0 where the program can't read it
     ZK_SET_REGISTER a b, ZK_WRITE a b   outside the theorem, for faults that are put in: the register a, or the pc, is b: 0, or 1 where there
                        is none; the byte at the address a is b, where the program may write it: 1, else 0. What the machine then does is
                        what such a machine does, and says nothing of the program.
     another number     256
   A byte is its low 8 bits, a value its low 32; where it answers 801 it is as it was. */
enum { ZK_FILE, ZK_LOAD, ZK_INPUT, ZK_CLOSE, ZK_RUN, ZK_DETAIL, ZK_STEPS, ZK_OUTPUT, ZK_REGISTER, ZK_SET_REGISTER, ZK_READ, ZK_WRITE };
uint64_t zk_machine_size(void);
void zk_machine_place(void *at);
uint64_t zk_machine_ask(void *at, uint32_t number, uint64_t a, uint64_t b);
void zk_machine_clear(void *at);

/* The text of the fault with this code, which is empty where there is none; answers how long it is. */
uint64_t zk_message(uint16_t code, uint8_t *out, size_t out_length);

/* The version; answers how long its text is. */
uint64_t zk_version(uint8_t *out, size_t out_length);

#ifdef __cplusplus
}
#endif
#endif
