/* A machine that is kept, by functions over zk_machine_ask of zikorape.h, which says what each answers. They are no part of the proof.

       uint32_t why;
       zk_kept *m = zk_machine_new(elf, length, &why);
       zk_machine_input(m, bytes, n);
       while (zk_machine_run(m, 1000) == 0) { .. }          runs in slices; 5: it wants input
       n = zk_machine_output(m, buffer, sizeof buffer);     what it has put since
       zk_machine_free(m);

   or with its input and output by callback: while (zk_machine_serve(m, 1000000, get, put, context) == 0) { .. } */
#ifndef ZIKORAPE_MACHINE_H
#define ZIKORAPE_MACHINE_H
#include <stdlib.h>
#include <string.h>
#include "zikorape.h"

/* A machine, and what it was given and gave since its file was loaded. */
typedef struct zk_kept { void *at; uint8_t *given; size_t length, room, taken; int closed; } zk_kept;

/* Where a machine stood. It does not change, and may be restored more than once, also into another machine with the same file. */
typedef struct zk_snapshot { uint64_t steps; size_t length, taken; int closed; uint8_t given[]; } zk_snapshot;

static inline void zk_machine_free(zk_kept *m) {
    if (!m) return;
    zk_machine_clear(m->at);
    free(m->at);
    free(m->given);
    free(m);
}

/* A machine before the first instruction of the file; null where there is none, and `why` is the code. */
static inline zk_kept *zk_machine_new(const uint8_t *file, size_t length, uint32_t *why) {
    zk_kept *m = (zk_kept *)calloc(1, sizeof *m);
    void *at = m ? malloc((size_t)zk_machine_size()) : 0;
    *why = 801;
    if (!at) { free(m); return 0; }
    zk_machine_place(m->at = at);
    for (size_t k = 0; k < length; k++)
        if (zk_machine_ask(at, ZK_FILE, file[k], 0)) { zk_machine_free(m); return 0; }
    *why = (uint32_t)zk_machine_ask(at, ZK_LOAD, 0, 0);
    if (*why) { zk_machine_free(m); return 0; }
    return m;
}

/* At most `max` instructions more; _run_to: or to where the one at `halt` is next; _step: one. */
static inline uint32_t zk_machine_run(zk_kept *m, uint64_t max) { return (uint32_t)zk_machine_ask(m->at, ZK_RUN, max, 1); }
static inline uint32_t zk_machine_run_to(zk_kept *m, uint64_t max, uint32_t halt) { return (uint32_t)zk_machine_ask(m->at, ZK_RUN, max, halt); }
static inline uint32_t zk_machine_step(zk_kept *m) { return zk_machine_run(m, 1); }
static inline uint32_t zk_machine_detail(zk_kept *m) { return (uint32_t)zk_machine_ask(m->at, ZK_DETAIL, 0, 0); }
static inline uint64_t zk_machine_steps(zk_kept *m) { return zk_machine_ask(m->at, ZK_STEPS, 0, 0); }

/* The 32 registers; answers the pc. */
static inline uint32_t zk_machine_registers(zk_kept *m, uint32_t registers[32]) {
    for (unsigned k = 0; k < 32; k++) registers[k] = (uint32_t)zk_machine_ask(m->at, ZK_REGISTER, k, 0);
    return (uint32_t)zk_machine_ask(m->at, ZK_REGISTER, 32, 0);
}

/* The bytes of its memory from an address on. */
static inline void zk_machine_read(zk_kept *m, uint32_t from, uint8_t *bytes, size_t length) {
    for (size_t k = 0; k < length; k++) bytes[k] = (uint8_t)zk_machine_ask(m->at, ZK_READ, from + (uint64_t)k, 0);
}

/* Outside the theorem: bytes and registers (32: the pc) are set. _write answers how many bytes the program may write, and had written. */
static inline size_t zk_machine_write(zk_kept *m, uint32_t from, const uint8_t *bytes, size_t length) {
    size_t n = 0;
    for (size_t k = 0; k < length; k++) n += (size_t)zk_machine_ask(m->at, ZK_WRITE, from + (uint64_t)k, bytes[k]);
    return n;
}
static inline uint32_t zk_machine_set(zk_kept *m, uint32_t number, uint32_t value) {
    return (uint32_t)zk_machine_ask(m->at, ZK_SET_REGISTER, number, value);
}

/* Gives input; answers how many bytes it took: fewer where the input is closed or memory runs out. */
static inline size_t zk_machine_input(zk_kept *m, const uint8_t *bytes, size_t length) {
    for (size_t k = 0; k < length; k++) {
        if (m->length == m->room) {
            size_t room = m->room ? 2 * m->room : 64;
            uint8_t *given = (uint8_t *)realloc(m->given, room);
            if (!given) return k;
            m->given = given;
            m->room = room;
        }
        if (zk_machine_ask(m->at, ZK_INPUT, bytes[k], 0)) return k;
        m->given[m->length++] = bytes[k];
    }
    return length;
}
static inline void zk_machine_close_input(zk_kept *m) { zk_machine_ask(m->at, ZK_CLOSE, 0, 0); m->closed = 1; }

/* What it has put and nobody took, as far as there is room; answers how many bytes that are. */
static inline size_t zk_machine_output(zk_kept *m, uint8_t *bytes, size_t room) {
    size_t n = 0;
    while (n < room) {
        uint64_t byte = zk_machine_ask(m->at, ZK_OUTPUT, 0, 0);
        if (byte > 255) break;
        bytes[n++] = (uint8_t)byte;
    }
    m->taken += n;
    return n;
}

/* What a callback that gives input answers in place of a byte: there is no more; there is none yet. */
enum { ZK_END = -1, ZK_LATER = -2 };

/* At most `max` instructions more, with input and output by callback. `get` answers the next byte of the input, ZK_END or ZK_LATER; `put` takes a byte of the
   output and answers 0, or another number, which stops the run. Each byte that was put is handed on before the next is asked for, and at the latest after
   65,536 instructions. Answers as _run does: 0 where `max` were taken or `put` stopped it, and 5 after ZK_LATER; 3 where memory ran out for the input too.
   Call it again to go on: what a callback does between is the caller's, as to stop a program that has no end. */
static inline uint32_t zk_machine_serve(zk_kept *m, uint64_t max, int (*get)(void *), int (*put)(void *, uint8_t), void *context) {
    uint64_t from = zk_machine_steps(m);
    for (;;) {
        uint64_t left = max - (zk_machine_steps(m) - from);
        uint32_t answer = zk_machine_run(m, left < 65536 ? left : 65536);
        uint8_t byte;
        while (zk_machine_output(m, &byte, 1))
            if (put(context, byte)) return 0;
        if (answer != 5) {
            if (answer || zk_machine_steps(m) - from >= max) return answer;
            continue;
        }
        int next = get(context);
        if (next == ZK_LATER) return 5;
        byte = (uint8_t)next;
        if (next == ZK_END) zk_machine_close_input(m);
        else if (!zk_machine_input(m, &byte, 1)) return 3;
    }
}

/* Where it stands: free() frees it. Null where memory runs out. What was set by _write and _set is no part of it. */
static inline zk_snapshot *zk_machine_snapshot(zk_kept *m) {
    zk_snapshot *s = (zk_snapshot *)malloc(sizeof *s + m->length);
    if (!s) return 0;
    s->steps = zk_machine_steps(m);
    s->length = m->length;
    s->taken = m->taken;
    s->closed = m->closed;
    if (m->length) memcpy(s->given, m->given, m->length);
    return s;
}

/* Stands there again, by a run from the start over what had been given. Answers 0; or 801 where memory runs out: then restore again. */
static inline uint32_t zk_machine_restore(zk_kept *m, const zk_snapshot *s) {
    uint32_t why = (uint32_t)zk_machine_ask(m->at, ZK_LOAD, 0, 0);
    if (why) return why;
    m->length = m->taken = 0;
    m->closed = 0;
    if (zk_machine_input(m, s->given, s->length) < s->length) return 801;
    if (s->closed) zk_machine_close_input(m);
    zk_machine_run(m, s->steps);
    if (zk_machine_steps(m) != s->steps) return 801;
    while (m->taken < s->taken && zk_machine_ask(m->at, ZK_OUTPUT, 0, 0) < 256) m->taken++;
    return 0;
}
#endif
