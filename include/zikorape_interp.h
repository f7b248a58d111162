/* A run of the interpreter that is kept, by functions over zk_trace of zikorape.h, which says what is told. They are no part of the proof.

       zk_interp *i = zk_interp_new(texts, length, files, 1, main, 6);
       zk_interp_input(i, bytes, n);
       while (zk_interp_run(i, until += 1000) == ZK_INTERP_GOES_ON) { .. }     in slices of 1,000 ticks; i->lines and i->length: what is told of it
       zk_interp_free(i);

   What is kept is the input and how much was told; the run itself is done from the start in each slice, so slices that grow, as by doubling, cost a run. */
#ifndef ZIKORAPE_INTERP_H
#define ZIKORAPE_INTERP_H
#include <stdlib.h>
#include <string.h>
#include "zikorape.h"

/* How a run stands: it goes on; it ended, and `detail` is its status; it did something undefined, and `message` tells what and where; memory ran out; the
   program is refused, and `message` has the fault; it wants input. */
enum { ZK_INTERP_GOES_ON, ZK_INTERP_ENDED, ZK_INTERP_UNDEFINED, ZK_INTERP_OUT_OF_MEMORY, ZK_INTERP_REFUSED, ZK_INTERP_WANTS_INPUT };

/* Where a run stands. */
typedef struct zk_interp_place {
    uint64_t from, least;       /* the ticks that the next slice is told from, and that it goes to at least */
    size_t told;                /* how many bytes of that slice were told before it wanted input */
    size_t length;              /* how many bytes of the input were given */
    int closed;
    uint32_t stands, detail;
} zk_interp_place;

/* Where a run stood, with its input. It does not change, and may be restored more than once, also into another run of the same program. */
typedef struct zk_interp_snapshot { zk_interp_place at; uint8_t given[]; } zk_interp_snapshot;

/* A run. The texts, files and main that it was made of are the caller's, and have to stay. */
typedef struct zk_interp {
    const uint8_t *texts, *main;
    const struct zk_file *files;
    size_t texts_length, files_length, main_length;
    uint8_t *given, *room;
    size_t given_room, room_length;
    zk_interp_place at;
    const uint8_t *lines;       /* what the last slice told, JSON lines, until the next call */
    size_t length;
    uint8_t message[1024];
    size_t message_length;
} zk_interp;

static inline void zk_interp_free(zk_interp *i) {
    if (!i) return;
    free(i->given);
    free(i->room);
    free(i);
}

/* A run before its first tick; null where memory runs out. */
static inline zk_interp *zk_interp_new(const uint8_t *texts, size_t texts_length, const struct zk_file *files, size_t files_length,
                                       const uint8_t *main, size_t main_length) {
    zk_interp *i = (zk_interp *)calloc(1, sizeof *i);
    if (!i) return 0;
    i->texts = texts;
    i->texts_length = texts_length;
    i->files = files;
    i->files_length = files_length;
    i->main = main;
    i->main_length = main_length;
    i->room_length = 1 << 16;
    i->given_room = 64;
    i->given = (uint8_t *)malloc(i->given_room);
    i->room = (uint8_t *)malloc(i->room_length);
    if (!i->given || !i->room) { zk_interp_free(i); return 0; }
    return i;
}

/* Gives input; answers how many bytes it took: fewer where the input is closed or memory runs out. */
static inline size_t zk_interp_input(zk_interp *i, const uint8_t *bytes, size_t length) {
    if (i->at.closed) return 0;
    while (i->given_room - i->at.length < length) {
        uint8_t *given = (uint8_t *)realloc(i->given, 2 * i->given_room);
        if (!given) return 0;
        i->given = given;
        i->given_room *= 2;
    }
    memcpy(i->given + i->at.length, bytes, length);
    i->at.length += length;
    return length;
}
static inline void zk_interp_close_input(zk_interp *i) { i->at.closed = 1; }

/* How a status of zk_trace stands, with a message of so many bytes. */
static inline uint32_t zk_interp_stands(uint32_t status, size_t message_length) {
    if (status == 257) return ZK_INTERP_WANTS_INPUT;
    if (status == 256) return ZK_INTERP_REFUSED;
    if (!message_length) return ZK_INTERP_ENDED;
    switch (status) {
    case 1: return ZK_INTERP_REFUSED;
    case 123: return ZK_INTERP_UNDEFINED;
    case 124: return ZK_INTERP_GOES_ON;
    default: return ZK_INTERP_OUT_OF_MEMORY;
    }
}

/* Goes on to the tick `until`, counted from the start, and answers how it then stands. What that tells is at `lines`. */
static inline uint32_t zk_interp_run(zk_interp *i, uint64_t until) {
    i->lines = i->room;
    i->length = 0;
    if (i->at.stands != ZK_INTERP_GOES_ON && i->at.stands != ZK_INTERP_WANTS_INPUT) return i->at.stands;
    if (until < i->at.least) until = i->at.least;
    if (until < i->at.from) return i->at.stands;
    for (;;) {
        struct zk_sizes sizes;
        uint32_t status = zk_trace(i->texts, i->texts_length, i->files, i->files_length, i->main, i->main_length, i->given, i->at.length, !i->at.closed,
                                   until, i->at.from, i->room, i->room_length, i->message, sizeof i->message, &sizes);
        if (sizes.output > i->room_length) {
            uint8_t *room = (uint8_t *)realloc(i->room, (size_t)sizes.output);
            if (!room) return i->at.stands = ZK_INTERP_OUT_OF_MEMORY;
            i->room = room;
            i->room_length = (size_t)sizes.output;
            continue;
        }
        i->message_length = sizes.message < sizeof i->message ? (size_t)sizes.message : sizeof i->message;
        i->at.stands = zk_interp_stands(status, i->message_length);
        i->at.detail = i->at.stands == ZK_INTERP_ENDED ? status : 0;
        if (sizes.output > i->at.told) {
            i->lines = i->room + i->at.told;
            i->length = (size_t)sizes.output - i->at.told;
        }
        i->at.told = i->at.stands == ZK_INTERP_WANTS_INPUT ? (size_t)sizes.output : 0;
        i->at.least = i->at.stands == ZK_INTERP_WANTS_INPUT ? until : 0;
        if (i->at.stands == ZK_INTERP_GOES_ON) i->at.from = until + 1;
        return i->at.stands;
    }
}

/* Where it stands: free() frees it. Null where memory runs out. */
static inline zk_interp_snapshot *zk_interp_snapshot_of(const zk_interp *i) {
    zk_interp_snapshot *s = (zk_interp_snapshot *)malloc(sizeof *s + i->at.length);
    if (!s) return 0;
    s->at = i->at;
    if (i->at.length) memcpy(s->given, i->given, i->at.length);
    return s;
}

/* Stands there again. Answers 0; or 801 where memory runs out: then it is as it was. */
static inline uint32_t zk_interp_restore(zk_interp *i, const zk_interp_snapshot *s) {
    if (i->given_room < s->at.length) {
        uint8_t *given = (uint8_t *)realloc(i->given, s->at.length);
        if (!given) return 801;
        i->given = given;
        i->given_room = s->at.length;
    }
    if (s->at.length) memcpy(i->given, s->given, s->at.length);
    i->at = s->at;
    return 0;
}

/* Goes on to the tick `until` with input and output by callback, in slices that double. `get` and `put` are those of zk_machine_serve: ZK_INTERP_END and
   ZK_INTERP_LATER in place of a byte; `observe`, which may be null, takes each line that is told, without its newline, before the byte in it is put. A callback
   of the latter two that answers another number than 0 stops the run, behind the slice that it is in. */
enum { ZK_INTERP_END = -1, ZK_INTERP_LATER = -2 };
typedef struct zk_interp_service {
    int (*get)(void *context);
    int (*put)(void *context, uint8_t byte);
    int (*observe)(void *context, const char *line, size_t length);
    void *context;
} zk_interp_service;

/* Hands on what a slice told; answers another number than 0 where a callback stops the run. */
static inline int zk_interp_hand_on(const zk_interp *i, const zk_interp_service *to) {
    static const char put[] = "{\"event\":\"put\",\"byte\":";
    int stops = 0;
    for (const uint8_t *line = i->lines, *end = i->lines + i->length; line < end;) {
        const uint8_t *next = (const uint8_t *)memchr(line, '\n', (size_t)(end - line));
        if (!next) break;
        if (to->observe) stops |= to->observe(to->context, (const char *)line, (size_t)(next - line));
        if (to->put && (size_t)(next - line) > sizeof put - 1 && !memcmp(line, put, sizeof put - 1))
            stops |= to->put(to->context, (uint8_t)atoi((const char *)line + sizeof put - 1));
        line = next + 1;
    }
    return stops;
}

static inline uint32_t zk_interp_serve(zk_interp *i, uint64_t until, const zk_interp_service *to) {
    uint64_t slice = 4096;
    for (;;) {
        uint64_t next = i->at.from + slice;
        uint32_t stands = zk_interp_run(i, next < until ? next : until);
        if (zk_interp_hand_on(i, to)) return stands;
        if (stands == ZK_INTERP_WANTS_INPUT) {
            int given = to->get(to->context);
            uint8_t byte = (uint8_t)given;
            if (given == ZK_INTERP_LATER) return stands;
            if (given == ZK_INTERP_END) zk_interp_close_input(i);
            else if (!zk_interp_input(i, &byte, 1)) return i->at.stands = ZK_INTERP_OUT_OF_MEMORY;
            continue;
        }
        if (stands != ZK_INTERP_GOES_ON || next >= until) return stands;
        slice *= 2;
    }
}
#endif
