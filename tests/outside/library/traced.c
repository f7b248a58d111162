/* traced SOURCE SLICE MAX: interprets a source in slices of so many ticks, up to MAX, over standard input, which it gives byte by byte, and writes what is told. Half way it
   takes a snapshot, goes on to the end, goes back, and goes on again: what is told then has to be the same. It ends and says why as `zkc interp` does. 99: something was
   not as it should be. */
#include <stdio.h>
#include "zikorape_interp.h"

static uint8_t texts[1 << 21], input[1 << 20], told[2][1 << 25];
static size_t length[2], input_length;

/* Goes on to the end, or to the tick `max`, from a run that was given `given` bytes. */
static uint32_t to_end(zk_interp *i, uint64_t at, uint64_t slice, uint64_t max, size_t given, int turn) {
    for (;;) {
        at = at + slice < max ? at + slice : max;
        uint32_t stands = zk_interp_run(i, at);
        memcpy(told[turn] + length[turn], i->lines, i->length);
        length[turn] += i->length;
        if (stands == ZK_INTERP_WANTS_INPUT) {
            if (given < input_length) zk_interp_input(i, input + given++, 1);
            else zk_interp_close_input(i);
        } else if (stands != ZK_INTERP_GOES_ON || i->at.from > max) return stands;
    }
}

int main(int argc, char **argv) {
    FILE *from = argc == 4 ? fopen(argv[1], "rb") : 0;
    if (!from) return 99;
    memcpy(texts, "main.c", 6);
    size_t n = fread(texts + 6, 1, sizeof texts - 6, from);
    struct zk_file file = { 6, n };
    input_length = fread(input, 1, sizeof input, stdin);
    uint64_t slice = strtoull(argv[2], 0, 10), max = strtoull(argv[3], 0, 10);
    /* what slices of seven ticks cost grows with the square of their number */
    if (slice < 100) slice = max / 20 + slice;
    zk_interp *i = zk_interp_new(texts, n + 6, &file, 1, texts, 6);
    if (!i) return 99;
    zk_interp_run(i, slice);
    memcpy(told[0], i->lines, i->length);
    memcpy(told[1], i->lines, i->length);
    length[0] = length[1] = i->length;
    zk_interp_snapshot *s = zk_interp_snapshot_of(i);
    if (!s) return 99;
    uint32_t stands = ZK_INTERP_GOES_ON;
    for (int turn = 0; turn < 2; turn++) {
        if (turn && zk_interp_restore(i, s)) return 99;
        if (i->at.stands == ZK_INTERP_WANTS_INPUT) {
            if (input_length) zk_interp_input(i, input, 1);
            else zk_interp_close_input(i);
        }
        stands = to_end(i, slice, slice, max, i->at.length, turn);
    }
    if (length[0] != length[1] || memcmp(told[0], told[1], length[0])) return 99;
    fwrite(told[0], 1, length[0], stdout);
    fwrite(i->message, 1, i->message_length, stderr);
    int status = stands == ZK_INTERP_ENDED ? (int)i->at.detail : stands == ZK_INTERP_UNDEFINED ? 123 : stands == ZK_INTERP_GOES_ON ? 124 : 99;
    free(s);
    zk_interp_free(i);
    return status;
}
