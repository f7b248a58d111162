/* The page's heap on the host, over a memory that grows as WebAssembly's does: blocks are asked for, resized and given back at random,
   each filled with a pattern that is looked at again; given all back, the memory is one free block, as the next large block shows.
   The answer is 0 where all holds. */
#include <stdio.h>
#include <stdlib.h>
#include <string.h>

static unsigned long pages = 2;
static unsigned char *memory;
static unsigned long grow_memory(unsigned long more) {
    if (pages + more > 4096) return ~0ul;
    pages += more;
    return pages - more;
}
#define __builtin_wasm_memory_size(which) (((unsigned long)memory >> 16) + pages)
#define __builtin_wasm_memory_grow(which, more) grow_memory(more)
#define __heap_base (*memory)
#include "heap_host.c"

enum { COUNT = 2000 };
static unsigned char *blocks[COUNT];
static size_t sizes[COUNT];
static unsigned long seed = 20261126;
static unsigned long next_random(void) { seed = seed * 6364136223846793005ul + 1442695040888963407ul; return seed >> 33; }
static void fill(int k) { memset(blocks[k], k & 255, sizes[k]); }
static int holds(int k, size_t n) { for (size_t i = 0; i < n; i++) if (blocks[k][i] != (k & 255)) return 0; return 1; }

int main(void) {
    memory = aligned_alloc(65536, 4096ul << 16);
    for (int round = 0; round < 300000; round++) {
        int k = (int)(next_random() % COUNT);
        size_t n = next_random() % (round % 100 == 0 ? 200000 : 500);
        if (!blocks[k]) {
            blocks[k] = zk_malloc(n);
            if (!blocks[k] || (size_t)blocks[k] % 16) { printf("no block of %zu\n", n); return 1; }
            sizes[k] = n; fill(k);
        } else if (next_random() % 2) {
            if (!holds(k, sizes[k])) { printf("block %d was written\n", k); return 1; }
            size_t kept = sizes[k] < n ? sizes[k] : n;
            blocks[k] = zk_realloc(blocks[k], sizes[k], n);
            if (!blocks[k] || !holds(k, kept)) { printf("block %d was not kept\n", k); return 1; }
            sizes[k] = n; fill(k);
        } else {
            if (!holds(k, sizes[k])) { printf("block %d was written\n", k); return 1; }
            zk_free(blocks[k]); blocks[k] = 0;
        }
    }
    for (int k = 0; k < COUNT; k++) zk_free(blocks[k]);
    unsigned long had = pages;
    size_t all = (size_t)(end - start) - 64;
    unsigned char *whole = zk_malloc(all);
    if (!whole || pages != had) { printf("the blocks were not merged\n"); return 1; }
    zk_free(whole);
    if (zk_malloc(4096ul << 16)) { printf("more than there is\n"); return 1; }
    if (!zk_malloc(all)) { printf("nothing after a refusal\n"); return 1; }
    return 0;
}
