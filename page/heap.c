/* malloc, realloc and free of the page: WebAssembly has no C library. A block has a head of 16 bytes: its size with the lowest bit
   set while it is used, and the size of the block before it. Blocks that are free and adjacent are merged; free ones are in lists
   by size. The last block is what the memory can grow by. */
typedef unsigned long size_t;
struct block { size_t size, before; struct block *next, *previous; };
enum { HEAD = 16, LEAST = 32, LISTS = 48, TRIES = 16 };
static const size_t MOST = 0xffff0000ul;       /* of 32-bit addresses */
extern unsigned char __heap_base;
static struct block *lists[LISTS];
static unsigned char *start, *end;     /* end: behind the last block */
static size_t last;                    /* the size of the last block, 0 where there is none */

static size_t size_of(struct block *b) { return b->size & ~(size_t)1; }
static int is_used(struct block *b) { return b->size & 1; }
static struct block *at(void *p) { return (struct block *)p; }
static struct block *behind(struct block *b) { return at((unsigned char *)b + size_of(b)); }
static int list_of(size_t n) { int k = 63 - __builtin_clzl(n); return k < LISTS ? k : LISTS - 1; }

static void unlink_block(struct block *b) {
    if (b->previous) b->previous->next = b->next; else lists[list_of(size_of(b))] = b->next;
    if (b->next) b->next->previous = b->previous;
}

static void link_block(struct block *b) {
    struct block **list = &lists[list_of(size_of(b))];
    b->previous = 0; b->next = *list;
    if (*list) (*list)->previous = b;
    *list = b;
}

/* Tells the block behind b its size. */
static void tell(struct block *b) {
    if ((unsigned char *)behind(b) == end) last = size_of(b); else behind(b)->before = size_of(b);
}

/* Memory up to an address; -1 becomes the low 32 bits of it in the lowering to 32 bits. */
static int reach(unsigned char *to) {
    size_t have = __builtin_wasm_memory_size(0) << 16, want = (size_t)to;
    if (want <= have) return 1;
    if (want > MOST) return 0;
    return (unsigned)__builtin_wasm_memory_grow(0, (want - have + 65535) >> 16) != ~0u;
}

/* A block of n bytes at the end: the last one made longer, where that is free. */
static struct block *grow(size_t n) {
    if (!start) start = end = (unsigned char *)(((size_t)&__heap_base + 15) & ~(size_t)15);
    struct block *b = at(end - last);
    int longer = last && !is_used(b);
    if (!longer) b = at(end);
    if (n > MOST || !reach((unsigned char *)b + n)) return 0;
    if (longer) unlink_block(b); else b->before = last;
    b->size = n | 1; end = (unsigned char *)b + n; last = n;
    return b;
}

/* Leaves n bytes of a used block, and gives what is behind them back. */
static void give_block(struct block *b);
static void split(struct block *b, size_t n) {
    size_t rest = size_of(b) - n;
    if (rest < LEAST) return;
    struct block *tail = at((unsigned char *)b + n);
    b->size = n | 1; tail->before = n; tail->size = rest | 1;
    tell(tail);
    give_block(tail);
}

static void give_block(struct block *b) {
    struct block *next = behind(b);
    if ((unsigned char *)next != end && !is_used(next)) { unlink_block(next); b->size += size_of(next); }
    if (b->before) {
        struct block *left = at((unsigned char *)b - b->before);
        if (!is_used(left)) { unlink_block(left); left->size += size_of(b); b = left; }
    }
    b->size = size_of(b);
    tell(b);
    link_block(b);
}

static size_t need(size_t n) { n = (n + HEAD + 15) & ~(size_t)15; return n < LEAST ? LEAST : n; }

void *zk_malloc(size_t n) {
    if (n > MOST) return 0;
    n = need(n);
    for (int k = list_of(n); k < LISTS; k++) {
        int tries = TRIES;       /* only the first list has blocks that are too small */
        for (struct block *b = lists[k]; b && tries--; b = b->next)
            if (b->size >= n) { unlink_block(b); b->size |= 1; split(b, n); return (unsigned char *)b + HEAD; }
    }
    struct block *b = grow(n);
    return b ? (unsigned char *)b + HEAD : 0;
}

void zk_free(void *p) { if (p) give_block(at((unsigned char *)p - HEAD)); }

static void copy(unsigned char *to, const unsigned char *from, size_t n) { __builtin_memcpy(to, from, n); }

/* Of a block only its first `kept` bytes matter. */
void *zk_realloc(void *p, size_t kept, size_t n) {
    struct block *b = at((unsigned char *)p - HEAD);
    if (n > MOST) return 0;
    size_t want = need(n);
    struct block *next = behind(b);
    if (size_of(b) < want && (unsigned char *)next != end && !is_used(next) && size_of(b) + size_of(next) >= want) {
        unlink_block(next); b->size += size_of(next); tell(b);
    } else if (size_of(b) < want && (unsigned char *)next == end && reach((unsigned char *)b + want)) {
        b->size = want | 1; end = (unsigned char *)b + want; last = want;
    }
    if (size_of(b) >= want) { split(b, want); return p; }
    unsigned char *q = zk_malloc(n);
    if (!q) return 0;
    copy(q, p, kept < n ? kept : n);
    zk_free(p);
    return q;
}
