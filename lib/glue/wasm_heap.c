/* The heap of the WebAssembly module: the malloc that heap.c calls.
 *
 * Blocks have classes of sizes, four for each power of two, and lie one after the other. A freed block is used again for
 * its class or a little less. The topmost block grows in place; if it is freed, it goes, with the freed blocks under it.
 * So a call leaves the heap as it was. */
typedef unsigned long u64;
typedef unsigned int u32;
typedef unsigned char u8;

/* What lies before the content of a block; in a freed one, its neighbours in the list of its class lie in the content. */
typedef struct Block {
    u32 class, is_free;
    struct Block *below;
    struct Block *next, *previous;
} Block;

enum { HEAD = 16, CLASSES = 256, A_LITTLE = 4, PAGE_BITS = 16 };

/* No memory of 32-bit addresses has as many bytes. */
static const u64 TOO_MANY = 1UL << 46;

extern u8 __heap_base;
static Block *freed[CLASSES + A_LITTLE];
static Block *topmost;
static u64 top, end;

static u64 size_of(u32 class) {
    return class < 4 ? 16 * (class + 1UL) : (4UL + (class & 3)) << ((class >> 2) + 3);
}

/* The least class whose blocks hold n bytes. */
static u32 class_of(u64 n) {
    if (n <= 64) return n ? (n - 1) / 16 : 0;
    u64 power = 61 - __builtin_clzl(n - 1), quarter = ((n - 1) >> power) & 3;
    return ((power - 3) << 2) + quarter + 1;
}

static Block *block_of(void *at) {
    return (Block *)((u8 *)at - HEAD);
}

static void *content_of(Block *it) {
    return (u8 *)it + HEAD;
}

static int grows_by(u64 pages) {
    u64 had = __builtin_wasm_memory_grow(0, pages);
    if (had == ~0UL) return 0;
    end = (had + pages) << PAGE_BITS;
    return 1;
}

/* Has memory up to this address, if the engine gives it: some more at once, since each time takes long. */
static int reaches(u64 to) {
    if (to <= end) return 1;
    u64 pages = (to - end + (1UL << PAGE_BITS) - 1) >> PAGE_BITS, some = end >> (PAGE_BITS + 2);
    return (some > pages && grows_by(some)) || grows_by(pages);
}

static void unlink(Block *it) {
    if (it->previous) it->previous->next = it->next;
    else freed[it->class] = it->next;
    if (it->next) it->next->previous = it->previous;
    it->is_free = 0;
}

static void link(Block *it) {
    it->is_free = 1;
    it->previous = 0;
    it->next = freed[it->class];
    if (it->next) it->next->previous = it;
    freed[it->class] = it;
}

/* A freed block of this class, or of one that is a little greater; 0 if there is none. */
static Block *found(u32 class) {
    for (u32 at = class; at < class + A_LITTLE; at++)
        if (freed[at]) return freed[at];
    return 0;
}

/* A new block on top; 0 if there is no memory. */
static Block *added(u32 class) {
    if (!top) {
        top = ((u64)&__heap_base + 15) & ~15UL;
        end = __builtin_wasm_memory_size(0) << PAGE_BITS;
    }
    Block *it = (Block *)top;
    if (!reaches(top + HEAD + size_of(class))) return 0;
    top += HEAD + size_of(class);
    it->class = class;
    it->is_free = 0;
    it->below = topmost;
    return topmost = it;
}

void *malloc(u64 n) {
    if (n > TOO_MANY) return 0;
    Block *it = found(class_of(n));
    if (it) unlink(it);
    else it = added(class_of(n));
    return it ? content_of(it) : 0;
}

void free(void *at) {
    if (!at) return;
    Block *it = block_of(at);
    if (it != topmost) {
        link(it);
        return;
    }
    for (;;) {
        top = (u64)it;
        it = topmost = it->below;
        if (!it || !it->is_free) return;
        unlink(it);
    }
}

static void *grown(void *at, u64 n) {
    u32 class = class_of(n);
    u64 next = (u64)at + size_of(class);
    if (!reaches(next)) return 0;
    top = next;
    block_of(at)->class = class;
    return at;
}

void *realloc(void *at, u64 n) {
    if (!at) return malloc(n);
    if (n > TOO_MANY) return 0;
    u64 had = size_of(block_of(at)->class);
    if (n <= had) return at;
    if (block_of(at) == topmost) return grown(at, n);
    void *to = malloc(n);
    if (!to) return 0;
    __builtin_memcpy(to, at, had);
    free(at);
    return to;
}
