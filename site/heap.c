// The heap of the WebAssembly module: what the kit's libc gives over malloc on Linux. Blocks are of size classes, each with
// a list of freed blocks; a block that no list has is cut from the top, and the memory grows. Each block is aligned to 16 and
// has its class 16 bytes before it. One thread.
typedef unsigned char u8;
typedef unsigned long long u64;
typedef struct { u64 ok, at; } Tried;
extern u8 __heap_base;
enum { PAGE = 65536, SMALL = 64, CLASSES = SMALL + 8 * 40, HEAD = 16 };
static u64 top, end, most;
static u64 freed[CLASSES];

// The class of a size, and the size of a class: multiples of 16 up to 1024, then eight to each doubling.
static unsigned class_of(u64 n) {
    if (n <= 1024) return n == 0 ? 0 : (unsigned)((n - 1) / 16);
    unsigned bits = 63 - __builtin_clzll(n - 1);  // 2^bits <= n - 1
    unsigned part = (unsigned)((n - 1) >> (bits - 3)) & 7;
    return SMALL + (bits - 10) * 8 + part;
}

static u64 size_of(unsigned c) {
    if (c < SMALL) return (c + 1) * 16ull;
    unsigned bits = 10 + (c - SMALL) / 8, part = (c - SMALL) % 8;
    return ((u64)(8 + part + 1)) << (bits - 3);
}

// Whether the memory reaches so far, grown if need be. It is asked for its size again, and the answer of a growth is not
// read: where the module was lowered to a 32-bit memory, a refusal may come as 2^32 - 1.
static int reach(u64 to) {
    if (most && to > most) return 0;
    if (to <= end) return 1;
    u64 pages = (to - end + PAGE - 1) / PAGE, more = end / PAGE / 8 > 16 ? end / PAGE / 8 : 16;
    if (pages < more) {
        __builtin_wasm_memory_grow(0, more);
        end = __builtin_wasm_memory_size(0) * PAGE;
    }
    if (to > end && pages < 1u << 16) {
        __builtin_wasm_memory_grow(0, pages);
        end = __builtin_wasm_memory_size(0) * PAGE;
    }
    return to <= end;
}

static u64 take(u64 n) {
    if (n > 1ull << 40) return 0;
    unsigned c = class_of(n);
    u64 at = freed[c];
    if (at) {
        freed[c] = *(u64 *)at;
        return at;
    }
    if (!end) {
        top = ((u64)&__heap_base + 15) & ~15ull;
        end = __builtin_wasm_memory_size(0) * PAGE;
    }
    u64 size = size_of(c);
    if (!reach(top + HEAD + size)) return 0;
    *(u64 *)top = c;
    at = top + HEAD;
    top = at + size;
    return at;
}

static void give(u64 at) {
    unsigned c = (unsigned)*(u64 *)(at - HEAD);
    *(u64 *)at = freed[c];
    freed[c] = at;
}

static Tried tried(u64 at) {
    Tried it = {at != 0, at ? at : 16};
    return it;
}

Tried rattle_alloc(u64 n, u64 a) {
    (void)a;
    return tried(take(n));
}

void rattle_dealloc(u64 at) {
    if (at) give(at);
}

Tried rattle_realloc(u64 at, u64 kept, u64 n, u64 a) {
    (void)a;
    u64 had = size_of((unsigned)*(u64 *)(at - HEAD));
    if (n <= had && (n > 1024 ? n * 2 >= had : 1)) return tried(at);
    u64 to = take(n);
    if (!to) return tried(0);
    __builtin_memcpy((void *)to, (void *)at, kept < n ? kept : n);
    give(at);
    return tried(to);
}

// Room for the host's inputs and outputs; 0 where there is none.
__attribute__((export_name("room"))) u64 room(u64 n) { return take(n); }
__attribute__((export_name("let_go"))) void let_go(u64 at) { rattle_dealloc(at); }
// The most bytes of memory that are taken from here on; 0 for all that there is.
__attribute__((export_name("keep_below"))) void keep_below(u64 bytes) { most = bytes; }
