// The heap of the library: what the proved code asks for memory, over malloc. Each answer has whether there was memory, and
// where; a size of 0 is rounded up, so that each block has a place of its own.
#include <stddef.h>
#include <stdlib.h>

struct tried {
    size_t ok;
    void *at;
};

static struct tried tried(void *at) {
    struct tried it = {at != NULL, at != NULL ? at : (void *)16};
    return it;
}

// malloc aligns to 16 bytes, and no type of the library wants more.
struct tried rattle_alloc(size_t size, size_t align) { return tried(malloc(size ? size : align)); }

struct tried rattle_realloc(void *at, size_t kept, size_t size, size_t align) {
    (void)kept;
    return tried(realloc(at, size ? size : align));
}

void rattle_dealloc(void *at) { free(at); }
