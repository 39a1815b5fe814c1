// Answers calls that come on standard input, each as five lengths of 8 bytes and so many bytes of words, topology, script and
// trace, where the fifth is the room for the output; each answer is the status and three lengths, so many bytes of what is in
// the rooms, and whether the bytes after the texts stayed as they were. tests/library speaks to it.
#include "bentzolu.h"

#include <stdio.h>
#include <stdlib.h>
#include <string.h>

enum { TEXTS = 4, FAULTS = 1 << 16, BEHIND = 0xA5 };

// Reads so many bytes into a block of its own; the block has a byte more, so that no text lies at null.
static uint8_t *block(uint64_t size) {
    uint8_t *it = malloc(size + 1);
    if (it == NULL || fread(it, 1, size, stdin) != size) exit(9);
    return it;
}

static uint8_t *room(uint64_t size) {
    uint8_t *it = malloc(size + 1);
    if (it == NULL) exit(9);
    memset(it, BEHIND, size + 1);
    return it;
}

// Whether a room is as it was after the text.
static uint64_t is_kept(const uint8_t *it, uint64_t length, uint64_t size) {
    for (uint64_t i = length; i < size + 1; i++)
        if (it[i] != BEHIND) return 0;
    return 1;
}

static uint64_t least(uint64_t a, uint64_t b) { return a < b ? a : b; }

int main(void) {
    uint64_t sizes[TEXTS + 1];
    while (fread(sizes, sizeof sizes, 1, stdin) == 1) {
        uint8_t *texts[TEXTS];
        for (int i = 0; i < TEXTS; i++) texts[i] = block(sizes[i]);
        uint64_t size = sizes[TEXTS];
        uint8_t *output = room(size), *faults = room(FAULTS);
        struct bentzolu_lengths lengths;
        uint32_t status = bentzolu_run(texts[0], sizes[0], texts[1], sizes[1], texts[2], sizes[2], texts[3], sizes[3], output,
                                       size, faults, FAULTS, &lengths);
        uint64_t shown = least(lengths.output, size), told = least(lengths.faults, FAULTS);
        uint64_t head[4] = {status, lengths.output, lengths.faults,
                            is_kept(output, shown, size) && is_kept(faults, told, FAULTS)};
        fwrite(head, sizeof head, 1, stdout);
        fwrite(output, 1, shown, stdout);
        fwrite(faults, 1, told, stdout);
        fflush(stdout);
        for (int i = 0; i < TEXTS; i++) free(texts[i]);
        free(output);
        free(faults);
    }
    return 0;
}
