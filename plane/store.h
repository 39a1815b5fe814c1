/* store.h: how a node's tables stand in the lines of one map, for the loader and for bench/plane.
 *
 * Line 0 begins with a word of mask and three of 0. Entries of four words follow: that of epoch E is number E & mask. Their
 * words are EPOCH | OWN << 16, LABELS | BASE << 16, PLACE | SIZE << 16 | DEPTH << 24 and FIRST | REST << 16; one of epoch 0 stands
 * for none. So an entry has what line 0 of a table says, without its zeros. SIZE words of the root stand at the word PLACE, in one
 * line: 16, or only the first 4 or 8 where the others stand for none. The other REST lines of a table stand as they are, from
 * the line FIRST on. */
#ifndef PLANE_STORE_H
#define PLANE_STORE_H

#include <stdint.h>
#include <stdlib.h>
#include <string.h>

#include "plane.h"

#define NO_WORD 0xFFFFFFFFu

/* A table as `xdp table` has it, of so many lines. */
struct held {
    uint32_t lines;
    struct line *line;
};

static uint32_t *word_at(struct line *store, uint32_t place) { return store[place / WORDS].word + place % WORDS; }

/* How many words of a root are kept, with what stands for none: 4, 8 or 16; all of one that is a small part of its table. */
static uint32_t root_size(const struct held *table) {
    uint32_t size = 0;
    if (table->line[0].word[HEAD_DEPTH] == BYTES)
        return 0;
    while (size < ROOT_WORDS && table->line[0].word[HEAD_WORDS + size] != NO_WORD)
        size++;
    return size <= LEAST_ROOT ? LEAST_ROOT : size > 2 * LEAST_ROOT || table->lines > 1 ? ROOT_WORDS : 2 * LEAST_ROOT;
}

/* A mask by which no two of these tables have one entry; their epochs differ by their remainders of `slots`. */
static uint32_t mask_of(const struct held *tables, uint32_t count, uint32_t slots) {
    uint8_t *is_taken = calloc(slots, 1);
    uint32_t mask = LEAST_MASK;
    for (uint32_t i = 0; is_taken && i < count; i++) {
        uint8_t *it = is_taken + (tables[i].line[0].word[HEAD_EPOCH] & mask);
        if (*it && mask < slots - 1) {
            mask = 2 * mask + 1, i = -1;
            memset(is_taken, 0, slots);
            continue;
        }
        *it = 1;
    }
    free(is_taken);
    return mask;
}

/* Where a root of so many words may stand: the first line with room for it, at a multiple of the size. `used` has the words of
 * each line. */
static uint32_t place_of(uint32_t *used, uint32_t *lines, uint32_t size) {
    uint32_t at = 0;
    for (;; at++) {
        uint32_t from = (used[at] + size - 1) / size * size;
        if (from + size > WORDS)
            continue;
        used[at] = from + size;
        *lines = at >= *lines ? at + 1 : *lines;
        return at * WORDS + from;
    }
}

/* The lines of a map that holds these tables, and how many they are; NULL where there is no memory. */
static struct line *stored(const struct held *tables, uint32_t count, uint32_t slots, uint32_t *lines) {
    uint32_t mask = mask_of(tables, count, slots), heads = ENTRY_WORDS * (mask + 2), most = heads / WORDS + 1 + count, rest = 0;
    uint32_t *used = calloc(most + 1, sizeof *used);
    for (uint32_t i = 0; i < count; i++)
        rest += tables[i].lines - 1;
    struct line *store = calloc(most + rest, sizeof *store);
    if (!used || !store)
        return NULL;
    store[0].word[0] = mask;
    for (uint32_t at = 0; at < heads / WORDS; at++)
        used[at] = WORDS;
    used[heads / WORDS] = heads % WORDS;
    *lines = (heads + WORDS - 1) / WORDS;
    for (uint32_t size = ROOT_WORDS + 1; size-- > 0;) /* the great ones first, down to none */
        for (uint32_t i = 0; i < count; i++) {
            const uint32_t *head = tables[i].line[0].word;
            if (root_size(&tables[i]) != size)
                continue;
            uint32_t *it = word_at(store, ENTRY_WORDS * (1 + (head[HEAD_EPOCH] & mask))), place = size ? place_of(used, lines, size) : 0;
            it[0] = head[HEAD_EPOCH] | head[HEAD_OWN] << 16;
            it[1] = head[HEAD_LABELS] | head[HEAD_BASE] << 16;
            it[2] = place | size << 16 | head[HEAD_DEPTH] << 24;
            memcpy(word_at(store, place), head + HEAD_WORDS, size * sizeof *head);
        }
    for (uint32_t i = 0; i < count; i++) {
        uint32_t *it = word_at(store, ENTRY_WORDS * (1 + (tables[i].line[0].word[HEAD_EPOCH] & mask))), more = tables[i].lines - 1;
        it[3] = *lines | more << 16;
        memcpy(store + *lines, tables[i].line + 1, more * sizeof *store);
        *lines += more;
    }
    free(used);
    return store;
}

/* The table of an entry, whole as it was given; no lines where there is none, or no memory. */
static inline struct held held_at(struct line *store, uint32_t entry) {
    const uint32_t *it = word_at(store, ENTRY_WORDS * (1 + entry));
    struct held found = {0};
    if (!(it[0] & 0xFFFF) || !(found.line = calloc(1 + (it[3] >> 16), sizeof *found.line)))
        return found;
    uint32_t *head = found.line[0].word, size = it[2] >> 16 & 0xFF;
    found.lines = 1 + (it[3] >> 16);
    head[HEAD_EPOCH] = it[0] & 0xFFFF, head[HEAD_OWN] = it[0] >> 16;
    head[HEAD_LABELS] = it[1] & 0xFFFF, head[HEAD_BASE] = it[1] >> 16;
    head[HEAD_DEPTH] = it[2] >> 24;
    memset(head + HEAD_WORDS, 0xFF, ROOT_WORDS * sizeof *head);
    memcpy(head + HEAD_WORDS, word_at(store, it[2] & 0xFFFF), size * sizeof *head);
    memcpy(found.line + 1, store + (it[3] & 0xFFFF), (found.lines - 1) * sizeof *store);
    return found;
}

#endif
