/* place.h: the search of the plane in C, with the names and the meaning of the proved functions. plane/make takes those of a
 * module in its place where it is given one. A line is 32 words START << 16 | PORT that ascend; a key is LABEL << 16 | 0xFFFF,
 * and the first word that is searched is at most the key. */
#ifndef PLANE_PLACE_H
#define PLANE_PLACE_H

#include <linux/types.h>

#ifdef PROVED

/* The place of the last of 16, or of 32, words that is at most the key. */
extern __u32 bz_place_16(const __u32 *word, __u64 length, __u32 key);
extern __u32 bz_place_32(const __u32 *word, __u64 length, __u32 key);
/* What line 0 says of a packet: 0 it goes on, 1 it is for this node, 3 the epoch is another, 4 there is no such label. */
extern __u32 bz_head(const __u32 *word, __u64 length, __u32 epoch, __u32 label);

#else

/* The step where the word is at most the key, else 0. Both are below 2^32, so the difference is negative exactly where the
 * word is above the key. The compiler is kept from seeing a comparison in it, of which it would make a branch. */
static __always_inline __u64 stride(__u64 word, __u64 key, __u64 step) {
    __u64 above = key - word;
    asm volatile("" : "+r"(above));
    above >>= 63;
    asm volatile("" : "+r"(above));
    return (above - 1) & step;
}

static __always_inline __u32 bz_place_16(const __u32 *word, __u64 length, __u32 key) {
    __u64 p = stride(word[8], key, 8);
    p += stride(word[p + 4], key, 4);
    p += stride(word[p + 2], key, 2);
    p += stride(word[p + 1], key, 1);
    return p;
}

static __always_inline __u32 bz_place_32(const __u32 *word, __u64 length, __u32 key) {
    __u64 p = stride(word[16], key, 16);
    p += stride(word[p + 8], key, 8);
    p += stride(word[p + 4], key, 4);
    p += stride(word[p + 2], key, 2);
    p += stride(word[p + 1], key, 1);
    return p;
}

static __always_inline __u32 bz_head(const __u32 *word, __u64 length, __u32 epoch, __u32 label) {
    if (word[0] != epoch)
        return 3;
    if (word[2] == label)
        return 1;
    return word[1] <= label ? 4 : 0;
}

#endif
#endif
