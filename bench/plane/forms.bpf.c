/* forms.bpf.c: the plane of plane/shell.h over tables of several forms; FORM chooses one. `drawn` draws a label for each run of
 * BPF_PROG_TEST_RUN; `source`, `from_link` and `sink` are for a way over veth, and `pass` for what the kernel forwards. */
#define LINES 1 /* intervals in lines, or a byte for each label in lines */
#define BYTES_OF_ONE 2
#define ARRAY 3
#define HASH 4
#define TRIE 5
#define NONE 6

#ifdef COLD
#define SLOTS 2048 /* many tables in turn, which do not stay in caches */
#endif
#if FORM != LINES
#define OTHER_RULING
#define TABLE_KEY sizeof(__u32)
#ifdef COLD
#define TABLES SLOTS /* a map for each table */
#else
#define TABLES 64
#endif
#endif
#if FORM == BYTES_OF_ONE
#define TABLE_TYPE BPF_MAP_TYPE_ARRAY
#define TABLE_ENTRIES 1
#define TABLE_FLAGS 0
#define TABLE_VALUE 16384
#elif FORM == ARRAY
#define TABLE_TYPE BPF_MAP_TYPE_ARRAY
#define TABLE_ENTRIES 2
#define TABLE_FLAGS BPF_F_INNER_MAP
#define TABLE_VALUE sizeof(__u32)
#elif FORM == HASH
#define TABLE_TYPE BPF_MAP_TYPE_HASH
#define TABLE_ENTRIES 16384
#define TABLE_FLAGS 0
#define TABLE_VALUE sizeof(__u32)
#elif FORM == TRIE
#undef TABLE_KEY
#define TABLE_KEY 8
#define TABLE_TYPE BPF_MAP_TYPE_LPM_TRIE
#define TABLE_ENTRIES 32768
#define TABLE_FLAGS BPF_F_NO_PREALLOC
#define TABLE_VALUE sizeof(__u32)
#elif FORM == NONE
#define TABLE_TYPE BPF_MAP_TYPE_ARRAY
#define TABLE_ENTRIES 1
#define TABLE_FLAGS 0
#define TABLE_VALUE sizeof(__u32)
#endif
#include "../../plane/shell.h"

#if FORM != LINES
static __always_inline enum verdict ruling(__u32 epoch, __u32 label, __u32 *port) {
    __u32 at = epoch & (TABLES - 1);
    void *table = bpf_map_lookup_elem(&tables, &at);
    if (!table)
        return NO_EPOCH;
#if FORM == BYTES_OF_ONE
    at = 0;
    __u8 *it = bpf_map_lookup_elem(table, &at);
    it = it ? it + (label & 16383) : 0;
#elif FORM == TRIE
    struct {
        __u32 length;
        __u8 label[4];
    } key = {32, {label >> 24, label >> 16, label >> 8, label}};
    __u32 *it = bpf_map_lookup_elem(table, &key);
#elif FORM == NONE
    at = 0;
    __u32 *it = bpf_map_lookup_elem(table, &at);
#else
    __u32 *it = bpf_map_lookup_elem(table, &label);
#endif
    if (!it)
        return NO_LABEL;
    *port = *it;
    return FORWARDED;
}
#endif

struct draw {
    __u64 state;
    __u32 labels, epoch, epochs, pad; /* with epochs above 0 an epoch from 1 to that is drawn, too */
};
struct {
    __uint(type, BPF_MAP_TYPE_ARRAY);
    __uint(max_entries, 1);
    __type(key, __u32);
    __type(value, struct draw);
} drawing SEC(".maps");
struct {
    __uint(type, BPF_MAP_TYPE_DEVMAP);
    __uint(max_entries, 1);
    __type(key, __u32);
    __type(value, __u32);
} out SEC(".maps");
struct {
    __uint(type, BPF_MAP_TYPE_PERCPU_ARRAY);
    __uint(max_entries, 1);
    __type(key, __u32);
    __type(value, __u64);
} sunk SEC(".maps");

/* Writes the next label of a fixed order by chance into a packet. */
static __always_inline int draw_into(struct xdp_md *ctx) {
    struct ethhdr *ethernet = (void *)(long)ctx->data;
    struct ipv6hdr *ip = (void *)(ethernet + 1);
    __u32 zero = 0;
    struct draw *it = bpf_map_lookup_elem(&drawing, &zero);
    if (!it || (void *)(ip + 1) > (void *)(long)ctx->data_end)
        return 0;
    it->state = it->state * 6364136223846793005ull + 1442695040888963407ull;
    ip->daddr.s6_addr16[1] = bpf_htons(it->epochs ? 1 + ((it->state >> 16 & 0xFFFFFF) * it->epochs >> 24) : it->epoch);
    ip->daddr.s6_addr16[7] = bpf_htons((it->state >> 40) * it->labels >> 24);
    ip->hop_limit = 64;
    return 1;
}

SEC("xdp") int drawn(struct xdp_md *ctx) {
    return draw_into(ctx) ? by_xdp(ctx, FROM_LINK) : XDP_ABORTED;
}

SEC("xdp") int from_link(struct xdp_md *ctx) {
    return by_xdp(ctx, FROM_LINK);
}

SEC("tc") int from_link_tc(struct __sk_buff *skb) {
    return by_tc(skb, FROM_LINK);
}

/* Frames come again as the node left them, so their hardware addresses are written anew. */
SEC("xdp") int source(struct xdp_md *ctx) {
    struct ethhdr *ethernet = (void *)(long)ctx->data;
    if (!draw_into(ctx) || (void *)(ethernet + 1) > (void *)(long)ctx->data_end)
        return XDP_ABORTED;
    __builtin_memcpy(ethernet->h_dest, (__u8[]){2, 0, 0, 0, 0, 0xA1}, 6);
    __builtin_memcpy(ethernet->h_source, (__u8[]){2, 0, 0, 0, 0, 0xA0}, 6);
    return bpf_redirect_map(&out, 0, XDP_DROP);
}

SEC("xdp") int sink(struct xdp_md *ctx) {
    __u32 zero = 0;
    __u64 *it = bpf_map_lookup_elem(&sunk, &zero);
    if (it)
        *it += 1;
    return XDP_DROP;
}

SEC("xdp") int pass(struct xdp_md *ctx) {
    return XDP_PASS;
}

char LICENSE[] SEC("license") = "Dual MIT/GPL";
