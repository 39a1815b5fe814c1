/* shell.h: the way of a packet through a node, for XDP and for tc.
 *
 * Programs know label L as fd00::L. Under way the second group of the address is the epoch, fd00:E::L. The node of the source
 * writes it, and that of the destination takes it off, so sums of UDP and TCP stay right. The map of all tables is read once for
 * a packet, so each packet sees one table at a node. store.h says what stands in it. */
#include <linux/bpf.h>
#include <linux/if_ether.h>
#include <linux/in.h>
#include <linux/ipv6.h>
#include <linux/pkt_cls.h>
#include <bpf/bpf_endian.h>
#include <bpf/bpf_helpers.h>

#include "plane.h"
#include "place.h"

#ifndef SLOTS
#define SLOTS EPOCHS
#endif

#ifndef TABLE_TYPE /* bench/plane has others, and a ruling for each */
#define TABLE_TYPE BPF_MAP_TYPE_ARRAY
#define TABLE_ENTRIES 2
#define TABLE_FLAGS BPF_F_INNER_MAP /* as many lines as the tables take */
#define TABLE_KEY sizeof(__u32)
#define TABLE_VALUE sizeof(struct line)
#define TABLES 1 /* one map has all tables; where one comes or goes, another map takes its place */
#endif

struct table {
    __uint(type, TABLE_TYPE);
    __uint(max_entries, TABLE_ENTRIES);
    __uint(map_flags, TABLE_FLAGS);
    __uint(key_size, TABLE_KEY);
    __uint(value_size, TABLE_VALUE);
};
struct {
    __uint(type, BPF_MAP_TYPE_ARRAY_OF_MAPS);
    __uint(max_entries, TABLES);
    __type(key, __u32);
    __array(values, struct table);
} tables SEC(".maps");
struct {
    __uint(type, BPF_MAP_TYPE_ARRAY);
    __uint(max_entries, 1);
    __type(key, __u32);
    __type(value, struct node);
} node SEC(".maps");
struct {
    __uint(type, BPF_MAP_TYPE_ARRAY);
    __uint(max_entries, PORTS);
    __type(key, __u32);
    __type(value, struct port);
} ports SEC(".maps");
struct {
    __uint(type, BPF_MAP_TYPE_DEVMAP);
    __uint(max_entries, PORTS);
    __type(key, __u32);
    __type(value, __u32);
} devs SEC(".maps");
struct {
    __uint(type, BPF_MAP_TYPE_PERCPU_ARRAY);
    __uint(max_entries, SLOTS * VERDICTS);
    __type(key, __u32);
    __type(value, __u64);
} counts SEC(".maps");

/* How a packet came: over a link, from the node itself, or as a question by BPF_PROG_TEST_RUN, which counts nothing. */
enum origin { FROM_LINK, FROM_HOST, ASKED };

static __always_inline void count(enum origin origin, __u32 epoch, __u32 verdict) {
    if (origin == ASKED)
        return;
    __u32 key = (epoch & (SLOTS - 1)) * VERDICTS + verdict;
    __u64 *it = bpf_map_lookup_elem(&counts, &key);
    if (it)
        *it += 1;
}

#ifdef WATCH
/* Packets of the lab: UDP to this port, whose first word is their number. */
#define LAB_PORT 7777
struct {
    __uint(type, BPF_MAP_TYPE_RINGBUF);
    __uint(max_entries, 1 << 20);
} events SEC(".maps");
struct {
    __uint(type, BPF_MAP_TYPE_PERCPU_ARRAY);
    __uint(max_entries, 1);
    __type(key, __u32);
    __type(value, __u64);
} missed SEC(".maps"); /* events for which there was no room */

static __always_inline void report(enum origin origin, struct ipv6hdr *ip, void *end, __u32 epoch, __u32 port, __u32 verdict) {
    __u32 zero = 0;
    __u16 *udp = (void *)(ip + 1);
    __u32 *body = (void *)udp + 8;
    struct node *me = bpf_map_lookup_elem(&node, &zero);
    if (origin == ASKED || !me || ip->nexthdr != IPPROTO_UDP || (void *)(body + 1) > end || udp[1] != bpf_htons(LAB_PORT))
        return;
    struct event it = {
        .number = bpf_ntohl(*body), .epoch = epoch, .node = me->number, .port = port, .hops = ip->hop_limit, .verdict = verdict,
    };
    __u64 *lost = bpf_ringbuf_output(&events, &it, sizeof it, 0) ? bpf_map_lookup_elem(&missed, &zero) : 0;
    if (lost)
        *lost += 1;
}
#else
#define report(origin, ip, end, epoch, port, verdict) ((void)0)
#endif

/* What an epoch's table says of a label: FORWARDED with the port, or why not. */
#ifdef OTHER_RULING
static __always_inline enum verdict ruling(__u32 epoch, __u32 label, __u32 *port);
#else
/* A root of which 4 or 8 words are kept, whole again: what stands for none comes after them. */
static __always_inline void fill(__u64 *root, const __u32 *line, __u32 where, __u32 size) {
    const __u64 none = ~0ull;
    root[2] = root[3] = root[4] = root[5] = root[6] = root[7] = none;
    if (size == LEAST_ROOT) {
        const __u64 *from = (const void *)(line + (where & (WORDS - LEAST_ROOT)));
        root[0] = from[0], root[1] = from[1];
    } else {
        const __u64 *from = (const void *)(line + (where & (WORDS - 2 * LEAST_ROOT)));
        root[0] = from[0], root[1] = from[1], root[2] = from[2], root[3] = from[3];
    }
}

static __always_inline enum verdict ruling(__u32 epoch, __u32 label, __u32 *port) {
    __u32 at = 0;
    void *store = bpf_map_lookup_elem(&tables, &at);
    struct line *line = store ? bpf_map_lookup_elem(store, &at) : 0;
    if (!line || !epoch)
        return NO_EPOCH;
    __u32 entry = ENTRY_WORDS * (1 + (epoch & line->word[0] & (SLOTS - 1)));
    at = entry / WORDS;
    if (at && !(line = bpf_map_lookup_elem(store, &at)))
        return NO_EPOCH;
    const __u32 *it = line->word + (entry & (WORDS - ENTRY_WORDS));
    __u32 where = it[2], first = it[3] & 0xFFFF, depth = where >> 24, size = where >> 16 & 0xFF, base = it[1] >> 16;
    __u32 head[HEAD_WORDS] = {it[0] & 0xFFFF, it[1] & 0xFFFF, it[0] >> 16};
    __u32 verdict = bz_head(head, HEAD_WORDS, epoch, label);
    if (verdict)
        return verdict;
    __u32 next = depth == BYTES ? first + label / (4 * WORDS) : (where & 0xFFFF) / WORDS;
    if (at != next) {
        at = next;
        line = bpf_map_lookup_elem(store, &at);
        if (!line)
            return NO_EPOCH;
    }
    if (depth == BYTES) {
        *port = ((__u8 *)line->word)[label & (4 * WORDS - 1)];
        return FORWARDED;
    }
    __u32 key = label << 16 | 0xFFFF, word;
    __u64 place;
    if (size == ROOT_WORDS) {
        const __u32 *root = line->word + (where & ROOT_WORDS);
        place = bz_place_16(root, ROOT_WORDS, key);
        word = root[place];
    } else {
        union {
            __u64 pair[ROOT_WORDS / 2];
            __u32 word[ROOT_WORDS];
        } root;
        fill(root.pair, line->word, where, size);
        place = bz_place_16(root.word, ROOT_WORDS, key);
        word = root.word[place];
    }
    if (depth) {
        __u32 below = first - 1 + base + place * WORDS; /* a table's line 1 is the line `first` of the map */
        at = first + place;
        line = bpf_map_lookup_elem(store, &at);
        if (!line)
            return NO_EPOCH;
        place = bz_place_32(line->word, WORDS, key);
        if (depth > 1) {
            at = below + place;
            line = bpf_map_lookup_elem(store, &at);
            if (!line)
                return NO_EPOCH;
            place = bz_place_32(line->word, WORDS, key);
        }
        word = line->word[place];
    }
    *port = word & 0xFFFF;
    return FORWARDED;
}
#endif

/* What is done with a packet. */
enum action { PASS, DROP, SEND };

/* One packet, from its first byte to its end; where it is sent on, `to` gets the port. */
static __always_inline enum action through(void *data, void *end, enum origin origin, __u32 *to) {
    struct ethhdr *ethernet = data;
    struct ipv6hdr *ip = (void *)(ethernet + 1);
    if ((void *)(ip + 1) > end || ethernet->h_proto != bpf_htons(ETH_P_IPV6) || ip->daddr.s6_addr16[0] != bpf_htons(GROUP))
        return PASS;
    __u32 epoch = bpf_ntohs(ip->daddr.s6_addr16[1]), label = bpf_ntohs(ip->daddr.s6_addr16[7]), zero = 0;
    if (origin == FROM_HOST) {
        struct node *me = bpf_map_lookup_elem(&node, &zero);
        if (!me)
            return DROP;
        epoch = me->stamp;
        ip->daddr.s6_addr16[1] = bpf_htons(epoch);
        count(origin, epoch, STAMPED);
    }
    __u32 found = 0;
    enum verdict verdict = ruling(epoch, label, &found);
    struct port *port = verdict == FORWARDED ? bpf_map_lookup_elem(&ports, &found) : 0;
    if (verdict == FORWARDED && ip->hop_limit <= (origin != FROM_HOST))
        verdict = HOPS;
    else if (verdict == FORWARDED && (!port || !port->ifindex))
        verdict = NO_PORT;
    count(origin, epoch, verdict);
    if (verdict != FORWARDED) {
        report(origin, ip, end, epoch, 0, verdict);
        if (verdict != DELIVERED && verdict != HOPS)
            return DROP;
        ip->daddr.s6_addr16[1] = 0; /* the host knows no epochs; at the last hop the kernel reports to the source */
        return PASS;
    }
    if (!port) /* which the verifier does not know */
        return DROP;
    ip->hop_limit--;
    __builtin_memcpy(ethernet->h_dest, port->there, 6);
    __builtin_memcpy(ethernet->h_source, port->here, 6);
    report(origin, ip, end, epoch, found, FORWARDED);
    *to = found;
    return SEND;
}

static __always_inline int by_xdp(struct xdp_md *ctx, enum origin origin) {
    __u32 to = 0;
    switch (through((void *)(long)ctx->data, (void *)(long)ctx->data_end, origin, &to)) {
    case PASS:
        return XDP_PASS;
    case SEND:
        return bpf_redirect_map(&devs, to, XDP_DROP);
    default:
        return XDP_DROP;
    }
}

static __always_inline int by_tc(struct __sk_buff *skb, enum origin origin) {
    __u32 to = 0;
    if (bpf_skb_pull_data(skb, sizeof(struct ethhdr) + sizeof(struct ipv6hdr)))
        return TC_ACT_OK;
    enum action action = through((void *)(long)skb->data, (void *)(long)skb->data_end, origin, &to);
    if (action == PASS)
        return TC_ACT_OK;
    struct port *port = action == SEND ? bpf_map_lookup_elem(&ports, &to) : 0;
    return port ? bpf_redirect(port->ifindex, 0) : TC_ACT_SHOT;
}
