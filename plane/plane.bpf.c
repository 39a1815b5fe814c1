/* plane.bpf.c: the plane of a node. `from_link` is for each port, `from_host` for the node's own link, each for XDP and for
 * tc. Questions by BPF_PROG_TEST_RUN come in by the loopback device, to which no program of the plane is attached. */
#include "shell.h"

#define LOOPBACK 1

SEC("xdp") int from_link(struct xdp_md *ctx) {
    return by_xdp(ctx, ctx->ingress_ifindex == LOOPBACK ? ASKED : FROM_LINK);
}

SEC("xdp") int from_host(struct xdp_md *ctx) {
    return by_xdp(ctx, FROM_HOST);
}

SEC("tc") int from_link_tc(struct __sk_buff *skb) {
    return by_tc(skb, FROM_LINK);
}

SEC("tc") int from_host_tc(struct __sk_buff *skb) {
    return by_tc(skb, FROM_HOST);
}

char LICENSE[] SEC("license") = "Dual MIT/GPL";
