/* plane.h: what the programs of a node's plane and their loader have in common: the maps' values and numbers. */
#ifndef PLANE_H
#define PLANE_H

#include <linux/types.h>

enum {
    EPOCHS = 64,       /* slots: an epoch stands in the slot of its remainder */
    GREATEST = 65535,  /* epoch */
    LABELS = 16384,    /* at most */
    STARTS = 16384,    /* of a row, at most */
    WORDS = 32,        /* of a line */
    ROOT_WORDS = 16,   /* of a table's root */
    ENTRY_WORDS = 4,   /* of a table's entry in the map of all tables; store.h says what stands where */
    LEAST_MASK = 3,    /* four entries at least */
    LEAST_ROOT = 4,    /* words of a root that are kept at least */
    PORTS = 1024,      /* at most; the loader makes the maps as large as the node has neighbours */
    BYTES = 255,       /* the depth of a table that has a byte for each label */
    GROUP = 0xFD00,    /* the first group of all addresses; the second is the epoch, the last the label */
    NAME_BYTES = 64,   /* of a node's name, and of a neighbour's */
};

/* What becomes of a packet; each has a counter for each slot. */
enum verdict { FORWARDED, DELIVERED, STAMPED, NO_EPOCH, NO_LABEL, NO_PORT, HOPS, VERDICTS };

enum head { HEAD_EPOCH, HEAD_LABELS, HEAD_OWN, HEAD_DEPTH, HEAD_BASE, HEAD_WORDS = 16 };

struct line {
    __u32 word[WORDS];
};

/* A port: the device, and the hardware addresses of the far end and of this one. */
struct port {
    __u32 ifindex;
    __u8 there[6], here[6];
};

/* The epoch that the node's own packets get, and the node's number for events. */
struct node {
    __u32 stamp, number;
};

/* What a node did with a packet of the lab, in the object that watches. */
struct event {
    __u32 number, epoch;
    __u16 node, port;
    __u8 hops, verdict;
    __u16 pad;
};

#endif
