/* measure: ns a packet, and packets a second, of the plane beside other tables; bench/plane/run prepares what it reads.
 *
 *   measure look FOLDER TURNS FRAMES     by BPF_PROG_TEST_RUN, over the time of a program without a look-up
 *   measure cold FOLDER TURNS FRAMES     the same over many tables in turn, which do not stay in caches
 *   measure way FOLDER TURNS FRAMES      over veth, from the namespace `source` through `node` to `sink`, on one processor
 *
 * Turns go round all tables; medians are printed, in a table as documents have it. Each table is first asked for each label. */
#define _GNU_SOURCE
#include <bpf/bpf.h>
#include <bpf/libbpf.h>
#include <errno.h>
#include <fcntl.h>
#include <linux/if_link.h>
#include <net/if.h>
#include <sched.h>
#include <stdint.h>
#include <stdio.h>
#include <stdlib.h>
#include <string.h>
#include <time.h>
#include <unistd.h>

#include "../../plane/store.h"

enum { NONE, TREE, PROVED, LINES_OF_BYTES, PROVED_OF_BYTES, BYTES_OF_ONE, ARRAY, HASH, TRIE, ROUTES, NFTABLES, FORMS };
static const char *const names[] = {"no look-up",        "intervals, C",  "intervals, proved", "bytes in lines, C", "bytes in lines, proved",
                                    "one value of bytes", "array map",     "hash map",          "LPM trie",          "routes of the kernel",
                                    "nftables, one map"};
static const char *const objects[] = {"none", "lines", "proved", "lines", "proved", "bytes", "array", "hash", "trie", "none", "none"};
enum { XDP, GENERIC, TC };
static const char *const modes[] = {"XDP", "generic XDP", "tc"};
enum { EPOCH = 5, DEVICES = 8, MOST = 128, COLD_SLOTS = 2048, MORE = 15 };

struct draw {
    uint64_t state;
    uint32_t labels, epoch, epochs, pad;
};

struct tried {
    int form, mode;
    uint32_t starts, labels, tables; /* 0 starts: a full table; 0 tables: one, of EPOCH */
    struct bpf_object *object;
    int look, link, tc, pass;
    uint64_t bytes, more, lost; /* of its map, and of one more table */
    double *times, change;
};

static const char *folder;
static uint8_t packet[86] = {2,         0, 0, 0, 0, 0xA1, 2, 0, 0, 0, 0, 0xA0, 0x86, 0xDD, 0x60, 0, 0, 0, 0, 32, 17, 64,
                             [22] = 0xFD, [37] = 1, [38] = 0xFD, [56] = 0x1E, [57] = 0x61, [59] = 32};

static _Noreturn void fail(const char *what) {
    fprintf(stderr, "measure: %s: %s\n", what, strerror(errno));
    exit(1);
}

static int quiet(enum libbpf_print_level level, const char *form, va_list given) {
    return level == LIBBPF_WARN && getenv("BENTZOLU_XDP_LOG") ? vfprintf(stderr, form, given) : 0;
}

static double seconds(void) {
    struct timespec now;
    clock_gettime(CLOCK_MONOTONIC, &now);
    return now.tv_sec + now.tv_nsec / 1e9;
}

static const char *path_of(const struct tried *it, const char *ending) {
    static char path[512];
    if (it->starts)
        snprintf(path, sizeof path, "%s/%u.%s", folder, it->starts, ending);
    else
        snprintf(path, sizeof path, "%s/full-%u.%s", folder, it->labels, ending);
    return path;
}

static int program_of(struct bpf_object *object, const char *name) {
    return bpf_program__fd(bpf_object__find_program_by_name(object, name));
}

static int map_of(struct bpf_object *object, const char *name) { return bpf_object__find_map_fd_by_name(object, name); }

static void put(int map, const void *key, const void *value) {
    if (bpf_map_update_elem(map, key, value, BPF_ANY))
        fail("bpf_map_update_elem");
}

static uint64_t bytes_of(int map) {
    char path[64], line[256];
    uint64_t found = 0;
    snprintf(path, sizeof path, "/proc/self/fdinfo/%d", map);
    FILE *file = fopen(path, "r");
    while (file && fgets(line, sizeof line, file))
        sscanf(line, "memlock: %lu", &found);
    if (file)
        fclose(file);
    return found;
}

/* The port of each label by the row. */
static uint8_t *ports_of(const struct tried *it) {
    FILE *file = fopen(path_of(it, "row"), "r");
    uint32_t labels, own, start, port;
    if (!file || fscanf(file, "%u %u", &labels, &own) != 2 || labels != it->labels)
        fail(path_of(it, "row"));
    uint8_t *ports = calloc(labels, 1);
    while (fscanf(file, "%u %u", &start, &port) == 2)
        memset(ports + start, port, labels - start);
    fclose(file);
    return ports;
}

static int filled(int type, uint32_t value_bytes, uint32_t count, const void *values, uint32_t flags, uint32_t entries) {
    LIBBPF_OPTS(bpf_map_create_opts, options, .map_flags = flags);
    LIBBPF_OPTS(bpf_map_batch_opts, batch, .elem_flags = BPF_ANY);
    uint32_t *keys = calloc(count, 4);
    for (uint32_t i = 0; i < count; i++)
        keys[i] = i;
    int map = bpf_map_create(type, "table", 4, value_bytes, entries, &options);
    if (map < 0 || bpf_map_update_batch(map, keys, values, &count, &batch))
        fail("a table");
    free(keys);
    return map;
}

static int is_of_lines(const struct tried *it) { return it->form >= TREE && it->form <= PROVED_OF_BYTES; }

/* The lines of a row's table, for an epoch. */
static struct held lines_of(const struct tried *it, uint32_t epoch) {
    struct held found = {0, calloc(1024, sizeof(struct line))};
    FILE *file = fopen(path_of(it, "lines"), "r");
    if (!file)
        fail(path_of(it, "lines"));
    found.lines = fread(found.line, sizeof *found.line, 1024, file);
    fclose(file);
    found.line[0].word[HEAD_EPOCH] = epoch;
    return found;
}

/* A map with so many tables of a row, for epochs from one on. */
static int map_of_tables(const struct tried *it, uint32_t from, uint32_t tables, uint32_t slots) {
    struct held *all = calloc(tables, sizeof *all);
    uint32_t lines = 0;
    for (uint32_t i = 0; i < tables; i++)
        all[i] = lines_of(it, from + i);
    struct line *store = stored(all, tables, slots, &lines);
    int map = filled(BPF_MAP_TYPE_ARRAY, sizeof *store, lines, store, BPF_F_INNER_MAP, lines);
    for (uint32_t i = 0; i < tables; i++)
        free(all[i].line);
    free(all);
    free(store);
    return map;
}

/* A map with the table of a form for an epoch. */
static int table_of(const struct tried *it, uint32_t epoch) {
    uint32_t *words = calloc(it->labels + 1, 4), value, length, port;
    uint8_t *ports = it->form == NONE ? NULL : ports_of(it);
    for (uint32_t i = 0; ports && i < it->labels; i++)
        words[i] = ports[i];
    int map = -1;
    FILE *file;
    switch (it->form) {
    case TREE: case PROVED: case LINES_OF_BYTES: case PROVED_OF_BYTES:
        map = map_of_tables(it, epoch, 1, EPOCHS);
        break;
    case BYTES_OF_ONE:
        ports = realloc(ports, 16384);
        map = filled(BPF_MAP_TYPE_ARRAY, 16384, 1, ports, 0, 1);
        break;
    case ARRAY:
        map = filled(BPF_MAP_TYPE_ARRAY, 4, it->labels, words, BPF_F_INNER_MAP, it->labels);
        break;
    case HASH:
        map = filled(BPF_MAP_TYPE_HASH, 4, it->labels, words, 0, 16384);
        break;
    case TRIE: {
        LIBBPF_OPTS(bpf_map_create_opts, options, .map_flags = BPF_F_NO_PREALLOC);
        map = bpf_map_create(BPF_MAP_TYPE_LPM_TRIE, "table", 8, 4, 32768, &options);
        file = fopen(path_of(it, "prefixes"), "r");
        if (map < 0 || !file)
            fail(path_of(it, "prefixes"));
        while (fscanf(file, "%u %u %u", &value, &length, &port) == 3) {
            struct {
                uint32_t length;
                uint8_t label[4];
            } key = {18 + length, {value >> 24, value >> 16, value >> 8, value}}; /* 14 bits of 32 */
            put(map, &key, &port);
        }
        fclose(file);
        break;
    }
    default:
        map = filled(BPF_MAP_TYPE_ARRAY, 4, 1, words, 0, 1);
    }
    free(words);
    free(ports);
    return map;
}

/* Asks a program for each label but the own one, which is the last. */
static void ask(const struct tried *it) {
    uint8_t *ports = ports_of(it), out[128];
    for (uint32_t label = 0; label + 1 < it->labels; label++) {
        uint8_t in[sizeof packet];
        memcpy(in, packet, sizeof in);
        in[41] = EPOCH, in[52] = label >> 8, in[53] = label;
        LIBBPF_OPTS(bpf_test_run_opts, asked, .data_in = in, .data_size_in = sizeof in, .data_out = out, .data_size_out = sizeof out, .repeat = 1);
        if (bpf_prog_test_run_opts(it->link, &asked) || asked.retval != XDP_REDIRECT || out[5] != ports[label] || out[4] != 1) {
            fprintf(stderr, "measure: %s of %u starts: the label %u goes to %u, and not to %u\n", names[it->form], it->starts, label, out[5], ports[label]);
            exit(1);
        }
    }
    free(ports);
}

/* Puts many tables in their slots; a batch of puts waits once. */
static void open_many(const struct tried *it) {
    uint32_t keys[128], count = 0, zero = 0;
    int maps[128];
    if (is_of_lines(it)) { /* as all tables of a node */
        int map = map_of_tables(it, 1, it->tables, COLD_SLOTS);
        put(map_of(it->object, "tables"), &zero, &map);
        return;
    }
    for (uint32_t epoch = 1; epoch <= it->tables; epoch++) {
        keys[count] = epoch, maps[count++] = table_of(it, epoch);
        if (count < 128 && epoch < it->tables)
            continue;
        LIBBPF_OPTS(bpf_map_batch_opts, batch, .elem_flags = BPF_ANY);
        uint32_t done = count;
        if (bpf_map_update_batch(map_of(it->object, "tables"), keys, maps, &done, &batch))
            fail("tables");
        while (count)
            close(maps[--count]);
    }
}

static void open_one(struct tried *it, int is_way) {
    char path[512];
    snprintf(path, sizeof path, "%s/%s%s.o", folder, it->tables ? "cold-" : "", objects[it->form]);
    it->object = bpf_object__open_file(path, NULL);
    if (!it->object || bpf_object__load(it->object))
        fail(path);
    it->look = program_of(it->object, "drawn"), it->link = program_of(it->object, "from_link");
    it->tc = program_of(it->object, "from_link_tc"), it->pass = program_of(it->object, "pass");
    for (uint32_t i = 0; i < DEVICES; i++) {
        char device[16];
        snprintf(device, sizeof device, "o%u", i);
        struct port port = {is_way ? if_nametoindex(device) : 1, {2, 0, 0, 0, 1, i}, {2, 0, 0, 0, 2, i}};
        put(map_of(it->object, "ports"), &i, &port);
        put(map_of(it->object, "devs"), &i, &port.ifindex);
    }
    uint32_t zero = 0, slot = is_of_lines(it) ? 0 : EPOCH % EPOCHS;
    struct draw draw = {1, it->labels - 1, EPOCH, it->tables, 0}; /* the last label is the own one */
    put(map_of(it->object, "drawing"), &zero, &draw);
    if (it->tables) {
        open_many(it);
        return;
    }
    double start = seconds();
    int map = table_of(it, EPOCH);
    put(map_of(it->object, "tables"), &slot, &map);
    it->change = seconds() - start;
    it->bytes = bytes_of(map);
    it->more = it->bytes;
    if (is_of_lines(it)) { /* what each of so many more takes */
        int many = map_of_tables(it, EPOCH, 1 + MORE, EPOCHS);
        it->more = (bytes_of(many) - it->bytes) / MORE;
        close(many);
    }
    if (it->form != NONE && it->form < ROUTES)
        ask(it);
}

static double looked(const struct tried *it, uint32_t frames) {
    uint8_t out[128];
    LIBBPF_OPTS(bpf_test_run_opts, opts, .data_in = packet, .data_size_in = sizeof packet, .data_out = out, .data_size_out = sizeof out, .repeat = frames);
    if (bpf_prog_test_run_opts(it->look, &opts))
        fail("BPF_PROG_TEST_RUN");
    return opts.duration;
}

/* A way over veth */

static int source, drawing, sunk;
static uint32_t n0;

static void enter(const char *space) {
    char path[64];
    snprintf(path, sizeof path, "/run/netns/%s", space);
    int handle = open(path, O_RDONLY);
    if (handle < 0 || setns(handle, CLONE_NEWNET))
        fail(path);
    close(handle);
}

static void run(const char *form, const char *path) {
    char command[1024];
    snprintf(command, sizeof command, form, path);
    if (system(command))
        fail(command);
}

static uint64_t arrived(void) {
    uint32_t zero = 0;
    uint64_t *values = calloc(libbpf_num_possible_cpus(), 8), sum = 0;
    if (bpf_map_lookup_elem(sunk, &zero, values))
        fail("what arrived");
    for (int i = 0; i < libbpf_num_possible_cpus(); i++)
        sum += values[i];
    free(values);
    return sum;
}

static double sent(uint32_t frames) {
    struct xdp_md ctx = {.data_end = sizeof packet};
    LIBBPF_OPTS(bpf_test_run_opts, opts, .data_in = packet, .data_size_in = sizeof packet, .ctx_in = &ctx, .ctx_size_in = sizeof ctx,
                .repeat = frames, .flags = BPF_F_TEST_XDP_LIVE_FRAMES, .batch_size = 64);
    double start = seconds();
    if (bpf_prog_test_run_opts(source, &opts))
        fail("BPF_PROG_TEST_RUN with frames");
    return seconds() - start;
}

static double gone(struct tried *it, uint32_t frames) {
    enter("node");
    if (it->form == NFTABLES)
        run("nft -f %s", path_of(it, "nft"));
    int program = it->form >= ROUTES || it->mode == TC ? it->pass : it->link, mode = it->mode == GENERIC ? XDP_FLAGS_SKB_MODE : XDP_FLAGS_DRV_MODE;
    LIBBPF_OPTS(bpf_tc_hook, hook, .ifindex = n0, .attach_point = BPF_TC_INGRESS);
    LIBBPF_OPTS(bpf_tc_opts, tc, .prog_fd = it->tc, .handle = 1, .priority = 1);
    if (it->mode == GENERIC)
        run("ethtool -K n0 gro on%s", "");
    if (bpf_xdp_attach(n0, program, mode, NULL) || (it->mode == TC && (bpf_tc_hook_create(&hook) || bpf_tc_attach(&hook, &tc))))
        fail("a program cannot be attached");
    uint32_t zero = 0;
    struct draw draw = {1, it->labels - 1, it->form == ROUTES ? 8 : EPOCH, 0, 0};
    put(drawing, &zero, &draw);
    enter("source");
    sent(frames / 16);
    uint64_t before = arrived();
    double took = sent(frames);
    usleep(2000);
    it->lost += frames - (arrived() - before);
    enter("node");
    if (it->mode == TC) {
        hook.attach_point = BPF_TC_INGRESS | BPF_TC_EGRESS;
        bpf_tc_hook_destroy(&hook);
    }
    bpf_xdp_detach(n0, mode, NULL);
    if (it->mode == GENERIC)
        run("ethtool -K n0 gro off%s", "");
    if (it->form == NFTABLES)
        run("nft delete table netdev bz%s", "");
    return took / frames * 1e9;
}

static void open_way(struct bpf_object *common) {
    enter("sink");
    for (int i = 0; i < DEVICES; i++) {
        char device[16];
        snprintf(device, sizeof device, "s%d", i);
        if (bpf_xdp_attach(if_nametoindex(device), program_of(common, "sink"), XDP_FLAGS_DRV_MODE, NULL))
            fail(device);
    }
    sunk = map_of(common, "sunk"), drawing = map_of(common, "drawing"), source = program_of(common, "source");
    enter("source");
    uint32_t zero = 0, a0 = if_nametoindex("a0");
    put(map_of(common, "out"), &zero, &a0);
    enter("node");
    n0 = if_nametoindex("n0");
}

static int by_value(const void *a, const void *b) {
    double x = *(const double *)a, y = *(const double *)b;
    return (x > y) - (x < y);
}

static struct tried all[MOST];
static int total;

static void add_many(int form, int mode, uint32_t starts, uint32_t labels, uint32_t tables) {
    char path[512];
    snprintf(path, sizeof path, "%s/%s.o", folder, objects[form]);
    if (!access(path, R_OK)) /* the proved search may not be here */
        all[total++] = (struct tried){.form = form, .mode = mode, .starts = starts, .labels = labels, .tables = tables};
}

static void add(int form, int mode, uint32_t starts, uint32_t labels) { add_many(form, mode, starts, labels, 0); }

/* Many tables in turn: rows of intervals, and full tables of as many labels. */
static void cold(int turns, uint32_t frames) {
    static const struct {
        uint32_t tables, starts, labels;
    } sets[] = {{1024, 4, 1024}, {64, 64, 16384}};
    puts("| Many tables in turn | Tables | Starts | Labels | ns above none |\n|---|---|---|---|---|");
    for (int set = 0; set < 2; set++) {
        total = 0;
        add_many(NONE, XDP, 4, 16384, sets[set].tables);
        for (int form = TREE; form <= TRIE; form++)
            if (form != HASH) {
                int is_row = form == TREE || form == PROVED || form == TRIE;
                add_many(form, XDP, is_row ? sets[set].starts : 0, is_row ? 16384 : sets[set].labels, sets[set].tables);
            }
        for (int i = 0; i < total; i++) {
            open_one(&all[i], 0);
            all[i].times = calloc(turns, sizeof(double));
        }
        for (int turn = 0; turn < turns; turn++)
            for (int i = 0; i < total; i++)
                all[i].times[turn] = looked(&all[i], frames);
        double base = 0;
        for (int i = 0; i < total; i++) {
            qsort(all[i].times, turns, sizeof(double), by_value);
            base = i ? base : all[0].times[turns / 2];
            if (i)
                printf("| %s | %u | %u | %u | %.0f |\n", names[all[i].form], all[i].tables, all[i].starts, all[i].labels,
                       all[i].times[turns / 2] - base);
            bpf_object__close(all[i].object);
        }
    }
}

int main(int count, char **words) {
    static const uint32_t starts[] = {4, 16, 64, 256, 1024, 8192};
    if (count != 5)
        return 2;
    libbpf_set_print(quiet);
    folder = words[2];
    int is_way = !strcmp(words[1], "way"), turns = atoi(words[3]);
    uint32_t frames = atoi(words[4]);
    if (!strcmp(words[1], "cold")) {
        cold(turns, frames);
        return 0;
    }
    add(NONE, XDP, 4, 16384);
    for (int i = 0; i < 6; i++) {
        add(TREE, XDP, starts[i], 16384);
        add(PROVED, XDP, starts[i], 16384);
        if (!is_way || i % 2 == 0)
            add(TRIE, XDP, starts[i], 16384);
        if (is_way && i % 2 == 0)
            add(TREE, TC, starts[i], 16384);
        if (is_way)
            add(NFTABLES, XDP, starts[i], 16384);
    }
    if (is_way)
        add(TREE, GENERIC, 64, 16384);
    for (uint32_t labels = 1024; labels <= 16384; labels *= 16) {
        add(LINES_OF_BYTES, XDP, 0, labels);
        add(PROVED_OF_BYTES, XDP, 0, labels);
        for (int form = BYTES_OF_ONE; form <= HASH; form++)
            add(form, XDP, 0, labels);
    }
    if (is_way)
        add(ROUTES, XDP, 0, getenv("ROUTES") ? atoi(getenv("ROUTES")) : 1024);
    if (is_way)
        enter("node");
    for (int i = 0; i < total; i++) {
        open_one(&all[i], is_way);
        all[i].times = calloc(turns, sizeof(double));
    }
    if (is_way)
        open_way(all[0].object);
    if (is_way)
        run("ip -6 -batch %s", path_of(&all[total - 1], "routes"));
    for (int turn = 0; turn < turns; turn++)
        for (int i = 0; i < total; i++)
            all[i].times[turn] = is_way ? gone(&all[i], frames) : looked(&all[i], frames);
    double base = 0;
    puts(is_way ? "| Table | By | Starts | Labels | ns a packet | thousand packets a second | Lost of a million |\n|---|---|---|---|---|---|---|"
                : "| Table | Starts | Labels | ns above none | Bytes | of one more table | over the row's words | us to install |\n|---|---|---|---|---|---|---|---|");
    for (int i = 0; i < total; i++) {
        struct tried *it = &all[i];
        qsort(it->times, turns, sizeof(double), by_value);
        double median = it->times[turns / 2];
        base = i ? base : median;
        char of[16] = "full";
        if (it->starts)
            snprintf(of, sizeof of, "%u", it->starts);
        if (is_way)
            printf("| %s | %s | %s | %u | %.0f | %.0f | %.0f |\n", names[it->form], it->form >= ROUTES ? "kernel" : modes[it->mode], of, it->labels, median,
                   1e6 / median, 1e6 * it->lost / ((double)frames * turns));
        else if (i == 0)
            printf("| %s | | | %.0f in all | | | | |\n", names[it->form], median);
        else
            printf("| %s | %s | %u | %.0f | %lu | %lu | %.2f | %.0f |\n", names[it->form], of, it->labels, median - base, it->bytes, it->more,
                   it->more / 4.0 / (it->starts ? it->starts : it->labels / 2), it->change * 1e6);
    }
    return 0;
}
