/* bentzolu-xdp: loads, fills and asks the plane of a node, in the network namespace in which it runs. `words` says what it
 * takes. The plane's maps are pinned in a folder of a bpffs. What is refused is told in one sentence, with status 1, and the
 * tables that were there stay; words that are not understood have status 2. */
#define _GNU_SOURCE
#include <bpf/bpf.h>
#include <bpf/libbpf.h>
#include <dirent.h>
#include <errno.h>
#include <fcntl.h>
#include <libgen.h>
#include <linux/ethtool.h>
#include <linux/if_link.h>
#include <linux/sockios.h>
#include <net/if.h>
#include <poll.h>
#include <stdarg.h>
#include <stdint.h>
#include <stdio.h>
#include <stdlib.h>
#include <string.h>
#include <sys/file.h>
#include <sys/ioctl.h>
#include <sys/socket.h>
#include <sys/stat.h>
#include <time.h>
#include <unistd.h>

#include "store.h"

#define PINS "/sys/fs/bpf/bentzolu"
#define OBJECT "plane.bpf.o"
#define PATH_BYTES 512
#define MOST_LINES (1 + 16 + STARTS / WORDS)

static const char words[] =
    "bentzolu-xdp [--pins DIR] [--object FILE] WORD ..\n"
    "  up MODE NODE NUMBER HOST OWN [NEIGHBOUR DEVICE MAC]..   MODE is xdp, generic or tc; ports count from 0\n"
    "  install EPOCH [ROW] < LINES     add the table of an epoch, after every label is checked in the kernel\n"
    "  check EPOCH [ROW] < LINES       check every label of an epoch in the kernel\n"
    "  lines EPOCH                     print the lines of an epoch's table, as they are in the kernel\n"
    "  stamp EPOCH                     stamp the node's own packets with this epoch from now on\n"
    "  drained EPOCH [DIR]..           wait until no packet of an epoch is under way, by the counters of these nodes\n"
    "  retire EPOCH                    remove the table of an epoch\n"
    "  counts                          print what became of packets, by epoch\n"
    "  show                            print the node, its ports and its epochs\n"
    "  down                            remove the plane\n"
    "  watch STOP DIR..                print events of nodes as they come, until the file STOP exists and no more come\n"
    "  replace EPOCH < LINES           replace the table of an epoch: packets are lost and mixed\n"
    "LINES are those of `xdp table`, as text or as bytes. ROW is a file: LABELS OWN, then a line START PORT for each start;\n"
    "without it the kernel is asked for what the lowest lines say. DIR is " PINS " by default, in a bpffs.\n";

static const char *const verdicts[] = {"forwarded", "delivered", "stamped", "no-epoch", "no-label", "no-port", "hops"};
static const char *const modes[] = {"xdp", "generic", "tc"};
enum mode { NATIVE, GENERIC, TC, MODES };

/* Who the node is, and who is at its links: entry 0 is the node with its own link's plane side, 1 the host's side, the others
 * its neighbours. */
struct who {
    char name[NAME_BYTES + 8], device[IFNAMSIZ];
    uint32_t ifindex, mode;
};
enum { SELF, HOST, NEIGHBOURS };

static const char *pins = PINS;
static int is_half_up; /* what was made is taken away again where `up` fails */

static void take_down(void);

static _Noreturn void refuse(const char *form, ...) {
    va_list given;
    va_start(given, form);
    fputs("bentzolu-xdp: ", stderr);
    vfprintf(stderr, form, given);
    fputc('\n', stderr);
    va_end(given);
    if (is_half_up) {
        is_half_up = 0;
        take_down();
    }
    exit(1);
}

static _Noreturn void misused(void) {
    fputs(words, stderr);
    exit(2);
}

/* What to say where the kernel refuses a call of bpf(2). */
static _Noreturn void refuse_by(int fault, const char *what) {
    if (fault == EPERM || fault == EACCES)
        refuse("cannot run here: %s: %s; this needs root, or CAP_SYS_ADMIN and CAP_NET_ADMIN", what, strerror(fault));
    if (fault == ENOSYS || fault == EINVAL || fault == EOPNOTSUPP)
        refuse("cannot run here: %s: %s; this needs Linux 5.10 or later with BPF", what, strerror(fault));
    refuse("%s: %s", what, strerror(fault));
}

static int quiet(enum libbpf_print_level level, const char *form, va_list given) {
    return getenv("BENTZOLU_XDP_LOG") && level <= LIBBPF_INFO ? vfprintf(stderr, form, given) : 0;
}

static void *room(size_t count, size_t size) {
    void *it = calloc(count, size);
    if (!it)
        refuse("out of memory");
    return it;
}

static double seconds(void) {
    struct timespec now;
    clock_gettime(CLOCK_MONOTONIC, &now);
    return now.tv_sec + now.tv_nsec / 1e9;
}

static const char *pin(const char *folder, const char *name) {
    static char path[PATH_BYTES];
    if (snprintf(path, sizeof path, "%s/%s", folder, name) >= (int)sizeof path)
        refuse("the name of the folder %s is too long", folder);
    return path;
}

static int pinned_in(const char *folder, const char *name) {
    int handle = bpf_obj_get(pin(folder, name));
    if (handle < 0 && errno == ENOENT)
        refuse("no plane is up at %s: begin with `up`", folder);
    if (handle < 0)
        refuse_by(errno, pin(folder, name));
    return handle;
}

static int pinned(const char *name) { return pinned_in(pins, name); }

static void put(int map, uint32_t key, const void *value, const char *what) {
    if (bpf_map_update_elem(map, &key, value, BPF_ANY))
        refuse_by(errno, what);
}

static uint32_t number(const char *word, uint32_t least, uint32_t most, const char *what) {
    char *end;
    errno = 0;
    unsigned long found = strtoul(word, &end, 10);
    if (*word < '0' || *word > '9' || *end || errno || found < least || found > most)
        refuse("%s is from %u to %u, not %s", what, least, most, word);
    return found;
}

static uint32_t entries_of(int map) {
    struct bpf_map_info info = {0};
    uint32_t size = sizeof info;
    if (bpf_obj_get_info_by_fd(map, &info, &size))
        refuse_by(errno, "the maps of the plane");
    return info.max_entries;
}

static struct who who_at(int map, uint32_t key) {
    struct who found;
    if (bpf_map_lookup_elem(map, &key, &found))
        refuse_by(errno, "who is at the links");
    return found;
}

/* Up and down */

static void mac_of(const char *text, uint8_t *to) {
    int end = 0;
    if (sscanf(text, "%2hhx:%2hhx:%2hhx:%2hhx:%2hhx:%2hhx%n", to, to + 1, to + 2, to + 3, to + 4, to + 5, &end) != 6 || text[end])
        refuse("%s is not a hardware address: give one such as 02:00:00:00:00:01", text);
}

static uint32_t device_of(const char *name) {
    uint32_t found = strlen(name) < IFNAMSIZ ? if_nametoindex(name) : 0;
    if (!found)
        refuse("there is no device %s here: give one that `ip link` lists", name);
    if (found == 1)
        refuse("%s is the loopback device, which the plane uses for its checks: give another one", name);
    return found;
}

static void own_mac(const char *device, uint8_t *to) {
    struct ifreq asked = {0};
    int sock = socket(AF_INET6, SOCK_DGRAM, 0);
    strncpy(asked.ifr_name, device, IFNAMSIZ - 1);
    if (sock < 0 || ioctl(sock, SIOCGIFHWADDR, &asked))
        refuse("%s: its hardware address cannot be read: %s", device, strerror(errno));
    memcpy(to, asked.ifr_hwaddr.sa_data, 6);
    close(sock);
}

/* Sums of UDP and TCP are to be whole in what leaves the host: XDP does not see what the kernel has put off. */
static void whole_sums(const char *device) {
    static const uint32_t offs[] = {ETHTOOL_STXCSUM, ETHTOOL_STSO, ETHTOOL_SGSO};
    int sock = socket(AF_INET6, SOCK_DGRAM, 0);
    for (int i = 0; i < 3; i++) {
        struct ethtool_value off = {offs[i], 0};
        struct ifreq asked = {.ifr_data = (void *)&off};
        strncpy(asked.ifr_name, device, IFNAMSIZ - 1);
        if (ioctl(sock, SIOCETHTOOL, &asked) && i == 0)
            refuse("%s: checksum offloading cannot be turned off (tx-checksumming): %s", device, strerror(errno));
    }
    close(sock);
}

static void attach(struct bpf_object *object, uint32_t ifindex, const char *device, enum mode mode, int is_own) {
    char name[32];
    snprintf(name, sizeof name, "from_%s%s", is_own ? "host" : "link", mode == TC ? "_tc" : "");
    int program = bpf_program__fd(bpf_object__find_program_by_name(object, name)), fault;
    if (mode == TC) {
        LIBBPF_OPTS(bpf_tc_hook, hook, .ifindex = ifindex, .attach_point = BPF_TC_INGRESS);
        LIBBPF_OPTS(bpf_tc_opts, tc, .prog_fd = program, .handle = 1, .priority = 1);
        fault = bpf_tc_hook_create(&hook);
        fault = fault && fault != -EEXIST ? fault : bpf_tc_attach(&hook, &tc);
    } else {
        uint32_t flags = mode == GENERIC ? XDP_FLAGS_SKB_MODE : XDP_FLAGS_DRV_MODE;
        fault = bpf_xdp_attach(ifindex, program, flags | XDP_FLAGS_UPDATE_IF_NOEXIST, NULL);
    }
    if (fault == -EBUSY || fault == -EEXIST)
        refuse("%s already has a program: remove it, or give another device", device);
    if (fault == -EOPNOTSUPP && mode == NATIVE)
        refuse("the driver of %s does not support XDP: use the mode generic or tc", device);
    if (fault)
        refuse_by(-fault, device);
}

static void detach(const struct who *it) {
    uint32_t now = if_nametoindex(it->device);
    if (!now || now != it->ifindex) /* the device is gone, and its program with it */
        return;
    if (it->mode == TC) {
        LIBBPF_OPTS(bpf_tc_hook, hook, .ifindex = now, .attach_point = BPF_TC_INGRESS);
        LIBBPF_OPTS(bpf_tc_opts, tc, .handle = 1, .priority = 1);
        bpf_tc_detach(&hook, &tc);
    } else {
        bpf_xdp_detach(now, it->mode == GENERIC ? XDP_FLAGS_SKB_MODE : XDP_FLAGS_DRV_MODE, NULL);
    }
}

static void take_down(void) {
    int map = bpf_obj_get(pin(pins, "who"));
    for (uint32_t key = 0, count = map < 0 ? 0 : entries_of(map); key < count; key++) {
        struct who it = who_at(map, key);
        if (key != HOST && it.ifindex)
            detach(&it);
    }
    DIR *folder = opendir(pins);
    for (struct dirent *it; folder && (it = readdir(folder));)
        if (it->d_name[0] != '.')
            unlink(pin(pins, it->d_name));
    if (folder)
        closedir(folder);
    rmdir(pins);
}

/* The object beside this program, or where a package puts it. */
static const char *usual_object(void) {
    static char path[PATH_BYTES];
    char self[PATH_BYTES - 64];
    ssize_t length = readlink("/proc/self/exe", self, sizeof self - 1);
    self[length > 0 ? length : 0] = 0;
    char *folder = dirname(self);
    snprintf(path, sizeof path, "%s/" OBJECT, folder);
    if (access(path, R_OK))
        snprintf(path, sizeof path, "%s/../lib/bentzolu/" OBJECT, folder);
    return path;
}

static struct bpf_object *loaded(const char *path, uint32_t degree) {
    if (access(path, R_OK))
        refuse("there is no object %s: build it by plane/make, or give --object FILE", path);
    struct bpf_object *object = bpf_object__open_file(path, NULL);
    if (!object)
        refuse("%s is not an object of the plane: build it by plane/make", path);
    static const char *const sized[] = {"ports", "devs"};
    for (int i = 0; i < 2; i++)
        bpf_map__set_max_entries(bpf_object__find_map_by_name(object, sized[i]), degree ? degree : 1);
    int fault = bpf_object__load(object);
    if (fault)
        refuse_by(-fault, "the kernel refused the programs");
    return object;
}

static int map_of(struct bpf_object *object, const char *name) { return bpf_object__find_map_fd_by_name(object, name); }

static void pin_all(struct bpf_object *object, int who) {
    if (mkdir(pins, 0700)) {
        if (errno == EEXIST)
            refuse("%s exists: a plane is up there, and `down` removes it", pins);
        refuse("%s cannot be made: %s; mount a bpffs: mount -t bpf bpf /sys/fs/bpf", pins, strerror(errno));
    }
    is_half_up = 1;
    if (bpf_obj_pin(who, pin(pins, "who")))
        refuse("%s is not in a bpffs: mount one by mount -t bpf bpf /sys/fs/bpf", pins);
    struct bpf_map *map;
    bpf_object__for_each_map(map, object) if (bpf_map__pin(map, pin(pins, bpf_map__name(map))))
        refuse_by(errno, pin(pins, bpf_map__name(map)));
    if (bpf_program__pin(bpf_object__find_program_by_name(object, "from_link"), pin(pins, "from_link")))
        refuse_by(errno, pin(pins, "from_link"));
}

static void add_who(int map, uint32_t key, const char *name, const char *device, enum mode mode) {
    struct who it = {.ifindex = device_of(device), .mode = mode};
    if (!*name || strlen(name) > NAME_BYTES)
        refuse("a name has 1 to %d bytes; this one does not: %s", NAME_BYTES, name);
    strcpy(it.name, name);
    strcpy(it.device, device);
    for (uint32_t other = 0; other < key; other++) {
        struct who before = who_at(map, other);
        if (before.ifindex == it.ifindex)
            refuse("the device %s is given twice", device);
        if (other >= NEIGHBOURS && !strcmp(before.name, name))
            refuse("the neighbour %s is given twice: a neighbour has one port", name);
    }
    put(map, key, &it, "who is at the links");
}

static void up(const char *object_path, int count, char **given) {
    if (count < 5 || (count - 5) % 3)
        misused();
    uint32_t mode = 0, degree = (count - 5) / 3;
    while (mode < MODES && strcmp(modes[mode], given[0]))
        mode++;
    if (mode == MODES)
        refuse("the mode of a plane is xdp, generic or tc, not %s", given[0]);
    if (degree > PORTS)
        refuse("a node has at most %d ports, not %u", PORTS, degree);
    struct node node = {0, number(given[2], 0, 65535, "a node's number")};
    struct bpf_object *object = loaded(object_path, degree);
    int who = bpf_map_create(BPF_MAP_TYPE_ARRAY, "who", 4, sizeof(struct who), NEIGHBOURS + degree, NULL);
    if (who < 0)
        refuse_by(errno, "a map");
    add_who(who, SELF, given[1], given[4], mode);
    add_who(who, HOST, "host", given[3], mode);
    char **links = given + 5;
    for (uint32_t i = 0; i < degree; i++) {
        struct port port = {.ifindex = device_of(links[3 * i + 1])};
        add_who(who, NEIGHBOURS + i, links[3 * i], links[3 * i + 1], mode);
        mac_of(links[3 * i + 2], port.there);
        own_mac(links[3 * i + 1], port.here);
        put(map_of(object, "ports"), i, &port, "the ports");
        put(map_of(object, "devs"), i, &port.ifindex, links[3 * i + 1]);
    }
    put(map_of(object, "node"), 0, &node, "the node");
    pin_all(object, who);
    for (uint32_t i = 0; i < degree; i++)
        attach(object, if_nametoindex(links[3 * i + 1]), links[3 * i + 1], mode, 0);
    if (mode != TC)
        whole_sums(given[3]);
    attach(object, if_nametoindex(given[4]), given[4], mode, 1);
    is_half_up = 0;
}

/* Tables */

#include "given.h"

/* The port of each label by a row: that of the last start at or below it, and below the first start that of the last one. */
static uint16_t *ports_by(const struct table *table) {
    uint16_t *found = room(table->labels, sizeof *found), port = table->count ? table->word[table->count - 1] & 0xFFFF : 0;
    for (uint32_t label = 0, i = 0; label < table->labels; label++) {
        if (i < table->count && table->word[i] >> 16 == label)
            port = table->word[i++] & 0xFFFF;
        found[label] = port;
    }
    return found;
}

/* The ports of the node, as the program sees them. */
static struct port *all_ports(void) {
    int map = pinned("ports");
    uint32_t count = entries_of(map);
    struct port *found = room(count, sizeof *found);
    for (uint32_t key = 0; key < count; key++)
        if (bpf_map_lookup_elem(map, &key, &found[key]))
            refuse_by(errno, "the ports");
    close(map);
    return found;
}

/* Asks the program itself, as it runs in the kernel, for each label and two beyond; answers the first that goes otherwise, or
 * -1. */
static int wrong_label(const struct table *table, uint32_t epoch) {
    int program = pinned("from_link"), wrong = -1;
    uint16_t *by_row = ports_by(table);
    struct port *ports = all_ports();
    uint8_t in[86] = {[12] = 0x86, 0xDD, 0x60, [20] = 59, 64, [38] = GROUP >> 8, [40] = epoch >> 8, epoch}, out[128];
    for (uint32_t label = 0; label < table->labels + 2 && wrong < 0; label++) {
        in[52] = label >> 8, in[53] = label;
        LIBBPF_OPTS(bpf_test_run_opts, asked, .data_in = in, .data_size_in = sizeof in, .data_out = out, .data_size_out = sizeof out,
                    .repeat = 1);
        if (bpf_prog_test_run_opts(program, &asked))
            refuse_by(errno, "the program cannot be asked (BPF_PROG_TEST_RUN)");
        int is_right;
        if (label >= table->labels || (label != table->own && !table->count)) {
            is_right = asked.retval == XDP_DROP;
        } else if (label == table->own) {
            is_right = asked.retval == XDP_PASS && !out[40] && !out[41];
        } else {
            const struct port *port = &ports[by_row[label]];
            is_right = asked.retval == XDP_REDIRECT && out[21] == 63 && !memcmp(out, port->there, 6) && !memcmp(out + 6, port->here, 6);
        }
        wrong = is_right ? -1 : (int)label;
    }
    free(by_row);
    free(ports);
    return wrong;
}

/* All tables that the kernel has, by their slots, and the map that they stand in: -1 where there is none. */
struct tables {
    int map;
    struct held of[EPOCHS];
};

/* A program alone changes tables at a time. */
static void wait_for_others(void) {
    int folder = open(pins, O_RDONLY | O_DIRECTORY);
    if (folder >= 0)
        flock(folder, LOCK_EX); /* until this process ends */
}

static struct tables all_tables(const char *folder) {
    struct tables found = {.map = -1};
    uint32_t id, zero = 0;
    int outer = pinned_in(folder, "tables");
    while (!bpf_map_lookup_elem(outer, &zero, &id)) {
        found.map = bpf_map_get_fd_by_id(id);
        if (found.map >= 0 || errno != ENOENT) /* else another one took its place meanwhile */
            break;
    }
    close(outer);
    if (found.map < 0)
        return found;
    uint32_t count = entries_of(found.map);
    struct line *store = room(count, sizeof *store);
    for (uint32_t at = 0; at < count; at++)
        if (bpf_map_lookup_elem(found.map, &at, &store[at]))
            refuse_by(errno, "the tables");
    for (uint32_t entry = 0; entry <= store[0].word[0]; entry++) {
        struct held it = held_at(store, entry);
        if (it.lines)
            found.of[it.line[0].word[HEAD_EPOCH] % EPOCHS] = it;
    }
    free(store);
    return found;
}

/* The epoch whose table stands in a slot, or -1. */
static int epoch_in(const struct tables *tables, uint32_t slot) {
    const struct held *it = &tables->of[slot];
    return it->lines ? (int)it->line[0].word[HEAD_EPOCH] : -1;
}

/* Puts a map with these tables, which nobody can change any more, in the place of the one that is there. A packet sees the one
 * or the other. When this returns no program runs any more that has seen the old one. */
static void put_tables(const struct tables *tables) {
    LIBBPF_OPTS(bpf_map_create_opts, options, .map_flags = BPF_F_INNER_MAP);
    LIBBPF_OPTS(bpf_map_batch_opts, batch, .elem_flags = BPF_ANY);
    struct held held[EPOCHS];
    uint32_t count = 0, lines = 0;
    for (uint32_t slot = 0; slot < EPOCHS; slot++)
        if (tables->of[slot].lines)
            held[count++] = tables->of[slot];
    struct line *store = stored(held, count, EPOCHS, &lines);
    uint32_t *keys = room(lines ? lines : 1, 4);
    for (uint32_t i = 0; i < lines; i++)
        keys[i] = i;
    if (!store)
        refuse("out of memory");
    int map = bpf_map_create(BPF_MAP_TYPE_ARRAY, "tables", 4, sizeof *store, lines, &options);
    if (map < 0 || bpf_map_update_batch(map, keys, store, &lines, &batch) || bpf_map_freeze(map))
        refuse_by(errno, "the tables");
    put(pinned("tables"), 0, &map, "the tables");
    close(map);
    free(store);
    free(keys);
}

static void clear_counts(uint32_t slot) {
    int cpus = libbpf_num_possible_cpus(), map = pinned("counts");
    uint64_t *none = room(cpus, 8);
    for (uint32_t i = 0; i < VERDICTS; i++)
        put(map, slot * VERDICTS + i, none, "the counters");
    free(none);
}

static void install(uint32_t epoch, const char *row) {
    struct table table = read_table(epoch, row);
    uint32_t slot = epoch % EPOCHS;
    wait_for_others();
    struct tables tables = all_tables(pins);
    int there = epoch_in(&tables, slot);
    if (there == (int)epoch)
        refuse("epoch %u is already installed: retire it first", epoch);
    if (there >= 0)
        refuse("the slot of epoch %u is taken by epoch %d: retire that one first", epoch, there);
    clear_counts(slot);
    tables.of[slot] = (struct held){table.lines, table.line};
    put_tables(&tables);
    int wrong = wrong_label(&table, epoch);
    if (wrong >= 0) {
        tables.of[slot].lines = 0;
        put_tables(&tables);
        refuse("the label %d is not forwarded as the row of epoch %u says: the table was removed again", wrong, epoch);
    }
}

/* All tables, of which that of an epoch has to be one. */
static struct tables tables_with(uint32_t epoch) {
    struct tables tables = all_tables(pins);
    if (epoch_in(&tables, epoch % EPOCHS) != (int)epoch)
        refuse("epoch %u is not installed", epoch);
    return tables;
}

static void check(uint32_t epoch, const char *row) {
    struct table table = read_table(epoch, row);
    tables_with(epoch);
    int wrong = wrong_label(&table, epoch);
    if (wrong >= 0)
        refuse("the label %d is not forwarded as the row of epoch %u says", wrong, epoch);
}

static void replace(uint32_t epoch) {
    struct table table = read_table(epoch, NULL);
    wait_for_others();
    struct tables tables = tables_with(epoch);
    tables.of[epoch % EPOCHS] = (struct held){table.lines, table.line};
    put_tables(&tables);
}

static struct node node_of(int map) {
    uint32_t zero = 0;
    struct node found;
    if (bpf_map_lookup_elem(map, &zero, &found))
        refuse_by(errno, "the node");
    return found;
}

static void lines_of(uint32_t epoch) {
    struct tables tables = tables_with(epoch);
    const struct held *it = &tables.of[epoch % EPOCHS];
    for (uint32_t at = 0; at < it->lines; at++)
        for (int i = 0; i < WORDS; i++)
            printf("%08x%c", it->line[at].word[i], i < WORDS - 1 ? ' ' : '\n');
}

static void stamp(uint32_t epoch) {
    int map = pinned("node");
    struct node node = node_of(map);
    wait_for_others();
    struct tables tables = all_tables(pins);
    if (epoch && epoch_in(&tables, epoch % EPOCHS) != (int)epoch)
        refuse("epoch %u is not installed: install it at all nodes before one stamps it", epoch);
    node.stamp = epoch;
    put(map, 0, &node, "the node");
    /* The same map once more: this call returns when no program runs any more that has read the old stamp. */
    if (tables.map >= 0)
        put(pinned("tables"), 0, &tables.map, "the tables");
}

static void retire(uint32_t epoch) {
    wait_for_others();
    struct tables tables = tables_with(epoch);
    if (node_of(pinned("node")).stamp == epoch)
        refuse("the node still stamps its packets with epoch %u: stamp another one first", epoch);
    tables.of[epoch % EPOCHS].lines = 0;
    put_tables(&tables);
}

/* Counters */

static void counts_of(int map, uint32_t slot, uint64_t *sums) {
    int cpus = libbpf_num_possible_cpus();
    uint64_t *values = room(cpus, 8);
    for (uint32_t i = 0; i < VERDICTS; i++) {
        uint32_t key = slot * VERDICTS + i;
        if (bpf_map_lookup_elem(map, &key, values))
            refuse_by(errno, "the counters");
        for (int cpu = 0; cpu < cpus; cpu++)
            sums[i] += values[cpu];
    }
    free(values);
}

static void counts(void) {
    int map = pinned("counts");
    struct tables tables = all_tables(pins);
    for (uint32_t slot = 0; slot < EPOCHS; slot++) {
        uint64_t sums[VERDICTS] = {0}, all = 0;
        int epoch = epoch_in(&tables, slot);
        counts_of(map, slot, sums);
        for (int i = 0; i < VERDICTS; i++)
            all += sums[i];
        if (epoch < 0 && !all)
            continue;
        if (epoch < 0)
            printf("slot %u", slot);
        else
            printf("epoch %d", epoch);
        for (int i = 0; i < VERDICTS; i++)
            printf(" %s %lu", verdicts[i], sums[i]);
        putchar('\n');
    }
}

/* An epoch is empty when all that was stamped is delivered or dropped. A full queue's losses are seen by no program, so it is
 * also empty when no counter has moved for a second. */
static void drained(uint32_t epoch, int count, char **folders) {
    const double patience = 5, rest = 1;
    double began = seconds(), moved = began;
    uint64_t before = 0;
    int *maps = room(count, sizeof(int));
    for (int i = 0; i < count; i++) {
        maps[i] = pinned_in(folders[i], "counts");
        if (node_of(pinned_in(folders[i], "node")).stamp == epoch)
            refuse("the node at %s stamps epoch %u: stamp another one first, at all nodes", folders[i], epoch);
    }
    for (;;) {
        uint64_t sums[VERDICTS] = {0}, all = 0;
        for (int i = 0; i < count; i++)
            counts_of(maps[i], epoch % EPOCHS, sums);
        for (int i = 0; i < VERDICTS; i++)
            all += sums[i];
        double now = seconds();
        if (all != before)
            before = all, moved = now;
        if (count > 1 && sums[STAMPED] == sums[DELIVERED] + sums[NO_EPOCH] + sums[NO_LABEL] + sums[NO_PORT] + sums[HOPS]) {
            printf("drained %u stamped %lu delivered %lu\n", epoch, sums[STAMPED], sums[DELIVERED]);
            return;
        }
        if (now - moved >= rest) {
            printf("quiet %u stamped %lu delivered %lu\n", epoch, sums[STAMPED], sums[DELIVERED]);
            return;
        }
        if (now - began > patience)
            refuse("epoch %u is not empty: %lu stamped, %lu delivered; wait, and try again", epoch, sums[STAMPED], sums[DELIVERED]);
        usleep(5000);
    }
}

static void show(void) {
    int who = pinned("who");
    struct tables tables = all_tables(pins);
    struct who self = who_at(who, SELF), host = who_at(who, HOST);
    printf("node %s mode %s host %s own %s stamp %u\n", self.name, modes[self.mode], host.device, self.device,
           node_of(pinned("node")).stamp);
    for (uint32_t key = NEIGHBOURS; key < entries_of(who); key++) {
        struct who it = who_at(who, key);
        uint32_t now = if_nametoindex(it.device);
        printf("port %u %s %s%s\n", key - NEIGHBOURS, it.name, it.device, now == it.ifindex ? "" : " gone");
    }
    for (uint32_t slot = 0; slot < EPOCHS; slot++)
        if (epoch_in(&tables, slot) >= 0)
            printf("epoch %d lines %u\n", epoch_in(&tables, slot), tables.of[slot].lines);
}

/* Events, for the lab */

static uint64_t seen;

static int write_event(void *to, void *data, size_t size) {
    seen++;
    return size >= sizeof(struct event) && fwrite(data, sizeof(struct event), 1, to) == 1 ? 0 : -1;
}

static void watch(const char *stop, int count, char **folders) {
    struct ring_buffer *rings = NULL;
    for (int i = 0; i < count; i++) {
        int map = pinned_in(folders[i], "events");
        if (!rings ? !(rings = ring_buffer__new(map, write_event, stdout, NULL)) : ring_buffer__add(rings, map, write_event, stdout))
            refuse_by(errno, "the events");
    }
    for (int silent = 0; silent < 5 || access(stop, F_OK);) {
        uint64_t before = seen;
        if (ring_buffer__poll(rings, 100) < 0 && errno != EINTR)
            refuse_by(errno, "the events");
        silent = seen == before ? silent + 1 : 0;
    }
    if (fflush(stdout))
        refuse("the events cannot be written: %s", strerror(errno));
    int cpus = libbpf_num_possible_cpus();
    uint64_t *lost = room(cpus, 8), sum = 0;
    for (int i = 0; i < count; i++) {
        uint32_t zero = 0;
        if (bpf_map_lookup_elem(pinned_in(folders[i], "missed"), &zero, lost))
            refuse_by(errno, "the events");
        for (int cpu = 0; cpu < cpus; cpu++)
            sum += lost[cpu];
    }
    if (sum)
        refuse("%lu events were lost: send fewer packets per second", sum);
}

int main(int count, char **given) {
    const char *object = NULL;
    libbpf_set_print(quiet);
    given++, count--;
    if (count && (!strcmp(given[0], "--help") || !strcmp(given[0], "-h"))) {
        fputs(words, stdout);
        return fflush(stdout) ? 1 : 0;
    }
    while (count > 1 && !strncmp(given[0], "--", 2)) {
        if (!strcmp(given[0], "--pins"))
            pins = given[1];
        else if (!strcmp(given[0], "--object"))
            object = given[1];
        else
            misused();
        given += 2, count -= 2;
    }
    if (count < 1)
        misused();
    const char *word = *given++;
    count--;
    if (!strcmp(word, "up")) {
        up(object ? object : usual_object(), count, given);
    } else if (!strcmp(word, "watch") && count > 1) {
        watch(given[0], count - 1, given + 1);
    } else if (count == 0 && (!strcmp(word, "counts") || !strcmp(word, "show") || !strcmp(word, "down"))) {
        close(pinned("who"));
        !strcmp(word, "counts") ? counts() : !strcmp(word, "show") ? show() : take_down();
    } else if (count >= 1) {
        const char *row = count == 2 ? given[1] : NULL;
        int is_table = count <= 2 && (!strcmp(word, "install") || !strcmp(word, "check"));
        int is_stamp = count == 1 && !strcmp(word, "stamp"), is_lines = count == 1 && !strcmp(word, "lines");
        int is_one = is_stamp || is_lines || (count == 1 && (!strcmp(word, "retire") || !strcmp(word, "replace")));
        int is_drained = !strcmp(word, "drained");
        if (!is_table && !is_one && !is_drained)
            misused();
        uint32_t epoch = number(given[0], !is_stamp, GREATEST, "an epoch");
        char *usual[] = {(char *)pins};
        if (is_drained)
            count > 1 ? drained(epoch, count - 1, given + 1) : drained(epoch, 1, usual);
        else if (is_table)
            *word == 'i' ? install(epoch, row) : check(epoch, row);
        else
            is_stamp ? stamp(epoch) : is_lines ? lines_of(epoch) : !strcmp(word, "retire") ? retire(epoch) : replace(epoch);
    } else {
        misused();
    }
    if (fflush(stdout))
        refuse("the output cannot be written: %s", strerror(errno));
    return 0;
}
