/* given.h: reads the table that the loader is given, of lines and of a row beside them, and refuses what the plane cannot take. A
 * part of loader.c. */
#ifndef PLANE_GIVEN_H
#define PLANE_GIVEN_H

/* A row, and the lines that were made of it. */
struct table {
    uint32_t labels, own, count, *word;
    uint32_t lines;
    struct line *line;
};

static uint32_t read_all(FILE *file, uint8_t *into, uint32_t most) {
    uint32_t size = 0, got;
    while (size < most && (got = fread(into + size, 1, most - size, file)))
        size += got;
    return size;
}

/* The lines of a table, of text or of bytes. The third and fourth byte of a table's bytes are 0, since an epoch has 16 bits. */
static void read_lines(struct table *table) {
    uint32_t most = MOST_LINES * 9 * WORDS + 1, size;
    uint8_t *data = room(most + 1, 1);
    table->line = room(MOST_LINES, sizeof(struct line));
    size = read_all(stdin, data, most);
    if (size >= 128 && !data[2] && !data[3]) {
        if (size % sizeof(struct line) || size / sizeof(struct line) > MOST_LINES)
            refuse("a table has 1 to %d lines of %zu bytes, not %u bytes in all", MOST_LINES, sizeof(struct line), size);
        memcpy(table->line, data, size);
        table->lines = size / sizeof(struct line);
        return;
    }
    char *at = (char *)data;
    uint32_t words_read = 0, *to = table->line[0].word;
    while (*at && words_read < MOST_LINES * WORDS) {
        if (strspn(at, "0123456789abcdef") != 8 || !strchr(" \n", at[8]) || !at[8] || (at[8] == '\n') != (words_read % WORDS == WORDS - 1))
            refuse("line %u of the table is not %d words of 8 hexadecimal digits", words_read / WORDS + 1, WORDS);
        to[words_read++] = strtoul(at, NULL, 16);
        at += 9;
    }
    if (*at || !words_read || words_read % WORDS)
        refuse("a table has 1 to %d lines of %d words", MOST_LINES, WORDS);
    table->lines = words_read / WORDS;
    free(data);
}

/* Adds a start to a row; the refusals are those of each way to say a row. */
static void add_start(struct table *table, uint32_t start, uint32_t port, uint32_t ports) {
    if (table->count == STARTS)
        refuse("a row has at most %d starts", STARTS);
    if (start >= table->labels)
        refuse("the start %u is not a label from 0 to %u", start, table->labels - 1);
    if (table->count && start <= table->word[table->count - 1] >> 16)
        refuse("the starts are out of order: %u comes after %u", start, table->word[table->count - 1] >> 16);
    if (port >= ports)
        refuse("the start %u leads to port %u, but this node has %u ports: give the table of this node and its ports", start,
               port, ports);
    table->word[table->count++] = start << 16 | port;
}

static void refuse_ports_gone(const struct table *table) {
    int map = pinned("ports"), who = pinned("who");
    uint8_t is_seen[PORTS] = {0};
    for (uint32_t i = 0; i < table->count; i++) {
        uint32_t key = table->word[i] & 0xFFFF;
        struct port port;
        char name[IFNAMSIZ];
        if (is_seen[key])
            continue;
        is_seen[key] = 1;
        struct who it = who_at(who, NEIGHBOURS + key);
        if (bpf_map_lookup_elem(map, &key, &port) || !if_indextoname(port.ifindex, name) || port.ifindex != it.ifindex)
            refuse("the device %s of port %u is gone: take the plane down, and bring it up with the present devices", it.device, key);
    }
    close(map);
    close(who);
}

/* Checks a table's head, and reads the row that its lowest lines say. */
static void read_row_of_lines(struct table *table, uint32_t epoch, uint32_t ports) {
    const uint32_t *head = table->line[0].word;
    uint32_t depth = head[HEAD_DEPTH], first = depth == 2 ? head[HEAD_BASE] : 1;
    table->labels = head[HEAD_LABELS], table->own = head[HEAD_OWN];
    table->word = room(STARTS, 4);
    if (head[HEAD_EPOCH] != epoch)
        refuse("the table is of epoch %u, not of epoch %u", head[HEAD_EPOCH], epoch);
    if (table->labels < 1 || table->labels > LABELS || table->own >= table->labels)
        refuse("a table has 1 to %d labels, and its own label is one of them: not %u labels and own label %u", LABELS, table->labels, table->own);
    if (depth > 2 && depth != BYTES)
        refuse("the depth of a table is 0, 1, 2 or %d, not %u", BYTES, depth);
    if (depth == BYTES) {
        if (table->lines != 1 + (table->labels + 127) / 128)
            refuse("a table of %u labels as bytes has %u lines, not %u", table->labels, 1 + (table->labels + 127) / 128, table->lines);
        const uint8_t *bytes = (const uint8_t *)table->line[1].word;
        for (uint32_t i = 0; i < table->labels; i++)
            if (i == 0 || bytes[i] != bytes[i - 1])
                add_start(table, i, bytes[i], ports);
        return;
    }
    if ((depth == 0) != (table->lines == 1) || first > table->lines)
        refuse("a table of depth %u cannot have %u lines", depth, table->lines);
    const uint32_t *leaf = depth ? table->line[first].word : head + HEAD_WORDS;
    uint32_t most = depth ? (table->lines - first) * WORDS : HEAD_WORDS;
    for (uint32_t i = 0; i < most && leaf[i] != NO_WORD; i++)
        add_start(table, leaf[i] >> 16, leaf[i] & 0xFFFF, ports);
    if (table->count && table->word[0] >> 16)
        refuse("the first start of a table is 0, not %u", table->word[0] >> 16);
}

/* A row that is given beside its lines: the kernel is then asked for what the row says. */
static void read_row(struct table *table, const char *path, uint32_t ports) {
    FILE *file = fopen(path, "r");
    uint32_t labels, own, start, port;
    if (!file)
        refuse("%s: %s", path, strerror(errno));
    if (fscanf(file, "%u %u", &labels, &own) != 2)
        refuse("%s is not a row: its first line must be LABELS OWN", path);
    if (labels != table->labels || own != table->own)
        refuse("the table is for label %u of %u, but the row is for label %u of %u: one of them belongs to another node", table->own,
               table->labels, own, labels);
    table->count = 0;
    while (fscanf(file, "%u %u", &start, &port) == 2)
        add_start(table, start, port, ports);
    if (!feof(file))
        refuse("%s is not a row: each line after the first must be START PORT", path);
    fclose(file);
}

static struct table read_table(uint32_t epoch, const char *row) {
    struct table table = {0};
    uint32_t ports = entries_of(pinned("who")) - NEIGHBOURS;
    read_lines(&table);
    read_row_of_lines(&table, epoch, ports);
    if (row)
        read_row(&table, row, ports);
    refuse_ports_gone(&table);
    return table;
}

#endif
