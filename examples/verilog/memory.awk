# Writes a plan as words for Verilog's $readmemh, and a network's wires for interval_net_tb.v:
#   route plan nsfnet.adjlist | awk -f memory.awk -v act=rows nsfnet.adjlist - > 1.hex
#   awk -f memory.awk -v act=wires nsfnet.adjlist > wires.hex
# Rows: a line `// memory KIND N L P K`, then for each node in node order a line `// NAME NEIGHBOUR..` (port P is the P-th,
# from 0 on) and a line of K + 1 words: the own label, then start * 2^P + port, ascending; a shorter row repeats its last
# word. L is the bits of a label, P those of a port, K the most starts of a node. Wires: a line `// wires N D`, then for
# each node a line of D words, one for each port: node * D + port at the other end, ffffffff where there is none.
# Variables: act, rows or wires; format, edgelist for a weighted edge list.

function refuse(why) {
    print "memory.awk: " why > "/dev/stderr"
    refused = 1
    exit 2
}

function node(name) {
    if (!(name in number)) {
        number[name] = count++
        names[count - 1] = name
    }
    return number[name]
}

function link(a, b) {
    if (a == b || (a, b) in port) return
    port[a, b] = degree[a] + 0
    far[a, degree[a]++] = b
    port[b, a] = degree[b] + 0
    far[b, degree[b]++] = a
}

function bits(values,  b) {
    for (b = 1; 2 ^ b < values; b++);
    return b
}

BEGIN {
    if (act !~ /^(rows|wires)$/) refuse("act is rows or wires")
    if (format !~ /^(|adjlist|edgelist)$/) refuse("format is adjlist or edgelist")
    K = 1
}

FILENAME == ARGV[1] {
    sub(/#.*/, "")
    if (NF) first = node($1)
    for (i = 2; i <= (format == "edgelist" ? NF - 1 : NF); i++) link(first, node($i))
    next
}
!head {
    if ($1 != "plan" || NF != 4 || $3 != count) refuse("this is not the plan of that topology")
    head = 1
    kind = $2
    starts_left = $4
    next
}
{
    if (!($1 in number) || NF % 2) refuse("the line of " $1 " is not of this topology, or cut short")
    u = number[$1]
    label[u] = $2
    seen++
    starts[u] = (NF - 2) / 2
    starts_left -= starts[u]
    if (starts[u] > K) K = starts[u]
    for (i = 1; i <= starts[u]; i++) {
        if (!((u, number[$(2 * i + 2)]) in port)) refuse("there is no link from " $1 " to " $(2 * i + 2))
        start[u, i] = $(2 * i + 1)
        by[u, i] = port[u, number[$(2 * i + 2)]]
    }
}

function write_wires(  u, p, line) {
    print "// wires", count, D
    for (u = 0; u < count; u++) {
        line = ""
        for (p = 0; p < D; p++)
            line = line (p ? " " : "") (p < degree[u] ? sprintf("%08x", far[u, p] * D + port[far[u, p], u]) : "ffffffff")
        print line
    }
}

function write_rows(  u, i, p, line, word, hex) {
    print "// memory", kind, count, L, P, K
    hex = "%0" int((L + P + 3) / 4) "x"
    for (u = 0; u < count; u++) {
        line = "// " names[u]
        for (p = 0; p < degree[u]; p++) line = line " " names[far[u, p]]
        print line
        word = label[u]
        line = sprintf(hex, word)
        for (i = 1; i <= K; i++) {
            if (i <= starts[u]) word = start[u, i] * 2 ^ P + by[u, i]
            line = line " " sprintf(hex, word)
        }
        print line
    }
}

END {
    if (refused) exit 2
    D = 1
    for (u = 0; u < count; u++) if (degree[u] > D) D = degree[u]
    L = bits(count)
    P = bits(D)
    if (act == "wires") write_wires()
    else if (!head || seen != count || starts_left != 0) refuse("the plan is cut short")
    else write_rows()
}
