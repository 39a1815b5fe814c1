# Writes what interval_net_tb.v printed as a trace, for `route check`: awk -f trace.awk nsfnet.adjlist LOG
# Variable: format, edgelist for a weighted edge list. A packet that was not delivered is `left`.

function node(name) {
    if (!(name in number)) {
        number[name] = count++
        names[count - 1] = name
    }
    return number[name]
}

FILENAME == ARGV[1] {
    sub(/#.*/, "")
    if (NF) a = node($1)
    for (i = 2; i <= (format == "edgelist" ? NF - 1 : NF); i++) {
        b = node($i)
        weight[a, b] = weight[b, a] = format == "edgelist" ? $NF + 0 : 1
    }
    next
}
$1 == "I" {
    epoch[$2] = $3
    source[$2] = $4
    dest[$2] = $5
    packets++
}
$1 == "H" || $1 == "D" {
    if ($2 in hops) total[$2] += weight[last[$2], $3]
    hops[$2] = hops[$2] " " names[$3]
    last[$2] = $3
}
$1 == "D" { delivered[$2] = 1 }

END {
    print "trace 1"
    for (i = 0; i < packets; i++)
        print i, epoch[i], names[source[i]], names[dest[i]], total[i] + 0, \
            (i in delivered ? "delivered" : "left") (i in hops ? hops[i] : " " names[source[i]])
}
