# Writes the commands that put a topology, and the prefixes of its plans, into network namespaces of Linux: a script
# for `sh -e`, as root, with iproute2. For instance
#   awk -f netns.awk -v act=up -v format=edgelist nsfnet.edgelist | sh -e
#   route prefixes --format edgelist nsfnet.edgelist | awk -f netns.awk -v act=install -v epoch=1 | sh -e
# The acts, each over the topology or over the text of `route prefixes`:
#   up       topology  a namespace for each node, a veth pair for each link; forwarding on, all hop limits 255
#   install  prefixes  an epoch at each node: its own address, then its routes, the longest prefixes first
#   stamp    prefixes  what names mean from now on, to programs that `ip netns exec` starts: /etc/netns/NAMESPACE/hosts
#   retire   prefixes  takes an epoch away: its routes, the shortest prefixes first, then the own address
#   down     topology  takes away the namespaces and what stamps wrote
# Variables: epoch, 1 to 65535; format, edgelist for a weighted edge list; only, a node: its commands alone
# (install, stamp, retire); guard=1, an `unreachable` of metric 4096 after each route (install and retire alike),
# so that where a link is set down what was to go over it is dropped; fixed=1, neighbours known by hand (up); base,
# the front of all addresses, fd00 if left out; tag, the front of all namespaces' names, bz- if left out. A label's
# address is BASE:EPOCH::LABEL. The K-th node of the text is fe80::K on each of its links; a port is named after its
# neighbour. Where names would not do for that, ports are named toNAME; where that would not do, namespaces and
# ports are numbered, and comments tell the numbers.

function refuse(why) {
    print "netns.awk: " why > "/dev/stderr"
    refused = 1
    exit 2
}

# The K-th node is names[K], and number[NAME] is K.
function node(name) {
    if (!(name in number)) {
        number[name] = ++count
        names[count] = name
        if (name !~ /^[A-Za-z0-9][A-Za-z0-9_.-]*$/ || length(name) > 13) numbered = 1
        if (name !~ /^[A-Za-z]/ || name ~ /^(lo|all|default)$/) prefixed = 1
    }
    return number[name]
}

function namespace(k) { return tag (numbered ? k : names[k]) }
function port(k) { return numbered ? "to" k : prefixed ? "to" names[k] : names[k] }
function link_local(k) { return sprintf("fe80::%x", k) }
function mac(k) { return sprintf("02:00:00:00:%02x:%02x", int(k / 256), k % 256) }
function address(value) { return sprintf("%s:%x::%x", base, epoch, value) }

function link(a, b) {
    if (a == b || (a, b) in linked) return
    linked[a, b] = linked[b, a] = 1
    from[++links] = a
    to[links] = b
    near[a] = near[a] " " b
    near[b] = near[b] " " a
}

BEGIN {
    if (act !~ /^(up|install|stamp|retire|down)$/) refuse("act is up, install, stamp, retire or down")
    of_topology = act ~ /^(up|down)$/
    if (!of_topology && (epoch !~ /^[0-9]+$/ || epoch < 1 || epoch > 65535)) refuse("epoch is 1 to 65535")
    if (format !~ /^(|adjlist|edgelist)$/) refuse("format is adjlist or edgelist")
    if (base == "") base = "fd00"
    if (base !~ /^[0-9a-f]+(:[0-9a-f]+)*$/ || length(base) > 19) refuse("base is one to four groups of an address")
    if (tag == "") tag = "bz-"
    if (tag !~ /^[A-Za-z0-9][A-Za-z0-9_.-]*$/) refuse("tag is of letters, digits, '_', '.' and '-'")
}

of_topology {
    sub(/#.*/, "")
    first = NF ? node($1) : 0
    for (i = 2; i <= (format == "edgelist" ? NF - 1 : NF); i++) link(first, node($i))
    next
}
!head {
    if ($1 != "prefixes" || NF != 5) refuse("this is not the text of route prefixes")
    head = 1
    nodes = $3
    bits = $4
    lines = $5
    next
}
{
    k = node($1)
    label[k] = $2
    row[k] = $0
    lines -= (NF - 2) / 2
    if (NF % 2) refuse("the line of " $1 " is cut short")
}

function write_up(  i, j, k, ports) {
    print "ip -batch - <<'END'"
    for (k = 1; k <= count; k++) print "netns add " namespace(k)
    for (i = 1; i <= links; i++)
        print "link add name " port(to[i]) " address " mac(from[i]) " netns " namespace(from[i]) \
            " type veth peer name " port(from[i]) " address " mac(to[i]) " netns " namespace(to[i])
    print "END"
    for (k = 1; k <= count; k++) {
        print "ip -n " namespace(k) " -batch - <<'END'"
        print "link set dev lo up"
        i = split(near[k], ports, " ")
        for (j = 1; j <= i; j++) {
            print "link set dev " port(ports[j]) " addrgenmode none"
            print "address add " link_local(k) "/64 dev " port(ports[j]) " nodad"
            print "link set dev " port(ports[j]) " up"
            if (fixed)
                print "neigh add " link_local(ports[j]) " lladdr " mac(ports[j]) " dev " port(ports[j]) " nud permanent"
        }
        print "END"
        print "ip netns exec " namespace(k) " sh -e <<'END'"
        print "cd /proc/sys/net"
        print "echo 1 > ipv6/conf/all/forwarding"
        # No kind of ICMP error is limited: else some probes of traceroute get no answer.
        print "echo > ipv6/icmp/ratemask"
        print "for limit in ipv6/conf/*/hop_limit; do echo 255 > \"$limit\"; done"
        print "END"
    }
}

# Whether each neighbour of a row is a node.
function look(k,  i, j, words) {
    i = split(row[k], words, " ")
    for (j = 4; j <= i; j += 2) if (words[j] != "#" && !(words[j] in number)) refuse("no node " words[j])
}

function write_route(verb, prefix, neighbour,  part, where) {
    split(prefix, part, "/")
    where = address(part[1]) "/" 128 - bits + part[2]
    if (neighbour == "#") print "route " verb " unreachable " where
    else print "route " verb " " where " via " link_local(number[neighbour]) " dev " port(number[neighbour])
    if (guard && neighbour != "#") print "route " verb " unreachable " where " metric 4096"
}

function write_epoch(k,  i, j, words) {
    i = split(row[k], words, " ")
    print "ip -n " namespace(k) " -batch - <<'END'"
    if (act == "install") {
        print "address add " address(label[k]) "/128 dev lo nodad"
        for (j = 3; j < i; j += 2) write_route("add", words[j], words[j + 1])
    } else {
        for (j = i - 1; j >= 3; j -= 2) write_route("del", words[j], words[j + 1])
        print "address del " address(label[k]) "/128 dev lo"
    }
    print "END"
}

# Written in place: a new file under the old name would not be seen by programs that run.
function write_stamp(k,  i) {
    print "mkdir -p /etc/netns/" namespace(k)
    print "cat > /etc/netns/" namespace(k) "/hosts <<'END'"
    print "127.0.0.1 localhost"
    print "::1 localhost"
    for (i = 1; i <= count; i++) print address(label[i]), names[i]
    print "END"
}

function write_down(k) {
    print "if [ -e /run/netns/" namespace(k) " ]; then ip netns del " namespace(k) "; fi"
    print "rm -f /etc/netns/" namespace(k) "/hosts"
    print "if [ -e /etc/netns/" namespace(k) " ]; then rmdir /etc/netns/" namespace(k) "; fi"
}

END {
    if (refused) exit 2
    if (!of_topology && !head) refuse("there is no text")
    if (!of_topology && (count != nodes || lines != 0)) refuse("the text is cut short")
    if (!of_topology) for (k = 1; k <= count; k++) look(k)
    if (only != "" && !(only in number)) refuse("no node " only)
    if (numbered) for (k = 1; k <= count; k++) print "# " k " is " names[k]
    if (act == "up") write_up()
    for (k = 1; k <= count; k++) {
        if (only != "" && names[k] != only) continue
        if (act == "install" || act == "retire") write_epoch(k)
        if (act == "stamp") write_stamp(k)
        if (act == "down") write_down(k)
    }
    if (act == "down") print "rmdir /etc/netns 2> /dev/null || true"
}
