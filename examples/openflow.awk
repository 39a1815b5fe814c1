# Writes the commands that put an epoch of a plan into switches of Open vSwitch, of the text of `route prefixes`:
#   route prefixes nsfnet.edgelist | awk -f openflow.awk -v act=install -v epoch=1 | sh -e
# The K-th node of the text is the bridge sK, as Mininet names switches. OpenFlow's port J of a bridge leads to node J
# (Mininet: addLink(s[a], s[b], port1=b, port2=a)), and the port `host` to its own host, which has the hardware address
# 02:00:00:00:XX:XX with K in hexadecimal digits, and for label L the address fd00::L. Under way the second group of a
# destination is the epoch: the bridge of its source writes it, and that of its destination takes it off, so hosts keep
# their addresses, and connections live through changes. The acts:
#   install  an epoch's rules in table 1, with the epoch as their cookie: the own label, then the prefixes
#   stamp    the epoch that packets from a bridge's own host get from now on: one rule in table 0 takes the other's place
#   retire   takes all rules with an epoch's cookie away, one message for each bridge
# Variables: epoch, 1 to 65535; only, a node: its commands alone; host, 65000 if left out; bridge, the front of the
# bridges' names, s if left out. The longer a prefix, the higher its rule's priority, so the longest match wins.

function refuse(why) {
    print "openflow.awk: " why > "/dev/stderr"
    refused = 1
    exit 2
}

function address(value) { return sprintf("fd00:%x::%x", epoch, value) }
function hardware(k) { return sprintf("02:00:00:00:%02x:%02x", int(k / 256), k % 256) }

BEGIN {
    if (act !~ /^(install|stamp|retire)$/) refuse("act is install, stamp or retire")
    if (epoch !~ /^[0-9]+$/ || epoch < 1 || epoch > 65535) refuse("epoch is 1 to 65535")
    if (host == "") host = 65000
    if (host !~ /^[0-9]+$/ || host < 1 || host > 65279) refuse("host is a port, 1 to 65279")
    if (bridge == "") bridge = "s"
    if (bridge !~ /^[A-Za-z][A-Za-z0-9_-]*$/) refuse("bridge is of letters, digits, '_' and '-'")
    ofctl = "ovs-ofctl -O OpenFlow13"
}

!head {
    if ($1 != "prefixes" || NF != 5) refuse("this is not the text of route prefixes")
    head = 1
    nodes = $3
    bits = $4
    lines = $5
    next
}
{
    names[++count] = $1
    number[$1] = count
    row[count] = $0
    lines -= (NF - 2) / 2
    if (NF % 2) refuse("the line of " $1 " is cut short")
}

function write_rules(k,  i, j, words, part, to) {
    j = split(row[k], words, " ")
    print "cookie=" epoch ",table=1,priority=300,ipv6,ipv6_dst=" address(words[2]) \
        ",actions=set_field:fd00::/ffff:ffff::->ipv6_dst,set_field:" hardware(k) "->eth_dst,output:" host
    for (i = 3; i < j; i += 2) {
        split(words[i], part, "/")
        if (words[i + 1] == "#") to = "drop"
        else if (words[i + 1] in number) to = "dec_ttl,output:" number[words[i + 1]]
        else refuse("no node " words[i + 1])
        print "cookie=" epoch ",table=1,priority=" 100 + part[2] ",ipv6,ipv6_dst=" address(part[1]) "/" 128 - bits + part[2] ",actions=" to
    }
}

function write_stamp() {
    print "table=0,priority=10,in_port=" host ",ipv6,ipv6_dst=fd00::/32,actions=set_field:" \
        sprintf("fd00:%x::", epoch) "/ffff:ffff::->ipv6_dst,goto_table:1"
    print "table=0,priority=1,ipv6,ipv6_dst=fd00::/16,actions=goto_table:1"
}

END {
    if (refused) exit 2
    if (!head) refuse("there is no text")
    if (count != nodes || lines != 0) refuse("the text is cut short")
    if (host <= count) refuse("host is a port of its own: more than " count)
    if (only != "" && !(only in number)) refuse("no node " only)
    for (k = 1; k <= count; k++) {
        if (only != "" && names[k] != only) continue
        print "# " names[k]
        if (act == "retire") {
            print ofctl " del-flows " bridge k " cookie=" epoch "/-1"
            continue
        }
        print ofctl " add-flows " bridge k " - <<'END'"
        if (act == "install") write_rules(k)
        else write_stamp()
        print "END"
    }
}
