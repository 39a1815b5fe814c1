# As root, in mounts and processes of its own, with which all of it goes:
#   unshare --mount --pid --fork --mount-proc sh -ec 'mount -t tmpfs tmpfs /run; . ./THIS; exec bash'
set -e
# lab 14 21
# node 1: Seattle
# node 2: PaloAlto
# node 3: SanDiego
# node 4: Champaign
# node 5: SaltLakeCity
# node 6: Houston
# node 7: Boulder
# node 8: AnnArbor
# node 9: Lincoln
# node 10: Atlanta
# node 11: CollegePark
# node 12: Pittsburgh
# node 13: Ithaca
# node 14: Princeton
ip -batch - <<'END'
netns add Seattle
netns add PaloAlto
netns add SanDiego
netns add Champaign
netns add SaltLakeCity
netns add Houston
netns add Boulder
netns add AnnArbor
netns add Lincoln
netns add Atlanta
netns add CollegePark
netns add Pittsburgh
netns add Ithaca
netns add Princeton
link add name to2 address 02:00:00:00:00:01 netns Seattle type veth peer name to1 address 02:00:00:00:00:02 netns PaloAlto
link add name to3 address 02:00:00:00:00:01 netns Seattle type veth peer name to1 address 02:00:00:00:00:03 netns SanDiego
link add name to4 address 02:00:00:00:00:01 netns Seattle type veth peer name to1 address 02:00:00:00:00:04 netns Champaign
link add name to3 address 02:00:00:00:00:02 netns PaloAlto type veth peer name to2 address 02:00:00:00:00:03 netns SanDiego
link add name to5 address 02:00:00:00:00:02 netns PaloAlto type veth peer name to2 address 02:00:00:00:00:05 netns SaltLakeCity
link add name to6 address 02:00:00:00:00:03 netns SanDiego type veth peer name to3 address 02:00:00:00:00:06 netns Houston
link add name to7 address 02:00:00:00:00:05 netns SaltLakeCity type veth peer name to5 address 02:00:00:00:00:07 netns Boulder
link add name to8 address 02:00:00:00:00:05 netns SaltLakeCity type veth peer name to5 address 02:00:00:00:00:08 netns AnnArbor
link add name to6 address 02:00:00:00:00:07 netns Boulder type veth peer name to7 address 02:00:00:00:00:06 netns Houston
link add name to9 address 02:00:00:00:00:07 netns Boulder type veth peer name to7 address 02:00:00:00:00:09 netns Lincoln
link add name to10 address 02:00:00:00:00:06 netns Houston type veth peer name to6 address 02:00:00:00:00:0a netns Atlanta
link add name to11 address 02:00:00:00:00:06 netns Houston type veth peer name to6 address 02:00:00:00:00:0b netns CollegePark
link add name to4 address 02:00:00:00:00:09 netns Lincoln type veth peer name to9 address 02:00:00:00:00:04 netns Champaign
link add name to12 address 02:00:00:00:00:04 netns Champaign type veth peer name to4 address 02:00:00:00:00:0c netns Pittsburgh
link add name to10 address 02:00:00:00:00:0c netns Pittsburgh type veth peer name to12 address 02:00:00:00:00:0a netns Atlanta
link add name to13 address 02:00:00:00:00:0c netns Pittsburgh type veth peer name to12 address 02:00:00:00:00:0d netns Ithaca
link add name to14 address 02:00:00:00:00:0c netns Pittsburgh type veth peer name to12 address 02:00:00:00:00:0e netns Princeton
link add name to13 address 02:00:00:00:00:08 netns AnnArbor type veth peer name to8 address 02:00:00:00:00:0d netns Ithaca
link add name to14 address 02:00:00:00:00:08 netns AnnArbor type veth peer name to8 address 02:00:00:00:00:0e netns Princeton
link add name to11 address 02:00:00:00:00:0d netns Ithaca type veth peer name to13 address 02:00:00:00:00:0b netns CollegePark
link add name to14 address 02:00:00:00:00:0b netns CollegePark type veth peer name to11 address 02:00:00:00:00:0e netns Princeton
END
ip -n Seattle -batch - <<'END'
link set dev lo up
address add fd00::2/128 dev lo nodad
link add name bz0 type veth peer name bz1 address 02:00:00:01:00:01
link set dev bz0 addrgenmode none
link set dev bz0 up
link set dev bz1 addrgenmode none
link set dev bz1 up
link set dev to2 addrgenmode none
link set dev to2 up
link set dev to3 addrgenmode none
link set dev to3 up
link set dev to4 addrgenmode none
link set dev to4 up
address add fe80::1/64 dev to2 nodad
neigh add fe80::2 lladdr 02:00:00:00:00:02 dev to2 nud permanent
address add fe80::1/64 dev to3 nodad
neigh add fe80::3 lladdr 02:00:00:00:00:03 dev to3 nud permanent
address add fe80::1/64 dev to4 nodad
neigh add fe80::4 lladdr 02:00:00:00:00:04 dev to4 nud permanent
address add fe80::fffe/64 dev bz0 nodad
neigh add fe80::ffff lladdr 02:00:00:01:00:01 dev bz0 nud permanent
route add fd00::/16 via fe80::ffff dev bz0
END
ip -n Seattle -6 rule add pref 10 iif bz1 blackhole
ip netns exec Seattle sh -e <<'END'
cd /proc/sys/net/ipv6
echo 1 > conf/all/forwarding
echo > icmp/ratemask
for limit in conf/*/hop_limit; do echo 255 > "$limit"; done
END
ip netns exec Seattle nft -f - <<'END'
table netdev bz {
chain to_2 {
iifname != bz1 ip6 hoplimit 1 @nh,192,32 set 0xfd000000 accept
fwd ip6 to fe80::2 device to2
}
chain to_3 {
iifname != bz1 ip6 hoplimit 1 @nh,192,32 set 0xfd000000 accept
fwd ip6 to fe80::3 device to3
}
chain to_4 {
iifname != bz1 ip6 hoplimit 1 @nh,192,32 set 0xfd000000 accept
fwd ip6 to fe80::4 device to4
}
chain mine {
@nh,192,32 set 0xfd000000 accept
}
chain stamp {
}
map ways { type ipv6_addr : verdict; flags interval; }
chain in {
type filter hook ingress devices = { to2, to3, to4, bz1 } priority 0;
ip6 daddr != fd00::/16 accept
iifname bz1 jump stamp
ip6 daddr vmap @ways
counter drop
}
}
END
ip -n PaloAlto -batch - <<'END'
link set dev lo up
address add fd00::3/128 dev lo nodad
link add name bz0 type veth peer name bz1 address 02:00:00:01:00:01
link set dev bz0 addrgenmode none
link set dev bz0 up
link set dev bz1 addrgenmode none
link set dev bz1 up
link set dev to1 addrgenmode none
link set dev to1 up
link set dev to3 addrgenmode none
link set dev to3 up
link set dev to5 addrgenmode none
link set dev to5 up
address add fe80::2/64 dev to1 nodad
neigh add fe80::1 lladdr 02:00:00:00:00:01 dev to1 nud permanent
address add fe80::2/64 dev to3 nodad
neigh add fe80::3 lladdr 02:00:00:00:00:03 dev to3 nud permanent
address add fe80::2/64 dev to5 nodad
neigh add fe80::5 lladdr 02:00:00:00:00:05 dev to5 nud permanent
address add fe80::fffe/64 dev bz0 nodad
neigh add fe80::ffff lladdr 02:00:00:01:00:01 dev bz0 nud permanent
route add fd00::/16 via fe80::ffff dev bz0
END
ip -n PaloAlto -6 rule add pref 10 iif bz1 blackhole
ip netns exec PaloAlto sh -e <<'END'
cd /proc/sys/net/ipv6
echo 1 > conf/all/forwarding
echo > icmp/ratemask
for limit in conf/*/hop_limit; do echo 255 > "$limit"; done
END
ip netns exec PaloAlto nft -f - <<'END'
table netdev bz {
chain to_1 {
iifname != bz1 ip6 hoplimit 1 @nh,192,32 set 0xfd000000 accept
fwd ip6 to fe80::1 device to1
}
chain to_3 {
iifname != bz1 ip6 hoplimit 1 @nh,192,32 set 0xfd000000 accept
fwd ip6 to fe80::3 device to3
}
chain to_5 {
iifname != bz1 ip6 hoplimit 1 @nh,192,32 set 0xfd000000 accept
fwd ip6 to fe80::5 device to5
}
chain mine {
@nh,192,32 set 0xfd000000 accept
}
chain stamp {
}
map ways { type ipv6_addr : verdict; flags interval; }
chain in {
type filter hook ingress devices = { to1, to3, to5, bz1 } priority 0;
ip6 daddr != fd00::/16 accept
iifname bz1 jump stamp
ip6 daddr vmap @ways
counter drop
}
}
END
ip -n SanDiego -batch - <<'END'
link set dev lo up
address add fd00::1/128 dev lo nodad
link add name bz0 type veth peer name bz1 address 02:00:00:01:00:01
link set dev bz0 addrgenmode none
link set dev bz0 up
link set dev bz1 addrgenmode none
link set dev bz1 up
link set dev to1 addrgenmode none
link set dev to1 up
link set dev to2 addrgenmode none
link set dev to2 up
link set dev to6 addrgenmode none
link set dev to6 up
address add fe80::3/64 dev to1 nodad
neigh add fe80::1 lladdr 02:00:00:00:00:01 dev to1 nud permanent
address add fe80::3/64 dev to2 nodad
neigh add fe80::2 lladdr 02:00:00:00:00:02 dev to2 nud permanent
address add fe80::3/64 dev to6 nodad
neigh add fe80::6 lladdr 02:00:00:00:00:06 dev to6 nud permanent
address add fe80::fffe/64 dev bz0 nodad
neigh add fe80::ffff lladdr 02:00:00:01:00:01 dev bz0 nud permanent
route add fd00::/16 via fe80::ffff dev bz0
END
ip -n SanDiego -6 rule add pref 10 iif bz1 blackhole
ip netns exec SanDiego sh -e <<'END'
cd /proc/sys/net/ipv6
echo 1 > conf/all/forwarding
echo > icmp/ratemask
for limit in conf/*/hop_limit; do echo 255 > "$limit"; done
END
ip netns exec SanDiego nft -f - <<'END'
table netdev bz {
chain to_1 {
iifname != bz1 ip6 hoplimit 1 @nh,192,32 set 0xfd000000 accept
fwd ip6 to fe80::1 device to1
}
chain to_2 {
iifname != bz1 ip6 hoplimit 1 @nh,192,32 set 0xfd000000 accept
fwd ip6 to fe80::2 device to2
}
chain to_6 {
iifname != bz1 ip6 hoplimit 1 @nh,192,32 set 0xfd000000 accept
fwd ip6 to fe80::6 device to6
}
chain mine {
@nh,192,32 set 0xfd000000 accept
}
chain stamp {
}
map ways { type ipv6_addr : verdict; flags interval; }
chain in {
type filter hook ingress devices = { to1, to2, to6, bz1 } priority 0;
ip6 daddr != fd00::/16 accept
iifname bz1 jump stamp
ip6 daddr vmap @ways
counter drop
}
}
END
ip -n Champaign -batch - <<'END'
link set dev lo up
address add fd00::7/128 dev lo nodad
link add name bz0 type veth peer name bz1 address 02:00:00:01:00:01
link set dev bz0 addrgenmode none
link set dev bz0 up
link set dev bz1 addrgenmode none
link set dev bz1 up
link set dev to1 addrgenmode none
link set dev to1 up
link set dev to9 addrgenmode none
link set dev to9 up
link set dev to12 addrgenmode none
link set dev to12 up
address add fe80::4/64 dev to1 nodad
neigh add fe80::1 lladdr 02:00:00:00:00:01 dev to1 nud permanent
address add fe80::4/64 dev to9 nodad
neigh add fe80::9 lladdr 02:00:00:00:00:09 dev to9 nud permanent
address add fe80::4/64 dev to12 nodad
neigh add fe80::c lladdr 02:00:00:00:00:0c dev to12 nud permanent
address add fe80::fffe/64 dev bz0 nodad
neigh add fe80::ffff lladdr 02:00:00:01:00:01 dev bz0 nud permanent
route add fd00::/16 via fe80::ffff dev bz0
END
ip -n Champaign -6 rule add pref 10 iif bz1 blackhole
ip netns exec Champaign sh -e <<'END'
cd /proc/sys/net/ipv6
echo 1 > conf/all/forwarding
echo > icmp/ratemask
for limit in conf/*/hop_limit; do echo 255 > "$limit"; done
END
ip netns exec Champaign nft -f - <<'END'
table netdev bz {
chain to_1 {
iifname != bz1 ip6 hoplimit 1 @nh,192,32 set 0xfd000000 accept
fwd ip6 to fe80::1 device to1
}
chain to_9 {
iifname != bz1 ip6 hoplimit 1 @nh,192,32 set 0xfd000000 accept
fwd ip6 to fe80::9 device to9
}
chain to_12 {
iifname != bz1 ip6 hoplimit 1 @nh,192,32 set 0xfd000000 accept
fwd ip6 to fe80::c device to12
}
chain mine {
@nh,192,32 set 0xfd000000 accept
}
chain stamp {
}
map ways { type ipv6_addr : verdict; flags interval; }
chain in {
type filter hook ingress devices = { to1, to9, to12, bz1 } priority 0;
ip6 daddr != fd00::/16 accept
iifname bz1 jump stamp
ip6 daddr vmap @ways
counter drop
}
}
END
ip -n SaltLakeCity -batch - <<'END'
link set dev lo up
address add fd00::4/128 dev lo nodad
link add name bz0 type veth peer name bz1 address 02:00:00:01:00:01
link set dev bz0 addrgenmode none
link set dev bz0 up
link set dev bz1 addrgenmode none
link set dev bz1 up
link set dev to2 addrgenmode none
link set dev to2 up
link set dev to7 addrgenmode none
link set dev to7 up
link set dev to8 addrgenmode none
link set dev to8 up
address add fe80::5/64 dev to2 nodad
neigh add fe80::2 lladdr 02:00:00:00:00:02 dev to2 nud permanent
address add fe80::5/64 dev to7 nodad
neigh add fe80::7 lladdr 02:00:00:00:00:07 dev to7 nud permanent
address add fe80::5/64 dev to8 nodad
neigh add fe80::8 lladdr 02:00:00:00:00:08 dev to8 nud permanent
address add fe80::fffe/64 dev bz0 nodad
neigh add fe80::ffff lladdr 02:00:00:01:00:01 dev bz0 nud permanent
route add fd00::/16 via fe80::ffff dev bz0
END
ip -n SaltLakeCity -6 rule add pref 10 iif bz1 blackhole
ip netns exec SaltLakeCity sh -e <<'END'
cd /proc/sys/net/ipv6
echo 1 > conf/all/forwarding
echo > icmp/ratemask
for limit in conf/*/hop_limit; do echo 255 > "$limit"; done
END
ip netns exec SaltLakeCity nft -f - <<'END'
table netdev bz {
chain to_2 {
iifname != bz1 ip6 hoplimit 1 @nh,192,32 set 0xfd000000 accept
fwd ip6 to fe80::2 device to2
}
chain to_7 {
iifname != bz1 ip6 hoplimit 1 @nh,192,32 set 0xfd000000 accept
fwd ip6 to fe80::7 device to7
}
chain to_8 {
iifname != bz1 ip6 hoplimit 1 @nh,192,32 set 0xfd000000 accept
fwd ip6 to fe80::8 device to8
}
chain mine {
@nh,192,32 set 0xfd000000 accept
}
chain stamp {
}
map ways { type ipv6_addr : verdict; flags interval; }
chain in {
type filter hook ingress devices = { to2, to7, to8, bz1 } priority 0;
ip6 daddr != fd00::/16 accept
iifname bz1 jump stamp
ip6 daddr vmap @ways
counter drop
}
}
END
ip -n Houston -batch - <<'END'
link set dev lo up
address add fd00::0/128 dev lo nodad
link add name bz0 type veth peer name bz1 address 02:00:00:01:00:01
link set dev bz0 addrgenmode none
link set dev bz0 up
link set dev bz1 addrgenmode none
link set dev bz1 up
link set dev to3 addrgenmode none
link set dev to3 up
link set dev to7 addrgenmode none
link set dev to7 up
link set dev to10 addrgenmode none
link set dev to10 up
link set dev to11 addrgenmode none
link set dev to11 up
address add fe80::6/64 dev to3 nodad
neigh add fe80::3 lladdr 02:00:00:00:00:03 dev to3 nud permanent
address add fe80::6/64 dev to7 nodad
neigh add fe80::7 lladdr 02:00:00:00:00:07 dev to7 nud permanent
address add fe80::6/64 dev to10 nodad
neigh add fe80::a lladdr 02:00:00:00:00:0a dev to10 nud permanent
address add fe80::6/64 dev to11 nodad
neigh add fe80::b lladdr 02:00:00:00:00:0b dev to11 nud permanent
address add fe80::fffe/64 dev bz0 nodad
neigh add fe80::ffff lladdr 02:00:00:01:00:01 dev bz0 nud permanent
route add fd00::/16 via fe80::ffff dev bz0
END
ip -n Houston -6 rule add pref 10 iif bz1 blackhole
ip netns exec Houston sh -e <<'END'
cd /proc/sys/net/ipv6
echo 1 > conf/all/forwarding
echo > icmp/ratemask
for limit in conf/*/hop_limit; do echo 255 > "$limit"; done
END
ip netns exec Houston nft -f - <<'END'
table netdev bz {
chain to_3 {
iifname != bz1 ip6 hoplimit 1 @nh,192,32 set 0xfd000000 accept
fwd ip6 to fe80::3 device to3
}
chain to_7 {
iifname != bz1 ip6 hoplimit 1 @nh,192,32 set 0xfd000000 accept
fwd ip6 to fe80::7 device to7
}
chain to_10 {
iifname != bz1 ip6 hoplimit 1 @nh,192,32 set 0xfd000000 accept
fwd ip6 to fe80::a device to10
}
chain to_11 {
iifname != bz1 ip6 hoplimit 1 @nh,192,32 set 0xfd000000 accept
fwd ip6 to fe80::b device to11
}
chain mine {
@nh,192,32 set 0xfd000000 accept
}
chain stamp {
}
map ways { type ipv6_addr : verdict; flags interval; }
chain in {
type filter hook ingress devices = { to3, to7, to10, to11, bz1 } priority 0;
ip6 daddr != fd00::/16 accept
iifname bz1 jump stamp
ip6 daddr vmap @ways
counter drop
}
}
END
ip -n Boulder -batch - <<'END'
link set dev lo up
address add fd00::5/128 dev lo nodad
link add name bz0 type veth peer name bz1 address 02:00:00:01:00:01
link set dev bz0 addrgenmode none
link set dev bz0 up
link set dev bz1 addrgenmode none
link set dev bz1 up
link set dev to5 addrgenmode none
link set dev to5 up
link set dev to6 addrgenmode none
link set dev to6 up
link set dev to9 addrgenmode none
link set dev to9 up
address add fe80::7/64 dev to5 nodad
neigh add fe80::5 lladdr 02:00:00:00:00:05 dev to5 nud permanent
address add fe80::7/64 dev to6 nodad
neigh add fe80::6 lladdr 02:00:00:00:00:06 dev to6 nud permanent
address add fe80::7/64 dev to9 nodad
neigh add fe80::9 lladdr 02:00:00:00:00:09 dev to9 nud permanent
address add fe80::fffe/64 dev bz0 nodad
neigh add fe80::ffff lladdr 02:00:00:01:00:01 dev bz0 nud permanent
route add fd00::/16 via fe80::ffff dev bz0
END
ip -n Boulder -6 rule add pref 10 iif bz1 blackhole
ip netns exec Boulder sh -e <<'END'
cd /proc/sys/net/ipv6
echo 1 > conf/all/forwarding
echo > icmp/ratemask
for limit in conf/*/hop_limit; do echo 255 > "$limit"; done
END
ip netns exec Boulder nft -f - <<'END'
table netdev bz {
chain to_5 {
iifname != bz1 ip6 hoplimit 1 @nh,192,32 set 0xfd000000 accept
fwd ip6 to fe80::5 device to5
}
chain to_6 {
iifname != bz1 ip6 hoplimit 1 @nh,192,32 set 0xfd000000 accept
fwd ip6 to fe80::6 device to6
}
chain to_9 {
iifname != bz1 ip6 hoplimit 1 @nh,192,32 set 0xfd000000 accept
fwd ip6 to fe80::9 device to9
}
chain mine {
@nh,192,32 set 0xfd000000 accept
}
chain stamp {
}
map ways { type ipv6_addr : verdict; flags interval; }
chain in {
type filter hook ingress devices = { to5, to6, to9, bz1 } priority 0;
ip6 daddr != fd00::/16 accept
iifname bz1 jump stamp
ip6 daddr vmap @ways
counter drop
}
}
END
ip -n AnnArbor -batch - <<'END'
link set dev lo up
address add fd00::b/128 dev lo nodad
link add name bz0 type veth peer name bz1 address 02:00:00:01:00:01
link set dev bz0 addrgenmode none
link set dev bz0 up
link set dev bz1 addrgenmode none
link set dev bz1 up
link set dev to5 addrgenmode none
link set dev to5 up
link set dev to13 addrgenmode none
link set dev to13 up
link set dev to14 addrgenmode none
link set dev to14 up
address add fe80::8/64 dev to5 nodad
neigh add fe80::5 lladdr 02:00:00:00:00:05 dev to5 nud permanent
address add fe80::8/64 dev to13 nodad
neigh add fe80::d lladdr 02:00:00:00:00:0d dev to13 nud permanent
address add fe80::8/64 dev to14 nodad
neigh add fe80::e lladdr 02:00:00:00:00:0e dev to14 nud permanent
address add fe80::fffe/64 dev bz0 nodad
neigh add fe80::ffff lladdr 02:00:00:01:00:01 dev bz0 nud permanent
route add fd00::/16 via fe80::ffff dev bz0
END
ip -n AnnArbor -6 rule add pref 10 iif bz1 blackhole
ip netns exec AnnArbor sh -e <<'END'
cd /proc/sys/net/ipv6
echo 1 > conf/all/forwarding
echo > icmp/ratemask
for limit in conf/*/hop_limit; do echo 255 > "$limit"; done
END
ip netns exec AnnArbor nft -f - <<'END'
table netdev bz {
chain to_5 {
iifname != bz1 ip6 hoplimit 1 @nh,192,32 set 0xfd000000 accept
fwd ip6 to fe80::5 device to5
}
chain to_13 {
iifname != bz1 ip6 hoplimit 1 @nh,192,32 set 0xfd000000 accept
fwd ip6 to fe80::d device to13
}
chain to_14 {
iifname != bz1 ip6 hoplimit 1 @nh,192,32 set 0xfd000000 accept
fwd ip6 to fe80::e device to14
}
chain mine {
@nh,192,32 set 0xfd000000 accept
}
chain stamp {
}
map ways { type ipv6_addr : verdict; flags interval; }
chain in {
type filter hook ingress devices = { to5, to13, to14, bz1 } priority 0;
ip6 daddr != fd00::/16 accept
iifname bz1 jump stamp
ip6 daddr vmap @ways
counter drop
}
}
END
ip -n Lincoln -batch - <<'END'
link set dev lo up
address add fd00::6/128 dev lo nodad
link add name bz0 type veth peer name bz1 address 02:00:00:01:00:01
link set dev bz0 addrgenmode none
link set dev bz0 up
link set dev bz1 addrgenmode none
link set dev bz1 up
link set dev to7 addrgenmode none
link set dev to7 up
link set dev to4 addrgenmode none
link set dev to4 up
address add fe80::9/64 dev to7 nodad
neigh add fe80::7 lladdr 02:00:00:00:00:07 dev to7 nud permanent
address add fe80::9/64 dev to4 nodad
neigh add fe80::4 lladdr 02:00:00:00:00:04 dev to4 nud permanent
address add fe80::fffe/64 dev bz0 nodad
neigh add fe80::ffff lladdr 02:00:00:01:00:01 dev bz0 nud permanent
route add fd00::/16 via fe80::ffff dev bz0
END
ip -n Lincoln -6 rule add pref 10 iif bz1 blackhole
ip netns exec Lincoln sh -e <<'END'
cd /proc/sys/net/ipv6
echo 1 > conf/all/forwarding
echo > icmp/ratemask
for limit in conf/*/hop_limit; do echo 255 > "$limit"; done
END
ip netns exec Lincoln nft -f - <<'END'
table netdev bz {
chain to_7 {
iifname != bz1 ip6 hoplimit 1 @nh,192,32 set 0xfd000000 accept
fwd ip6 to fe80::7 device to7
}
chain to_4 {
iifname != bz1 ip6 hoplimit 1 @nh,192,32 set 0xfd000000 accept
fwd ip6 to fe80::4 device to4
}
chain mine {
@nh,192,32 set 0xfd000000 accept
}
chain stamp {
}
map ways { type ipv6_addr : verdict; flags interval; }
chain in {
type filter hook ingress devices = { to7, to4, bz1 } priority 0;
ip6 daddr != fd00::/16 accept
iifname bz1 jump stamp
ip6 daddr vmap @ways
counter drop
}
}
END
ip -n Atlanta -batch - <<'END'
link set dev lo up
address add fd00::9/128 dev lo nodad
link add name bz0 type veth peer name bz1 address 02:00:00:01:00:01
link set dev bz0 addrgenmode none
link set dev bz0 up
link set dev bz1 addrgenmode none
link set dev bz1 up
link set dev to6 addrgenmode none
link set dev to6 up
link set dev to12 addrgenmode none
link set dev to12 up
address add fe80::a/64 dev to6 nodad
neigh add fe80::6 lladdr 02:00:00:00:00:06 dev to6 nud permanent
address add fe80::a/64 dev to12 nodad
neigh add fe80::c lladdr 02:00:00:00:00:0c dev to12 nud permanent
address add fe80::fffe/64 dev bz0 nodad
neigh add fe80::ffff lladdr 02:00:00:01:00:01 dev bz0 nud permanent
route add fd00::/16 via fe80::ffff dev bz0
END
ip -n Atlanta -6 rule add pref 10 iif bz1 blackhole
ip netns exec Atlanta sh -e <<'END'
cd /proc/sys/net/ipv6
echo 1 > conf/all/forwarding
echo > icmp/ratemask
for limit in conf/*/hop_limit; do echo 255 > "$limit"; done
END
ip netns exec Atlanta nft -f - <<'END'
table netdev bz {
chain to_6 {
iifname != bz1 ip6 hoplimit 1 @nh,192,32 set 0xfd000000 accept
fwd ip6 to fe80::6 device to6
}
chain to_12 {
iifname != bz1 ip6 hoplimit 1 @nh,192,32 set 0xfd000000 accept
fwd ip6 to fe80::c device to12
}
chain mine {
@nh,192,32 set 0xfd000000 accept
}
chain stamp {
}
map ways { type ipv6_addr : verdict; flags interval; }
chain in {
type filter hook ingress devices = { to6, to12, bz1 } priority 0;
ip6 daddr != fd00::/16 accept
iifname bz1 jump stamp
ip6 daddr vmap @ways
counter drop
}
}
END
ip -n CollegePark -batch - <<'END'
link set dev lo up
address add fd00::d/128 dev lo nodad
link add name bz0 type veth peer name bz1 address 02:00:00:01:00:01
link set dev bz0 addrgenmode none
link set dev bz0 up
link set dev bz1 addrgenmode none
link set dev bz1 up
link set dev to6 addrgenmode none
link set dev to6 up
link set dev to13 addrgenmode none
link set dev to13 up
link set dev to14 addrgenmode none
link set dev to14 up
address add fe80::b/64 dev to6 nodad
neigh add fe80::6 lladdr 02:00:00:00:00:06 dev to6 nud permanent
address add fe80::b/64 dev to13 nodad
neigh add fe80::d lladdr 02:00:00:00:00:0d dev to13 nud permanent
address add fe80::b/64 dev to14 nodad
neigh add fe80::e lladdr 02:00:00:00:00:0e dev to14 nud permanent
address add fe80::fffe/64 dev bz0 nodad
neigh add fe80::ffff lladdr 02:00:00:01:00:01 dev bz0 nud permanent
route add fd00::/16 via fe80::ffff dev bz0
END
ip -n CollegePark -6 rule add pref 10 iif bz1 blackhole
ip netns exec CollegePark sh -e <<'END'
cd /proc/sys/net/ipv6
echo 1 > conf/all/forwarding
echo > icmp/ratemask
for limit in conf/*/hop_limit; do echo 255 > "$limit"; done
END
ip netns exec CollegePark nft -f - <<'END'
table netdev bz {
chain to_6 {
iifname != bz1 ip6 hoplimit 1 @nh,192,32 set 0xfd000000 accept
fwd ip6 to fe80::6 device to6
}
chain to_13 {
iifname != bz1 ip6 hoplimit 1 @nh,192,32 set 0xfd000000 accept
fwd ip6 to fe80::d device to13
}
chain to_14 {
iifname != bz1 ip6 hoplimit 1 @nh,192,32 set 0xfd000000 accept
fwd ip6 to fe80::e device to14
}
chain mine {
@nh,192,32 set 0xfd000000 accept
}
chain stamp {
}
map ways { type ipv6_addr : verdict; flags interval; }
chain in {
type filter hook ingress devices = { to6, to13, to14, bz1 } priority 0;
ip6 daddr != fd00::/16 accept
iifname bz1 jump stamp
ip6 daddr vmap @ways
counter drop
}
}
END
ip -n Pittsburgh -batch - <<'END'
link set dev lo up
address add fd00::8/128 dev lo nodad
link add name bz0 type veth peer name bz1 address 02:00:00:01:00:01
link set dev bz0 addrgenmode none
link set dev bz0 up
link set dev bz1 addrgenmode none
link set dev bz1 up
link set dev to4 addrgenmode none
link set dev to4 up
link set dev to10 addrgenmode none
link set dev to10 up
link set dev to13 addrgenmode none
link set dev to13 up
link set dev to14 addrgenmode none
link set dev to14 up
address add fe80::c/64 dev to4 nodad
neigh add fe80::4 lladdr 02:00:00:00:00:04 dev to4 nud permanent
address add fe80::c/64 dev to10 nodad
neigh add fe80::a lladdr 02:00:00:00:00:0a dev to10 nud permanent
address add fe80::c/64 dev to13 nodad
neigh add fe80::d lladdr 02:00:00:00:00:0d dev to13 nud permanent
address add fe80::c/64 dev to14 nodad
neigh add fe80::e lladdr 02:00:00:00:00:0e dev to14 nud permanent
address add fe80::fffe/64 dev bz0 nodad
neigh add fe80::ffff lladdr 02:00:00:01:00:01 dev bz0 nud permanent
route add fd00::/16 via fe80::ffff dev bz0
END
ip -n Pittsburgh -6 rule add pref 10 iif bz1 blackhole
ip netns exec Pittsburgh sh -e <<'END'
cd /proc/sys/net/ipv6
echo 1 > conf/all/forwarding
echo > icmp/ratemask
for limit in conf/*/hop_limit; do echo 255 > "$limit"; done
END
ip netns exec Pittsburgh nft -f - <<'END'
table netdev bz {
chain to_4 {
iifname != bz1 ip6 hoplimit 1 @nh,192,32 set 0xfd000000 accept
fwd ip6 to fe80::4 device to4
}
chain to_10 {
iifname != bz1 ip6 hoplimit 1 @nh,192,32 set 0xfd000000 accept
fwd ip6 to fe80::a device to10
}
chain to_13 {
iifname != bz1 ip6 hoplimit 1 @nh,192,32 set 0xfd000000 accept
fwd ip6 to fe80::d device to13
}
chain to_14 {
iifname != bz1 ip6 hoplimit 1 @nh,192,32 set 0xfd000000 accept
fwd ip6 to fe80::e device to14
}
chain mine {
@nh,192,32 set 0xfd000000 accept
}
chain stamp {
}
map ways { type ipv6_addr : verdict; flags interval; }
chain in {
type filter hook ingress devices = { to4, to10, to13, to14, bz1 } priority 0;
ip6 daddr != fd00::/16 accept
iifname bz1 jump stamp
ip6 daddr vmap @ways
counter drop
}
}
END
ip -n Ithaca -batch - <<'END'
link set dev lo up
address add fd00::a/128 dev lo nodad
link add name bz0 type veth peer name bz1 address 02:00:00:01:00:01
link set dev bz0 addrgenmode none
link set dev bz0 up
link set dev bz1 addrgenmode none
link set dev bz1 up
link set dev to12 addrgenmode none
link set dev to12 up
link set dev to8 addrgenmode none
link set dev to8 up
link set dev to11 addrgenmode none
link set dev to11 up
address add fe80::d/64 dev to12 nodad
neigh add fe80::c lladdr 02:00:00:00:00:0c dev to12 nud permanent
address add fe80::d/64 dev to8 nodad
neigh add fe80::8 lladdr 02:00:00:00:00:08 dev to8 nud permanent
address add fe80::d/64 dev to11 nodad
neigh add fe80::b lladdr 02:00:00:00:00:0b dev to11 nud permanent
address add fe80::fffe/64 dev bz0 nodad
neigh add fe80::ffff lladdr 02:00:00:01:00:01 dev bz0 nud permanent
route add fd00::/16 via fe80::ffff dev bz0
END
ip -n Ithaca -6 rule add pref 10 iif bz1 blackhole
ip netns exec Ithaca sh -e <<'END'
cd /proc/sys/net/ipv6
echo 1 > conf/all/forwarding
echo > icmp/ratemask
for limit in conf/*/hop_limit; do echo 255 > "$limit"; done
END
ip netns exec Ithaca nft -f - <<'END'
table netdev bz {
chain to_12 {
iifname != bz1 ip6 hoplimit 1 @nh,192,32 set 0xfd000000 accept
fwd ip6 to fe80::c device to12
}
chain to_8 {
iifname != bz1 ip6 hoplimit 1 @nh,192,32 set 0xfd000000 accept
fwd ip6 to fe80::8 device to8
}
chain to_11 {
iifname != bz1 ip6 hoplimit 1 @nh,192,32 set 0xfd000000 accept
fwd ip6 to fe80::b device to11
}
chain mine {
@nh,192,32 set 0xfd000000 accept
}
chain stamp {
}
map ways { type ipv6_addr : verdict; flags interval; }
chain in {
type filter hook ingress devices = { to12, to8, to11, bz1 } priority 0;
ip6 daddr != fd00::/16 accept
iifname bz1 jump stamp
ip6 daddr vmap @ways
counter drop
}
}
END
ip -n Princeton -batch - <<'END'
link set dev lo up
address add fd00::c/128 dev lo nodad
link add name bz0 type veth peer name bz1 address 02:00:00:01:00:01
link set dev bz0 addrgenmode none
link set dev bz0 up
link set dev bz1 addrgenmode none
link set dev bz1 up
link set dev to12 addrgenmode none
link set dev to12 up
link set dev to8 addrgenmode none
link set dev to8 up
link set dev to11 addrgenmode none
link set dev to11 up
address add fe80::e/64 dev to12 nodad
neigh add fe80::c lladdr 02:00:00:00:00:0c dev to12 nud permanent
address add fe80::e/64 dev to8 nodad
neigh add fe80::8 lladdr 02:00:00:00:00:08 dev to8 nud permanent
address add fe80::e/64 dev to11 nodad
neigh add fe80::b lladdr 02:00:00:00:00:0b dev to11 nud permanent
address add fe80::fffe/64 dev bz0 nodad
neigh add fe80::ffff lladdr 02:00:00:01:00:01 dev bz0 nud permanent
route add fd00::/16 via fe80::ffff dev bz0
END
ip -n Princeton -6 rule add pref 10 iif bz1 blackhole
ip netns exec Princeton sh -e <<'END'
cd /proc/sys/net/ipv6
echo 1 > conf/all/forwarding
echo > icmp/ratemask
for limit in conf/*/hop_limit; do echo 255 > "$limit"; done
END
ip netns exec Princeton nft -f - <<'END'
table netdev bz {
chain to_12 {
iifname != bz1 ip6 hoplimit 1 @nh,192,32 set 0xfd000000 accept
fwd ip6 to fe80::c device to12
}
chain to_8 {
iifname != bz1 ip6 hoplimit 1 @nh,192,32 set 0xfd000000 accept
fwd ip6 to fe80::8 device to8
}
chain to_11 {
iifname != bz1 ip6 hoplimit 1 @nh,192,32 set 0xfd000000 accept
fwd ip6 to fe80::b device to11
}
chain mine {
@nh,192,32 set 0xfd000000 accept
}
chain stamp {
}
map ways { type ipv6_addr : verdict; flags interval; }
chain in {
type filter hook ingress devices = { to12, to8, to11, bz1 } priority 0;
ip6 daddr != fd00::/16 accept
iifname bz1 jump stamp
ip6 daddr vmap @ways
counter drop
}
}
END
# epoch 1 tree 41
ip netns exec SanDiego nft -f - <<'END'
add element netdev bz ways { fd00:1::1 : goto mine, fd00:1::0 : goto to_6, fd00:1::2-fd00:1::d : goto to_1 }
END
ip netns exec Atlanta nft -f - <<'END'
add element netdev bz ways { fd00:1::9 : goto mine, fd00:1::0-fd00:1::8 : goto to_12, fd00:1::a-fd00:1::d : goto to_12 }
END
ip netns exec PaloAlto nft -f - <<'END'
add element netdev bz ways { fd00:1::3 : goto mine, fd00:1::0-fd00:1::2 : goto to_1, fd00:1::4-fd00:1::d : goto to_5 }
END
ip netns exec SaltLakeCity nft -f - <<'END'
add element netdev bz ways { fd00:1::4 : goto mine, fd00:1::0-fd00:1::3 : goto to_2, fd00:1::5-fd00:1::d : goto to_7 }
END
ip netns exec Pittsburgh nft -f - <<'END'
add element netdev bz ways { fd00:1::8 : goto mine, fd00:1::0-fd00:1::7 : goto to_4, fd00:1::9 : goto to_10, fd00:1::a-fd00:1::d : goto to_13 }
END
ip netns exec AnnArbor nft -f - <<'END'
add element netdev bz ways { fd00:1::b : goto mine, fd00:1::0-fd00:1::a : goto to_13, fd00:1::c-fd00:1::d : goto to_14 }
END
ip netns exec Lincoln nft -f - <<'END'
add element netdev bz ways { fd00:1::6 : goto mine, fd00:1::0-fd00:1::5 : goto to_7, fd00:1::7-fd00:1::d : goto to_4 }
END
ip netns exec Champaign nft -f - <<'END'
add element netdev bz ways { fd00:1::7 : goto mine, fd00:1::0-fd00:1::6 : goto to_9, fd00:1::8-fd00:1::d : goto to_12 }
END
ip netns exec Houston nft -f - <<'END'
add element netdev bz ways { fd00:1::0 : goto mine, fd00:1::1-fd00:1::d : goto to_3 }
END
ip netns exec Boulder nft -f - <<'END'
add element netdev bz ways { fd00:1::5 : goto mine, fd00:1::0-fd00:1::4 : goto to_5, fd00:1::6-fd00:1::d : goto to_9 }
END
ip netns exec Ithaca nft -f - <<'END'
add element netdev bz ways { fd00:1::a : goto mine, fd00:1::0-fd00:1::9 : goto to_12, fd00:1::b-fd00:1::d : goto to_8 }
END
ip netns exec Seattle nft -f - <<'END'
add element netdev bz ways { fd00:1::2 : goto mine, fd00:1::0-fd00:1::1 : goto to_3, fd00:1::3-fd00:1::d : goto to_2 }
END
ip netns exec CollegePark nft -f - <<'END'
add element netdev bz ways { fd00:1::d : goto mine, fd00:1::0-fd00:1::c : goto to_14 }
END
ip netns exec Princeton nft -f - <<'END'
add element netdev bz ways { fd00:1::c : goto mine, fd00:1::0-fd00:1::b : goto to_8, fd00:1::d : goto to_11 }
END
# stamped 1
ip netns exec Princeton nft -f - <<'END'
flush chain netdev bz stamp
add rule netdev bz stamp @nh,192,32 set 0xfd000001
END
ip netns exec Boulder nft -f - <<'END'
flush chain netdev bz stamp
add rule netdev bz stamp @nh,192,32 set 0xfd000001
END
ip netns exec Ithaca nft -f - <<'END'
flush chain netdev bz stamp
add rule netdev bz stamp @nh,192,32 set 0xfd000001
END
ip netns exec Atlanta nft -f - <<'END'
flush chain netdev bz stamp
add rule netdev bz stamp @nh,192,32 set 0xfd000001
END
ip netns exec Seattle nft -f - <<'END'
flush chain netdev bz stamp
add rule netdev bz stamp @nh,192,32 set 0xfd000001
END
ip netns exec AnnArbor nft -f - <<'END'
flush chain netdev bz stamp
add rule netdev bz stamp @nh,192,32 set 0xfd000001
END
ip netns exec SaltLakeCity nft -f - <<'END'
flush chain netdev bz stamp
add rule netdev bz stamp @nh,192,32 set 0xfd000001
END
ip netns exec Houston nft -f - <<'END'
flush chain netdev bz stamp
add rule netdev bz stamp @nh,192,32 set 0xfd000001
END
ip netns exec PaloAlto nft -f - <<'END'
flush chain netdev bz stamp
add rule netdev bz stamp @nh,192,32 set 0xfd000001
END
ip netns exec Lincoln nft -f - <<'END'
flush chain netdev bz stamp
add rule netdev bz stamp @nh,192,32 set 0xfd000001
END
ip netns exec CollegePark nft -f - <<'END'
flush chain netdev bz stamp
add rule netdev bz stamp @nh,192,32 set 0xfd000001
END
ip netns exec Pittsburgh nft -f - <<'END'
flush chain netdev bz stamp
add rule netdev bz stamp @nh,192,32 set 0xfd000001
END
ip netns exec Champaign nft -f - <<'END'
flush chain netdev bz stamp
add rule netdev bz stamp @nh,192,32 set 0xfd000001
END
ip netns exec SanDiego nft -f - <<'END'
flush chain netdev bz stamp
add rule netdev bz stamp @nh,192,32 set 0xfd000001
END
# epoch 2 shortest 83
ip netns exec Seattle nft -f - <<'END'
add element netdev bz ways { fd00:2::2 : goto mine, fd00:2::0-fd00:2::1 : goto to_3, fd00:2::3-fd00:2::6 : goto to_2, fd00:2::7-fd00:2::a : goto to_4, fd00:2::b : goto to_2, fd00:2::c-fd00:2::d : goto to_4 }
END
ip netns exec CollegePark nft -f - <<'END'
add element netdev bz ways { fd00:2::d : goto mine, fd00:2::0-fd00:2::1 : goto to_6, fd00:2::2-fd00:2::b : goto to_13, fd00:2::c : goto to_14 }
END
ip netns exec Lincoln nft -f - <<'END'
add element netdev bz ways { fd00:2::6 : goto mine, fd00:2::0-fd00:2::5 : goto to_7, fd00:2::7-fd00:2::d : goto to_4 }
END
ip netns exec Princeton nft -f - <<'END'
add element netdev bz ways { fd00:2::c : goto mine, fd00:2::0-fd00:2::1 : goto to_11, fd00:2::2 : goto to_12, fd00:2::3-fd00:2::4 : goto to_8, fd00:2::5-fd00:2::9 : goto to_12, fd00:2::a : goto to_11, fd00:2::b : goto to_8, fd00:2::d : goto to_11 }
END
ip netns exec Boulder nft -f - <<'END'
add element netdev bz ways { fd00:2::5 : goto mine, fd00:2::0 : goto to_6, fd00:2::1-fd00:2::4 : goto to_5, fd00:2::6-fd00:2::8 : goto to_9, fd00:2::9 : goto to_6, fd00:2::a : goto to_9, fd00:2::b : goto to_5, fd00:2::c-fd00:2::d : goto to_9 }
END
ip netns exec Champaign nft -f - <<'END'
add element netdev bz ways { fd00:2::7 : goto mine, fd00:2::0-fd00:2::1 : goto to_9, fd00:2::2 : goto to_1, fd00:2::3-fd00:2::6 : goto to_9, fd00:2::8-fd00:2::d : goto to_12 }
END
ip netns exec Atlanta nft -f - <<'END'
add element netdev bz ways { fd00:2::9 : goto mine, fd00:2::0-fd00:2::1 : goto to_6, fd00:2::2 : goto to_12, fd00:2::3-fd00:2::5 : goto to_6, fd00:2::6-fd00:2::8 : goto to_12, fd00:2::a-fd00:2::d : goto to_12 }
END
ip netns exec Houston nft -f - <<'END'
add element netdev bz ways { fd00:2::0 : goto mine, fd00:2::1-fd00:2::3 : goto to_3, fd00:2::4-fd00:2::7 : goto to_7, fd00:2::8-fd00:2::9 : goto to_10, fd00:2::a-fd00:2::d : goto to_11 }
END
ip netns exec Ithaca nft -f - <<'END'
add element netdev bz ways { fd00:2::a : goto mine, fd00:2::0-fd00:2::1 : goto to_11, fd00:2::2 : goto to_12, fd00:2::3-fd00:2::4 : goto to_8, fd00:2::5-fd00:2::9 : goto to_12, fd00:2::b : goto to_8, fd00:2::c-fd00:2::d : goto to_11 }
END
ip netns exec SaltLakeCity nft -f - <<'END'
add element netdev bz ways { fd00:2::4 : goto mine, fd00:2::0 : goto to_7, fd00:2::1-fd00:2::3 : goto to_2, fd00:2::5-fd00:2::9 : goto to_7, fd00:2::a-fd00:2::d : goto to_8 }
END
ip netns exec PaloAlto nft -f - <<'END'
add element netdev bz ways { fd00:2::3 : goto mine, fd00:2::0-fd00:2::1 : goto to_3, fd00:2::2 : goto to_1, fd00:2::4-fd00:2::8 : goto to_5, fd00:2::9 : goto to_3, fd00:2::a-fd00:2::d : goto to_5 }
END
ip netns exec Pittsburgh nft -f - <<'END'
add element netdev bz ways { fd00:2::8 : goto mine, fd00:2::0-fd00:2::1 : goto to_10, fd00:2::2-fd00:2::7 : goto to_4, fd00:2::9 : goto to_10, fd00:2::a-fd00:2::b : goto to_13, fd00:2::c : goto to_14, fd00:2::d : goto to_13 }
END
ip netns exec SanDiego nft -f - <<'END'
add element netdev bz ways { fd00:2::1 : goto mine, fd00:2::0 : goto to_6, fd00:2::2 : goto to_1, fd00:2::3-fd00:2::7 : goto to_2, fd00:2::8-fd00:2::a : goto to_6, fd00:2::b : goto to_2, fd00:2::c-fd00:2::d : goto to_6 }
END
ip netns exec AnnArbor nft -f - <<'END'
add element netdev bz ways { fd00:2::b : goto mine, fd00:2::0 : goto to_13, fd00:2::1-fd00:2::5 : goto to_5, fd00:2::6-fd00:2::a : goto to_13, fd00:2::c : goto to_14, fd00:2::d : goto to_13 }
END
# stamped 2
ip netns exec Houston nft -f - <<'END'
flush chain netdev bz stamp
add rule netdev bz stamp @nh,192,32 set 0xfd000002
END
ip netns exec Champaign nft -f - <<'END'
flush chain netdev bz stamp
add rule netdev bz stamp @nh,192,32 set 0xfd000002
END
ip netns exec CollegePark nft -f - <<'END'
flush chain netdev bz stamp
add rule netdev bz stamp @nh,192,32 set 0xfd000002
END
ip netns exec Ithaca nft -f - <<'END'
flush chain netdev bz stamp
add rule netdev bz stamp @nh,192,32 set 0xfd000002
END
ip netns exec AnnArbor nft -f - <<'END'
flush chain netdev bz stamp
add rule netdev bz stamp @nh,192,32 set 0xfd000002
END
ip netns exec SaltLakeCity nft -f - <<'END'
flush chain netdev bz stamp
add rule netdev bz stamp @nh,192,32 set 0xfd000002
END
ip netns exec Seattle nft -f - <<'END'
flush chain netdev bz stamp
add rule netdev bz stamp @nh,192,32 set 0xfd000002
END
ip netns exec Pittsburgh nft -f - <<'END'
flush chain netdev bz stamp
add rule netdev bz stamp @nh,192,32 set 0xfd000002
END
ip netns exec Lincoln nft -f - <<'END'
flush chain netdev bz stamp
add rule netdev bz stamp @nh,192,32 set 0xfd000002
END
ip netns exec Atlanta nft -f - <<'END'
flush chain netdev bz stamp
add rule netdev bz stamp @nh,192,32 set 0xfd000002
END
ip netns exec PaloAlto nft -f - <<'END'
flush chain netdev bz stamp
add rule netdev bz stamp @nh,192,32 set 0xfd000002
END
ip netns exec SanDiego nft -f - <<'END'
flush chain netdev bz stamp
add rule netdev bz stamp @nh,192,32 set 0xfd000002
END
ip netns exec Boulder nft -f - <<'END'
flush chain netdev bz stamp
add rule netdev bz stamp @nh,192,32 set 0xfd000002
END
ip netns exec Princeton nft -f - <<'END'
flush chain netdev bz stamp
add rule netdev bz stamp @nh,192,32 set 0xfd000002
END
sleep 0.3
# retired 1
ip netns exec Pittsburgh nft -f - <<'END'
delete element netdev bz ways { fd00:1::8 : goto mine, fd00:1::0-fd00:1::7 : goto to_4, fd00:1::9 : goto to_10, fd00:1::a-fd00:1::d : goto to_13 }
END
ip netns exec Houston nft -f - <<'END'
delete element netdev bz ways { fd00:1::0 : goto mine, fd00:1::1-fd00:1::d : goto to_3 }
END
ip netns exec Princeton nft -f - <<'END'
delete element netdev bz ways { fd00:1::c : goto mine, fd00:1::0-fd00:1::b : goto to_8, fd00:1::d : goto to_11 }
END
ip netns exec Lincoln nft -f - <<'END'
delete element netdev bz ways { fd00:1::6 : goto mine, fd00:1::0-fd00:1::5 : goto to_7, fd00:1::7-fd00:1::d : goto to_4 }
END
ip netns exec Boulder nft -f - <<'END'
delete element netdev bz ways { fd00:1::5 : goto mine, fd00:1::0-fd00:1::4 : goto to_5, fd00:1::6-fd00:1::d : goto to_9 }
END
ip netns exec CollegePark nft -f - <<'END'
delete element netdev bz ways { fd00:1::d : goto mine, fd00:1::0-fd00:1::c : goto to_14 }
END
ip netns exec Champaign nft -f - <<'END'
delete element netdev bz ways { fd00:1::7 : goto mine, fd00:1::0-fd00:1::6 : goto to_9, fd00:1::8-fd00:1::d : goto to_12 }
END
ip netns exec SanDiego nft -f - <<'END'
delete element netdev bz ways { fd00:1::1 : goto mine, fd00:1::0 : goto to_6, fd00:1::2-fd00:1::d : goto to_1 }
END
ip netns exec Atlanta nft -f - <<'END'
delete element netdev bz ways { fd00:1::9 : goto mine, fd00:1::0-fd00:1::8 : goto to_12, fd00:1::a-fd00:1::d : goto to_12 }
END
ip netns exec SaltLakeCity nft -f - <<'END'
delete element netdev bz ways { fd00:1::4 : goto mine, fd00:1::0-fd00:1::3 : goto to_2, fd00:1::5-fd00:1::d : goto to_7 }
END
ip netns exec AnnArbor nft -f - <<'END'
delete element netdev bz ways { fd00:1::b : goto mine, fd00:1::0-fd00:1::a : goto to_13, fd00:1::c-fd00:1::d : goto to_14 }
END
ip netns exec Ithaca nft -f - <<'END'
delete element netdev bz ways { fd00:1::a : goto mine, fd00:1::0-fd00:1::9 : goto to_12, fd00:1::b-fd00:1::d : goto to_8 }
END
ip netns exec PaloAlto nft -f - <<'END'
delete element netdev bz ways { fd00:1::3 : goto mine, fd00:1::0-fd00:1::2 : goto to_1, fd00:1::4-fd00:1::d : goto to_5 }
END
ip netns exec Seattle nft -f - <<'END'
delete element netdev bz ways { fd00:1::2 : goto mine, fd00:1::0-fd00:1::1 : goto to_3, fd00:1::3-fd00:1::d : goto to_2 }
END
