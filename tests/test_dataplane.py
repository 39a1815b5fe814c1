"""Plans of NSFNET of three kinds in network namespaces of Linux; `tests/dataplane` runs it.

The commands of examples/netns.awk put them there. The way between each two nodes, as traceroute finds it, is to be that of
`route walk`: 546 ways. All namespaces are made in a mount namespace of its own, so they meet no others and go with it.
"""
from __future__ import annotations

import os
import shutil
import subprocess
import sys

from support.checks import add, skip
from support.marks import alone, root, slow, within
from support.places import TOP, built_program, why_no_program

WAYS = 546
# A namespace with a link that has an address of IPv6, and forwards.
PROBE = """\
mount -t tmpfs tmpfs /run
ip netns add bz-probe
ip -n bz-probe link add name a type veth peer name b
ip -n bz-probe address add fe80::1/64 dev a nodad
ip netns exec bz-probe sh -e -c 'cd /proc/sys/net/ipv6; echo 1 > conf/all/forwarding; echo > icmp/ratemask'
ip netns del bz-probe
"""


def missing() -> str:
    """Return what is not here, or an empty text."""
    why = why_no_program()
    if why:
        return why
    if os.geteuid() != 0:
        return "only root can make network namespaces"
    lacks = [tool for tool in ("ip", "traceroute", "unshare", "awk") if shutil.which(tool) is None]
    if lacks:
        return f"not here: {' '.join(lacks)}"
    try:
        probe = subprocess.run(["unshare", "--mount", "--propagation", "private", "sh", "-e"], input=PROBE, text=True, timeout=20,
                               stdout=subprocess.DEVNULL, stderr=subprocess.DEVNULL, check=False)
    except subprocess.TimeoutExpired:
        return "a network namespace takes more than 20 s here"
    return "network namespaces with IPv6 cannot be made here" if probe.returncode else ""


@alone
@root
@slow
@within(320)
def test_dataplane() -> None:
    """Each packet goes as the plan of its epoch says."""
    why = missing()
    if why:
        skip("dataplane", why, WAYS)
        return
    inner = 'mount -t tmpfs tmpfs /run && exec "$@"'
    command = ["timeout", "-k", "10", "300", "unshare", "--mount", "--propagation", "private", "sh", "-c", inner, "sh",
               sys.executable, os.path.join(TOP, "tests/support/kernel_walks.py"), built_program()]
    done = subprocess.run(command, cwd=TOP, stdin=subprocess.DEVNULL, stdout=subprocess.PIPE, stderr=subprocess.STDOUT, text=True, check=False)
    add("dataplane", done.stdout, done.returncode)
