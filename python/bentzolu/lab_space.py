"""A function in namespaces of its own, for mounts and for processes: whatever it makes there goes with it."""
import ctypes
import os
import select
import shutil
import signal
import sys
from typing import Any, Callable, NoReturn, Sequence

from .lab_net import LabError, play

NEW_MOUNTS, NEW_PROCESSES = 0x00020000, 0x20000000
RECURSIVE, PRIVATE = 0x4000, 0x40000
DIE_WITH_PARENT = 1  # PR_SET_PDEATHSIG
SIGNALS = (signal.SIGHUP, signal.SIGINT, signal.SIGTERM)

libc = ctypes.CDLL(None, use_errno=True)

# Two nodes with a link, and a rule that sends from one to the other: all that a lab asks of the kernel and of nftables.
PROBE = """ip netns add bz-probe
ip -n bz-probe link add name a type veth peer name b
ip -n bz-probe address add fe80::1/64 dev a nodad
ip netns exec bz-probe sh -e -c 'cd /proc/sys/net/ipv6; echo 1 > conf/all/forwarding; echo > icmp/ratemask'
ip netns exec bz-probe nft -f - <<'END'
table netdev bz {
chain to_1 { fwd ip6 to fe80::2 device a; }
map ways { type ipv6_addr : verdict; flags interval; }
chain in { type filter hook ingress devices = { b } priority 0; @nh,192,32 set 0xfd000001; ip6 daddr vmap @ways; }
}
add element netdev bz ways { fd00:1::0-fd00:1::3 : goto to_1 }
END
ip netns del bz-probe
"""


def refuse(why: str) -> NoReturn:
    raise LabError(f"cannot run here: {why}")


def refuse_without_tools(tools: Sequence[str]) -> None:
    """LabError where a lab can't be built, as far as that can be known without trying."""
    if not sys.platform.startswith("linux"):
        refuse("the lab needs Linux")
    if os.geteuid() != 0:
        refuse("the lab needs root")
    for tool in tools:
        if shutil.which(tool) is None:
            refuse(f"there is no {tool}")


def called(name: str, *words: Any) -> None:
    """A call of the C library; LabError where it fails."""
    if getattr(libc, name)(*words) != 0:
        refuse(f"no namespaces can be made ({name}: {os.strerror(ctypes.get_errno())})")


def settle(lifeline: int, probe: str, what: str) -> None:
    """Makes this process, the first of its namespace, one that ends with its parent, with mounts of its own."""
    libc.prctl(DIE_WITH_PARENT, signal.SIGKILL)
    if select.select([lifeline], [], [], 0)[0]:
        os._exit(1)  # the parent is gone already
    for number in SIGNALS:
        signal.signal(number, signal.SIG_DFL)  # which the first process of a namespace does not feel
    called("unshare", NEW_MOUNTS)
    called("mount", b"none", b"/", None, RECURSIVE | PRIVATE, None)
    called("mount", b"tmpfs", b"/run", b"tmpfs", 0, None)
    libc.mount(b"proc", b"/proc", b"proc", 0, None)  # where it may not be, that of outside does too
    try:
        play(probe)
    except LabError as fault:
        refuse(f"network namespaces with IPv6 and {what} cannot be made ({fault})")


def first(work: Callable[[], int], lifeline: int, probe: str, what: str) -> NoReturn:
    """The first process of the namespace: does the work, and ends with its status."""
    status = 1
    try:
        settle(lifeline, probe, what)
        status = work()
    except LabError as fault:
        print(f"lab: {fault}", file=sys.stderr)
    except BaseException as fault:
        sys.excepthook(type(fault), fault, fault.__traceback__)
    sys.stdout.flush()
    sys.stderr.flush()
    os._exit(status)


def apart(work: Callable[[], int], tools: Sequence[str] = ("ip", "nft"), probe: str = PROBE, what: str = "nftables") -> int:
    """Does a work in namespaces of its own, and answers its status. However this process ends, also by a signal, all that
    the work started and made goes with it: a signal kills the first process there, and with that the kernel all others.
    The tools have to be there, and the probe, a script of the shell, has to pass there; `what` is what it asks for."""
    refuse_without_tools(tools)
    lifeline, held = os.pipe()
    sys.stdout.flush()
    called("unshare", NEW_PROCESSES)
    child = os.fork()
    if child == 0:
        os.close(held)
        first(work, lifeline, probe, what)

    def stop(number: int, _: Any) -> NoReturn:
        os.kill(child, signal.SIGKILL)
        os.waitpid(child, 0)
        os._exit(128 + number)

    for number in SIGNALS:
        signal.signal(number, stop)
    _, status = os.waitpid(child, 0)
    if os.WIFSIGNALED(status):
        print(f"lab: ended by signal {os.WTERMSIG(status)}", file=sys.stderr)
        return 1
    return os.WEXITSTATUS(status)
