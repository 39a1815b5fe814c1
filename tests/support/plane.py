"""The plane in XDP, on this machine: `tests/plane` and tests/test_plane.py run it.

It builds the plane by plane/make; then what its loader takes and refuses, each label asked in the kernel, and real packets
by generic XDP and by tc (plane_node.py beside this file); the same over the proved search of crates/plane_lines where the
libraries below it are built here, as rt ci leaves them, or over that of the variable MODULE; which modules plane/to_bpf
refuses; and the lab over each plane, in which no packet may be lost or mixed, and in place some have to be.

    plane.py [--large]      the checks of the gate, or 100 changes under traffic on each of three networks, and in place, and 20
                            by the other planes

It runs at the top of the repository, with python in PYTHONPATH and the program in BENTZOLU_ROUTE. The last line is
`N passed, M failed` or that and `, K skipped`; the status is above 0 where something differs.
"""
import os
import pathlib
import re
import subprocess
import sys
import tempfile

from bentzolu.lab_xdp import PROBE

TOP = pathlib.Path.cwd()
ROUTE = os.environ["BENTZOLU_ROUTE"]
NODE_CHECKS, LAB_CHECKS, MODULE_CHECKS, RATIO_CHECKS = 215, 7, 10, 5
if "--large" in sys.argv:
    LAB_CHECKS = 12
MOST_SECONDS = 3000 if "--large" in sys.argv else 300  # of a run of the lab
MODULE = os.environ.pop("MODULE", None)  # of the proved search
LEAST_RATE = 1_200  # thousand packets a second that pass without a look-up where nothing else runs
ABILENE, NSFNET, GRID = "examples/abilene.edgelist", "examples/nsfnet.edgelist", "examples/grid8x8.adjlist"
passed = failed = skipped = 0


def count(what, wrong):
    """Counts a check, which failed where something is wrong."""
    global passed, failed
    passed, failed = passed + (not wrong), failed + bool(wrong)
    if wrong:
        print(f"plane: {what}: {wrong}", flush=True)


def skip(checks, why):
    global skipped
    skipped += checks
    print(f"plane: {why}: {checks} checks are not tried", flush=True)


def run(words, seconds=300, **more):
    """The status, the output and what a command says."""
    try:
        done = subprocess.run(words, capture_output=True, text=True, timeout=seconds, stdin=subprocess.DEVNULL, check=False, **more)
    except subprocess.TimeoutExpired:
        return "hangs", "", f"it takes more than {seconds} s"
    return done.returncode, done.stdout, done.stderr


def built(folder, **more):
    """Why the plane can't be built into a folder, or None."""
    status, _, said = run(["plane/make"], env={**os.environ, "OUT": folder, **more})
    if status and "there is no" in said:
        return said.strip()
    count("plane/make", None if status == 0 else said[-2000:])
    return None if status == 0 else "plane/make failed"


def is_proved_below():
    """Whether the libraries of crates/plane_lines are built here, and the kit is: then its proof and its build take less than
    a minute."""
    libraries = [f"crates/{name}/out/rlib/{name}.rlib" for name in ("ir_model", "ir_lookup", "ir_lines")]
    return all(map(os.path.exists, libraries)) and run(["site/kit"])[0] == 0


def refused_here(folder):
    """Why no plane can go up here, or None."""
    if os.geteuid() != 0:
        return "only root can load programs of BPF"
    probe = PROBE.format(pins="/run/bpf", tool=f"{folder}/bentzolu-xdp", object=f"{folder}/plane.bpf.o", mode="xdp")
    status, _, said = run(["unshare", "--mount", "--propagation", "private", "sh", "-e", "-c", "mount -t tmpfs tmpfs /run\n" + probe], 60)
    return None if status == 0 else (said.strip().splitlines() or [f"status {status}"])[0]


def of_node(folder, checks):
    """The checks of one node, in namespaces of their own."""
    global passed, failed, skipped
    words = ["unshare", "--mount", "--net", "--pid", "--fork", "--mount-proc", "--kill-child", sys.executable, "tests/support/plane_node.py"]
    status, output, said = run([*words, f"{folder}/bentzolu-xdp", f"{folder}/plane.bpf.o", ROUTE if os.access(ROUTE, os.X_OK) else ""], 400)
    print("".join(line + "\n" for line in output.splitlines()[:-1]), end="", flush=True)
    found = re.search(r"^(\d+) passed, (\d+) failed(?:, (\d+) skipped)?\n\Z", output, flags=re.M)
    if not found:
        count("the checks of a node", f"status {status}: {said[-1000:]}")
        return
    passed, failed, skipped = passed + int(found[1]), failed + int(found[2]), skipped + int(found[3] or 0)
    all_of_them = sum(int(it or 0) for it in found.groups())
    count("all checks of a node", None if all_of_them == checks else f"{all_of_them} in place of {checks}: change the number in tests/support/plane.py")


def of_modules(folder):
    """Modules that plane/to_bpf takes, and those that it refuses with a sentence."""
    functions = "".join(f"define i32 @{name}(i64 %a, i32 %b) #0 {{\n  {{body}}\n  ret i32 %b\n}}\n\n" for name in ("bz_place_16", "bz_place_32", "bz_head"))
    head = 'target triple = "x86_64-unknown-linux-gnu"\n\n'
    tail = 'attributes #0 = { nounwind "target-cpu"="x86-64-v2" "probe-stack"="inline-asm" }\n'
    asm = 'call void asm sideeffect "nop", ""()'
    for what, module, sentence in (
        ("three functions", head + functions.replace("{body}", "") + tail, None),
        ("functions that nothing calls", head + functions.replace("{body}", "") + f"define void @other() #0 {{\n  {asm}\n  ret void\n}}\n" + tail, None),
        ("assembly", head + functions.replace("{body}", asm) + tail, "assembly"),
        ("a trap", head + functions.replace("{body}", "call void @llvm.trap()") + "declare void @llvm.trap()\n" + tail, "a trap"),
        ("a call", head + functions.replace("{body}", "call void @abort()") + "declare void @abort()\n" + tail, "names abort"),
        ("a way without an end", head + functions.replace("ret i32 %b", "unreachable").replace("{body}", "") + tail, "without an end"),
        ("floating point", head + functions.replace("{body}", "%f = uitofp i32 %b to double") + tail, "floating point"),
        ("data", head + "@table = internal global i32 7\n\n" + functions.replace("{body}", "store i32 %b, i32* @table") + tail, "names table|does not take"),
        ("a function that is missing", head + functions.replace("bz_head", "bz_tail").replace("{body}", "") + tail, "no function bz_head"),
        ("no module", "nothing\n", "does not take the module"),
    ):
        given, made = f"{folder}/given.ll", f"{folder}/made.bc"
        pathlib.Path(given).write_text(module)
        status, _, said = run(["plane/to_bpf", given, made])
        right = status == 0 and os.path.getsize(made) > 0 if sentence is None else status == 1 and re.search(sentence, said) and said.startswith("to_bpf: ")
        count(f"to_bpf: {what}", None if right else f"status {status}: {said.strip()}")


def of_lab(*words, differs=False, topology=ABILENE):
    """A run of the lab: none is lost or mixed, or in place some are. The first of three that is right: a machine with other work
    may drop packets that it has no time for, and whether a packet meets a row in between is chance."""
    for seed in ("1", "2", "3"):
        status, output, said = run([sys.executable, "-m", "bentzolu", "lab", "--seconds", "0.5", "--seed", seed, *words, topology], MOST_SECONDS)
        if re.search(r"^lab: cannot run here: ", said, flags=re.M):
            return skip(1, said.strip().splitlines()[-1])
        if "--large" in sys.argv:
            packets = sum(map(int, re.findall(r"^packets \d+ (\d+)", output, flags=re.M)))
            print(f"plane: {topology}: lab {' '.join(words)}: {packets} packets / {' / '.join(output.splitlines()[-4:])}", flush=True)
        lost, mixed = ([int(it) for it in re.findall(rf"^{name} (\d+)$", output, flags=re.M)] for name in ("lost", "mixed"))
        last = (output.splitlines() or [""])[-1]
        if differs:
            right = status == 1 and last == "differs" and lost and lost[0] > 0 and mixed[0] > 0
        else:
            right = status == 0 and last == "ok" and lost == mixed == [0]
        if right:
            break
    return count(f"lab {' '.join(words)} {topology}", None if right else f"status {status}: {' / '.join(output.splitlines())} {said[-500:]}")


def of_labs():
    """Changes under traffic over each plane; with --large 100 on each network, and in place on each, and 20 by the other planes."""
    if "--large" in sys.argv:
        for topology in (ABILENE, NSFNET, GRID):
            of_lab("--plane", "xdp", "--changes", "100", topology=topology)
            of_lab("--plane", "xdp", "--in-place", differs=True, topology=topology)
        for topology in (ABILENE, NSFNET):
            for plane in ("generic", "tc", "nft"):
                of_lab("--plane", plane, "--changes", "20", topology=topology)
        return
    of_lab("--plane", "xdp", "--changes", "10")
    of_lab("--plane", "xdp", "--changes", "10", topology=NSFNET)
    of_lab("--plane", "xdp", "--changes", "2", topology=GRID)
    of_lab("--plane", "generic")
    of_lab("--plane", "tc")
    of_lab("--plane", "xdp", "--in-place", differs=True)
    of_lab("--plane", "nft", "--changes", "2")


def measured(module):
    """What bench/plane/run measures in a few turns: for each table's name and starts or labels, ns of a look-up, kernel's bytes of one
    more table over the row's words, packets a second; and of each change the processor's ms. None where it can't run."""
    status, output, said = run(["bench/plane/run", "5", "30000"], 900, env={**os.environ, "MODULE": module, "PARTS": "look way change"})
    if status:
        return said.strip().splitlines()[-1] if "cannot run here" in said else f"status {status}: {said[-500:]}"
    look, words, way, change = {}, {}, {}, {}
    for cells in ([cell.strip() for cell in line.split("|")[1:-1]] for line in output.splitlines() if line.startswith("| ")):
        if len(cells) == 8 and cells[1].isdecimal():
            look[cells[0], int(cells[1])], words[cells[0], int(cells[1])] = float(cells[3]), float(cells[6])
        elif len(cells) == 7 and cells[1] in ("XDP", "kernel"):
            way[cells[0], cells[2]] = float(cells[5])
        elif len(cells) == 3 and cells[2].replace(".", "").isdecimal():
            change[cells[0]] = float(cells[2])
    return look, words, way, change


def of_ratios(module):
    """The ratios that have to be reached, of runs whose turns go round all tables: each in one of three runs, since a machine with
    other work disturbs some."""
    starts = (4, 16, 64, 256, 1024, 8192)
    proved, in_c, nft, routes = "intervals, proved", "intervals, C", "nftables, one map", "routes of the kernel"
    reached = {}
    for _ in range(3):
        found = measured(module)
        if isinstance(found, str):
            return skip(RATIO_CHECKS, found) if "cannot run here" in found else count("bench/plane/run", found)
        look, words, way, change = found
        search = sum(look[proved, it] for it in starts) / sum(look[in_c, it] for it in starts)
        beside = sum(way[proved, str(it)] / way[nft, str(it)] for it in starts) / len(starts)
        routed = min(way[proved, str(it)] for it in starts) / way[routes, "full"]
        took = next(ms for what, ms in change.items() if "install a row of 1,024" in what)
        memory = max(words[proved, it] for it in starts if it >= 16)
        is_slow = way["no look-up", "4"] < LEAST_RATE  # with other work what all ways have in common hides what they differ by
        for what, value, is_right in (
            ("the proved search beside that in C, at most 1.1", search, search <= 1.1), ("XDP beside nftables' map, at least 1.5", beside, beside >= 1.5),
            ("XDP beside the kernel's routes, at least 1", routed, routed >= 1), ("an install of 1,024 starts, at most 50 ms of a processor", took, took <= 50),
            ("one more table over its row's words, from 16 starts on at most 1.3", memory, memory <= 1.3),
        ):
            print(f"plane: {what}: {value:.2f}", flush=True)
            if is_right or what not in reached and not (is_slow and what.startswith("XDP beside")):
                reached[what] = None if is_right else value
        if len(reached) == RATIO_CHECKS and not any(reached.values()):
            break
    for what, value in reached.items():
        count(what, value)
    if len(reached) < RATIO_CHECKS:
        skip(RATIO_CHECKS - len(reached), "other work takes the processors' time")
    return None


def of_proved(work, cannot):
    """The checks of a node over the proved search, by which the lab then runs, too."""
    given = {"MODULE": MODULE} if MODULE else {"BUILT": "1"}
    status, _, said = run(["plane/make", *([] if MODULE else ["proved"])], 600, env={**os.environ, **given, "OUT": f"{work}/proved"})
    count("plane/make proved", None if status == 0 else said[-2000:])
    if status == 0:
        if not cannot and "--large" not in sys.argv:
            of_node(f"{work}/proved", NODE_CHECKS)
            of_ratios(f"{work}/proved/module.bc")
        os.environ["BENTZOLU_XDP"] = f"{work}/proved/bentzolu-xdp"


with tempfile.TemporaryDirectory(prefix="bentzolu-plane-") as folder_of_all:
    os.chmod(folder_of_all, 0o755)  # a user without rights runs the loader, too
    why = built(f"{folder_of_all}/c")
    if why:
        skip(1 + MODULE_CHECKS + 2 * (NODE_CHECKS + 1) + 1 + RATIO_CHECKS + LAB_CHECKS, why)
    else:
        os.environ["BENTZOLU_XDP"] = f"{folder_of_all}/c/bentzolu-xdp"
        of_modules(folder_of_all)
        refusal = refused_here(f"{folder_of_all}/c")
        if refusal:
            skip(NODE_CHECKS + 1 + LAB_CHECKS, f"cannot run here: {refusal}")
        elif "--large" not in sys.argv:
            of_node(f"{folder_of_all}/c", NODE_CHECKS)
        if MODULE or is_proved_below():
            of_proved(folder_of_all, refusal)
        else:
            skip(NODE_CHECKS + 2 + RATIO_CHECKS, "the libraries of crates/plane_lines are not built")
        if not refusal and not os.access(ROUTE, os.X_OK):
            skip(LAB_CHECKS, "the program is not built")
        elif not refusal:
            of_labs()
print(f"{passed} passed, {failed} failed" + (f", {skipped} skipped" if skipped else ""))
sys.exit(failed > 0)
