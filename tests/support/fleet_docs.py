"""The commands of docs/FLEET.md and the package for Debian, run as they stand there; `fleet.py` runs them."""
import os
import pathlib
import re
import shutil
import subprocess
import tempfile
import time

from bentzolu.lab_net import play

from fleet_bench import HERE, PATIENT, count, skip


def documented():
    """The commands of docs/FLEET.md, Ten minutes, in their order: whose, the text, and what it is to print."""
    text = (HERE / "docs/FLEET.md").read_text()
    part = text[text.index("## Ten minutes"):text.index("## What it does to a router")]
    found = []
    for line in [line[4:] for block in re.findall(r"(?<=\n\n)(?:    .*\n)+", part) for line in block.splitlines()]:
        head = re.match(r"(each|a)\$ (.*)", line)
        if head:
            found.append([head[1], head[2], []])
        elif re.search(r"<<END(?!.*\nEND$)", found[-1][1], flags=re.S) or re.search(r"\bdo\b(?!.*\ndone$)", found[-1][1], flags=re.S):
            found[-1][1] += "\n" + line.strip()
        else:
            found[-1][2].append(line)
    return found


class Documented:
    """Three routers, on which the commands of docs/FLEET.md are said. Each has its files below a folder of its own."""

    HOSTS = {"a": "10.0.0.1", "b": "10.0.0.2", "c": "10.0.0.3"}
    LINKS = ((("a", "eth1"), ("b", "eth1")), (("b", "eth2"), ("c", "eth1")), (("c", "eth2"), ("a", "eth2")))
    COPY = "#!/bin/sh\nfor to; do :; done\nwhile [ $# -gt 1 ]; do cp -r \"$1\" \"$TOP/${to%%:*}/${to#*:}\"; shift; done\n"

    def __init__(self):
        self.top = pathlib.Path(tempfile.mkdtemp(prefix="bentzolu-docs-"))
        self.started, self.background, self.ran = [], None, 0
        self.session = {name: "" for name in self.HOSTS}  # lines that later ones want, as `cd` and variables
        lines = ["link set dev lo up", "link add name br0 type bridge", "link set dev br0 up", *(f"netns add {name}" for name in self.HOSTS)]
        for name in self.HOSTS:
            lines += [f"link add name m{name} type veth peer name eth0 netns {name}", f"link set dev m{name} master br0 up"]
        lines += [f"link add name {one} netns {x} type veth peer name {other} netns {y}" for (x, one), (y, other) in self.LINKS]
        play("ip -batch - <<'END'\n" + "\n".join(lines) + "\nEND\n")
        for name, host in self.HOSTS.items():
            lines = ["link set dev lo up", f"address add {host}/24 dev eth0", *(f"link set dev {device} up" for device in ("eth0", "eth1", "eth2"))]
            play(f"ip -n {name} -batch - <<'END'\n" + "\n".join(lines) + "\nEND\n")
            for folder in ("etc/bentzolu", "etc/default", "var/lib/etcd", "root"):
                (self.top / name / folder).mkdir(parents=True)
            for conf in ("agent.conf", "controller.conf"):
                shutil.copy(HERE / "packaging/fleet" / conf, self.top / name / "etc/bentzolu")
            (self.top / host).symlink_to(self.top / name)
        (self.top / "bin").mkdir()
        (self.top / "bin/scp").write_text(self.COPY)
        (self.top / "bin/scp").chmod(0o755)

    def systemctl(self, name, unit):
        """Starts what a unit starts, with its credentials."""
        env, here = dict(os.environ), self.top / name
        if unit == "etcd":
            env.update(line.split("=", 1) for line in (here / "etc/default/etcd").read_text().splitlines())
            command = ["etcd", "--log-level", "error", "--logger", "zap"]
        else:
            text = (HERE / f"packaging/fleet/{unit}.service").read_text().replace("/etc/bentzolu", f"{here}/etc/bentzolu")
            env["CREDENTIALS_DIRECTORY"] = str(here / unit)
            (here / unit).mkdir()
            for credential, path in re.findall(r"LoadCredential=([^:]+):(.*)", text):
                shutil.copy(path, here / unit / credential)
            command = re.search(r"ExecStart=(.*)", text)[1].split()
            path = pathlib.Path(command[-1])
            path.write_text(path.read_text().replace("[agent]", f"[agent]\nlook = 5\nlock = {here}/lock"))
        with open(self.top / f"{unit}-{name}.log", "w", encoding="ascii") as out:
            self.started.append(subprocess.Popen(["ip", "netns", "exec", name, *command], stdin=subprocess.DEVNULL, stdout=out, stderr=out, env=env))

    def shell(self, name, text):
        """A command in a router, after the lines of its session."""
        for front in ("/etc/bentzolu", "/etc/default", "/var/lib/etcd", "/root"):
            text = re.sub(rf"(?<![\w:]){front}(?![\w])", f"{self.top}/{name}{front}", text)
        text = text.replace("/usr/share/bentzolu-fleet", str(HERE / "packaging/fleet")).replace("--wait 60", f"--wait {2 * PATIENT}")
        whole = self.session[name].replace("mkdir -m", "mkdir -p -m") + text
        env = {**os.environ, "NODE": name, "HOST": self.HOSTS[name], "TOP": str(self.top), "PATH": f"{self.top}/bin:{os.environ['PATH']}"}
        if text.endswith("&"):
            self.background = subprocess.Popen(["ip", "netns", "exec", name, "bash", "-c", whole.rstrip("& ")], env=env)
            return None
        if text.startswith("wait;"):
            self.background.wait()
        for _ in range(60 if "enroll" in text else 1):  # etcd takes a while
            done = subprocess.run(["ip", "netns", "exec", name, "bash", "-c", whole], capture_output=True, text=True, env=env, check=False)
            if done.returncode == 0:
                break
            time.sleep(1)
        self.session[name] += text + "\n" if re.match(r"\w+=|mkdir .*&& cd", text) else ""
        return done

    def say(self, name, text, wanted):
        """Says a command, and answers what is wrong with what it prints."""
        self.ran += 1
        if text.startswith("systemctl"):
            for unit in re.sub(r"^systemctl (restart|enable --now) ", "", text).split():
                self.systemctl(name, unit)
            return None
        done, end = self.shell(name, text), time.monotonic() + PATIENT
        while "fleet status" in text and done.stdout.splitlines() != wanted and time.monotonic() < end:  # on a busy machine it comes to it later
            done = self.shell(name, text)
        said, wanted = ([re.sub(r"time \d+ms", "time", line) for line in lines] for lines in (done.stdout.splitlines() if done else [], wanted))
        return (name, text, said, done.stderr[-300:]) if done and (done.returncode or wanted and said != wanted) else None

    def end(self):
        for it in self.started:
            it.kill()


def run_docs():
    """The commands of docs/FLEET.md on three routers, but for apt-get; what systemctl starts is started by hand."""
    if shutil.which("ping") is None:
        return skip(2, "there is no ping")
    it, wrong = Documented(), None
    for whose, text, wanted in documented():
        for name in [] if text.startswith("apt-get") else it.HOSTS if whose == "each" else "a":
            wrong = wrong or it.say(name, text, wanted)
    count(f"docs/FLEET.md: {it.ran} commands of Ten minutes", wrong)
    if not wrong:
        play("ip -n c address del fe80::3/64 dev eth1\nip -n b neigh flush dev eth2\n")
        said, end = "", time.monotonic() + 60
        while "c does not answer at fe80::3 on eth2" not in said and time.monotonic() < end:
            time.sleep(1)
            said = it.shell("a", "python3 -m bentzolu fleet status --config fleet.conf").stdout
        count("a neighbour that does not answer is said", None if "c does not answer" in said else said)
    for path in sorted(it.top.glob("*.log")) if wrong else ():
        print(path.stem, path.read_text(errors="replace").strip().split("\n")[-1][:300], flush=True)
    return it.end()


def run_package():
    """The package: what it has, that it leaves nothing, and its services' sandbox."""
    folder = pathlib.Path(tempfile.mkdtemp())
    done = subprocess.run([HERE / "packaging/deb-fleet", folder], capture_output=True, text=True, check=False)
    made = done.stdout.strip()
    listed = subprocess.run(["dpkg-deb", "-c", made], capture_output=True, text=True, check=False).stdout
    wanted = ("bentzolu-agent.service", "bentzolu-controller.service", "etc/bentzolu/agent.conf", "FLEET.md", "bentzolu-fleet/certificates")
    missing = [name for name in wanted if name not in listed]
    count("packaging/deb-fleet", done.stderr or (f"it lacks {missing}" if missing else None))
    root = folder / "root"
    (root / "var/lib/dpkg").mkdir(parents=True)
    (root / "var/lib/dpkg/status").touch()
    words = ["dpkg", f"--root={root}", "--force-depends", "--force-script-chrootless"]
    wrong = []
    for act in (["-i", made], ["-P", "bentzolu-fleet"]):
        done = subprocess.run([*words, *act], capture_output=True, text=True, check=False)
        wrong += [done.stderr[-300:]] if done.returncode else []
    left = [str(path) for path in root.rglob("*") if "var/lib/dpkg" not in str(path) and path not in (root / "var", root / "var/lib")]
    count("the package is installed, and leaves nothing", wrong or left)
    wrong = []
    for name in ("agent", "controller"):
        unit = HERE / f"packaging/fleet/bentzolu-{name}.service"
        done = subprocess.run(["systemd-analyze", "security", "--offline=true", unit], capture_output=True, text=True, check=False)
        level = re.search(r"exposure level for .*: ([0-9.]+)", done.stdout)
        wrong += [] if level and float(level[1]) <= 3 else [(name, done.stdout[-200:], done.stderr[-200:])]
    if shutil.which("systemd-analyze"):
        count("systemd-analyze security: at most 3", wrong)
    else:
        skip(1, "there is no systemd-analyze")
