"""Runs of confscript-etcd on a cluster."""
import functools
import json
import os
import re
import shlex
import socketserver
import subprocess
import threading

from checks import LIMIT, Broken, holds, wait_for
from clusters import ENVIRONMENT

TOP = os.path.realpath(f"{os.path.dirname(os.path.realpath(__file__))}/../../..")
COMMAND = f"{TOP}/confscript-etcd"
# The calls of etcdctl that change the cluster.
CHANGES = ("add", "remove", "promote", "move-leader")


@functools.lru_cache
def built_program():
    """The path of the program: that of the variable CONFSCRIPT, or the one that ./confscript links."""
    return os.environ.get("CONFSCRIPT") or subprocess.check_output([f"{TOP}/tools/program"], text=True).rstrip("\n")


@functools.lru_cache
def lists_are_current():
    """Whether etcdctl asks for a list of members that is current, as it does from 3.5 on. Without a quorum there is none."""
    answer = subprocess.check_output(["etcdctl", "version"], env={**ENVIRONMENT, "ETCDCTL_API": "3"}, text=True)
    return tuple(int(part) for part in answer.split()[2].split(".")[:2]) >= (3, 5)


def command(cluster, *words, endpoints=None, state="state", etcdctl=None, program=None):
    """The command line of a run, and its environment. It asks the first servers, and keeps its record in the folder of
    the cluster."""
    urls = ",".join(server.client for server in (endpoints or cluster.first))
    steady = [] if words[0] == "status" else ["--steady", "0"]
    line = [COMMAND, words[0], "--limit", str(LIMIT), *steady, "--endpoints", urls, "--etcdctl", shlex.join(etcdctl or cluster.etcdctl), *words[1:]]
    return line, {**ENVIRONMENT, **cluster.variables, "CONFSCRIPT": program or built_program(), "XDG_STATE_HOME": f"{cluster.folder}/{state}"}


def run(cluster, *words, answer="", folder=None, **others):
    """Runs the command in a folder, that of the cluster by default. Its status, output and errors."""
    line, environment = command(cluster, *words, **others)
    it = subprocess.run(line, input=answer, capture_output=True, text=True, env=environment, cwd=folder or cluster.folder, check=False)
    return it.returncode, it.stdout, it.stderr


def run_into(cluster, output, *words, **others):
    """Runs the command with a file as its standard output. Its status."""
    line, environment = command(cluster, *words, **others)
    return subprocess.run(line, stdin=subprocess.DEVNULL, stdout=output, stderr=subprocess.PIPE, env=environment, cwd=cluster.folder,
                          check=False).returncode


def succeeds(cluster, *words, **others):
    """Runs the command, which has to succeed. Its output."""
    status, output, error = run(cluster, *words, **others)
    if status:
        raise Broken(f"{' '.join(words)}: status {status}: {error}\n{output}")
    return output


def refuses(cluster, name, wanted, *words, status=1, **others):
    """Runs a command that has to fail with one line, and to change nothing."""
    before = [cluster.configuration(server) for server in cluster.up()]
    actual, _, error = run(cluster, *words, **others)
    holds(f"{name}: status {actual}: {error}", (actual, error) == (status, f"confscript-etcd: {wanted}\n"))
    holds(f"{name}: nothing is changed", [cluster.configuration(server) for server in cluster.up()] == before)


def begin(cluster, *words, **others):
    """Begins a run, with one pipe for its output and errors."""
    line, environment = command(cluster, *words, **others)
    it = subprocess.Popen(line, stdin=subprocess.PIPE, stdout=subprocess.PIPE, stderr=subprocess.STDOUT, text=True, env=environment,
                          cwd=cluster.folder, start_new_session=True)
    cluster.groups.append(it)
    return it


def lines(it):
    """Yields the lines of a run that was begun, without the time at which each was printed."""
    for line in it.stdout:
        yield re.sub(r"^[0-9-]{10}T[0-9:]{8}Z ", "", line)


def suggested(cluster, *words, endpoints=None, etcdctl=None):
    """The command that a run suggests for the same cluster."""
    line, _ = command(cluster, *words, endpoints=endpoints, etcdctl=etcdctl)
    return shlex.join(["confscript-etcd", *words, *line[line.index("--endpoints"):line.index("--etcdctl")]])


def start_command(cluster, *before):
    """A shell command for --start, which starts the server of the name in its environment. These lines come first."""
    for server in cluster.servers.values():
        with open(f"{cluster.folder}/{server.name}.sh", "w", encoding="utf-8") as script:
            script.writelines(f"{line}\n" for line in before)
            script.write(f"{shlex.join(server.words())} >/dev/null 2>&1 </dev/null &\n")
    return f'sh {shlex.quote(cluster.folder)}/"$ETCD_NAME".sh'


def settings_in(output, name):
    """The settings that a run printed last for a server, as variables."""
    lines = output[output.rindex(f"  {name} joins with these settings"):].splitlines()[1:5]
    return dict((name, value.strip('"')) for name, value in (line.strip().split("=", 1) for line in lines))


GATE = """import json, os, socket, subprocess, sys
def tell(when, status=0):
    with socket.socket(socket.AF_UNIX) as gate:
        gate.connect(os.environ["GATE"])
        gate.sendall(json.dumps({"when": when, "words": sys.argv[2:], "status": status, "pid": os.getppid()}).encode() + b"\\n")
        gate.recv(1)
tell("before")
status = subprocess.call(sys.argv[1:])
tell("after", status)
sys.exit(status)
"""
# All other calls go on at once.
PASSING = f"""case " $* " in {'|'.join(f'*" {word} "*' for word in CHANGES)}) exec python3 "$0.py" "$@" ;; esac
exec "$@"
"""


class Gate(socketserver.ThreadingUnixStreamServer):
    """An etcdctl that lets the test act before and after each call that changes the cluster: `before` and `after` are
    called with the arguments of the call (from `member` or `move-leader` on), the process that makes it, and its
    status."""

    daemon_threads = True

    def __init__(self, cluster, before=None, after=None):
        path = f"{cluster.folder}/gate"
        super().__init__(path, Asked)
        self.calls = {"before": before, "after": after}
        for name, text in ((f"{path}.sh.py", GATE), (f"{path}.sh", PASSING)):
            with open(name, "w", encoding="utf-8") as script:
                script.write(text)
        self.etcdctl = ["env", f"GATE={path}", "sh", f"{path}.sh", *cluster.etcdctl]
        threading.Thread(target=self.serve_forever, daemon=True).start()

    def __exit__(self, *reason):
        self.shutdown()
        self.server_close()
        os.remove(self.server_address)


class Asked(socketserver.StreamRequestHandler):
    def handle(self):
        it = json.loads(self.rfile.readline())
        call = self.server.calls[it["when"]]
        words = it["words"]
        at = next(at for at, word in enumerate(words) if word in ("member", "move-leader"))
        if call:
            call(words[at:], it["pid"], it["status"])
        self.wfile.write(b"\n")


class Watch:
    """Checks, before each change that a run makes, the configuration that all voters list which are up, and that keys
    are acknowledged."""

    def __init__(self, cluster, *wanted):
        self.cluster, self.wanted, self.at, self.last = cluster, wanted, 0, None

    def __call__(self, words, pid, status):
        # A change that etcd does not take yet is asked for again. Leadership moves beside the steps.
        if words == self.last or words[0] == "move-leader":
            return
        self.last = words
        self.check()

    def check(self):
        wanted = self.wanted[self.at] if self.at < len(self.wanted) else "no further change"
        self.at += 1
        voters = [server for server in self.cluster.up() if server.name in wanted.split()]
        for server in voters:
            try:
                wait_for(f"{server.name} lists {wanted}", lambda: self.cluster.configuration(server) == wanted)
            except Broken as broken:
                holds(str(broken), False)
        holds(f"voters list {wanted}", voters)
        self.cluster.wait_for_puts()


def watched(cluster, words, *wanted):
    """Runs the command while each configuration on the way is checked. Its output."""
    watch = Watch(cluster, *wanted)
    with Gate(cluster, before=watch) as gate:
        output = succeeds(cluster, *words, etcdctl=gate.etcdctl)
    watch.check()
    holds(f"{watch.at} configurations on the way, of {len(wanted)}:\n{output}", watch.at == len(wanted))
    return output
