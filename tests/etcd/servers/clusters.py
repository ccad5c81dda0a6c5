"""Clusters of etcd's servers on the loopback address, and keys that are put all the while."""
import base64
import contextlib
import http.client
import itertools
import json
import os
import random
import re
import shutil
import signal
import socket
import subprocess
import tempfile
import threading
import urllib.request

from checks import holds, wait_for

# Without variables of this machine that etcd and etcdctl take as options.
ENVIRONMENT = {name: value for name, value in os.environ.items() if not name.startswith("ETCD")}
UNANSWERED = (OSError, ValueError, http.client.HTTPException)  # a server refused a call, or did not answer


# The ports that a test takes, below those that the system gives to connections. Tests that run beside each other have
# others each.
PORT_RANGES = [range(first, first + 80) for first in range(20000, 32000, 80)]
ports = PORT_RANGES[0]


def free_ports():
    """Yields ports that nothing uses."""
    taken = set()
    while True:
        port = random.choice(ports)
        with contextlib.closing(socket.socket()) as probe:
            try:
                probe.bind(("127.0.0.1", port))
            except OSError:
                continue
        if port not in taken:
            taken.add(port)
            yield port


PORTS = free_ports()


class Server:
    """A server on ports of its own, with its data and its log in a folder. `program` starts it."""

    program = "etcd"

    def __init__(self, cluster, name):
        self.cluster, self.name = cluster, name
        self.log, self.data = f"{cluster.folder}/{name}.log", f"{cluster.folder}/{name}"
        self.client, self.listening = (f"{cluster.scheme}://127.0.0.1:{next(PORTS)}" for _ in range(2))
        self.peer, self.advertised = self.listening, self.client
        self.process, self.before, self.more = None, [], []

    def words(self):
        """The command that starts it. How it joins its cluster is in the environment."""
        return [*self.before, self.program, "--data-dir", self.data, "--listen-client-urls", self.client, "--advertise-client-urls", self.advertised,
                "--listen-peer-urls", self.listening, "--logger=zap", "--log-outputs", self.log, *self.cluster.server_options, *self.more]

    def start(self, environment):
        """Starts it in a process group of its own."""
        self.process = subprocess.Popen(self.words(), env={**ENVIRONMENT, **environment}, start_new_session=True,
                                        stdin=subprocess.DEVNULL, stdout=subprocess.DEVNULL, stderr=subprocess.DEVNULL)
        self.cluster.groups.append(self.process)

    def start_again(self):
        """Starts it with the data that it has."""
        self.start({"ETCD_NAME": self.name, "ETCD_INITIAL_ADVERTISE_PEER_URLS": self.peer, "ETCD_INITIAL_CLUSTER": f"{self.name}={self.peer}"})

    def status(self):
        """What it says of itself. None if it does not answer."""
        try:
            return self.cluster.ask(self, "maintenance/status", {}, self.cluster.token(self))
        except UNANSWERED:
            return None

    def is_up(self):
        return self.status() is not None

    def kill(self):
        """Ends it, whether the test started it or a start command."""
        if self.process:
            end_group(self.process)
        else:
            end_all(f"{self.data}\0")
            wait_for(f"{self.name} has ended", lambda: not self.is_up())

    def delete_data(self):
        shutil.rmtree(self.data, ignore_errors=True)


def end_all(argument):
    """Ends the servers in whose command lines this text is."""
    for folder in os.listdir("/proc"):
        with contextlib.suppress(OSError):
            if folder.isdecimal() and argument.encode() in open(f"/proc/{folder}/cmdline", "rb").read():
                os.kill(int(folder), signal.SIGKILL)


def end_group(process):
    """Ends a process and all that it started."""
    with contextlib.suppress(ProcessLookupError):
        os.killpg(process.pid, signal.SIGKILL)
    process.wait()


class Cluster:
    """A cluster of servers n1, n2 .. in new folders, and servers that join it later."""

    scheme = "http"
    server_options = ()
    etcdctl = ("etcdctl",)
    variables = {"ETCDCTL_API": "3"}

    def __init__(self, size, joining=()):
        self.folder = tempfile.mkdtemp(prefix="confscript-etcd-")
        self.groups, self.writer = [], None
        self.prepare()
        self.first = [Server(self, f"n{at}") for at in range(1, size + 1)]
        self.servers = {server.name: server for server in [*self.first, *(Server(self, name) for name in joining)]}

    def prepare(self):
        """What a kind of cluster needs before its servers are made."""

    def __getitem__(self, name):
        return self.servers[name]

    @contextlib.contextmanager
    def running(self):
        """Starts the first servers and the writer. At the end nothing is left of what the test started."""
        try:
            self.start()
            yield self
        except Exception:
            self.show_logs()
            raise
        finally:
            if self.writer:
                self.writer.end()
            for process in self.groups:
                end_group(process)
            end_all(f"{self.folder}/")  # what a start command started has a session of its own
            shutil.rmtree(self.folder, ignore_errors=True)

    def start(self):
        for server in self.first:
            server.start({
                "ETCD_NAME": server.name, "ETCD_INITIAL_ADVERTISE_PEER_URLS": server.peer, "ETCD_INITIAL_CLUSTER_STATE": "new",
                "ETCD_INITIAL_CLUSTER": ",".join(f"{it.name}={it.peer}" for it in self.first),
            })
        wait_for("each server is listed with its name", lambda: all(self.lists(it, len(self.first)) for it in self.first))
        self.after_start()
        writer = Writer(self)
        writer.start()
        self.writer = writer
        self.wait_for_puts()

    def after_start(self):
        """What a kind of cluster needs before keys are put."""

    def lists(self, server, count):
        return len([it for it in self.members(server) if it.get("name")]) == count

    def show_logs(self):
        for server in self.servers.values():
            if os.path.exists(server.log):
                with open(server.log, encoding="utf-8", errors="replace") as log:
                    print(f"-- the end of the log of {server.name}:\n{''.join(log.readlines()[-10:])}", end="")

    # What a server says of the members

    def members(self, server):
        """The members as a server lists them, none if it does not answer."""
        try:
            return self.ask(server, "cluster/member/list", {}, self.token(server))["members"]
        except UNANSWERED:
            return []

    def etcdctl_at(self, server, *words):
        """Whether etcdctl succeeds at a server."""
        command = [*self.etcdctl, f"--endpoints={server.client}", *words]
        return subprocess.run(command, capture_output=True, env={**ENVIRONMENT, **self.variables}, check=False).returncode == 0

    def id(self, server):
        """The id of a server, as the first one that is up lists it."""
        return next(int(it["ID"]) for up in self.up() for it in self.members(up) if it["peerURLs"] == [server.peer])

    def cluster_id(self):
        return int(next(status["header"]["cluster_id"] for status in (server.status() for server in self.first) if status))

    def up(self):
        return [server for server in self.servers.values() if server.is_up()]

    def wait_until_missed(self, *dead):
        """Waits until all other servers know that these ended: they follow one of their own, and have no connection with
        them."""
        ids = {self.id(server) for server in dead}

        def misses(server):
            leader, peers = int((server.status() or {}).get("leader", 0)), self.active_peers(server)
            return leader not in (0, *ids) and peers is not None and not ids & peers

        wait_for(f"{', '.join(it.name for it in dead)} is missed", lambda: all(misses(it) for it in self.up()))

    def wait_until_heard(self, server):
        """Waits until all other servers have connections with a server."""
        id = self.id(server)
        wait_for(f"{server.name} is heard", lambda: all(id in (self.active_peers(it) or ()) for it in self.up() if it is not server))

    def active_peers(self, server):
        """The ids of the members with which a server has connections. None if it does not say."""
        try:
            with self.opener().open(f"{server.client}/metrics", timeout=10) as answer:
                text = answer.read().decode()
        except UNANSWERED:
            return None
        return {int(id, 16) for id in re.findall(r'(?m)^etcd_network_active_peers{.*Remote="([0-9a-f]+)"} [1-9]', text)}

    def configuration(self, server):
        """The members as a server lists them, such as `n1 n2 +n4`: voters, and learners with a plus."""
        names = {it.peer: it.name for it in self.servers.values()}
        found = [(it.get("isLearner", False), names.get(it["peerURLs"][0], it["peerURLs"][0])) for it in self.members(server)]
        return " ".join(f"+{name}" if learns else name for learns, name in sorted(found))

    def leader(self):
        """The server that says it leads. None if none does."""
        for server in self.servers.values():
            status = server.status()
            if status and status.get("leader") == status["header"]["member_id"]:
                return server
        return None

    def let_lead(self, server):
        """Moves leadership to a server, and waits until all that are up follow it."""
        id = self.id(server)

        def leads():
            leader = self.leader()
            if leader not in (None, server):
                self.etcdctl_at(leader, "move-leader", f"{id:x}")
            return {int((it.status() or {}).get("leader", 0)) for it in self.up()} == {id}

        wait_for(f"{server.name} leads", leads)

    # Keys

    def opener(self):
        return urllib.request.build_opener(urllib.request.ProxyHandler({}))

    def ask(self, server, call, message, token=None):
        """The answer of a server to a call of its HTTP gateway."""
        headers = {"Content-Type": "application/json", **({"Authorization": token} if token else {})}
        with self.opener().open(urllib.request.Request(f"{server.client}/v3/{call}", json.dumps(message).encode(), headers), timeout=10) as answer:
            return json.load(answer)

    def read(self, server, path):
        """What a server says at a path of its client URL."""
        with self.opener().open(f"{server.client}/{path}", timeout=10) as answer:
            return json.load(answer)

    def token(self, server):
        """What a call says of who asks."""
        return None

    def wait_for_puts(self):
        """Waits until keys that are put from now on were acknowledged."""
        before = len(self.writer.acknowledged)
        wait_for("the cluster acknowledges puts", lambda: len(self.writer.acknowledged) >= before + 5)

    def keys_at(self, server):
        """All keys with their values, decoded, as a server reads them from the cluster. None if it does not answer."""
        try:
            answer = self.ask(server, "kv/range", {"key": encoded("key "), "range_end": encoded("key!")}, self.token(server))
        except UNANSWERED:
            return None
        return {base64.b64decode(it["key"]).decode(): base64.b64decode(it["value"]).decode() for it in answer.get("kvs", [])}

    def check_end(self, configuration):
        """Each voter lists this configuration, and has each key that was acknowledged."""
        wait_for("puts are acknowledged", lambda: len(self.writer.acknowledged) >= 10)
        self.writer.end()
        acknowledged = {f"key {number}": f"value {number}" for number in self.writer.acknowledged}
        voters = [self[name] for name in configuration.split() if not name.startswith("+")]
        for server in voters:
            wait_for(f"{server.name} lists {configuration}", lambda: self.configuration(server) == configuration)
            wait_for(f"{server.name} answers", lambda: self.keys_at(server) is not None)
            found = self.keys_at(server)
            lost = [key for key, value in acknowledged.items() if found.get(key) != value]
            holds(f"{server.name} has each acknowledged key; lost: {lost[:10]}", not lost)


class Writer(threading.Thread):
    """Puts keys, one after another and each once, to one of the servers that answer. Keeps those that were acknowledged."""

    def __init__(self, cluster):
        super().__init__(daemon=True)
        self.cluster, self.acknowledged, self.is_ended = cluster, [], threading.Event()

    def run(self):
        servers = itertools.cycle(list(self.cluster.servers.values()))
        server, token = next(servers), None
        for number in itertools.count():
            if self.is_ended.wait(0.05):
                return
            try:
                token = token or self.cluster.token(server)
                self.cluster.ask(server, "kv/put", {"key": encoded(f"key {number}"), "value": encoded(f"value {number}")}, token)
                self.acknowledged.append(number)
            except UNANSWERED:
                server, token = next(servers), None

    def end(self):
        self.is_ended.set()
        self.join()


def encoded(text):
    return base64.b64encode(text.encode()).decode()
