"""What a run waits for: a server that is behind, that never starts, that no one reaches, a voter that dies meanwhile."""
import contextlib
import os
import queue
import re
import signal
import socket
import threading
import time

from checks import holds, wait_for
from clusters import PORTS, UNANSWERED, Cluster, encoded
from proxies import Proxy
from runs import Gate, begin, lines, refuses, run, settings_in, start_command, succeeds, suggested


class Slow(threading.Thread):
    """A proxy before the peer URL of a server. What the server sends to one of the others, `slow`, comes a second later, and
    not before the proxy is open."""

    def __init__(self, server):
        super().__init__(daemon=True)
        self.target = int(server.listening.rpartition(":")[2])
        self.port, self.slow, self.is_open = next(PORTS), None, threading.Event()
        self.is_open.set()
        self.listener = socket.create_server(("127.0.0.1", self.port))
        server.peer = f"http://127.0.0.1:{self.port}"

    def run(self):
        while True:
            client, _ = self.listener.accept()
            with contextlib.suppress(OSError):
                server = socket.create_connection(("127.0.0.1", self.target))
                sender = []
                threading.Thread(target=self.forward, args=(client, server, sender), daemon=True).start()
                threading.Thread(target=self.delay, args=(server, client, sender), daemon=True).start()

    def forward(self, source, target, sender):
        """Passes on what a peer sends. Its first request says which one it is."""
        with contextlib.suppress(OSError):
            while data := source.recv(65536):
                if not sender:
                    lines = data.decode(errors="replace").splitlines()
                    sender.append(next((line.split()[1] for line in lines if line.lower().startswith("x-server-from:")), ""))
                target.sendall(data)
        close(target)

    def delay(self, source, target, sender):
        """Passes on what the server sends, a second later if it goes to the slow one."""
        waiting = queue.Queue()
        threading.Thread(target=self.send_when_due, args=(waiting, target), daemon=True).start()
        with contextlib.suppress(OSError):
            while data := source.recv(65536):
                waiting.put((time.monotonic() + 1 if self.slow and sender == [self.slow] else 0, data))
        waiting.put((0, b""))

    def send_when_due(self, waiting, target):
        with contextlib.suppress(OSError):
            while True:
                due, data = waiting.get()
                if not data:
                    break
                if due:
                    self.is_open.wait()
                    time.sleep(max(0, due - time.monotonic()))
                target.sendall(data)
        close(target)


def close(it):
    with contextlib.suppress(OSError):
        it.shutdown(socket.SHUT_RDWR)
    it.close()


class SlowCluster(Cluster):
    """A cluster of three whose third server is a second behind, and calls no election if it hears nothing."""

    server_options = ("--pre-vote", "--heartbeat-interval=100", "--election-timeout=5000")

    def start(self):
        self.proxies = [Slow(server) for server in self.first[:2]]
        for proxy in self.proxies:
            proxy.start()
        super().start()

    def after_start(self):
        third = self["n3"]
        leader = wait_for("a server leads", self.leader)
        if leader is third:
            self.etcdctl_at(third, "move-leader", f"{self.id(self['n1']):x}")
            wait_for("another one leads", lambda: self.leader() not in (None, third))
        for proxy in self.proxies:
            proxy.slow = f"{self.id(third):x}"


def server_is_behind():
    """The third server is a second behind, and is asked first. A healthy server is replaced. When the new one is added, the
    third one hears nothing of it before the run waits for that."""
    with SlowCluster(3, ["n4"]).running() as cluster:
        seen = []

        def is_add(call):
            return call[:2] == ["member", "add"]

        def hold(call, process, status):
            for proxy in cluster.proxies if is_add(call) else ():
                proxy.is_open.clear()

        def look(call, process, status):
            if is_add(call) and status:
                release()
            elif is_add(call):
                wait_for("another server lists the new one", lambda: cluster.configuration(cluster["n1"]) == "n1 n2 n3 +n4")
                seen.append(cluster.configuration(cluster["n3"]))

        def release():
            for proxy in cluster.proxies:
                proxy.is_open.set()

        with Gate(cluster, before=hold, after=look) as gate:
            it = begin(cluster, "replace", "n2", "--with", f"n4={cluster['n4'].peer}", "--healthy", "--yes", "--start", start_command(cluster),
                       endpoints=[cluster["n3"]], etcdctl=gate.etcdctl)
            shown = []
            for line in lines(it):
                shown.append(line)
                if line == "  waiting: n3 has not applied the last change yet\n":
                    release()
            output = "".join(shown)
            holds(f"status {it.wait()}:\n{output}", it.returncode == 0)
        holds(f"the third server is behind: {seen}", seen == ["n1 n2 n3"])
        holds(f"the new one starts when all list it:\n{output}", output.index("n3 has not applied the last change yet") < output.index("starting n4"))
        cluster.check_end("n1 n3 n4")


def server_never_starts():
    """A server that is not started, and then is, with a wrong client URL; and one that its peers cannot reach."""
    with Cluster(1, ["n2", "n3"]).running() as cluster:
        words = ["add", f"n2={cluster['n2'].peer}", "--yes"]
        it = begin(cluster, *words)
        shown = []
        for line in lines(it):
            shown.append(line)
            if "n2 has not started" in line:
                os.killpg(it.pid, signal.SIGINT)
        holds(f"interrupted on the way, status {it.wait()}:\n{''.join(shown)}", it.returncode == 3
              and shown[-1] == "confscript-etcd: interrupted; the same command again carries on\n")
        status, output, error = run(cluster, *words, "--limit", "1")
        out = suggested(cluster, "remove", f"{cluster.id(cluster['n2']):x}", "--healthy")
        holds(f"it is given up: {error}", (status, error) == (3, "confscript-etcd: gave up after 1 s: n2 has not started: see its log; its data "
                                                      f"directory must be empty. To take n2 out again: {out}\n"))
        holds("it is a learner", cluster.configuration(cluster["n1"]) == "n1 +n2")
        id = f"{cluster.id(cluster['n2']):x}"
        refuses(cluster, "another one meanwhile", f"{id} ({cluster['n2'].peer}) is a learner that has not started, and etcd's server takes one learner at a time. "
                f"To take it out: {suggested(cluster, 'remove', id)}", "add", f"n3={cluster['n3'].peer}", "--yes")
        # It advertises a client URL at which it is not reached from here.
        cluster["n2"].advertised = "http://127.0.0.1:1"
        cluster["n2"].start(settings_in(output, "n2"))
        wait_for("the run says where the server does not answer", lambda: "n2 does not answer at http://127.0.0.1:1 (--client-url n2=URL if it is reached "
                 "elsewhere). To take n2 out again: " in run(cluster, *words, "--limit", "1")[2])
        elsewhere = ["--client-url", f"n2={cluster['n2'].client}"]
        output = succeeds(cluster, *words, *elsewhere)
        holds(f"the same command carries on:\n{output}", "promote n2" in output and "member add" not in output)

        # A server that listens elsewhere is in sync, and still is not promoted.
        third = cluster["n3"]
        third.peer = f"http://127.0.0.1:{next(PORTS)}"
        words = ["add", f"n3={third.peer}", "--yes", *elsewhere]
        it = begin(cluster, *words, "--limit", "30", "--start", start_command(cluster))
        shown = []
        for line in lines(it):
            shown.append(line)
            if "nothing listens" in line:
                break
        holds(f"it is said that nothing listens:\n{''.join(shown)}",
              shown[-1] == f"  waiting: nothing listens at {third.peer}, where the others are to reach n3: connection refused\n")
        it.kill()
        it.wait()
        holds("it is not promoted", cluster.configuration(cluster["n1"]) == "n1 n2 +n3")
        status, _, error = run(cluster, *words, "--limit", "1")
        holds(f"nor by a second run: {error}", status == 3 and "gave up after 1 s: nothing listens at" in error)
        succeeds(cluster, "remove", f"{cluster.id(third):x}", "--healthy", "--yes", *elsewhere)
        cluster.check_end("n1 n2")


def voter_dies_meanwhile():
    """While a healthy server is replaced, another one fails. The new one is promoted, and nothing is removed before the
    other one is back. It fails again while a server is added."""
    with Cluster(3, ["n4", "n5"]).running() as cluster:
        dying = cluster["n2"]
        start = start_command(cluster, f"kill -9 {dying.process.pid}")
        it = begin(cluster, "replace", "n1", "--with", f"n4={cluster['n4'].peer}", "--healthy", "--yes", "--start", start)
        shown = []
        for line in lines(it):
            shown.append(line)
            # It is said again while it lasts.
            if shown.count("  waiting: n2 does not answer\n") == 2 and dying.process.poll() is not None:
                wait_for("the new one votes, and none has left", lambda: cluster.configuration(cluster["n3"]) == "n1 n2 n3 n4")
                dying.start_again()
        output = "".join(shown)
        holds(f"status {it.wait()}:\n{output}", it.returncode == 0)
        holds(f"it waited:\n{output}", "  waiting: n2 does not answer\n" in output)
        output = succeeds(cluster, "add", f"n5={cluster['n5'].peer}", "--yes", "--start", start_command(cluster, f"kill -9 {dying.process.pid}"),
                          endpoints=[cluster["n3"]])
        holds(f"the end says who is down:\n{output}", "n2 does not answer: 3 of 4 voters answer (majority: 3). No further failure is tolerated." in output)
        dying.start_again()
        cluster.check_end("n2 n3 n4 n5")


class Throttle(Proxy):
    """A proxy before the peer URL of a server that passes on a megabyte a second."""

    RATE = 1 << 20

    def forward(self, source, target):
        with contextlib.suppress(OSError):
            while data := source.recv(65536):
                target.sendall(data)
                time.sleep(len(data) / self.RATE)
        close(target)


def slow_link():
    """A new server is reached by a slow link. It is said what arrives, and it is waited for as long as something does, for longer
    than the limit."""
    cluster = Cluster(1, ["n2"])
    # A server takes most of what others send from connections that it opens itself.
    proxies, limit = [Throttle(cluster[name]) for name in ("n1", "n2")], 15
    with cluster.running():
        first = cluster["n1"]
        for number in range(60):
            wait_for("a large key is put", lambda: large_put(cluster, first, number))
        it = begin(cluster, "add", f"n2={cluster['n2'].peer}", "--yes", "--peer-proxy", "--limit", str(limit), "--start", start_command(cluster))
        shown, at = [], {}
        for line in lines(it):
            shown.append(line)
            at.setdefault(line.split()[0], time.monotonic())
        output = "".join(shown)
        holds(f"status {it.wait()}:\n{output}", it.returncode == 0)
        holds(f"it takes longer than the limit: {at}", at["done:"] > at["starting"] + limit)
        holds(f"it is said what arrives:\n{output}", re.search(r"waiting: n2 gets the log: \d+ of \d+ entries\n", output))
        cluster.check_end("n1 n2")
    for proxy in proxies:
        proxy.cut()


def large_put(cluster, server, number):
    with contextlib.suppress(*UNANSWERED):
        return cluster.ask(server, "kv/put", {"key": encoded(f"large {number}"), "value": encoded("0" * 400_000)})
    return None


def another_server_in_its_place():
    """At the peer URL of a new server, one of another cluster is started; then it advertises the client URL of another member.
    Both is said, and the run goes on when it is mended."""
    with Cluster(1, ["n2"]).running() as cluster:
        one, new = cluster["n1"], cluster["n2"]
        it = begin(cluster, "add", f"n2={new.peer}", "--yes")
        shown, said = [], set()
        for line in lines(it):
            shown.append(line)
            if line == "  start n2 now\n":
                joining = settings_in("".join(shown), "n2")
                new.start({**joining, "ETCD_INITIAL_CLUSTER": f"n2={new.peer}", "ETCD_INITIAL_CLUSTER_STATE": "new"})
            elif "waiting: a server of another cluster (" in line and "another" not in said:
                said.add("another")
                new.kill()
                new.delete_data()
                new.advertised = one.client
                new.start(joining)
            elif f"waiting: n1 answers at {one.client}, which n2 advertises" in line and "advertised" not in said:
                said.add("advertised")
                new.kill()
                new.advertised = new.client
                new.start(joining)
        output = "".join(shown)
        holds(f"status {it.wait()}:\n{output}", it.returncode == 0)
        holds(f"both is said:\n{output}", said == {"another", "advertised"})
        cluster.check_end("n1 n2")


def steady():
    """The new server dies before the old one leaves, and again before the run is done. Each time the run waits until it has been
    up for some seconds."""
    with Cluster(3, ["n4"]).running() as cluster:
        new, removed = cluster["n4"], []

        def before(call, process, status):
            if call[:2] == ["member", "remove"]:
                removed.append((new.is_up(), len(died)))

        died = []
        with Gate(cluster, before=before) as gate:
            it = begin(cluster, "replace", "n1", "--with", f"n4={new.peer}", "--healthy", "--yes", "--steady", "10", "--start", start_command(cluster),
                       etcdctl=gate.etcdctl, endpoints=cluster.first)
            shown = []
            for line in lines(it):
                shown.append(line)
                if len(died) < 2 and f"waiting: {('n1 leaves', 'done')[len(died)]} when the same servers have been up for 10 s" in line:
                    died.append(line)
                    new.kill()
                    wait_for("it is said that it does not answer", lambda: "n4 does not answer" in shown_next(it, shown))
                    new.start_again()
            output = "".join(shown)
            holds(f"status {it.wait()}:\n{output}", it.returncode == 0)
        holds(f"it died twice: {died}\n{output}", len(died) == 2)
        holds(f"the old one leaves while it is up, and after it died once: {removed}", removed and all(is_up and times == 1 for is_up, times in removed))
        holds("it is up at the end", new.is_up())
        cluster.check_end("n2 n3 n4")


def shown_next(it, shown):
    """The next line of a run, which is added to those before."""
    shown.append(next(lines(it), ""))
    return shown[-1]


TESTS = (slow_link, server_is_behind, server_never_starts, voter_dies_meanwhile, steady, another_server_in_its_place)
