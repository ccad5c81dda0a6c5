"""Servers that are reached by their peers and not from here, or from here and not by their peers."""
import json
import os
import re
import signal

from checks import holds, wait_for
from clusters import Cluster
from proxies import Proxy
from runs import TOP, begin, lines, refuses, run, start_command, succeeds

NOWHERE = "http://127.0.0.1:1"


class ProxiedCluster(Cluster):
    """A cluster whose peers reach each other by proxies. The servers advertise a client URL at which nothing listens."""

    def start(self):
        self.listening = []
        self.proxies = {server.name: Proxy(server) for server in self.first}
        for server in self.first:
            server.advertised = NOWHERE
        super().start()

    def listen(self):
        for proxy in self.proxies.values():
            proxy.listen()
            self.listening.append(proxy)


def reached_elsewhere():
    """No server is reached at the client URL that it advertises. Those that are named as endpoints are known by their ids. A
    voter that its peers hear from is not removed as failed."""
    with ProxiedCluster(3, ["n4"]).running() as cluster:
        first, others = cluster["n1"], [cluster["n2"], cluster["n3"]]
        new = ["--with", f"n4={cluster['n4'].peer}", "--yes"]
        for server in others:
            cluster.wait_until_heard(server)
        cluster.let_lead(first)
        status, output, _ = run(cluster, "status")
        holds(f"all are known by the endpoints:\n{output}", status == 0 and "\n3 of 3 voters answer (majority: 2). 1 more may fail.\n" in output)

        status, output, _ = run(cluster, "status", endpoints=[first])
        holds(f"two are heard by their peers alone:\n{output}", status == 4 and "othing can be written" not in output and "replace" not in output
              and "1 of 3 voters answer (majority: 2), and n2 and n3 are heard from by others. 1 more may fail." in " ".join(output.split())
              and f"n2 does not answer at {NOWHERE}, but n1 hears from it: it is up." in " ".join(output.split()))
        refuses(cluster, "too few answer here", f"n2 and n3 do not answer at {NOWHERE}, but others hear from them, so a majority is up. Give the URLs "
                "at which they answer (--client-url NAME=URL, or --endpoints)", "add", *new[1:], endpoints=[first])

        cluster.proxies["n3"].refuse()
        heard = f"n3 does not answer at {NOWHERE}, but n1 and n2 hear from it, so it has not failed. If it is reached elsewhere: --client-url n3=URL"
        refuses(cluster, "a voter that its peers hear from", heard, "replace", "n3", *new, endpoints=[first, others[0]])
        refuses(cluster, "the same as a healthy one", heard, "replace", "n3", "--healthy", *new, endpoints=[first, others[0]])
        cluster.proxies["n3"].listen()

        # It leads, and is reached by an endpoint alone.
        cluster.let_lead(cluster["n3"])
        output = succeeds(cluster, "replace", "n3", "--healthy", "--with", f"n4={cluster['n4'].peer}", "--yes", "--start", start_command(cluster))
        holds(f"leadership is moved at the endpoint:\n{output}", f"etcdctl --endpoints={cluster['n3'].client} move-leader " in output)
        holds(f"the new one comes first:\n{output}", output.index("member promote") < output.index("member remove"))
        cluster.check_end("n1 n2 n4")


def peers_are_cut_off():
    """All servers answer, and none reaches another one: nothing can be written, and status says so."""
    with ProxiedCluster(3).running() as cluster:
        for proxy in cluster.proxies.values():
            proxy.cut()
        wait_for("no server leads", lambda: not any((server.status() or {"leader": 1}).get("leader") for server in cluster.first))
        status, output, error = run(cluster, "status")
        holds(f"status {status}:\n{output}{error}", status == 5 and "othing can be written" in output + error)
        status, output, _ = run(cluster, "status", "--output", "json")
        report = json.loads(output)
        holds(f"the same as JSON: {report}", status == report["status"] == 5 and report["takes_writes"] is False and report["why_not"])
        for proxy in cluster.proxies.values():
            proxy.listen()
        cluster.wait_for_puts()
        wait_for("all is well", lambda: run(cluster, "status")[0] == 0)
        watching = begin(cluster, "status", "--watch", "--output", "json")
        looks = [json.loads(watching.stdout.readline()) for _ in range(2)]
        os.killpg(watching.pid, signal.SIGINT)
        watching.communicate()
        holds(f"it is watched: {looks}", watching.returncode == 0 and [look["status"] for look in looks] == [0, 0])
        documented = shown_keys()
        holds(f"the manual page has each key: {documented}", documented == {*looks[0], *looks[0]["members"][0]})
        cluster.check_end("n1 n2 n3")


def elected_meanwhile():
    """No server leads when a run begins. It waits until one does, and does not report a wrong address."""
    with ProxiedCluster(3).running() as cluster:
        for proxy in cluster.proxies.values():
            proxy.cut()
        wait_for("no server leads", lambda: not any((server.status() or {"leader": 1}).get("leader") for server in cluster.first))
        it = begin(cluster, "remove", "n3", "--healthy", "--yes")
        shown = []
        for line in lines(it):
            shown.append(line)
            if "waiting: " in line and "no leader" in line and len(cluster.listening) == 0:
                cluster.listen()
        output = "".join(shown)
        holds(f"status {it.wait()}:\n{output}", it.returncode == 0 and cluster.listening and "is --endpoints right?" not in output)
        cluster.check_end("n1 n2")


def shown_keys():
    """The keys that the manual page lists."""
    with open(f"{TOP}/share/man/man1/confscript-etcd.1", encoding="utf-8") as file:
        text = file.read()
    text = text[text.index(".SH JSON"):text.index(".SH EXIT STATUS")]
    return {key for line in re.findall(r"(?m)^\.B ([a-z_, ]+)$", text) for key in line.split(", ")}


def peer_proxy():
    """A proxy listens at the peer URL of a server that failed, and at that of the new one before it is started."""
    cluster = Cluster(3, ["n4"])
    proxies = [Proxy(cluster[name]) for name in ("n3", "n4")]
    with cluster.running():
        dead = cluster["n3"]
        dead.kill()
        words = ["replace", "n3", "--with", f"n4={cluster['n4'].peer}", "--yes", "--start", start_command(cluster)]
        refuses(cluster, "something listens", f"n4: something listens at {cluster['n4'].peer} already. Start n4 when it was added, not before "
                "(--peer-proxy if that is a proxy)", *words)
        output = succeeds(cluster, *words, "--peer-proxy")
        holds(f"it is started:\n{output}", "starting n4" in output)
        cluster.check_end("n1 n2 n4")
    for proxy in proxies:
        proxy.cut()


TESTS = (reached_elsewhere, peers_are_cut_off, elected_meanwhile, peer_proxy)
