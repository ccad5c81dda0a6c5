"""Servers that hang: they keep their connections, and say nothing."""
import contextlib
import json
import os
import shlex
import signal

from checks import holds, wait_for
from clusters import PORTS, Cluster
from runs import lists_are_current, refuses, run, start_command, succeeds, suggested
from secured import SecureCluster


@contextlib.contextmanager
def stopped(server):
    """A server that hangs. At the end it goes on."""
    os.killpg(server.process.pid, signal.SIGSTOP)
    try:
        yield
    finally:
        with contextlib.suppress(ProcessLookupError):
            os.killpg(server.process.pid, signal.SIGCONT)


class CalmCluster(Cluster):
    """A cluster that calls no election while its disks are slow."""

    server_options = ("--heartbeat-interval=100", "--election-timeout=10000")


def words_of(output):
    return " ".join(output.split())


def shown(cluster, text, **others):
    """What status shows. None if this text is not in it, or its exit status is not 4."""
    status, output, _ = run(cluster, "status", "--limit", "60", **others)
    return output if status == 4 and text in words_of(output) else None


def hung_server():
    """A server hangs while keys are put. The status shows it, and it is replaced. When it goes on, it ends, since it was
    removed."""
    with CalmCluster(3, ["n4"]).running() as cluster:
        one, _, hung = cluster.first
        cluster.let_lead(one)
        with stopped(hung):
            cluster.wait_for_puts()
            # A disk may be so slow that nothing is committed while status looks.
            output = wait_for("status shows that it hangs", lambda: shown(cluster, "n3 hangs."))
            holds(f"status:\n{output}", "2 of 3 voters answer (majority: 2). No further failure is tolerated." in output
                  and suggested(cluster, "replace", "n3", "--with", "NAME=URL") in output)
            wait_for("so does its JSON", lambda: [it["is_up"] for it in json.loads(run(cluster, "status", "--output", "json")[1])["members"]] == [True, True, False])
            words = ["replace", "n3", "--with", f"n4={cluster['n4'].peer}", "--yes"]
            refuses(cluster, "its own URL, at which it listens", f"n3: something listens at {hung.peer} already. Stop the old server first (--peer-proxy if "
                    "that is a proxy)", "replace", "n3", "--with", f"n3={hung.peer}", "--yes")
            output = succeeds(cluster, *words, "--start", start_command(cluster))
            holds(f"it leaves first:\n{output}", output.index("member remove") < output.index("member add"))
        wait_for("it ends by itself", lambda: hung.process.poll() is not None)
        cluster.check_end("n1 n2 n4")


def hung_leader():
    """The leader hangs. The others elect another one, and it is replaced."""
    with Cluster(3, ["n4"]).running() as cluster:
        hung = cluster["n3"]
        cluster.let_lead(hung)
        with stopped(hung):
            cluster.wait_for_puts()
            succeeds(cluster, "replace", "n3", "--with", f"n4={cluster['n4'].peer}", "--yes", "--start", start_command(cluster))
        cluster.check_end("n1 n2 n4")


# etcdctl, as if a user may not list alarms, which that of 3.5 also does to see who is healthy. That list is an entry of the
# log.
WITHOUT_ALARMS = """case " $* " in *" alarm list "* | *" endpoint health "*) echo 'Error: etcdserver: permission denied' >&2; exit 1 ;; esac
exec etcdctl "$@"
"""


def hung_and_idle():
    """Nothing is written when a server hangs, so what its peers report does not show it. A run writes its key first, and
    compares then."""
    with CalmCluster(3, ["n4"]).running() as cluster:
        one, _, hung = cluster.first
        cluster.let_lead(one)
        cluster.wait_for_puts()
        cluster.writer.end()
        with open(f"{cluster.folder}/without_alarms", "w", encoding="utf-8") as script:
            script.write(WITHOUT_ALARMS)
        quiet = {"etcdctl": ["sh", script.name]}
        with stopped_when_idle(cluster, hung):
            unknown = "hether the other members hear from n3 is not known: nothing came from it for some seconds, and nothing was written either."
            words = ["replace", "n3", "--with", f"n4={cluster['n4'].peer}", "--yes", "--start", start_command(cluster)]
            # Servers of 3.4 end their connections with it after some seconds.
            if lists_are_current():
                wait_for("status does not know it", lambda: shown(cluster, f"W{unknown}", **quiet))
                output = succeeds(cluster, *words, "--dry-run", **quiet)
                holds(f"a dry run writes nothing:\n{output}", f"W{unknown} It is looked at again once this run has written its key" in words_of(output))
            output = succeeds(cluster, *words, **quiet)
            holds(f"it is replaced:\n{output}", "member promote" in output)
        cluster.check_end("n1 n2 n4")


@contextlib.contextmanager
def stopped_when_idle(cluster, server):
    """A server that hangs when it has all that the others have."""
    seen = []

    def is_idle():
        seen.append({tuple((it.status() or {}).get(key) for key in ("raftIndex", "raftAppliedIndex")) for it in cluster.first})
        return len(seen) >= 20 and len(seen[-1]) == 1 and all(it == seen[-1] for it in seen[-20:])

    wait_for("all have the same for two seconds", is_idle)
    with stopped(server):
        yield


class ElsewhereCluster(SecureCluster):
    """A cluster whose metrics are read at URLs of their own, without certificates."""

    def prepare(self):
        super().prepare()
        self.metrics = [f"http://127.0.0.1:{next(PORTS)}" for _ in range(3)]

        self.server_options += CalmCluster.server_options

    def start(self):
        for server, url in zip(self.first, self.metrics):
            server.more = [f"--listen-metrics-urls={url}"]
        super().start()


def metrics_elsewhere():
    """Metrics are not read where the clients are served, but elsewhere. Then a server that hangs is known by its bytes alone,
    and one that this host does not reach is not removed as failed."""
    with ElsewhereCluster(3, ["n4"]).running() as cluster:
        one, _, hung = cluster.first
        cluster.let_lead(one)
        with open(f"{cluster.folder}/hiding", "w", encoding="utf-8") as script:
            script.write(f'exec {shlex.join(cluster.etcdctl)} "$@"\n')
        others = {"endpoints": cluster.first[:2], "etcdctl": ["sh", script.name]}
        words = ["replace", "n3", "--with", f"n4={cluster['n4'].peer}", "--yes", "--start", start_command(cluster)]
        metrics = [word for server, url in zip(cluster.first, cluster.metrics) for word in ("--metrics-url", f"{server.name}={url}")]
        refuses(cluster, "one that is up", "n3 does not answer at https://127.0.0.1:1, but n1 and n2 hear from it, so it has not failed. If it is reached "
                "elsewhere: --client-url n3=URL", *words, *metrics, "--client-url", "n3=https://127.0.0.1:1", **others)
        refuses(cluster, "nor by the word of the operator", "n3 does not answer at https://127.0.0.1:1, but something answers at its peer URL "
                f"{hung.peer}, so it may be up. Stop it; or give the URL at which it answers (--client-url n3=URL), or --peer-proxy if that is a proxy",
                *words, "--client-url", "n3=https://127.0.0.1:1", "--failed", "n3", **others)
        with stopped(hung):
            cluster.wait_for_puts()
            output = succeeds(cluster, *words, *metrics, **others)
            holds(f"without the word of the operator:\n{output}", "--failed" not in output)
        cluster.check_end("n1 n2 n4")


TESTS = (hung_server, hung_leader, hung_and_idle, metrics_elsewhere)
