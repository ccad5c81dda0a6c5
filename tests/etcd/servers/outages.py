"""What `status` shows in an outage: a server that hangs, a lost quorum, all servers dead, a full database, certificates that are
refused, peers that are cut off from each other, a server that never started."""
import itertools
import json
import os
import shlex
import signal
import subprocess

from checks import Broken, holds, wait_for
from clusters import ENVIRONMENT, PORTS, UNANSWERED, Cluster
from reached import ProxiedCluster
from refused import SmallCluster, alarms, put
from runs import begin, lines, refuses, run, start_command, succeeds, suggested
from secured import SecureCluster


def page(cluster, *words, **others):
    """The status, its text in one line, and its commands."""
    status, output, error = run(cluster, "status", *words, **others)
    return status, " ".join((error + output).split()), [line.strip() for line in output.splitlines() if line.startswith("  ")]


def shows(cluster, wanted, *parts, **others):
    """Waits until the status is this one and each part is shown. What is shown, as `page` returns it."""
    found = []

    def is_shown():
        found[:] = page(cluster, **others)
        return found[0] == wanted and all(part in found[1] for part in parts)

    try:
        wait_for("the page", is_shown)
    except Broken:
        raise Broken(f"expected status {wanted} and {parts}, and the last one is {found}") from None
    holds("it is shown", True)
    return found[1], found[2]


def report(cluster, *words, **others):
    """The status as JSON."""
    status, output, error = run(cluster, "status", "--output", "json", *words, **others)
    value = json.loads(output)
    holds(f"one object, and nothing on standard error: {error}", not error and value["status"] == status)
    return value


def plugin(cluster, *words, **others):
    """The exit status and the line for Nagios."""
    status, output, error = run(cluster, "status", "--nagios", "--limit", "60", *words, **others)
    holds(f"one line: {output}{error}", output.count("\n") == 1 and not error)
    return status, output


def carry_out(cluster, command):
    """Runs a command that a page shows, until it succeeds. A compaction may have been made though no answer came."""

    def is_done():
        it = subprocess.run(shlex.split(command), cwd=cluster.folder, env={**ENVIRONMENT, **cluster.variables}, capture_output=True, text=True, check=False)
        return it.returncode == 0 or "has been compacted" in it.stderr

    holds(command, wait_for(command, is_done))


def stop_process(server):
    os.kill(server.process.pid, signal.SIGSTOP)


def continue_process(server):
    os.kill(server.process.pid, signal.SIGCONT)


def a_server_hangs():
    """A server is stopped: it takes connections and answers nothing. What it has is not known, and neither is whether it has a
    leader."""
    with Cluster(3).running() as cluster:
        wait_for("all is well", lambda: plugin(cluster)[0] == 0)
        hung = cluster["n3"]
        stop_process(hung)
        cluster.wait_for_puts()
        shows(cluster, 4, f"n3 does not answer: {hung.client}: takes connections and answers nothing. n3 hangs. Before you replace it, end its process for "
              "good (kill -9), so that it does not come back.")
        wait_for("a server leads", cluster.leader)
        members = {member["name"]: member for member in report(cluster)["members"]}
        holds(f"it is not known whether it has a leader: {members['n3']}", members["n3"]["has_leader"] is None and members["n3"]["applied"] is None)
        holds(f"of the others it is: {members['n1']}", members["n1"]["has_leader"] in (True, False) and members["n1"]["applied"] > 0)
        wait_for("a warning", lambda: plugin(cluster)[1].startswith("ETCD WARNING - "))
        holds("with its status", plugin(cluster)[0] in (1, 2))
        continue_process(hung)
        wait_for("it answers", hung.is_up)
        cluster.check_end("n1 n2 n3")


def the_quorum_is_lost():
    """One of four servers is left, one hangs, and one has started again. The page shows what is left, and its commands restore
    the keys."""
    with Cluster(4).running() as cluster:
        left, dead, hung, started = cluster.first
        cluster.writer.end()
        started.kill()
        dead.kill()
        stop_process(hung)
        started.start_again()
        wait_for("it has no leader", lambda: not (left.status() or {"leader": 1}).get("leader"))
        its = left.status()
        _, shown = shows(cluster, 5, "Quorum is lost: n1 answers, and a majority is 3 of 4. Nothing can be written", f"{dead.client}: connection refused",
                         f"{hung.client}: takes connections and answers nothing", f"{started.client}: has started, and waits for a majority of the voters",
                         "1. Start n2 or n3 again as before, with its data: 1 more is enough", "n3 hangs: end its process first (kill -9)",
                         "This list is one that a server has itself")
        row = next(line.split() for line in shown if line.startswith("n1 "))
        holds(f"its term and its index: {row}, {its}",
              int(row[1]) >= int(its["raftTerm"]) and row[2:4] == [str(its["raftIndex"]), str(its["raftAppliedIndex"])])
        value = report(cluster)
        holds(f"JSON has the members: {value}", value["status"] == 5 and value["takes_writes"] is False and value["list_confirmed"] is False
              and [member["name"] for member in value["members"]] == ["n1", "n2", "n3", "n4"] and value["members"][0]["term"] >= int(its["raftTerm"]))
        status, line = plugin(cluster)
        holds(f"status {status}: {line}", status == 2 and line.startswith("ETCD CRITICAL - No leader is known, and nothing can be written"))
        for command in (line for line in shown if line.startswith("etcdctl ")):
            carry_out(cluster, command)
        holds("each server has a new data directory", all(os.path.isdir(f"{cluster.folder}/{server.name}.restored/member") for server in cluster.first))
        for server in (hung, left, started):
            server.kill()
        for server in cluster.first:
            server.data = f"{cluster.folder}/{server.name}.restored"
            server.start_again()
        acknowledged = {f"key {number}" for number in cluster.writer.acknowledged}
        wait_for("the new cluster answers", lambda: cluster.keys_at(left) is not None)
        holds("it has the keys", acknowledged <= set(cluster.keys_at(left)))


class ClosedCluster(Cluster):
    """A cluster without etcd's gateway, whose peers listen at the usual port."""

    server_options = ("--enable-grpc-gateway=false",)

    def start(self):
        for server, number in zip(self.first, itertools.count(1)):
            server.peer = server.listening = f"http://127.83.{next(PORTS) % 250}.{number}:2380"
            server.client = server.advertised = server.peer.replace(":2380", ":2379")
        for server in self.first:
            server.start({"ETCD_NAME": server.name, "ETCD_INITIAL_ADVERTISE_PEER_URLS": server.peer, "ETCD_INITIAL_CLUSTER_STATE": "new",
                          "ETCD_INITIAL_CLUSTER": ",".join(f"{it.name}={it.peer}" for it in self.first)})
        wait_for("all is well", lambda: run(self, "status")[0] == 0)


def without_gateway():
    """The quorum is lost, and the members are read where peers are answered."""
    with ClosedCluster(3).running() as cluster:
        cluster["n2"].kill()
        cluster["n3"].kill()
        value = wait_for("the quorum is missed", lambda: (lambda it: it["status"] == 5 and it)(json.loads(run(cluster, "status", "--output", "json")[1])))
        holds(f"the members are shown: {value}", [member["name"] for member in value.get("members", ())] == ["n1", "n2", "n3"])


def all_servers_are_dead():
    """No server answers: it is said why, and what to do. With --output json it is an object all the same, and so are errors."""
    with Cluster(3).running() as cluster:
        cluster.writer.end()
        for server in cluster.first:
            server.kill()
        status, text, _ = page(cluster)
        refused = ", ".join(f"{server.client}: connection refused" for server in cluster.first)
        holds(f"status {status}: {text}", status == 1 and text.startswith(f"confscript-etcd: cannot reach {refused} (etcdctl: ")
              and "all of these servers are down, or cut off from this host" in text and "start it again with the data that it has" in text)
        holds("JSON says that it is not known", report(cluster)["takes_writes"] is None)
        holds("and what is wrong with the arguments", report(cluster, endpoints=[At("nowhere")])["status"] == 2)
        status, line = plugin(cluster)
        holds(f"status {status}: {line}", status == 2 and line.startswith("ETCD CRITICAL - cannot reach "))
        status, line = plugin(cluster, etcdctl=["/none/etcdctl"])
        holds(f"status {status}: {line}", status == 3 and line.startswith("ETCD UNKNOWN - /none/etcdctl cannot be run"))
        cluster["n1"].start_again()
        shows(cluster, 1, f"At {cluster['n1'].client} a server takes connections and answers nothing. If it has just started, it waits for a majority of "
              "the voters")
        for server in cluster.first[1:]:
            server.start_again()
        wait_for("all is well again", lambda: run(cluster, "status")[0] == 0)


class At:
    """What stands for a server at a client URL."""

    def __init__(self, client):
        self.client = client


def the_database_is_full():
    """The commands of the page make room, and keys can be put again."""
    with SmallCluster(3).running() as cluster:
        cluster.writer.end()
        one = cluster["n1"]
        wait_for("the database is full", lambda: put(cluster, one, "0" * 1000000) is None and is_full(cluster, one))
        text, shown = shows(cluster, 5, " the alarm NOSPACE: the database has reached its quota.")
        holds(f"nothing else is amiss: {text}", "Quorum" not in text)
        wait_for("the plugin says so", lambda: (lambda it: it[0] == 2 and "NOSPACE" in it[1])(plugin(cluster)))
        commands = [line for line in shown if line.startswith("etcdctl ")]
        holds(f"a compaction, three defragmentations, and the end of the alarm: {commands}", [command.split()[2] for command in commands]
              == ["compact", "defrag", "defrag", "defrag", "alarm"])
        for command in commands:
            carry_out(cluster, command)
        wait_for("keys are put again", lambda: put(cluster, one, "0"))
        wait_for("all is well", lambda: run(cluster, "status")[0] == 0)


def is_full(cluster, server):
    try:
        return alarms(cluster, server)
    except UNANSWERED:
        return False


class Certified(SecureCluster):
    """A cluster whose certificates may be replaced while it runs."""

    def sign(self, days, file, authority="ca"):
        """Makes a certificate that is valid for so many days. With fewer than none it has expired."""
        subprocess.run(["openssl", "x509", "-req", "-in", "it.csr", "-CA", f"{authority}.pem", "-CAkey", f"{authority}.key", "-CAcreateserial",
                        "-days", str(days), "-extfile", "it.cnf", "-out", file], cwd=self.folder, check=True, capture_output=True)


def certificates_are_refused():
    """A server's certificate has expired, is of another authority, or that of the client is refused: the reason is said."""
    with Certified(1).running() as cluster:
        cluster.writer.end()
        ca, pem = (f"{cluster.folder}/{name}" for name in ("ca.pem", "it.pem"))
        key = f"{cluster.folder}/it.key"
        status, text, _ = page(cluster, etcdctl=["etcdctl", "--cacert", ca])
        holds(f"without a certificate: {text}", status == 1 and "it refuses the certificate of this client" in text
              and "The servers refuse the certificate of this client." in text)
        subprocess.run(["openssl", "req", "-x509", "-newkey", "rsa:2048", "-nodes", "-keyout", "other.key", "-subj", "/CN=other", "-days", "2",
                        "-out", "other.pem"], cwd=cluster.folder, check=True, capture_output=True)
        status, text, _ = page(cluster, etcdctl=["etcdctl", "--cacert", f"{cluster.folder}/other.pem", "--cert", pem, "--key", key])
        holds(f"another authority: {text}", status == 1 and "its certificate is refused: " in text and "Give the authority of the servers" in text)
        # The client keeps a valid one. The server reads its own again at each connection.
        cluster.sign(2, "client.pem")
        cluster.sign(-1, "it.pem")
        client = ["etcdctl", "--cacert", ca, "--cert", f"{cluster.folder}/client.pem", "--key", key]
        status, text, _ = page(cluster, etcdctl=client)
        holds(f"it has expired: {text}", status == 1 and "its certificate is refused: certificate has expired" in text
              and "The certificate of a server has expired. Renew it" in text and "--insecure-skip-tls-verify" in text)
        status, text, _ = page(cluster, etcdctl=[*client, "--insecure-skip-tls-verify"])
        holds(f"the cluster is seen all the same: {text}", status in (0, 5) and f"n1 {cluster_id(cluster)}" in text)
        _, _, error = run(cluster, "remove", "n1", "--healthy", etcdctl=client)
        holds(f"a run says it too: {error}", "certificate has expired" in error)
        cluster.sign(2, "it.pem")
        wait_for("all is well", lambda: run(cluster, "status")[0] == 0)


def cluster_id(cluster):
    """The id of the first server, by what its data are called in the log."""
    wanted = '"local-member-id":"'
    with open(cluster["n1"].log, encoding="utf-8") as log:
        text = log.read()
    return text[text.index(wanted) + len(wanted):].partition('"')[0]


def peers_do_not_reach_each_other():
    """All servers answer, and none reaches another one: their peer URLs are shown, and not how to restore."""
    with ProxiedCluster(3).running() as cluster:
        for server in cluster.first:
            cluster.wait_until_heard(server)
        for proxy in cluster.proxies.values():
            proxy.cut()
        wait_for("no server leads", lambda: not any((server.status() or {"leader": 1}).get("leader") for server in cluster.first))
        text, shown = shows(cluster, 5, "n1, n2 and n3 answer and have no leader, so nothing can be written.", "Nothing is lost")
        holds(f"nothing is said of a restoration: {text}", "Quorum is lost" not in text and "restore" not in text)
        holds(f"each peer URL: {shown}", all(f"curl {server.peer}/version" in shown for server in cluster.first)
              and all(any(line.startswith(f"{it.name} ") and line.endswith(f"{it.peer}  connection refused") for line in shown) for it in cluster.first))
        for proxy in cluster.proxies.values():
            proxy.listen()
        cluster.wait_for_puts()
        wait_for("all is well", lambda: run(cluster, "status")[0] == 0)
        cluster.check_end("n1 n2 n3")


def add_learner(cluster, new):
    """Adds a learner, as another operator does, and waits until each server lists it."""
    wanted = f"n1 n2 n3 +{new.name}"
    wait_for("a learner is added", lambda: cluster.etcdctl_at(cluster["n1"], "member", "add", new.name, "--learner", f"--peer-urls={new.peer}")
             or cluster.configuration(cluster["n1"]) == wanted)
    wait_for("all list it", lambda: all(cluster.configuration(server) == wanted for server in cluster.first))


def a_learner_never_started():
    """A learner that was added and never started: its id, its URL and the command that takes it out, also with a dead voter."""
    with Cluster(3, ["n4", "n5"]).running() as cluster:
        new, other = cluster["n4"], f"n5={cluster['n5'].peer}"
        add_learner(cluster, new)
        id = f"{cluster.id(new):x}"
        shows(cluster, 4, f"{id} ({new.peer}) was added and has not started.", suggested(cluster, "remove", id))
        refuses(cluster, "another one", f"{id} ({new.peer}) is a learner that has not started, and etcd's server takes one learner at a time. To take it out: "
                f"{suggested(cluster, 'remove', id)}", "add", other, "--yes")
        succeeds(cluster, "remove", id, "--yes")
        holds("it is out", cluster.configuration(cluster["n1"]) == "n1 n2 n3")

        add_learner(cluster, new)
        id = f"{cluster.id(new):x}"
        cluster["n3"].kill()
        cluster.wait_until_missed(cluster["n3"])
        shows(cluster, 4, suggested(cluster, "remove", f"n3,{id}"))
        refuses(cluster, "a voter is dead too", f"{id} ({new.peer}) is a learner that has not started, and etcd's server takes one learner at a time. "
                f"To take it out: {suggested(cluster, 'remove', f'n3,{id}')}, and then: {suggested(cluster, 'add', other)}", "replace", "n3", "--with", other, "--yes")
        succeeds(cluster, "remove", f"n3,{id}", "--yes")
        succeeds(cluster, "add", other, "--yes", "--start", start_command(cluster), endpoints=cluster.first[:2])
        cluster.check_end("n1 n2 n5")


def a_run_is_on():
    """While a run changes members, status says who does, and so does a run that is refused for another reason."""
    with Cluster(1, ["n2", "n3"]).running() as cluster:
        it = begin(cluster, "add", f"n2={cluster['n2'].peer}", "--yes")
        seen = []
        for line in lines(it):
            if "  waiting: n2 has not started" in line and not seen:
                seen += [wait_for("who runs is known", lambda: report(cluster)["run"])]
                shows(cluster, 4, f"A run changes the members now: {seen[0]}.")
                seen += run(cluster, "add", f"n3={cluster['n3'].peer}", "--yes")
                it.kill()
        it.wait()
        run_text, status, _, error = seen
        holds(f"who runs: {run_text}", run_text.endswith(f": add n2={cluster['n2'].peer}"))
        holds(f"so does another run, status {status}: {error}", status == 1 and f"Another run changes the members: {run_text}" in error)
        wait_for("a run that was killed is not shown", lambda: report(cluster)["run"] is None)


TESTS = (the_quorum_is_lost, a_learner_never_started, all_servers_are_dead, certificates_are_refused, peers_do_not_reach_each_other,
         the_database_is_full, a_server_hangs, without_gateway, a_run_is_on)
