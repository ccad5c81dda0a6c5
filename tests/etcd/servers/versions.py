"""Clusters of two versions of etcd, as a rolling upgrade makes them, a version that is not known, and what each refuses."""
import os
import re
import shutil
import subprocess

from checks import holds, wait_for
from clusters import ENVIRONMENT, UNANSWERED, Cluster
from runs import begin, lines, start_command, succeeds

NEWER = os.environ.get("ETCD35") and f"{os.environ['ETCD35']}/bin"
OLDER = os.path.dirname(shutil.which("etcd", path=os.pathsep.join(it for it in os.environ["PATH"].split(os.pathsep) if it != NEWER)) or "")

# etcdctl, as if the servers were of a later version.
LATER = """etcdctl "$@" >"$0.$$"
status=$?
sed 's/"version":"[^"]*"/"version":"4.0.1"/g' "$0.$$"
exit "$status"
"""


def without_applied(text):
    """What status shows, without the index that a server has applied, which grows."""
    return re.sub(r"  \d+ +(?=\d\.\d)", "  ", text)


def another_version():
    """Servers of a version that was not tested are shown with a line more."""
    with Cluster(1).running() as cluster:
        with open(f"{cluster.folder}/later", "w", encoding="utf-8") as script:
            script.write(LATER)
        line = "servers of etcd 4.0.1: this command was tested with 3.4 and 3.5\n"
        known, later = (without_applied(succeeds(cluster, "status", etcdctl=etcdctl)) for etcdctl in (["etcdctl"], ["sh", script.name]))
        version = next(row.split()[-2] for row in known.splitlines() if row.startswith("n1 "))
        holds(f"the line comes first:\n{known}{later}", later == line + known.replace(version, "4.0.1".ljust(len(version))))
        cluster.check_end("n1")


def answer(cluster, *words):
    """What etcdctl says why the leader refuses a call. Nothing if it accepts it."""
    leader = wait_for("a server leads", cluster.leader)
    command = [*cluster.etcdctl, f"--endpoints={leader.client}", "member", *words]
    it = subprocess.run(command, capture_output=True, text=True, env={**ENVIRONMENT, **cluster.variables}, check=False)
    return it.stderr if it.returncode else ""


def accepted(cluster, *words):
    """Whether the leader accepts a call, once it has been connected to all for five seconds."""
    return wait_for(" ".join(words), lambda: answer(cluster, *words) == "")


def what_etcd_refuses():
    """The calls of etcd's server that ETCD.md lists, with one of three voters down at last."""
    with Cluster(3, ["n4", "n5"]).running() as cluster:
        new, other = (f"--peer-urls={cluster[name].peer}" for name in ("n4", "n5"))
        ids = {server.name: f"{cluster.id(server):x}" for server in cluster.first}
        accepted(cluster, "add", "n4", "--learner", new)
        holds("a second learner", "too many learner members" in answer(cluster, "add", "n5", "--learner", other))
        # An id is made of the URL and the second, so at once it is the id that already exists, and later the URL.
        holds("a URL of a member", "already exist" in answer(cluster, "add", "n5", new))
        holds("a learner that is not in sync", "in sync with leader" in answer(cluster, "promote", f"{cluster.id(cluster['n4']):x}"))
        holds("a voter is not promoted", "can only promote a learner member" in answer(cluster, "promote", ids["n1"]))
        accepted(cluster, "remove", f"{cluster.id(cluster['n4']):x}")
        dead = next(name for name in ids if cluster[name] is not cluster.leader())
        cluster[dead].kill()
        cluster.wait_until_missed(cluster[dead])
        up = next(name for name in ids if name != dead and cluster[name] is not wait_for("a server leads", cluster.leader))
        holds("a member more while one of three is down", "unhealthy cluster" in answer(cluster, "add", "n4", new))
        holds("the removal of one that is up, which leaves one of two", "unhealthy cluster" in answer(cluster, "remove", ids[up]))
        holds("the removal of the one that is down is accepted", answer(cluster, "remove", ids[dead]) == "")
        holds("its id is not a member any more", "ember not found" in answer(cluster, "remove", ids[dead]))


def one_of_five_is_down():
    """What differs: 3.5.30 adds a member while one of five voters is down."""
    with Cluster(5, ["n6", "n7"]).running() as cluster:
        version = cluster["n1"].status()["version"]
        accepted(cluster, "add", "n6", "--learner", f"--peer-urls={cluster['n6'].peer}")
        accepted(cluster, "remove", f"{cluster.id(cluster['n6']):x}")
        dead = next(server for server in cluster.first if server is not cluster.leader())
        dead.kill()
        cluster.wait_until_missed(dead)
        # An id is made of the URL and the second, so n6 at once may be the one that was removed.
        said = answer(cluster, "add", "n7", f"--peer-urls={cluster['n7'].peer}")
        adds = {"3.4.23": False, "3.5.16": False, "3.5.30": True}.get(version)
        holds(f"{version} answers {said!r}", adds in (None, said == "") and (said == "" or "unhealthy cluster" in said))


class MixedCluster(Cluster):
    """A cluster of servers of the older version. Later ones may be of the newer one."""

    def __init__(self, size, joining=()):
        super().__init__(size, joining)
        self.become(OLDER, *self.servers)
        self.ask_by(OLDER)

    def ask_by(self, folder):
        self.etcdctl = [f"{folder}/etcdctl"]

    def become(self, folder, *names):
        """These servers are started by the program of a version from now on."""
        for name in names:
            self[name].program = f"{folder}/etcd"

    def upgrade(self, *names):
        """Starts servers again with their data, one after another, by the newer version."""
        self.become(NEWER, *names)
        for name in names:
            self[name].kill()
            self[name].start_again()
            wait_for(f"{name} follows a leader", lambda: (self[name].status() or {}).get("leader"))
            self.wait_for_puts()

    def versions(self):
        return {name: (server.status() or {}).get("version", "")[:3] for name, server in self.servers.items() if server.is_up()}

    def lead(self, server):
        """Moves leadership to a server."""
        leader = wait_for("a server leads", self.leader)
        if leader is not server:
            wait_for(f"{server.name} is asked to lead", lambda: self.etcdctl_at(leader, "move-leader", f"{self.id(server):x}"))
            wait_for(f"{server.name} leads", lambda: self.leader() is server)

    def replace(self, old, new, *options):
        return succeeds(self, "replace", old, "--with", f"{new}={self[new].peer}", "--yes", "--start", start_command(self), *options, endpoints=self.up())


def upgraded_by_replacing():
    """All three servers are replaced by newer ones, one with each version of etcdctl while the cluster has both."""
    with MixedCluster(3, ["n4", "n5", "n6"]).running() as cluster:
        cluster.become(NEWER, "n4", "n5", "n6")
        for old, new, etcdctl in (("n1", "n4", OLDER), ("n2", "n5", NEWER), ("n3", "n6", OLDER)):
            cluster.ask_by(etcdctl)
            cluster.replace(old, new, "--healthy")
        holds(f"all are newer: {cluster.versions()}", cluster.versions() == {"n4": "3.5", "n5": "3.5", "n6": "3.5"})
        cluster.check_end("n4 n5 n6")


def upgraded_in_place():
    """Two servers are started again by the newer version. The last older one, which leads, fails and is replaced; then a
    healthy one that leads."""
    with MixedCluster(3, ["n4", "n5"]).running() as cluster:
        cluster.upgrade("n1", "n2")
        cluster.lead(cluster["n3"])
        holds(f"an older one leads newer ones: {cluster.versions()}", cluster.versions() == {"n1": "3.5", "n2": "3.5", "n3": "3.4"})
        cluster["n3"].kill()
        cluster.become(NEWER, "n4", "n5")
        wait_for("another server leads", cluster.leader)
        cluster.replace("n3", "n4")
        cluster.lead(cluster["n1"])
        cluster.ask_by(NEWER)
        output = cluster.replace("n1", "n5", "--healthy")
        holds(f"leadership moves:\n{output}", " move-leader " in output)
        cluster.check_end("n2 n4 n5")


def older_one_joins():
    """A newer server is replaced by an older one while the cluster has others of that version."""
    with MixedCluster(3, ["n4"]).running() as cluster:
        cluster.upgrade("n3")
        cluster.lead(cluster["n3"])
        cluster["n3"].kill()
        wait_for("another server leads", cluster.leader)
        cluster.replace("n3", "n4")
        holds(f"the older one votes: {cluster.versions()}", cluster.versions() == {"n1": "3.4", "n2": "3.4", "n4": "3.4"})
        cluster.check_end("n1 n2 n4")


def older_one_is_refused():
    """Where all servers are newer, an older one ends, and the run waits. With a newer one the same command carries on."""
    with Cluster(3, ["n4"]).running() as cluster:
        wait_for("the cluster is of the newer version", lambda: cluster_version(cluster["n1"]).startswith("3.5."))
        new = cluster["n4"]
        new.program = f"{OLDER}/etcd"
        cluster["n3"].kill()
        words = ["replace", "n3", "--with", f"n4={new.peer}", "--yes", "--start"]
        it = begin(cluster, *words, start_command(cluster))
        shown = []
        for line in lines(it):
            shown.append(line)
            if line == "  waiting: n4 has not started: see its log; its data directory must be empty\n":
                break
        holds(f"it is said that the server has not started:\n{''.join(shown)}", "n4 has not started" in shown[-1])
        wait_for("its log says why", lambda: "incompatible with current running cluster" in log_of(new))
        it.kill()
        it.wait()
        new.delete_data()
        new.program = f"{NEWER}/etcd"
        output = succeeds(cluster, *words, start_command(cluster))
        holds(f"the same command carries on:\n{output}", "member promote" in output and "member add" not in output)
        cluster.check_end("n1 n2 n4")


def cluster_version(server):
    """The version of a cluster, which is that of its oldest server."""
    try:
        return server.cluster.read(server, "version").get("etcdcluster", "")
    except UNANSWERED:
        return ""


def log_of(server):
    if not os.path.exists(server.log):
        return ""
    with open(server.log, encoding="utf-8", errors="replace") as log:
        return log.read()


MIXED = (upgraded_by_replacing, upgraded_in_place, older_one_joins, older_one_is_refused)
TESTS = (*(MIXED if NEWER and OLDER else ()), one_of_five_is_down, what_etcd_refuses, another_version)
