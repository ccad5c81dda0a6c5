"""Servers that failed."""
import base64
import contextlib
import socket

from checks import holds, wait_for
from clusters import Cluster, encoded
from runs import TOP, Gate, begin, lines, lists_are_current, refuses, run, settings_in, start_command, succeeds, suggested, watched


def failed_server():
    """The leader of three servers is killed, and replaced by a server with a new name. The old one comes back with its
    data, and ends."""
    with Cluster(3, ["n4"]).running() as cluster:
        dead = wait_for("a server leads", cluster.leader)
        rest = [server for server in cluster.first if server is not dead]
        one, other = (server.name for server in rest)
        id = f"{cluster.id(dead):x}"
        dead.kill()
        new = f"n4={cluster['n4'].peer}"
        cluster.wait_until_missed(dead)

        status, output, _ = run(cluster, "status")
        holds(f"status shows the server that failed:\n{output}", status == 4 and suggested(cluster, "replace", dead.name, "--with", "NAME=URL") in output
              and "2 of 3 voters answer (majority: 2). No further failure is tolerated." in output)
        refuses(cluster, "a healthy server named as failed",
                f"{one} answers, so nothing is changed. Stop it if it failed; a healthy one needs --healthy", "replace", one, "--with", new, "--yes")
        refuses(cluster, "a healthy server and the one that failed",
                f"{one} answers, so nothing is changed. Stop it if it failed; a healthy one needs --healthy", "remove", f"{one},{dead.name}", "--yes")
        silent = f"{dead.name} does not answer and is not named, so nothing is changed. Name each server that failed, or bring it back " \
            "(--client-url NAME=URL if one is reached elsewhere)"
        refuses(cluster, "a healthy server, and not the one that failed", silent, "remove", one, "--healthy", "--yes")
        refuses(cluster, "a server more, and not the one that failed", silent, "add", new, "--yes")
        members = f"the members are {', '.join(sorted([one, other, dead.name])[:2])} and {sorted([one, other, dead.name])[2]}"
        refuses(cluster, "a mistyped server", f"n33 is not a member, and n4 is none either, so there is nothing to carry on: {members}. "
                f"To add n4: {suggested(cluster, 'add', new)}", "replace", "n33", "--with", new, "--yes")
        refuses(cluster, "a rounded id", f"{int(id, 16) // 1000 * 1000} is not a member: {members}", "remove", str(int(id, 16) // 1000 * 1000), "--yes")
        refuses(cluster, "one server by its name and by its id", f"{dead.name} is named twice", "remove", dead.name, id, "--yes")
        refuses(cluster, "a URL without a scheme", "'127.0.0.1:2380': expected a URL with a scheme, a host and a port, such as http://10.0.0.4:2380",
                "replace", dead.name, "--with", "n4=127.0.0.1:2380", "--yes", status=2)
        refuses(cluster, "a URL of another member", f"{cluster[one].peer}: a URL of the member {one}",
                "replace", dead.name, "--with", f"n4={cluster[one].peer}", "--yes")
        refuses(cluster, "no answer", "nothing was changed", "replace", dead.name, "--with", new)
        refuses(cluster, "the answer no", "nothing was changed", "replace", dead.name, "--with", new, answer="n\n")
        output = succeeds(cluster, "replace", id, "--with", new, "--dry-run")
        ids = ", ".join(f"{name} {cluster.id(cluster[name]):x}" for name in ("n1", "n2", "n3"))
        identity = f"This is the cluster {cluster.cluster_id():x} at {','.join(it.client for it in cluster.first)}: {ids}."
        holds(f"it is said which cluster is changed:\n{output}", identity in " ".join(output.split()))
        calls = [line.split(" ", 2)[2] for line in output.splitlines() if line.startswith("etcdctl ")]
        holds(f"a dry run:\n{output}", calls == [f"member remove {id}", f"member add n4 --peer-urls={cluster['n4'].peer} --learner", "member promote ID_OF_n4"])
        holds(f"it is said that the server must stay stopped:\n{output}", f"\nKeep {dead.name} stopped. " in output)
        holds("a dry run changes nothing", cluster.configuration(rest[0]) == "n1 n2 n3")

        words = ["replace", dead.name, "--with", new, "--yes", "--start", start_command(cluster)]
        kept = " ".join(sorted([one, other]))
        output = watched(cluster, words, "n1 n2 n3", kept, f"{kept} +n4", f"{kept} n4")
        holds(f"it is said what clients need:\n{output}", f"Give your clients the new endpoints: " in output)
        holds(f"once more: {output}", succeeds(cluster, *words) == "there is nothing to do: the members are as they are wanted\n")
        dead.start_again()
        wait_for("the server that was removed ends by itself", lambda: dead.process.poll() is not None)
        cluster.check_end(f"{kept} n4")



def failed_server_comes_back():
    """A server that failed is replaced by one with its name and URL. Its data is not deleted at first."""
    with Cluster(3).running() as cluster:
        dead = cluster["n3"]
        id = cluster.id(dead)
        dead.kill()
        cluster.wait_until_missed(dead)
        output = succeeds(cluster, "replace", "n3", "--with", "n4=http://127.0.0.1:1", "--dry-run")
        holds(f"ETCD shows what is printed:\n{output}", output.startswith(shown_by_document()))
        words = ["replace", "n3", "--with", f"n3={dead.peer}", "--yes"]
        with contextlib.closing(socket.create_server(("127.0.0.1", int(dead.peer.rpartition(":")[2])))):
            refuses(cluster, "something listens at its peer URL", f"n3: something listens at {dead.peer} already. Stop the old server first "
                    "(--peer-proxy if that is a proxy)", *words)
        it = begin(cluster, *words)
        shown = []
        for line in lines(it):
            shown.append(line)
            if line == "  start n3 now\n":
                dead.start(settings_in("".join(shown), "n3"))
                wait_for("the server ends, since its data is that of the member that was removed", lambda: dead.process.poll() is not None)
                holds("the new member has not started", cluster.configuration(cluster["n1"]) == "n1 n2 +n3")
                dead.delete_data()
                dead.start(settings_in("".join(shown), "n3"))
        output = "".join(shown)
        holds(f"status {it.wait()}:\n{output}", it.returncode == 0)
        holds(f"it is said what the new server waits for:\n{output}", "waiting: n3 has not started: see its log; its data directory must be empty" in output)
        holds("it has a new id", cluster.id(dead) != id)
        output = succeeds(cluster, *words)
        holds(f"once more: {output}", output == "there is nothing to do: the members are as they are wanted\n")
        refuses(cluster, "without what is kept of it", "n3 answers at the URL of its successor, so nothing is changed. If it was replaced before, that is "
                "done; if not, stop it first", *words, state="another")
        refuses(cluster, "its name again, by another command", "n3 answers, so nothing is changed. Stop it if it failed; a healthy one needs --healthy",
                "remove", "n3", "--yes")
        cluster.check_end("n1 n2 n3")


def shown_by_document():
    """What docs/ETCD.md shows of a run that replaces n3, up to the question."""
    with open(f"{TOP}/docs/ETCD.md", encoding="utf-8") as file:
        text = file.read()
    begin = text.index("\nstep ", text.index("\nconfscript-etcd replace n3 ")) + 1
    return text[begin:text.index("This is the cluster ", begin)]


def two_failed_servers():
    """Two of five servers are killed, one by name and one by its decimal id. Both leave before one is added."""
    with Cluster(5, ["n6", "n7"]).running() as cluster:
        id = cluster.id(cluster["n5"])
        for name in ("n4", "n5"):
            cluster[name].kill()
        pairs = f"n6={cluster['n6'].peer},n7={cluster['n7'].peer}"
        refuses(cluster, "one of the two", "n5 does not answer and is not named, so nothing is changed. Name each server that failed, or bring it back "
                "(--client-url NAME=URL if one is reached elsewhere)",
                "replace", "n4", "--with", f"n6={cluster['n6'].peer}", "--yes")
        first = min(("n4", "n5"), key=lambda name: cluster.id(cluster[name]))
        left = "n1 n2 n3 n5" if first == "n4" else "n1 n2 n3 n4"
        watched(cluster, ["replace", f"n4,{id}", "--with", pairs, "--yes", "--start", start_command(cluster)],
                "n1 n2 n3 n4 n5", left, "n1 n2 n3", "n1 n2 n3 +n6", "n1 n2 n3 n6", "n1 n2 n3 n6 +n7", "n1 n2 n3 n6 n7")
        cluster.check_end("n1 n2 n3 n6 n7")


def back_on_the_way():
    """Two of five servers are replaced as failed. One comes back while the other one is removed: it stays, and the run stops."""
    with Cluster(5, ["n6", "n7"]).running() as cluster:
        dead = sorted((cluster["n4"], cluster["n5"]), key=cluster.id)
        for server in dead:
            server.kill()
        cluster.wait_until_missed(*dead)
        removed, back = [], dead[1]

        def start_again(call, process, status):
            if status == 0 and call[:2] == ["member", "remove"]:
                removed.append(call)
                back.start_again()
                wait_for("it follows a leader", lambda: (back.status() or {}).get("leader"))

        pairs = f"n6={cluster['n6'].peer},n7={cluster['n7'].peer}"
        with Gate(cluster, after=start_again) as gate:
            status, output, error = run(cluster, "replace", "n4,n5", "--with", pairs, "--yes", etcdctl=gate.etcdctl)
        holds(f"status {status}: {error}\n{output}", (status, error) == (3, f"confscript-etcd: step 2 of 6: {back.name} answers, so nothing is changed. Stop it if it "
                                                                  "failed; a healthy one needs --healthy\n"))
        holds("one was removed", len(removed) == 1)
        cluster.check_end(f"n1 n2 n3 {back.name}")


def learner_of_others():
    """A failed server is removed while another operator's learner has not started. It is left alone."""
    with Cluster(3, ["n4"]).running() as cluster:
        new = cluster["n4"]
        leader = wait_for("a server leads", cluster.leader)
        wait_for("a learner is added", lambda: cluster.etcdctl_at(leader, "member", "add", "n4", "--learner", f"--peer-urls={new.peer}"))
        cluster["n3"].kill()
        cluster.wait_until_missed(cluster["n3"])
        output = succeeds(cluster, "remove", "n3", "--yes", "--limit", "60")
        holds(f"the learner is not waited for:\n{output}", "waiting" not in output and "starting" not in output)
        cluster.check_end("n1 n2 +n4")


def quorum_is_lost():
    """With two of three servers down, no plan is made."""
    with Cluster(3, ["n4"]).running() as cluster:
        for name in ("n2", "n3"):
            cluster[name].kill()
        if lists_are_current():
            wanted = f"no list of members: {cluster['n1'].client} answers and has no leader, and {cluster['n2'].client} and {cluster['n3'].client} do not " \
                "answer. Name other voters (--endpoints). If a majority of them is down, nothing can be written (ETCD.md, 'If quorum is lost')"
        else:
            wanted = "1 of 3 voters answer, and 2 are a majority, so no change of members can be made. Bring servers back, or restore a snapshot " \
                "(ETCD.md, 'If quorum is lost'; --client-url NAME=URL if one is reached elsewhere)"
        refuses(cluster, "no quorum", wanted, "replace", "n2", "--with", f"n4={cluster['n4'].peer}", "--yes")
        status, output, error = run(cluster, "status")
        holds(f"the status:\n{output}{error}", status == 5 and "Quorum is lost: n1 answers, and a majority is 2 of 3. Nothing can be written" in " ".join(output.split()))
        cluster["n2"].start_again()
        cluster.wait_for_puts()
        cluster["n3"].start_again()
        wait_for("all answer", lambda: run(cluster, "status")[0] == 0)
        cluster.check_end("n1 n2 n3")


def started_too_early():
    """What etcd's server does that is started again too early: with its old name and URL, an empty directory and the state
    `existing`, before it was removed. It takes its old id, and votes a second time, so acknowledged keys are lost. This is
    why a server that failed must stay stopped until it is removed."""
    with Cluster(3).running() as cluster:
        a, b, c = cluster.first
        id = cluster.id(a)
        cluster.writer.end()
        # c is cut off: it is down while the keys are acknowledged by the other two, who then fail.
        c.kill()
        wait_for("a leader without the third", lambda: put(cluster, [a, b], "before"))
        for number in range(40):
            wait_for("a put is acknowledged", lambda: put(cluster, [a, b], f"kept {number}"))
        a.kill()
        b.kill()
        c.start_again()
        wait_for("the third one can be asked by its peers", lambda: listens(c.listening))
        a.delete_data()
        joining = {"ETCD_NAME": a.name, "ETCD_INITIAL_ADVERTISE_PEER_URLS": a.peer, "ETCD_INITIAL_CLUSTER_STATE": "existing",
                   "ETCD_INITIAL_CLUSTER": ",".join(f"{it.name}={it.peer}" for it in cluster.first)}
        a.start(joining)

        # It ends if its peer does not list the members in time.
        def answer():
            if a.process.poll() is not None:
                a.start(joining)
            return keys(cluster, a)

        found = wait_for("the two elect", answer)
        holds("it has its old id", cluster.id(a) == id)
        lost = [number for number in range(40) if f"kept {number}" not in found]
        holds(f"all 40 acknowledged keys are lost, not only {len(lost)}", len(lost) == 40)


def listens(url):
    with contextlib.suppress(OSError):
        socket.create_connection(("127.0.0.1", int(url.rpartition(":")[2])), timeout=2).close()
        return True
    return False


def put(cluster, servers, key):
    for server in servers:
        with contextlib.suppress(OSError, ValueError):
            return cluster.ask(server, "kv/put", {"key": encoded(key), "value": encoded("")})
    return None


def keys(cluster, server):
    """All keys, as a server reads them from the cluster. None if it does not answer."""
    with contextlib.suppress(OSError, ValueError):
        answer = cluster.ask(server, "kv/range", {"key": encoded("\0"), "range_end": encoded("\0")})
        return [base64.b64decode(it["key"]).decode() for it in answer.get("kvs", [])]
    return None


def done_again():
    """A command that is done has nothing to do when it runs again. A name that never was is an error, and so are endpoints of two
    clusters."""
    with Cluster(3).running() as cluster, Cluster(1).running() as other:
        cluster["n3"].kill()
        cluster.wait_until_missed(cluster["n3"])
        words = ["remove", "n3", "--yes"]
        for first, second in ((cluster["n1"], other["n1"]), (other["n1"], cluster["n1"])):
            status, _, error = run(cluster, *words, endpoints=[first, second])
            holds(f"endpoints of two clusters: {error}", status == 1 and error.startswith("confscript-etcd: the endpoints are of two clusters: ")
                  and all(f"{it.cluster_id():x}" in error for it in (cluster, other)))
            status, _, error = run(cluster, "status", endpoints=[first, second])
            holds(f"so says status: {error}", status == 1 and "of two clusters" in error)
        holds("nothing is changed", cluster.configuration(cluster["n1"]) == "n1 n2 n3")
        slashes = ["--endpoints", "".join(f"{it.client}/," for it in cluster.first)]
        succeeds(cluster, *words, *slashes)
        output = succeeds(cluster, *words, *slashes)
        holds(f"once more: {output}", output == "there is nothing to do: the members are as they are wanted\n")
        refuses(cluster, "a name that never was", "n9 is not a member: the members are n1 and n2", "remove", "n9", "--yes")
        cluster.check_end("n1 n2")


TESTS = (failed_server, done_again, failed_server_comes_back, two_failed_servers, back_on_the_way, learner_of_others, quorum_is_lost, started_too_early)
