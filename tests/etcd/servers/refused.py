"""What is refused before the first change."""
import contextlib
import json
import os
import signal
import socket
import stat

from checks import holds, wait_for
from clusters import PORTS, UNANSWERED, Cluster, encoded
from runs import Gate, begin, refuses, run, start_command, succeeds, suggested


def bad_addresses():
    """The peer URL of a new server that could not join is refused before the failed server is removed."""
    with Cluster(3, ["n4"]).running() as cluster:
        dead, one, new = cluster["n3"], cluster["n1"], cluster["n4"]
        dead.kill()
        free = next(PORTS)
        port = one.peer.rpartition(":")[2]
        for name, url, wanted in (
            ("a client URL of a member", one.client, f"n4: {one.client} is the address of the member n1 ({one.client})"),
            ("another spelling", f"http://localhost:{port}", f"n4: http://localhost:{port} is the address of the member n1 ({one.peer})"),
            ("capitals", f"http://LOCALHOST:{port}", f"n4: http://LOCALHOST:{port} is the address of the member n1 ({one.peer})"),
            ("a host that is not known", f"http://none.invalid:{free}", f"n4: the host of http://none.invalid:{free} cannot be resolved here"),
            ("an address that no other server reaches", f"http://0.0.0.0:{free}", f"n4: no other server reaches http://0.0.0.0:{free}. Give the address at which the others "
             "reach n4"),
            ("another scheme", f"https://127.0.0.1:{free}", f"n4: https://127.0.0.1:{free} is not http, as the peer URLs of the members are"),
        ):
            refuses(cluster, name, wanted, "replace", "n3", "--with", f"n4={url}", "--yes")
        refuses(cluster, "two of one address", f"http://localhost:{free} and http://127.0.0.1:{free} are one address",
                "replace", "n3", "--with", f"n4=http://127.0.0.1:{free},n4=http://localhost:{free}", "--yes")
        with contextlib.closing(socket.create_server(("127.0.0.1", int(new.peer.rpartition(":")[2])))):
            refuses(cluster, "a server that was started too early", f"n4: something listens at {new.peer} already. Start n4 when it was added, not before "
                    "(--peer-proxy if that is a proxy)", "replace", "n3", "--with", f"n4={new.peer}", "--yes")
        dead.start_again()
        cluster.check_end("n1 n2 n3")


def an_old_command_again():
    """A command that was done is not carried on, whoever runs it again. One that was interrupted is, unless others have
    changed the members since."""
    with Cluster(3, ["n4", "n5", "n6", "n7"]).running() as cluster:
        url = {name: f"{name}={cluster[name].peer}" for name in cluster.servers}
        start = ["--yes", "--start", start_command(cluster)]
        first = ["replace", "n3", "--with", url["n4"], *start]
        cluster["n3"].kill()
        succeeds(cluster, *first)
        holds("it is kept that the run is done", [it["is_done"] for path in kept(cluster) for it in read(path).values()] == [True])
        holds("once more, with nothing to do", "there is nothing to do" in succeeds(cluster, *first))
        cluster["n4"].kill()
        removed = []

        def kill(call, process, status):
            if status == 0 and call[:2] == ["member", "remove"]:
                removed.append(call)
                os.kill(process, signal.SIGKILL)

        second = ["replace", "n4", "--with", url["n5"], *start]
        with Gate(cluster, after=kill) as gate:
            holds("it is killed", run(cluster, *second, etcdctl=gate.etcdctl)[0] == -signal.SIGKILL and removed)
        holds("the record is its owner's alone", [stat.S_IMODE(os.stat(path).st_mode) for path in kept(cluster)] == [0o600])
        members = "the members are n1 and n2"
        refuses(cluster, "the first one again", f"n3 is not a member, and n4 is none either, so there is nothing to carry on: {members}. "
                f"To add n4: {suggested(cluster, 'add', url['n4'])}", *first)
        refuses(cluster, "a server that was mistyped", f"n33 is not a member, and n6 is none either, so there is nothing to carry on: {members}. "
                f"To add n6: {suggested(cluster, 'add', url['n6'])}", "replace", "n33", "--with", url["n6"], *start)
        output = succeeds(cluster, *second)
        holds(f"the second one carries on:\n{output}", "promote n5" in output and "remove" not in output)
        refuses(cluster, "the first one after that", f"n3 is not a member, and n4 is none either, so there is nothing to carry on: the members are n1, n2 and "
                f"n5. To add n4: {suggested(cluster, 'add', url['n4'])}", *first)

        # A run is interrupted, and another operator adds a server in its place.
        cluster["n5"].kill()
        third = ["replace", "n5", "--with", url["n6"], *start]
        with Gate(cluster, after=kill) as gate:
            run(cluster, *third, etcdctl=gate.etcdctl)
        succeeds(cluster, "add", url["n7"], *start, state="another")
        refuses(cluster, "an interrupted one after a change by others", "an interrupted run removed n5, and n7 joined since, so it is not carried on. "
                "What is still to be done: confscript-etcd add or remove", *third)
        cluster.check_end("n1 n2 n7")


def read(path):
    with open(path, encoding="utf-8") as file:
        return json.load(file)


def kept(cluster):
    """The files of the record."""
    folder = f"{cluster.folder}/state/confscript-etcd"
    return [f"{folder}/{name}" for name in sorted(os.listdir(folder)) if name.endswith(".json")] if os.path.exists(folder) else []


def back_before_the_answer():
    """A run is interrupted while its question waits. In others, the server that failed comes back meanwhile, for its peers
    alone or for all: it is not removed."""
    with Cluster(3, ["n4"]).running() as cluster:
        cluster["n3"].kill()
        it, shown = asked(cluster)
        os.killpg(it.pid, signal.SIGINT)
        output, _ = it.communicate()
        holds(f"interrupted, status {it.returncode}:\n{output}", it.returncode == 1 and output.endswith("confscript-etcd: interrupted; nothing was changed\n"))
        it, shown = asked(cluster)
        dead = cluster["n3"]
        known, dead.client = dead.client, f"http://127.0.0.1:{next(PORTS)}"
        dead.start_again()
        wait_for("its peers hear from it", lambda: heard(cluster) == ["n1", "n2"])
        output, _ = it.communicate("y\n")
        holds(f"not removed where it does not answer, status {it.returncode}:\n{shown}{output}", it.returncode == 1 and output.endswith(
            f"confscript-etcd: n3 does not answer at {known}, but n1 and n2 hear from it, so it has not failed. If it is reached elsewhere: "
            "--client-url n3=URL\n"))
        holds("nor at once", cluster.configuration(cluster["n1"]) == "n1 n2 n3")
        dead.kill()
        dead.client = known
        it, shown = asked(cluster)
        dead.start_again()
        wait_for("it is up, and has a leader", lambda: (dead.status() or {}).get("leader"))
        output, _ = it.communicate("y\n")
        holds(f"nor where it answers, status {it.returncode}:\n{shown}{output}", it.returncode == 1 and output.endswith(
            "confscript-etcd: n3 answers, so nothing is changed. Stop it if it failed; a healthy one needs --healthy\n"))
        cluster.check_end("n1 n2 n3")


def heard(cluster):
    """The members that hear from n3, which does not answer."""
    report = json.loads(run(cluster, "status", "--output", "json", endpoints=cluster.first[:2])[1])
    return next((it["heard_by"] for it in report.get("members", []) if it["name"] == "n3"), [])


def asked(cluster):
    """A run that replaces n3 and has printed its plan, and what it printed."""
    it = begin(cluster, "replace", "n3", "--with", f"n4={cluster['n4'].peer}")
    shown = ""
    for line in it.stdout:
        shown += line
        if "The servers are of etcd " in line:
            break
    return it, shown


class SmallCluster(Cluster):
    """A cluster whose databases are full soon."""

    server_options = ("--quota-backend-bytes=2000000",)


def alarms_and_snapshots():
    """A snapshot is saved before the first change. A cluster without space is shown, and is not changed."""
    with SmallCluster(1, ["n2", "n3"]).running() as cluster:
        first = cluster["n1"]
        file = f"{cluster.folder}/snapshot"
        refuses(cluster, "a snapshot that cannot be saved", "snapshot save /none/snapshot: could not open /none/snapshot.part "
                "(open /none/snapshot.part: no such file or directory)", "add", f"n2={cluster['n2'].peer}", "--yes", "--snapshot", "/none/snapshot")
        output = succeeds(cluster, "add", f"n2={cluster['n2'].peer}", "--yes", "--start", start_command(cluster), "--snapshot", file)
        holds(f"a snapshot is there before the first change:\n{output}", os.path.exists(file) and output.index(f"the snapshot {file} has ") < output.index("Z 1 add n2\n"))
        cluster.writer.end()
        wait_for("the database is full", lambda: put(cluster, first, "0" * 1000000) is None and alarms(cluster, first))
        status, output, _ = run(cluster, "status")
        holds(f"status {status}:\n{output}", status == 5 and "\nn1 has the alarm NOSPACE: " in output)
        refuses(cluster, "no space", f"n1 has the alarm NOSPACE, so nothing is changed. This shows what to do: {suggested(cluster, 'status')}",
                "add", f"n3={cluster['n3'].peer}", "--yes")


def put(cluster, server, value):
    try:
        return cluster.ask(server, "kv/put", {"key": encoded("large"), "value": encoded(value)})
    except UNANSWERED:
        return None


def alarms(cluster, server):
    return cluster.ask(server, "maintenance/alarm", {"action": "GET"}).get("alarms")


TESTS = (an_old_command_again, bad_addresses, alarms_and_snapshots, back_before_the_answer)
