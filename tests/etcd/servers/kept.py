"""What a run keeps in files: snapshots, the settings of a new server, and what a start command prints. And runs that ask before
each step."""
import glob
import os
import re
import shlex
import subprocess

from checks import holds, wait_for
from clusters import ENVIRONMENT, Cluster
from runs import Gate, begin, lines, refuses, run, start_command, succeeds


def snapshots(cluster):
    return sorted(glob.glob(f"{cluster.folder}/etcd-*.db"))


def snapshot_by_default():
    """Before the first removal a snapshot is saved to a new file in the current folder, if there is room for it. A file that
    is there is not overwritten."""
    with Cluster(3, ["n4"]).running() as cluster:
        cluster["n3"].kill()
        cluster.wait_until_missed(cluster["n3"])
        cluster.wait_for_puts()
        words = ["replace", "n3", "--with", f"n4={cluster['n4'].peer}", "--start", start_command(cluster)]
        taken = f"{cluster.folder}/taken"
        with open(taken, "w", encoding="utf-8") as file:
            file.write("as it was")
        refuses(cluster, "a file that is there", f"--snapshot {taken}: this file is there already, and is not overwritten", *words, "--yes",
                "--snapshot", taken, status=2)
        with open(taken, encoding="utf-8") as file:
            holds("it is as it was", file.read() == "as it was")

        # Nothing is free in /proc.
        status, _, error = run(cluster, *words, "--yes", folder="/proc")
        holds(f"there is no room, status {status}: {error}", status == 1 and error.startswith("confscript-etcd: no snapshot can be saved before the removal: ")
              and error.endswith(". Name a file elsewhere (--snapshot FILE), or go on without one (--no-snapshot)\n"))
        status, output, error = run(cluster, *words, folder="/proc", answer="n\n")
        holds(f"the operator is asked, status {status}: {output}{error}", (status, error) == (1, "confscript-etcd: nothing was changed\n")
              and output.count("[y/N]") == 1 and "Go on without one? [y/N] " in output)
        output = succeeds(cluster, *words, "--dry-run", folder="/proc")
        holds(f"a dry run needs no room:\n{output}", "[y/N]" not in output)
        holds("nothing was saved, and nothing changed", not snapshots(cluster) and cluster.configuration(cluster["n1"]) == "n1 n2 n3")

        there = []

        def look(words, process, status):
            if words[:2] == ["member", "remove"] and not there:
                there.extend(snapshots(cluster))

        with Gate(cluster, before=look) as gate:
            output = succeeds(cluster, *words, "--yes", etcdctl=gate.etcdctl)
        holds(f"a small size is not 0:\n{output}", re.search(r"databases have up to [1-9]\d* kB\.", " ".join(output.split())))
        holds(f"it is there before the removal: {there}\n{output}", len(there) == 1 == len(snapshots(cluster))
              and f"the snapshot {os.path.basename(there[0])} has " in output)
        saved = subprocess.run(["etcdctl", "snapshot", "status", there[0]], env={**ENVIRONMENT, **cluster.variables}, capture_output=True, check=False)
        holds(f"etcd reads it: {saved.stderr}", saved.returncode == 0)
        succeeds(cluster, "remove", "n4", "--healthy", "--yes", "--no-snapshot")
        holds("none is saved if none is wanted", len(snapshots(cluster)) == 1)
        succeeds(cluster, "add", f"n4={next_url(cluster)}", "--yes", "--start", start_command(cluster))
        holds("nor if nothing is removed", len(snapshots(cluster)) == 1)
        cluster.check_end("n1 n2 n4")


def next_url(cluster):
    """The peer URL of n4, which joins once more, with new data."""
    cluster["n4"].kill()
    cluster["n4"].delete_data()
    return cluster["n4"].peer


def settings_file():
    """A new server is started with nothing but the file of its settings, as systemd reads it. A second run replaces that file,
    and no run another one."""
    with Cluster(1, ["n2", "n3"]).running() as cluster:
        new, foreign, path = cluster["n2"], f"{cluster.folder}/foreign", f"{cluster.folder}/n2.env"
        with open(foreign, "w", encoding="utf-8") as file:
            file.write("ETCD_NAME=other\n")
        words = ["add", f"n2={new.peer}", "--client-url", f"n2={new.client}", "--yes"]
        refuses(cluster, "another file", f"--env-file {foreign}: this file has other things in it, and is not overwritten", *words, "--env-file", foreign,
                status=2)
        refuses(cluster, "a folder that is not there", "--env-file /none/n2.env: no file can be written to the folder /none", *words,
                "--env-file", "/none/n2.env", status=2)
        refuses(cluster, "too many files", "--env-file: expected one for each new server, in their order: 1, and not 2", *words, "--env-file", path,
                "--env-file", f"{path}2", status=2)
        with open(foreign, encoding="utf-8") as file:
            holds("it is as it was", file.read() == "ETCD_NAME=other\n")
        status, output, error = run(cluster, *words, "--env-file", path, "--limit", "10")
        holds(f"it is not started, status {status}: {error}\n{output}", status == 3 and f"n2 joins with these settings ({path} has them)" in output)
        first = open(path, encoding="utf-8").read()
        started = f"set -a; . {shlex.quote(path)}; {shlex.join(['etcd', '--data-dir', new.data, '--logger=zap', '--log-outputs', new.log])} &"
        succeeds(cluster, *words, "--env-file", path, "--start", started)
        holds(f"it is replaced by the same settings:\n{first}", first == open(path, encoding="utf-8").read() and "HOST:PORT" not in first)
        cluster.check_end("n1 n2")


def step_by_step():
    """With --step a run asks before each step but the first one, which the plan's question is for. It stops where the answer is
    not yes, and before the last old member leaves it shows the new endpoints."""
    with Cluster(2, ["n4", "n5"]).running() as cluster:
        pairs = f"n4={cluster['n4'].peer},n5={cluster['n5'].peer}"
        words = ["replace", "n1,n2", "--with", pairs, "--healthy", "--start", start_command(cluster), "--endpoints",
                 ",".join(server.client for server in cluster.servers.values())]
        status, _, error = run(cluster, *words, "--step", "--yes")
        holds(f"not with --yes, status {status}: {error}", status == 2)
        status, output, error = run(cluster, *words, "--step", answer="y\ny\n")
        holds(f"two steps are taken, status {status}: {error}\n{output}", status == 3 and cluster.configuration(cluster["n1"]) == "n1 n2 n4"
              and error == "confscript-etcd: step 3 of 6: not taken; the same command carries on\n")
        status, output, error = run(cluster, *words, "--step", answer="y\n" * 10)
        holds(f"the others are, status {status}: {error}\n{output}", status == 0)
        holds(f"it asks before each:\n{output}", [f"Take step {at} of 4? [y/N] " in output for at in range(1, 6)] == [False, True, True, True, False])
        urls = [cluster[name].client for name in ("n4", "n5")]
        told = next(line for line in output.splitlines() if "leaves, give your clients the new endpoints: " in line)
        holds(f"which endpoints clients need is said before the last question: {told}", sorted(told.rpartition(" ")[2].split(",")) == sorted(urls))
        holds("before that question", output.index(told) < output.index("Take step 4 of 4?"))
        cluster.check_end("n4 n5")


def start_command_is_let_go():
    """What a start command starts keeps nothing open of the run. While it has not ended, no later run starts it again. What it
    prints is kept, and shown if it fails."""
    with Cluster(1, ["n2"]).running() as cluster:
        new, started, go = cluster["n2"], f"{cluster.folder}/started", f"{cluster.folder}/go"
        words = ["add", f"n2={new.peer}", "--yes"]
        status, output, error = run(cluster, *words, "--start", "echo no such host >&2; exit 7")
        holds(f"what failed is said, status {status}: {error}",
              status == 3 and "the start command failed with status 7: no such host (what it printed: " in error)
        # It starts the server in the foreground, when it may.
        waits = f"echo begun >>{started}; while [ ! -e {go} ]; do sleep 0.1; done; exec {shlex.join(new.words())}"
        for again in (False, True):
            status, output, error = run(cluster, *words, "--limit", "5", "--start", waits)
            holds(f"it is started once, status {status}: {error}\n{output}", status == 3
                  and ("not started again: the start command of an earlier run has not ended" in output) == again)
        wait_for("it has begun", lambda: os.path.exists(started))
        it = begin(cluster, *words, "--start", waits)
        for line in lines(it):
            if "  waiting: n2 has not started" in line:
                open(go, "w", encoding="utf-8").close()
        holds(f"all that printed has ended, status {it.wait()}", it.returncode == 0)
        with open(started, encoding="utf-8") as file:
            holds("it was started once", file.read() == "begun\n")
        cluster.check_end("n1 n2")


TESTS = (step_by_step, snapshot_by_default, settings_file, start_command_is_let_go)
