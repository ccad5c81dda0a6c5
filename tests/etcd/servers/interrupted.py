"""Runs that are killed, and two operators at once."""
import os
import signal

from checks import Broken, holds
from clusters import Cluster
from runs import Gate, begin, built_program, refuses, run, start_command, succeeds

# etcdctl, which kills the run that called it after a number of calls.
KILLING = """#!/bin/sh
calls=$1 last=$2
shift 2
"$@"
status=$?
echo >>"$calls"
[ "$(wc -l <"$calls")" -lt "$last" ] || kill -9 "$PPID"
exit "$status"
"""


def killed_after_each_call(cluster, *words):
    """Runs the command, and kills it with -9 after its first call of etcdctl, then after one more, and so on, until it ends
    before. Each call changes the cluster in some run, so the command is interrupted after each change. The calls before the
    question, which --dry-run makes too, are left out but for the first one."""
    script, calls = f"{cluster.folder}/killing", f"{cluster.folder}/calls"
    with open(script, "w", encoding="utf-8") as file:
        file.write(KILLING)

    def run_until(last, *more):
        with open(calls, "w", encoding="utf-8"):
            pass
        return run(cluster, *words, *more, etcdctl=["sh", script, calls, str(last), *cluster.etcdctl])

    run_until(200, "--dry-run")
    with open(calls, encoding="utf-8") as file:
        before = len(file.readlines())
    for last in (1, *range(before, 200)):
        status, output, error = run_until(last)
        if status != -signal.SIGKILL:
            holds(f"status {status} after {last} calls: {error}\n{output}", status == 0)
            return last
    raise Broken("the command needs 200 calls")


def killed_while_a_failed_server_is_replaced():
    with Cluster(3, ["n4"]).running() as cluster:
        cluster["n3"].kill()
        cluster.wait_until_missed(cluster["n3"])
        words = ["replace", "n3", "--with", f"n4={cluster['n4'].peer}", "--yes", "--start", start_command(cluster)]
        killed_after_each_call(cluster, *words)
        holds("nothing is left", "there is nothing to do" in succeeds(cluster, *words))
        cluster.check_end("n1 n2 n4")


def killed_while_a_failed_server_comes_back():
    """With its old name and URL, so that it is told by its id alone."""
    with Cluster(3).running() as cluster:
        id = cluster.id(cluster["n3"])
        cluster["n3"].kill()
        cluster["n3"].delete_data()
        cluster.wait_until_missed(cluster["n3"])
        words = ["replace", "n3", "--with", f"n3={cluster['n3'].peer}", "--yes", "--start", start_command(cluster)]
        killed_after_each_call(cluster, *words)
        holds("once more, there is nothing to do", "there is nothing to do" in succeeds(cluster, *words))
        holds("the server has a new id", cluster.id(cluster["n3"]) != id)
        cluster.check_end("n1 n2 n3")


def killed_while_the_leader_is_replaced():
    """Two healthy ones, one of which leads."""
    with Cluster(2, ["n4", "n5"]).running() as cluster:
        pairs = f"n4={cluster['n4'].peer},n5={cluster['n5'].peer}"
        words = ["replace", "n1,n2", "--with", pairs, "--healthy", "--yes", "--no-snapshot", "--start", start_command(cluster)]
        script = killed_after_each_call(cluster, *words, "--endpoints", ",".join(server.client for server in cluster.servers.values()))
        holds("it was killed many times", script > 20)
        cluster.check_end("n4 n5")


# etcdctl, as if a user may not write keys.
WITHOUT_KEYS = """#!/bin/sh
case " $* " in *" txn "*) echo 'Error: etcdserver: permission denied' >&2; exit 1 ;; esac
exec etcdctl "$@"
"""


def one_run_at_a_time():
    """While a run changes members, another one is refused, and says who is at it. Where the key cannot be written, the run
    says so; then its first change is held until another run of the same command has made all of them."""
    with Cluster(3, ["n4", "n5"]).running() as cluster:
        start = ["--yes", "--start", start_command(cluster)]
        words = ["replace", "n3", "--with", f"n4={cluster['n4'].peer}", *start]
        cluster["n3"].kill()
        refused = []

        def run_another(call, pid, status):
            if not refused:
                refused.append(run(cluster, *words))

        with Gate(cluster, before=run_another) as gate:
            succeeds(cluster, *words, etcdctl=gate.etcdctl)
        status, output, error = refused[0]
        holds(f"the other run, status {status}: {error}", status == 1 and "confscript-etcd: another run changes the members: " in error
              and f": replace n3 --with n4={cluster['n4'].peer}. If it was killed, its key confscript-etcd/run ends within 60 s" in error)

        cluster["n2"].kill()
        words = ["replace", "n2", "--with", f"n5={cluster['n5'].peer}", *start]
        with open(f"{cluster.folder}/without_keys", "w", encoding="utf-8") as script:
            script.write(WITHOUT_KEYS)
        cluster.etcdctl = ["sh", script.name]
        faster = []

        def overtake(call, pid, status):
            if not faster:
                faster.append(None)
                faster[0] = succeeds(cluster, *words)

        with Gate(cluster, before=overtake) as gate:
            output = succeeds(cluster, *words, etcdctl=gate.etcdctl)
        holds(f"it is said that there is no key:\n{output}", "the key confscript-etcd/run cannot be written, so another run would not be noticed: " in output)
        holds("the other run makes the changes", faster and "member promote" in (faster[0] or ""))
        cluster.check_end("n1 n4 n5")


def two_operators():
    """Of two runs at once that replace a server by different ones, one ends well, and the other one changes nothing."""
    with Cluster(3, ["n4", "n5"]).running() as cluster:
        cluster["n3"].kill()
        start = ["--yes", "--start", start_command(cluster)]
        both = [begin(cluster, "replace", "n3", "--with", f"{name}={cluster[name].peer}", *start, state=name) for name in ("n4", "n5")]
        outputs = [it.communicate()[0] for it in both]
        statuses = [it.returncode for it in both]
        text = "\n".join(outputs)
        holds(f"statuses {statuses}:\n{text}", sorted(statuses) == [0, 1])
        cluster.check_end(f"n1 n2 {('n4', 'n5')[statuses.index(0)] if 0 in statuses else 'n4'}")


def no_answer():
    """Where the program does not say what is next, nothing is changed."""
    with Cluster(1, ["n2"]).running() as cluster:
        script = f"{cluster.folder}/confscript"
        for text, wanted in (("echo 'confscript: out of memory' >&2; exit 3", "next gives no answer: confscript: out of memory"),
                             ("exit 0", "next gives no answer: it has ended"),
                             ("""while read line; do echo '{"error":"bad key"}'; done""", "next: bad key")):
            with open(script, "w", encoding="utf-8") as file:
                file.write(f'#!/bin/sh\n[ "$1" = next ] || exec {built_program()} "$@"\n{text}\n')
            os.chmod(script, 0o755)
            refuses(cluster, text, f"{script} {wanted}", "add", f"n2={cluster['n2'].peer}", "--yes", program=script)
        cluster.check_end("n1")


TESTS = (killed_while_the_leader_is_replaced, killed_while_a_failed_server_comes_back, killed_while_a_failed_server_is_replaced,
         one_run_at_a_time, two_operators, no_answer)
