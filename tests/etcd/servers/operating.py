"""The examples for operators."""
import json
import os
import re
import shlex

from checks import holds, wait_for
from clusters import Cluster
from runs import TOP, run, start_command


def example(name):
    with open(f"{TOP}/examples/etcd/{name}", encoding="utf-8") as file:
        return file.read()


def values(text, *names):
    """The values of keys, each on a line of its own."""
    return [re.search(rf"(?m)^ *{re.escape(name)}[:=] ?(.*)$", text)[1] for name in names]


def words_of(command, cluster):
    """The arguments of an example for this cluster. Its endpoints are left out, since each run gets those."""
    words = shlex.split(command)
    if os.path.basename(words.pop(0)) != "confscript-etcd":
        raise ValueError(command)
    at = words.index("--endpoints")
    del words[at:at + 2]
    if "--start" in words:
        words[words.index("--start") + 1] = start_command(cluster)
    return [word.replace("http://10.0.0.4:2380", cluster["n4"].peer) for word in words]


def examples_for_operators():
    """The task of a playbook runs until it is done, and then changes nothing. The unit fails if nothing can be written."""
    task, unit = example("replace.yml"), example("confscript-etcd-status.service")
    again, is_failed, is_changed = (value.strip('"') for value in values(task, "until", "failed_when", "changed_when"))
    command = " ".join(task[task.index(">-") + 2:task.index("register:")].split())
    look, fine = values(unit, "ExecStart", "SuccessExitStatus")

    class Replaced:
        def __init__(self, rc, stdout):
            self.rc, self.stdout = rc, stdout

    def task_says(expression, replaced):
        return eval(expression, {}, {"replaced": replaced})  # the subset of Jinja that Python reads alike

    with Cluster(3, ["n4"]).running() as cluster:
        words = words_of(command, cluster)
        cluster["n3"].kill()
        cluster.wait_until_missed(cluster["n3"])
        status, output, _ = run(cluster, *words_of(look, cluster))
        holds(f"a member that does not answer is no failure of the unit: {status}", status == int(fine) and json.loads(output)["may_fail"] == 0)
        seen = []
        for more in (["--limit", "0", "--start", "true"], [], []):
            status, output, error = run(cluster, *words, *more)
            replaced = Replaced(status, output)
            seen.append([task_says(it, replaced) for it in (again, is_failed, is_changed)])
        holds(f"stopped on the way, done, nothing to do: {seen}\n{output}{error}", seen == [[False, True, True], [True, False, True], [True, False, False]])
        cluster.check_end("n1 n2 n4")
        for server in cluster.up()[:2]:
            server.kill()
        wait_for("no server leads", lambda: not any((server.status() or {}).get("leader") for server in cluster.servers.values()))
        status, _, _ = run(cluster, *words_of(look, cluster), endpoints=cluster.up())
        holds(f"that nothing can be written is one: {status}", status == 5 != int(fine))


TESTS = (examples_for_operators,)
