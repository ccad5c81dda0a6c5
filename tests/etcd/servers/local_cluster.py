"""The cluster to try things on: what examples/etcd/local says is done, word for word."""
import os
import subprocess
import tempfile

from checks import Broken, holds
from clusters import ENVIRONMENT
from runs import TOP, built_program

LOCAL = f"{TOP}/examples/etcd/local"
ENDPOINTS = "http://127.0.0.1:11379,http://127.0.0.1:12379,http://127.0.0.1:13379"


def commands(text):
    """The commands that it prints, each on one line."""
    lines = text.replace("\\\n", " ").splitlines()
    return [" ".join(line.split()) for line in lines if line.startswith("  ")]


def let_lead(name):
    """Moves leadership to a server."""
    etcdctl = ["etcdctl", f"--endpoints={ENDPOINTS}"]
    environment = {**ENVIRONMENT, "ETCDCTL_API": "3"}
    members = subprocess.run([*etcdctl, "member", "list"], env=environment, stdout=subprocess.PIPE, text=True, check=True).stdout
    id = next(line.split(", ")[0] for line in members.splitlines() if line.split(", ")[2] == name)
    status = subprocess.run([*etcdctl, "endpoint", "status"], env=environment, stdout=subprocess.PIPE, text=True, check=True).stdout
    if not any(id in line and ", true, " in line for line in status.splitlines()):
        subprocess.run([*etcdctl, "move-leader", id], env=environment, stdout=subprocess.DEVNULL, check=True)


def cluster_to_try():
    """A server is killed and replaced by the commands that are printed. It leads, so another one is elected while its status is
    asked. At the end of input the servers end, and their data is gone."""
    with subprocess.Popen([LOCAL], env={**ENVIRONMENT, "LC_ALL": "C"}, stdin=subprocess.PIPE, stdout=subprocess.PIPE, stderr=subprocess.STDOUT, text=True) as it, \
            tempfile.TemporaryDirectory() as folder:
        shown = ""
        while "An interrupt" not in shown:
            line = it.stdout.readline()
            if not line:
                raise Broken(f"it has ended:\n{shown}")
            shown += line
        kill, status, replace = commands(shown)
        let_lead("n3")
        environment = {**ENVIRONMENT, "CONFSCRIPT": os.environ.get("CONFSCRIPT") or built_program(), "PATH": f"{TOP}:{os.environ['PATH']}"}
        for command, end in ((kill, ""), (status, "No further failure is tolerated."), (f"{replace} --yes", "done: the voters are n1, n2 and n4")):
            run = subprocess.run(["bash", "-c", command], cwd=folder, env=environment, stdin=subprocess.DEVNULL, stdout=subprocess.PIPE,
                                 stderr=subprocess.STDOUT, text=True, timeout=600)
            holds(f"{command} ends with {run.returncode}:\n{run.stdout}", run.returncode == (4 if command == status else 0) and end in run.stdout)
        second = subprocess.run([LOCAL], env=ENVIRONMENT, stdin=subprocess.DEVNULL, stdout=subprocess.PIPE, stderr=subprocess.STDOUT, text=True)
        holds(f"a second cluster: {second.stdout}", second.returncode == 1 and "another cluster is running" in second.stdout)
        it.stdin.close()
        holds(f"the end of input ends it: {it.stdout.read()}", it.wait() == 0)
    held = subprocess.run(["pgrep", "-f", "confscript-etcd-local-"], stdout=subprocess.PIPE, text=True).stdout
    holds("nothing is left", not held and not os.path.exists(f"{os.environ.get('TMPDIR', '/tmp')}/confscript-etcd-local-{os.getuid()}"))


TESTS = (cluster_to_try,)
