"""Servers that are up, and plans from a file."""
import json
import os
import signal
import subprocess

from checks import holds, wait_for
from clusters import Cluster
from runs import Gate, Watch, begin, built_program, lines, refuses, run, run_into, settings_in, start_command, succeeds, watched


def all_healthy_servers():
    """All of three servers are replaced, the leader too. The operator is asked, and starts the new ones. Each takes the place
    of its own member before the next one joins, in the order of the command, which is not that of the ids."""
    with Cluster(3, ["n4", "n5", "n6"]).running() as cluster:
        first, second, third = (server.name for server in sorted(cluster.first, key=cluster.id, reverse=True))
        pairs = ",".join(f"{name}={cluster[name].peer}" for name in ("n4", "n5", "n6"))
        refuses(cluster, "without --healthy", "n1 answers, so nothing is changed. Stop it if it failed; a healthy one needs --healthy",
                "replace", "n1,n2,n3", "--with", pairs, "--yes")
        refuses(cluster, "at its own URL", "n1 answers at the URL of its successor, so nothing is changed. If it was replaced before, that is done; "
                "if not, stop it first",
                "replace", "n1", "--with", f"n1={cluster['n1'].peer}", "--healthy", "--yes")
        refuses(cluster, "a name that is taken", "n2 is the name, or has a URL, of a member that is still there when it is added",
                "replace", "n1", "--with", f"n2={cluster['n4'].peer}", "--healthy", "--yes")
        output = succeeds(cluster, "replace", "n1,n2,n3", "--with", pairs, "--healthy", "--dry-run")
        calls = [line for line in output.splitlines() if line.startswith("etcdctl ")]
        holds(f"each call names endpoints:\n{output}", "--endpoints= " not in output and len(calls) == 10 and "CLIENT_URL_OF_n4" in calls[-1])
        holds(f"a later addition names the servers that joined before:\n{output}", f"n4={cluster['n4'].peer}" in output[output.index("# start n6:"):])
        watch = Watch(cluster, *(" ".join([*sorted(voters), *learners]) for voters, *learners in (
            ((first, second, third),), ((first, second, third), "+n4"), ((first, second, third, "n4"),),
            ((second, third, "n4"),), ((second, third, "n4"), "+n5"), ((second, third, "n4", "n5"),),
            ((third, "n4", "n5"),), ((third, "n4", "n5"), "+n6"), ((third, "n4", "n5", "n6"),), (("n4", "n5", "n6"),))))
        with Gate(cluster, before=watch) as gate:
            it = begin(cluster, "replace", f"{first},{second}", third, "--with", pairs, "--healthy", etcdctl=gate.etcdctl)
            it.stdin.write("y\n")
            it.stdin.flush()
            shown = []
            for line in lines(it):
                shown.append(line)
                words = line.split()
                if len(words) == 3 and (words[0], words[2]) == ("start", "now"):
                    cluster[words[1]].start(settings_in("".join(shown), words[1]))
            output = "".join(shown)
            holds(f"status {it.wait()}:\n{output}", it.returncode == 0)
        watch.check()
        holds(f"each configuration on the way:\n{output}", watch.at == 10)
        holds(f"leadership moves once at most:\n{output}", len({line.split()[-1] for line in output.splitlines() if " move-leader " in line}) <= 1)
        holds(f"no server has to stay stopped:\n{output}", "Keep " not in output)
        for server in cluster.first:
            wait_for(f"{server.name} ends by itself", lambda: server.process.poll() is not None)
        cluster.check_end("n4 n5 n6")


def growing_and_shrinking():
    """From one server to three, to five, and back to three without the first two."""
    with Cluster(1, ["n2", "n3", "n4", "n5"]).running() as cluster:
        start = ["--yes", "--start", start_command(cluster)]
        url = {name: f"{name}={server.peer}" for name, server in cluster.servers.items()}
        watched(cluster, ["add", url["n2"], url["n3"], *start], "n1", "n1 +n2", "n1 n2", "n1 n2 +n3", "n1 n2 n3")
        watched(cluster, ["add", f"{url['n4']},{url['n5']}", *start],
                "n1 n2 n3", "n1 n2 n3 +n4", "n1 n2 n3 n4", "n1 n2 n3 n4 +n5", "n1 n2 n3 n4 n5")
        output = succeeds(cluster, "remove", "n1", "n2", "--healthy", "--yes", endpoints=cluster.up())
        holds(f"it is said what clients need:\n{output}", output.count("http") and "Give your clients the new endpoints: " in output)
        # That nobody reads the output, or that it cannot be written, ends no run.
        with open("/dev/full", "w", encoding="utf-8") as full:
            status = run_into(cluster, full, "remove", "n5", "--healthy", "--yes", endpoints=cluster.up())
        holds(f"the output cannot be written: {status}", status == 0)
        reading, writing = os.pipe()
        os.close(reading)
        with open(writing, "w", encoding="utf-8") as closed:
            status = run_into(cluster, closed, "remove", "n4", "--healthy", "--yes", endpoints=cluster.up())
        holds(f"nobody reads the output: {status}", status == 0)
        cluster.check_end("n3")


def a_line(step, steps, type, id, voters, learners=(), **others):
    """A line of a plan with one change."""
    return {
        "catch_up": [],
        "conf_change": {"changes": [{"node_id": id, "type": type}], "transition": "ConfChangeTransitionAuto"},
        "conf_state": {"auto_leave": False, "learners": list(learners), "learners_next": [], "voters": list(voters), "voters_outgoing": []},
        "may_be_down": 1, "plan": 1, "step": step, "steps": steps, "until_then": 1, **others,
    }


def plan(now, changes, *options, strategy="one-at-a-time"):
    """The JSON lines that the program prints."""
    words = [built_program(), "plan", "--strategy", strategy, "--output", "json", "--from", now, "--to", changes, *options]
    return subprocess.run(words, capture_output=True, text=True, check=True).stdout


def plan_from_a_file():
    """What is refused of a plan before anything is changed, and a plan that is carried out, interrupted after each change,
    and carried on."""
    with Cluster(3, ["n4", "n5"]).running() as cluster:
        a, b, c = sorted(cluster.id(server) for server in cluster.first)
        of = {cluster.id(server): server for server in cluster.first}
        members = f"voters=({a} {b} {c})"
        n4, n5 = (["--new", str(at), f"n{at}", cluster[f"n{at}"].peer] for at in (4, 5))
        whole = plan(members, f"r{a} r{b} v4 v5")
        learner, voter, remove = "ConfChangeAddLearnerNode", "ConfChangeAddNode", "ConfChangeRemoveNode"
        rounded = a // 1000 * 1000
        rows = [
            ("a joint step", plan(members, f"r{a} v4", strategy="shortest"), n4,
             "step 1: etcd's server has no call for joint configurations: plan with --strategy one-at-a-time"),
            ("a learner of a voter", [a_line(1, 1, learner, a, (b, c), (a,))], [],
             "step 1 of 1: etcd's server has no call that makes a learner of a voter"),
            ("a second learner", [a_line(1, 2, learner, 4, (a, b, c), (4,)), a_line(2, 2, learner, 5, (a, b, c), (4, 5))], [*n4, *n5],
             "step 2 of 2: etcd's server takes one learner at a time"),
            ("a new member without a name", whole, n4, "step 4 of 6: 5 is new: give its name and its peer URL (--new 5 NAME URL)"),
            ("a name without a new member", whole, [*n4, *n5, "--new", "8", "n8", "http://127.0.0.1:1"], "--new 8: the plan adds no such member"),
            ("a name that is taken", whole, [*n4, "--new", "5", of[c].name, "http://127.0.0.1:1"],
             f"step 4 of 6: the name or a peer URL of 5 ({of[c].name}) belongs to the member {of[c].name}"),
            ("a URL without a port", whole, [*n4, "--new", "5", "n5", "http://127.0.0.1"],
             "'http://127.0.0.1': expected a URL with a scheme, a host and a port, such as http://10.0.0.4:2380"),
            ("an id that comes back", [a_line(1, 2, remove, a, (b, c)), a_line(2, 2, voter, a, (a, b, c))], [],
             f"step 2 of 2: {a} was removed, and an id never comes back without its log and its vote"),
            ("a rounded id", [a_line(1, 1, remove, rounded, (b, c))], [],
             f"step 1 of 1: the members are {members}, and etcd's server has no call for ConfChangeRemoveNode of {rounded}"),
            ("an id as a fraction", json.dumps(a_line(1, 1, remove, 1, (b, c))).replace('"node_id": 1', '"node_id": 1.5e19'), [],
             "line 1: bad JSON: 1.5e19 is not an id, which has no fraction and no exponent"),
            ("another beginning", [a_line(1, 1, learner, 4, (a, b), (4,))], n4,
             f"step 1 of 1: the plan begins at other members: from {members} this step leads to {members} learners=(4), "
             f"and in the plan to voters=({a} {b}) learners=(4)"),
            ("a server that is down in the plan, and answers", [a_line(1, 1, remove, a, (b, c), stalls=False, down=[a])], [],
             f"{of[a].name} is down in the plan, and answers: plan without it in --down, or stop it"),
            ("an incomplete plan", whole.splitlines(keepends=True)[:-1], [*n4, *n5], "the lines are not the steps of one plan, in order and complete"),
            ("two plans", [a_line(1, 1, remove, a, (b, c)), a_line(1, 1, remove, a, (b, c), plan=2)], [], "there is more than one plan in the input"),
            ("a plan that stalls", [a_line(1, 1, remove, a, (b, c), stalls=True)], [],
             "the plan stalls: with the ids that are down, a configuration on the way commits nothing"),
            ("no plan", '{"no_plan":"the target is joint","plan":1}\n', [], "there is no plan: the target is joint"),
            ("no line", "", [], "there is no plan in the input"),
            ("a line of no plan", '{"members":[]}\n', [], "line 1: this is not a line of `confscript plan --output json`"),
        ]
        for name, lines, options, wanted in rows:
            status, _, error = run(cluster, "carry-out", "-", *options, "--yes", answer=text_of(lines))
            usage = name in ("a name without a new member", "a URL without a port")
            holds(f"{name}: status {status}: {error}", (status, error) == (2 if usage else 1, f"confscript-etcd: {wanted}\n"))
        holds("nothing is changed", [cluster.configuration(server) for server in cluster.first] == ["n1 n2 n3"] * 3)
        output = succeeds(cluster, "carry-out", "-", "--yes", answer='{"plan":1,"steps":0}\n')
        holds(f"an empty plan: {output}", output == "there is nothing to do: the members are as they are wanted\n")
        status, _, error = run(cluster, "carry-out", "-", *n4, answer=text_of(whole))
        holds(f"the plan and the answer on standard input: {error}", status == 2 and "--yes" in error)
        status, _, error = run(cluster, "carry-out", f"{cluster.folder}/none", "--yes")
        holds(f"no such file: {error}", (status, error) == (1, f"confscript-etcd: {cluster.folder}/none: No such file or directory\n"))

        of[a].kill()
        with open(f"{cluster.folder}/plan", "w", encoding="utf-8") as file:
            file.write(plan(members, f"r{a} v4", "--down", str(a)))
        words = ["carry-out", f"{cluster.folder}/plan", *n4, "--yes", "--start", start_command(cluster)]
        kills = []

        def kill(call, process, status):
            """Kills the run after each change that was made."""
            if status == 0 and call[0] == "member":
                kills.append(call[1])
                os.kill(process, signal.SIGKILL)

        with Gate(cluster, after=kill) as gate:
            for wanted in ("remove", "add", "promote"):
                holds(f"killed after {wanted}", run(cluster, *words, etcdctl=gate.etcdctl)[0] == -signal.SIGKILL and kills[-1] == wanted)
        output = succeeds(cluster, *words)
        holds(f"nothing is left: {output}", output == "there is nothing to do: the members are as they are wanted\n")
        cluster.check_end(" ".join(sorted([of[b].name, of[c].name])) + " n4")


def voter_added_at_once():
    """A server that a plan adds as a voter at once is a learner first."""
    with Cluster(1, ["n4"]).running() as cluster:
        words = ["carry-out", "-", "--new", "4", "n4", cluster["n4"].peer, "--yes", "--start", start_command(cluster)]
        shortest = plan(f"voters=({cluster.id(cluster['n1'])})", "v4", strategy="shortest")
        holds(f"the plan has one step: {shortest}", len(shortest.splitlines()) == 1)
        watch = Watch(cluster, "n1", "n1 +n4", "n1 n4")
        with Gate(cluster, before=watch) as gate:
            output = succeeds(cluster, *words, etcdctl=gate.etcdctl, answer=shortest)
        watch.check()
        holds(f"it is added, and promoted:\n{output}", watch.at == 3)
        cluster.check_end("n1 n4")


def down_and_back():
    """A server that is down in a plan which keeps it comes back on the way. Until then etcd adds no member."""
    with Cluster(3, ["n4"]).running() as cluster:
        back = cluster["n3"]
        members = f"voters=({' '.join(str(cluster.id(server)) for server in cluster.first)})"
        with open(f"{cluster.folder}/plan", "w", encoding="utf-8") as file:
            file.write(plan(members, "v4", "--down", str(cluster.id(back))))
        back.kill()
        cluster.wait_until_missed(back)
        it = begin(cluster, "carry-out", file.name, "--new", "4", "n4", cluster["n4"].peer, "--yes", "--start", start_command(cluster))
        shown = []
        for line in lines(it):
            shown.append(line)
            if line == "  waiting: etcd changes no members now: n3 does not answer\n":
                back.start_again()
        holds(f"status {it.wait()}:\n{''.join(shown)}", it.returncode == 0 and "  waiting: etcd changes no members now: n3 does not answer\n" in shown)
        cluster.check_end("n1 n2 n3 n4")


def text_of(lines):
    return "".join(line if isinstance(line, str) else json.dumps(line) + "\n" for line in lines)


TESTS = (all_healthy_servers, growing_and_shrinking, plan_from_a_file, voter_added_at_once, down_and_back)
