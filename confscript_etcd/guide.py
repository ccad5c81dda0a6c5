"""The texts below the options in --help: examples, and what to do in an outage."""

ABOUT = """Carries out membership changes on a running etcd cluster: plans them by
confscript, shows who votes and how many servers may be down at each step, asks,
and makes the changes by etcdctl. The same command again carries on where a run
was interrupted."""

ETCDCTL = """etcdctl takes certificates and the user from its options
(--etcdctl 'etcdctl --cacert ca.pem') or from its environment (ETCDCTL_CACERT,
ETCDCTL_CERT, ETCDCTL_KEY, ETCDCTL_USER).

Exit status: 0 done; 1 refused, nothing was changed; 2 wrong arguments; 3 stopped
on the way, the same command carries on; for status also 4 if writes are taken and
something is amiss, 5 if nothing can be written.

It was tested with etcd 3.4.23, 3.5.16 and 3.5.30, and with clusters of both 3.4
and 3.5."""

EXAMPLES = {
    "status": "confscript-etcd status --endpoints http://10.0.0.1:2379",
    "replace": "confscript-etcd replace n3 --with n4=http://10.0.0.4:2380",
    "add": "confscript-etcd add n4=http://10.0.0.4:2380 n5=http://10.0.0.5:2380",
    "remove": "confscript-etcd remove n5 n4 --healthy",
    "carry-out": "confscript-etcd carry-out steps.json --new 4 n4 http://10.0.0.4:2380",
}

HANGS = """A server hangs: it takes connections and answers nothing. status says so. It may
come back at any time, so end it for good on its machine first (kill -9, or cut
its power). Then it is replaced like one that failed."""

LOST = """Quorum is lost: no member can be changed, and no plan helps. status shows who
answers with its term and index, who has the most, and what to do, with the
commands for this cluster."""

BACK = """To take a change back: a new server that is not wanted any more leaves by
remove NEW --healthy, also one that never started (by its id). A server that was
removed joins again as a new one, with an empty data directory: add OLD=URL."""

SPARE = """Two servers are dead and there is one spare: remove n4,n5 and then
add n6=URL. Both have to be named, since etcd adds no server while a voter is
silent. Four voters tolerate as many failures as three; add the other one later."""

ADVICE = {
    None: (HANGS, LOST, BACK, SPARE),
    "status": (HANGS, LOST),
    "replace": (HANGS, LOST, BACK, SPARE),
    "add": (BACK,),
    "remove": (HANGS, LOST, BACK, SPARE),
    "carry-out": (BACK,),
}


def epilog(command=None):
    """What the help of a command has below its options. Without one, that of all."""
    found = list(EXAMPLES.values()) if command is None else [EXAMPLES[command]]
    examples = "\n".join(["Examples:" if command is None else "Example:", *(f"  {it}" for it in found)])
    return "\n\n".join([examples, *ADVICE[command], ETCDCTL])
