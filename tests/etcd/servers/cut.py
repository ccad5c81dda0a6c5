"""Servers whose network is cut: a server in a network namespace of its own, with the others on the other end of its link."""
import ctypes
import os
import subprocess

from checks import holds, wait_for
from clusters import PORTS, Cluster
from runs import run, start_command, succeeds

NEAR, FAR = "10.9.0.1", "10.9.0.3"
NEW_NETWORK = 0x40000000  # CLONE_NEWNET


def may_cut():
    """Whether network namespaces may be made here."""
    words = ["unshare", "-n", "ip", "link", "add", "near", "type", "veth", "peer", "name", "far"]
    try:
        return subprocess.run(words, stdin=subprocess.DEVNULL, capture_output=True, check=False).returncode == 0
    except OSError:
        return False


class CutCluster(Cluster):
    """A cluster in a network of this test alone. The third server is at the other end of a link that can be cut."""

    server_options = ("--heartbeat-interval=100", "--election-timeout=10000")

    def __init__(self, size, joining=()):
        if ctypes.CDLL(None, use_errno=True).unshare(NEW_NETWORK):
            raise OSError(ctypes.get_errno(), "unshare")
        super().__init__(size, joining)
        self.far = subprocess.Popen(["unshare", "-n", "sleep", "infinity"], start_new_session=True)
        self.groups.append(self.far)
        wait_for("the other end is there", lambda: os.readlink(f"/proc/{self.far.pid}/ns/net") != os.readlink("/proc/self/ns/net"))
        for words in ("ip link set lo up", f"ip link add near type veth peer name far netns {self.far.pid}", f"ip addr add {NEAR}/24 dev near",
                      "ip link set near up"):
            subprocess.run(words.split(), check=True)
        for words in ("ip link set lo up", f"ip addr add {FAR}/24 dev far", "ip link set far up"):
            subprocess.run([*self.enter(), *words.split()], check=True)
        for server in self.servers.values():
            is_far = server is self.first[2]
            server.client, server.listening = (url.replace("127.0.0.1", FAR if is_far else NEAR) for url in (server.client, server.listening))
            server.peer, server.advertised = server.listening, server.client
            server.before = self.enter() if is_far else []

    def enter(self):
        return ["nsenter", "-t", str(self.far.pid), "-n"]

    def cut(self):
        """Cuts the link: what is sent is lost, and no connection ends."""
        subprocess.run([*self.enter(), "ip", "link", "set", "far", "down"], check=True)


def network_is_cut():
    """The network of a server is cut, as if it had lost power: its connections stand. It is replaced while nothing is written but
    the key of the run."""
    with CutCluster(3, ["n4"]).running() as cluster:
        one = cluster["n1"]
        cluster.let_lead(one)
        words = ["replace", "n3", "--yes", "--start", start_command(cluster)]
        for url, wanted in ((f"http://127.0.0.1:{next(PORTS)}", "is reached on this host alone, and the members are elsewhere"),
                            (f"http://0.0.0.0:{next(PORTS)}", "Give the address at which the others reach n4")):
            status, _, error = run(cluster, *words, "--healthy", "--with", f"n4={url}")
            holds(f"{url}: {error}", status == 1 and error.startswith("confscript-etcd: n4: ") and url in error and wanted in error)
        cluster.wait_for_puts()
        cluster.cut()
        cluster.writer.end()
        output = succeeds(cluster, *words, "--with", f"n4={cluster['n4'].peer}")
        holds(f"it leaves first:\n{output}", output.index("member remove") < output.index("member add"))
        cluster.check_end("n1 n2 n4")


TESTS = (network_is_cut,) if may_cut() else ()
