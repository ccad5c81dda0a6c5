"""Clusters with certificates, and with users."""
import shlex
import ssl
import subprocess
import urllib.request

from checks import holds, wait_for
from clusters import PORTS, UNANSWERED, Cluster
from runs import refuses, run, start_command, succeeds, suggested

# The key and the certificate of an authority, and those of all servers and clients, which it signs.
CERTIFICATES = """
openssl ecparam -name prime256v1 -genkey -noout -out ca.key
openssl req -x509 -new -key ca.key -subj /CN=ca -days 2 -out ca.pem
openssl ecparam -name prime256v1 -genkey -noout -out it.key
openssl req -new -key it.key -subj /CN=it -out it.csr
printf 'subjectAltName=IP:127.0.0.1\\nextendedKeyUsage=serverAuth,clientAuth\\n' >it.cnf
openssl x509 -req -in it.csr -CA ca.pem -CAkey ca.key -CAcreateserial -days 2 -extfile it.cnf -out it.pem
"""


class SecureCluster(Cluster):
    """A cluster in which all connections have certificates."""

    scheme = "https"

    def prepare(self):
        subprocess.run(["sh", "-e", "-c", CERTIFICATES], cwd=self.folder, check=True, capture_output=True)
        ca, pem, key = (f"{self.folder}/{name}" for name in ("ca.pem", "it.pem", "it.key"))
        self.server_options = [
            f"--cert-file={pem}", f"--key-file={key}", f"--trusted-ca-file={ca}", "--client-cert-auth",
            f"--peer-cert-file={pem}", f"--peer-key-file={key}", f"--peer-trusted-ca-file={ca}", "--peer-client-cert-auth"]
        self.etcdctl = ["etcdctl", "--cacert", ca, "--cert", pem, "--key", key]
        self.context = ssl.create_default_context(cafile=ca)
        self.context.load_cert_chain(pem, key)

    def opener(self):
        return urllib.request.build_opener(urllib.request.ProxyHandler({}), urllib.request.HTTPSHandler(context=self.context))


def certificates():
    """A failed server is replaced where all connections have certificates, by options of etcdctl and by its environment."""
    with SecureCluster(3, ["n4"]).running() as cluster:
        cluster["n3"].kill()
        words = ["replace", "n3", "--with", f"n4={cluster['n4'].peer}", "--yes", "--start", start_command(cluster)]
        status, _, error = run(cluster, *words, etcdctl=["etcdctl"])
        holds(f"without certificates: {error}", status == 1 and error.startswith("confscript-etcd: cannot reach https://") and error.count("\n") == 1)
        with open(f"{cluster.folder}/hiding", "w", encoding="utf-8") as script:
            script.write(f'exec {shlex.join(cluster.etcdctl)} "$@"\n')
        hiding, unknown = ["sh", script.name], "hether the other members hear from n3 is not known: their /metrics cannot be read from here."
        cluster.wait_until_missed(cluster["n3"])
        refuses(cluster, "without etcdctl's certificates nobody is asked who hears from it", f"n3 does not answer at {cluster['n3'].client}, and w{unknown} "
                "If they are read elsewhere: --metrics-url NAME=URL. If you know that n3 failed and does not come back: --failed n3",
                *words, "--limit", "1", etcdctl=hiding)
        status, output, _ = run(cluster, "status", etcdctl=hiding)
        text = " ".join(output.split())
        holds(f"status says so too:\n{output}", status == 4 and f"W{unknown} If n3 failed, replace it:" in text
              and suggested(cluster, "replace", "n3", "--with", "NAME=URL", "--failed", "n3", etcdctl=hiding) in output)
        refuses(cluster, "the word for another one", "--failed n2: the servers that leave are n3", *words, "--failed", "n2", status=2)
        output = succeeds(cluster, *words, "--failed", "n3", "--dry-run", etcdctl=hiding)
        holds(f"the word of the operator is in the plan:\n{output}", f"You say that n3 failed and does not come back (--failed); w{unknown}" in " ".join(output.split()))
        output = succeeds(cluster, *words)
        holds(f"with its options they are asked:\n{output}", unknown not in " ".join(output.split()))
        _, ca, _, pem, _, key = cluster.etcdctl[1:]
        cluster.variables = {**cluster.variables, "ETCDCTL_CACERT": ca, "ETCDCTL_CERT": pem, "ETCDCTL_KEY": key, "ETCDCTL_WRITE_OUT": "table"}
        output = succeeds(cluster, *words, etcdctl=["etcdctl"])
        holds(f"by the environment, nothing is left: {output}", "there is nothing to do" in output)
        del cluster.variables["ETCDCTL_WRITE_OUT"], cluster.variables["ETCDCTL_CACERT"], cluster.variables["ETCDCTL_CERT"], cluster.variables["ETCDCTL_KEY"]
        cluster.check_end("n1 n2 n4")


class HiddenCluster(SecureCluster):
    """A cluster whose third server advertises a client URL at which nothing listens."""

    def start(self):
        self["n3"].advertised = "https://127.0.0.1:1"
        super().start()


def leader_is_not_reached():
    """Followers name a leader that does not answer here, and the peers of none can be read: it is heard from, and is not
    removed as failed. Nothing but what the followers say shows that."""
    with HiddenCluster(3, ["n4"]).running() as cluster:
        one, other, hidden = cluster.first
        cluster.let_lead(hidden)
        with open(f"{cluster.folder}/hiding", "w", encoding="utf-8") as script:
            script.write(f'exec {shlex.join(cluster.etcdctl)} "$@"\n')
        refuses(cluster, "a leader that followers name", "n3 does not answer at https://127.0.0.1:1, but n1 and n2 hear from it, so it has not failed. "
                "If it is reached elsewhere: --client-url n3=URL", "replace", "n3", "--with", f"n4={cluster['n4'].peer}", "--yes", "--limit", "1",
                "--peer-proxy", endpoints=[one, other], etcdctl=["sh", script.name])
        cluster.check_end("n1 n2 n3")


class UserCluster(Cluster):
    """A cluster that asks who calls. Later releases of 3.5 also ask who wants to know the members or the status."""

    asks = False

    def after_start(self):
        self.wait_for_leader()
        for words in (["user", "add", "root:secret"], ["user", "grant-role", "root", "root"], ["auth", "enable"]):
            wait_for(" ".join(words), lambda: self.etcdctl_at(self["n1"], *words))
        self.variables = {**self.variables, "ETCDCTL_USER": "root:secret"}
        self.asks = True

    def wait_for_leader(self):
        wait_for("a server leads", self.leader)

    def token(self, server):
        try:
            return self.asks and self.ask(server, "auth/authenticate", {"name": "root", "password": "secret"})["token"]
        except UNANSWERED:
            return None


# etcdctl, as if servers wanted to know who asks for their status.
ASKING = """case " $* " in *" endpoint status "*)
  [ -n "$ETCDCTL_USER" ] || { echo 'Error: etcdserver: user name is empty' >&2; exit 1; } ;;
esac
exec etcdctl "$@"
"""


# As if they gave it to root alone.
DENYING = """case " $* " in *" endpoint status "*) echo 'Error: etcdserver: permission denied' >&2; exit 1 ;; esac
exec etcdctl "$@"
"""


def users():
    """A failed server is replaced where each call needs a user. The password is not printed."""
    with UserCluster(3, ["n4"]).running() as cluster:
        cluster["n3"].kill()
        cluster.wait_for_leader()
        words = ["replace", "n3", "--with", f"n4={cluster['n4'].peer}", "--yes", "--start", start_command(cluster)]
        cluster.variables["ETCDCTL_USER"] = "root"
        refuses(cluster, "without a password", "ETCDCTL_USER is root: give the password too, in ETCDCTL_PASSWORD or as ETCDCTL_USER=root:PASSWORD", *words,
                status=2)
        del cluster.variables["ETCDCTL_USER"]
        status, _, error = run(cluster, *words)
        holds(f"without a user nothing is changed, status {status}: {error}", status == 1 and error.endswith("(give the user and the password: ETCDCTL_USER=root:PASSWORD)\n"))
        output = succeeds(cluster, *words, etcdctl=["etcdctl", "--user", "root:secret"])
        status, _, error = run(cluster, "add", f"transport-db4=http://127.0.0.1:{next(PORTS)}", "--yes", "--limit", "5")
        holds(f"a name that is like an error is none, and is not tried again: {error}", status == 1 and "gave up" not in error
              and error.endswith("(give the user and the password: ETCDCTL_USER=root:PASSWORD)\n"))
        holds(f"the password is not printed:\n{output}", "secret" not in output and "member promote" in output)
        cluster.variables["ETCDCTL_USER"] = "root:secret"
        output = succeeds(cluster, *words)
        holds(f"by the environment, nothing is left: {output}", "there is nothing to do" in output)
        with open(f"{cluster.folder}/asking", "w", encoding="utf-8") as script:
            script.write(ASKING)
        output = succeeds(cluster, "status", etcdctl=["sh", script.name])
        holds(f"the status needs a user: {output}", "3 of 3 voters answer" in output)
        with open(f"{cluster.folder}/denying", "w", encoding="utf-8") as script:
            script.write(DENYING)
        status, output, error = run(cluster, "status", etcdctl=["sh", script.name])
        holds(f"a user who may not see it, status {status}: {output}{error}", status == 1 and "endpoint status --write-out=json: etcdserver: permission denied (give the user "
              "and the password: " in output + error)
        del cluster.variables["ETCDCTL_USER"]
        status, output, _ = run(cluster, "status")
        holds(f"without a user it is not known whether writes are taken, status {status}: {output}", status == 4 and "whether the cluster takes writes is not "
              "known: " in " ".join(output.split()))
        cluster.check_end("n1 n2 n4")


TESTS = (certificates, leader_is_not_reached, users)
