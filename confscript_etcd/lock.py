"""One run at a time: a key that says who changes the members. Its lease ends it if the run does."""
import base64
import contextlib
import getpass
import json
import os
import re
import socket
import time

from .output import note, now
from .reasons import Stop

KEY = "confscript-etcd/run"
# Seconds that the key lives without its run, and after which the run renews its lease.
TIME_TO_LIVE, RENEWED = 60, 20


class Lock:
    """The key of a run on a cluster. Where it cannot be written, the run goes on without it, and says so."""

    def __init__(self, cluster, words):
        self.cluster, self.lease, self.renewed = cluster, None, 0
        self.text = f"{user()}@{socket.gethostname()}, process {os.getpid()}, since {now()}: {words}"

    def take(self):
        """Takes the key. Refused if another run has it that is not known to have ended."""
        lease = None
        try:
            lease = self.answer("lease", "grant", str(TIME_TO_LIVE))["ID"]
            holder = self.put(lease)
        except Stop as reason:
            self.revoke(lease)
            if "permission denied" not in str(reason) and self.cluster.etcdctl.is_nameless(str(reason)):
                raise  # who may change the members has to say who it is
            note(f"the key {KEY} cannot be written, so another run would not be noticed: {reason}")
            return
        if holder:
            self.revoke(lease)
            raise Stop(f"another run changes the members: {holder}. If it was killed, its key {KEY} ends within {TIME_TO_LIVE} s")
        self.lease, self.renewed = lease, time.monotonic()

    def put(self, lease):
        """Puts the key, unless another run has it. Returns who has it, or None."""
        revision = 0
        for _ in range(3):
            given = f"mod(\"{KEY}\") = \"{revision}\"\n\nput --lease={lease:x} {KEY} {json.dumps(self.text)}\n\nget {KEY}\n\n"
            answer = self.answer("txn", given=given)
            if answer.get("succeeded"):
                return None
            # The key of the answer to `get` is ResponseRange in 3.4, and response_range in 3.5.
            found = next(iter(answer["responses"][0]["Response"].values())).get("kvs")
            holder = base64.b64decode(found[0]["value"]).decode(errors="replace") if found else "one that is not known"
            if found and not is_dead(holder):
                break
            revision = found[0]["mod_revision"] if found else 0
        return holder

    def renew(self):
        """Renews the lease, if it is time to. Takes the key again if it has ended."""
        if self.lease is None or time.monotonic() < self.renewed + RENEWED:
            return
        self.renewed = time.monotonic()
        try:
            self.cluster.etcdctl.run(["lease", "keep-alive", "--once", f"{self.lease:x}"], self.cluster.seen)
        except Stop as reason:
            if "lease not found" in str(reason):
                self.take()

    def release(self):
        self.revoke(self.lease)
        self.lease = None

    def revoke(self, lease):
        if lease is not None:
            with contextlib.suppress(Stop):  # it ends by itself
                self.cluster.etcdctl.run(["lease", "revoke", f"{lease:x}"], self.cluster.seen)

    def answer(self, *words, given=None):
        return self.cluster.etcdctl.answer(list(words), self.cluster.seen, given=given)


def holder(cluster):
    """Who changes the members of a cluster now. None if no one does, or if it is not known."""
    try:
        found = cluster.etcdctl.answer(["get", KEY], cluster.seen).get("kvs")
    except Stop:
        return None
    text = base64.b64decode(found[0]["value"]).decode(errors="replace") if found else None
    return None if text and is_dead(text) else text


def is_dead(holder):
    """Whether a run is known to have ended: one of this machine whose process is not there."""
    found = re.match(r"[^@]*@(\S+), process (\d+), ", holder)
    if not found or found[1] != socket.gethostname():
        return False
    try:
        os.kill(int(found[2]), 0)
    except ProcessLookupError:
        return True
    except OSError:
        pass
    return False


def user():
    try:
        return getpass.getuser()
    except (OSError, KeyError, ImportError):
        return str(os.getuid())
