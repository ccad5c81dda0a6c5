"""What members report at /metrics and at /debug/vars, beside their client URLs."""
import http.client
import json
import re
import ssl
import urllib.request
from typing import Dict, FrozenSet, NamedTuple, Optional

# Why something cannot be read.
FAILURES = (OSError, ValueError, http.client.HTTPException)
ACTIVE = re.compile(r'(?m)^etcd_network_active_peers\{Local="[0-9a-f]+",Remote="([0-9a-f]+)"\} ([0-9.e+]+)$')
RECEIVED = re.compile(r'(?m)^etcd_network_peer_received_bytes_total\{From="([0-9a-f]+)"\} ([0-9.e+]+)$')
COMMITTED = re.compile(r"(?m)^etcd_server_proposals_committed_total ([0-9.e+]+)$")


class Reading(NamedTuple):
    """What a member reports at one moment: with which peers it has connections, how many bytes came from each, and which
    index is committed. A leader also reports the match of each member, and which ones are sent a snapshot. `match` is None
    if /debug/vars cannot be read or the member does not lead."""

    active: FrozenSet[int]
    received: Dict[int, float]
    committed: int
    match: Optional[Dict[int, int]]
    snapshots: FrozenSet[int]


def context_of(etcdctl):
    """The certificates that etcdctl is given, for a connection of this process. None if they cannot be used here."""
    try:
        context = ssl.create_default_context(cafile=etcdctl.option("cacert"))
        if etcdctl.option("cert"):
            context.load_cert_chain(etcdctl.option("cert"), etcdctl.option("key"))
    except (OSError, ValueError):
        return None
    if etcdctl.has_flag("insecure-skip-tls-verify"):
        context.check_hostname, context.verify_mode = False, ssl.CERT_NONE
    return context


def read(url, metrics_url, context):
    """What the server at a client URL reports. None if its metrics cannot be read."""
    text = page(f"{metrics_url}/metrics", context)
    committed = COMMITTED.search(text or "")
    if not committed:
        return None
    active = frozenset(int(id, 16) for id, count in ACTIVE.findall(text) if float(count) > 0)
    received = {int(id, 16): float(count) for id, count in RECEIVED.findall(text)}
    reading = Reading(active, received, int(float(committed[1])), None, frozenset())
    try:
        raft = json.loads(page(f"{url}/debug/vars", context) or "{}")["raft.status"]
        progress = {int(id, 16): it for id, it in raft["progress"].items()}
        return reading._replace(committed=raft["commit"], match={id: it["match"] for id, it in progress.items()} if progress else None,
                                snapshots=frozenset(id for id, it in progress.items() if it["state"] == "StateSnapshot"))
    except (ValueError, KeyError, TypeError, AttributeError):
        return reading


def cluster_at(peer_url, context):
    """The id of the cluster of the server at a peer URL. None if it does not say."""
    try:
        return int(opened(f"{peer_url}/members", context).headers["X-Etcd-Cluster-Id"], 16)
    except (*FAILURES, TypeError):
        return None


def opened(url, context, seconds=3, body=None):
    """The answer to a request at a URL, with a body if it is given."""
    handlers = [urllib.request.ProxyHandler({}), *([urllib.request.HTTPSHandler(context=context)] if context else [])]
    return urllib.request.build_opener(*handlers).open(url, body, timeout=seconds)


def page(url, context):
    """The text at a URL. None if it cannot be read."""
    try:
        with opened(url, context, 5) as answer:
            return answer.read(1 << 24).decode(errors="replace")
    except FAILURES:
        return None
