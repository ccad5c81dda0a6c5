"""The list of members that a server has itself. No majority confirms it, so it may be old; where a majority is lost, it is all
there is. From etcd 3.5 on etcdctl does not ask for it."""
import http.client
import json
from typing import NamedTuple, Tuple

from .metrics import opened
from .servers import Member, address

# The port at which peers are reached unless it is configured.
PEER_PORT = 2380


class OwnList(NamedTuple):
    """The id of a cluster, and its members."""

    cluster: int
    members: Tuple[Member, ...]


def own_list(url, context, seconds):
    """The list of the server at a client URL: by etcd's gateway for JSON or, where that is off or wants to know who asks, by
    what peers are answered at the same host. None if there is neither."""
    return by_gateway(url, context, seconds) or by_peers(f"{url.partition(':')[0]}://{host(url)}:{PEER_PORT}", context, seconds)


def host(url):
    name = address(url)[0]
    return f"[{name}]" if ":" in name else name


def by_gateway(url, context, seconds):
    def read(answer):
        found = json.load(answer)
        members = [Member(int(it["ID"]), it.get("name", ""), tuple(it["peerURLs"]), tuple(it.get("clientURLs", ())), it.get("isLearner", False))
                   for it in found["members"]]
        return OwnList(int(found["header"]["cluster_id"]), tuple(members))

    return asked(f"{url}/v3/cluster/member/list", b"{}", context, seconds, read)


def by_peers(url, context, seconds):
    def read(answer):
        members = [Member(it["id"], it.get("name", ""), tuple(it["peerURLs"]), tuple(it.get("clientURLs", ())), it.get("isLearner", False))
                   for it in json.load(answer)]
        return OwnList(int(answer.headers["X-Etcd-Cluster-Id"], 16), tuple(members))

    return asked(f"{url}/members", None, context, seconds, read)


def asked(url, body, context, seconds, read):
    """What is read of an answer. None if there is none, or if it is not a list of members."""
    try:
        with opened(url, context, seconds, body) as answer:
            return read(answer)
    except (OSError, ValueError, KeyError, TypeError, http.client.HTTPException):
        return None
