"""What is refused before a change, since the change would do harm. Nothing here changes the cluster."""
import ipaddress
import socket

from .metrics import cluster_at
from .reasons import NotYet, Settling, Stop, Unsettled, clause, listed, verb
from .reports import UNREAD, Doubt
from .servers import address, answers_at, is_named, unreachable


def is_declared(member, options):
    """Whether the operator says that a member failed, whatever is seen of it."""
    return is_named(member, getattr(options, "failed", ()))


def may_be_up(member, view, options):
    """Whether a member that is named as failed may be up."""
    doubtful = view.doubt(member) and not is_declared(member, options)
    return view.answers(member) or bool(view.heard_by(member)) or doubtful or not options.peer_proxy and any(map(answers_at, member.peers))


def unknown(view, *members):
    """That it is not known whether others hear from members, and why."""
    return f"whether the other members hear from {listed(member.label for member in members)} is not known: {view.doubt(members[0]).value}"


def refuse_up(member, view, cluster, options):
    """Refuses to take a member for failed that may be up: it answers, others hear from it or it is not known that they do
    not, or something answers at its peer URL."""
    if view.answers(member):
        raise Stop(f"{member.label} answers, so nothing is changed. Stop it if it failed; a healthy one needs --healthy")
    silent = f"{member.label} does not answer at {' or '.join(cluster.clients_of(member)) or 'a client URL'}"
    hearers = view.heard_by(member)
    if hearers:
        raise Settling(f"{silent}, but {clause(hearers, 'hears', 'hear')} from it, so it has not failed. "
                       f"If it is reached elsewhere: {cluster.client_hint(member)}")
    refuse_doubt(member, view, cluster, options, silent)
    urls = [url for url in member.peers if answers_at(url)]
    if urls and not options.peer_proxy:
        raise Stop(f"{silent}, but something answers at its peer URL {listed(urls)}, so it may be up. Stop it; or give the URL at which it answers "
                   f"({cluster.client_hint(member)}), or --peer-proxy if that is a proxy")


def refuse_doubt(member, view, cluster, options, silent):
    """Refuses to take a member for failed while it is not known whether others hear from it, unless the operator says so. On
    an idle cluster that is known once the run has written its key."""
    doubt = view.doubt(member)
    if doubt is Doubt.EARLY:
        raise Unsettled(f"{silent}, and {unknown(view, member)}")
    if doubt and not is_declared(member, options) and (doubt is not Doubt.IDLE or cluster.has_written):
        elsewhere = " If they are read elsewhere: --metrics-url NAME=URL." if doubt in UNREAD else ""
        raise Settling(f"{silent}, and {unknown(view, member)}.{elsewhere} If you know that {member.label} failed and does not come back: "
                       f"--failed {member.label}")


def refuse_silent(silent):
    """Refuses a change while these voters are silent, and not named as failed."""
    names = [member.label for member in silent]
    if names:
        raise Stop(f"{clause(names, 'does', 'do')} not answer and {verb(names, 'is', 'are')} not named, so nothing is changed. "
                   "Name each server that failed, or bring it back (--client-url NAME=URL if one is reached elsewhere)")


def refuse_cut_off(view):
    names = [member.label for member in view.voters if view.is_cut_off(member)]
    if names:
        kind = Settling if view.leader() else Unsettled
        raise kind(f"{clause(names, 'answers and has', 'answer and have')} no leader: {verb(names, 'it is', 'they are')} "
                   "cut off from the others, or all are electing one")


def refuse_without_quorum(view, cluster):
    voters, up = view.voters, view.answering_voters()
    if len(up) >= view.majority():
        return
    heard = [member for member in view.silent_voters() if view.heard_by(member)]
    if len(up) + len(heard) >= view.majority():
        names, urls = [member.label for member in heard], dict.fromkeys(url for member in heard for url in cluster.clients_of(member))
        raise Settling(f"{clause(names, 'does', 'do')} not answer at {' or '.join(urls)}, but others hear from {verb(names, 'it', 'them')}, "
                       f"so a majority is up. Give the URLs at which {verb(names, 'it answers', 'they answer')} (--client-url NAME=URL, or --endpoints)")
    doubtful = [member for member in view.silent_voters() if view.doubt(member)]
    if len(up) + len(heard) + len(doubtful) >= view.majority():
        names = [member.label for member in doubtful]
        kind = Unsettled if view.doubt(doubtful[0]) is Doubt.EARLY else Settling
        raise kind(f"{clause(names, 'does', 'do')} not answer here, and {unknown(view, *doubtful)}. Give the URLs at which "
                       f"{verb(names, 'it answers', 'they answer')} (--client-url NAME=URL, or --endpoints)")
    raise Stop(f"{len(up)} of {len(voters)} voters answer, and {view.majority()} are a majority, so no change of members "
               "can be made. Bring servers back, or restore a snapshot (ETCD.md, 'If quorum is lost'; --client-url NAME=URL if one is reached elsewhere)")


def refuse_alarms(alarms, cluster):
    if alarms:
        found = listed(f"{name} has the alarm {alarm}" for name, alarm in alarms)
        raise Stop(f"{found}, so nothing is changed. This shows what to do: {cluster.suggestion('status')}")


# New servers


def refuse_wrong_server(name, member, cluster):
    """Waits where another server answers at the client URL of a new member, or one of another cluster at its peer URL."""
    for url in cluster.clients_of(member):
        id, its = cluster.answered.get(url, (member.id, cluster.id))
        if its != cluster.id:
            raise NotYet(f"a server of another cluster ({its:x}) answers at {url}, the client URL of {name}")
        if id != member.id:
            other = next((it.label for it in cluster.members if it.id == id), f"{id:x}")
            raise NotYet(f"{other} answers at {url}, which {name} advertises: start {name} with a client URL of its own (ETCD_ADVERTISE_CLIENT_URLS)")
    for url in member.peers:
        its = cluster_at(url, cluster.context)
        if its not in (None, cluster.id):
            raise NotYet(f"a server of another cluster ({its:x}) answers at {url}: stop it, and start {name} with an empty data directory")


def refuse_unfit(new, staying, members, is_proxied):
    """Refuses a new server that could not join: its peer URLs are of another scheme than those of the members, do not
    resolve, have the address of a member that is still there then, or are in use."""
    schemes = sorted({url.partition(":")[0] for member in members for url in member.peers})
    for url in new.peers:
        if url.partition(":")[0] not in schemes:
            raise Stop(f"{new.name}: {url} is not {listed(schemes)}, as the peer URLs of the members are")
        places = addresses(url)
        if not places:
            raise Stop(f"{new.name}: the host of {url} cannot be resolved here")
        refuse_unusable(new, url, places, staying)
        for member in staying:
            same = [it for it in (*member.peers, *member.clients) if places & addresses(it)]
            if same:
                raise Stop(f"{new.name}: {url} is the address of the member {member.label} ({same[0]})")
        if not is_proxied and unreachable(url) is None:
            is_left = any(url in member.peers for member in members if member not in staying)
            what = "Stop the old server first" if is_left else f"Start {new.name} when it was added, not before"
            raise Stop(f"{new.name}: something listens at {url} already. {what} (--peer-proxy if that is a proxy)")


def refuse_unusable(new, url, places, staying):
    """Refuses a peer URL that names no host, or only the host that uses it, while the members are elsewhere."""
    if any(ipaddress.ip_address(host).is_unspecified for host, _ in places):
        raise Stop(f"{new.name}: no other server reaches {url}. Give the address at which the others reach {new.name}")
    far = [it for member in staying for it in member.peers if not all(is_loopback(place) for place in addresses(it))]
    if far and any(map(is_loopback, places)):
        raise Stop(f"{new.name}: {url} is reached on this host alone, and the members are elsewhere ({far[0]})")


def is_loopback(place):
    return ipaddress.ip_address(place[0]).is_loopback


def refuse_shared(servers):
    """Refuses new servers of which two have one address."""
    taken = {}
    for new in servers:
        for url in new.peers:
            for place in addresses(url):
                other = taken.setdefault(place, url)
                if other != url:
                    raise Stop(f"{url} and {other} are one address")


def addresses(url):
    """The addresses and ports that a URL resolves to here."""
    try:
        return {found[4][:2] for found in socket.getaddrinfo(*address(url), type=socket.SOCK_STREAM)}
    except (OSError, UnicodeError, Stop):
        return set()
