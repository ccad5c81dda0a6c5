"""What `status` shows when nothing can be written, or nothing is reached: why, who is left with how much, and what to do, with the
commands for this cluster."""
import shlex

from . import reach
from .cluster import at_once
from .output import paragraph, say
from .reasons import clause, listed, verb
from .sizes import size_text
from .table import lines_of

GUIDE = "ETCD.md, 'If quorum is lost'"


def show(report):
    """Shows why nothing can be written, and what to do."""
    view = report.view
    if report.without_space():
        show_without_space(report)
    elif len(view.answering_voters()) < view.majority():
        show_without_quorum(report)
    elif not any(view.has_leader(member) for member in view.voters):
        show_cut_off(report)
    else:
        paragraph(f"Nothing can be written: {report.why_not}")


def show_rows(rows):
    for line in lines_of(rows):
        say(f"  {line}")


def say_command(text):
    say(f"  {text}")


def row(view, member, *more):
    """What a voter says of itself, and more about it."""
    status = view.statuses.get(member.id)
    found = [str(status.term), str(status.committed), str(status.applied), size_text(status.size)] if status else ["-"] * 4
    return [member.label, *found, *more]


HEADINGS = ("voter", "term", "committed", "applied", "database")


# Fewer than a majority answer


def show_without_quorum(report):
    cluster, view = report.cluster, report.view
    up, silent = view.answering_voters(), view.silent_voters()
    reasons = dict(zip((member.id for member in silent), at_once(lambda member: reason_text(cluster, member), silent)))
    paragraph(f"Quorum is lost: {clause((it.label for it in up), 'answers', 'answer')}, and a majority is {view.majority()} of {len(view.voters)}. "
              "Nothing can be written, and no member can be added or removed.")
    show_rows([[*HEADINGS, "from here"], *(row(view, member, reasons.get(member.id, "answers")) for member in view.voters)])
    newest = max(up, key=lambda member: (view.statuses[member.id].committed, view.statuses[member.id].applied))
    if len(up) > 1:
        paragraph(f"{newest.label} has the most of those that answer.")
    show_bringing_back(cluster, view, silent, reasons)
    show_restoring(cluster, view, newest)


def reason_text(cluster, member):
    """Why a member gives no answer at its client URLs."""
    found = cluster.why_silent(cluster.clients_of(member))
    if reach.HANGS in found.values() and not all(cluster.why_peers_are_silent(member).values()):
        found = {url: reach.WAITS if reason == reach.HANGS else reason for url, reason in found.items()}
    return ", ".join(f"{url}: {reason or 'answers, and is not this member'}" for url, reason in found.items()) or "has no client URL"


def show_bringing_back(cluster, view, silent, reasons):
    missing = view.majority() - len(view.answering_voters()) - sum(reach.WAITS in reason for reason in reasons.values())
    down = [member for member in silent if reach.WAITS not in reasons[member.id]] or silent
    paragraph(f"1. Start {' or '.join(it.label for it in down)} again as before, with its data: {missing} more {'is' if missing == 1 else 'are'} enough, "
              "and nothing that was acknowledged is lost. Keep one stopped whose data is lost: with an empty data directory it would vote a second time.")
    hanging = [member.label for member in silent if reach.HANGS in reasons[member.id]]
    if hanging:
        paragraph(f"{listed(hanging)} {verb(hanging, 'hangs', 'hang')}: end {verb(hanging, 'its process', 'their processes')} first (kill -9).")
    paragraph("If they run, and only this host does not reach them, name their client URLs (--endpoints, --client-url NAME=URL). Then this shows who is "
              "still missing, and how to replace it:")
    say_command(cluster.suggestion("status"))


def show_restoring(cluster, view, newest):
    status, file = view.statuses[newest.id], f"outage-{cluster.id:x}.db"
    paragraph(f"2. Only if no majority comes back with its data: restore the keys into a new cluster. What {newest.label} does not have is lost. Save its "
              f"keys, which are of revision {status.revision}, or take a backup of a later revision:")
    say_command(cluster.etcdctl.shown(["snapshot", "save", file], [status.url]))
    paragraph("Stop all servers that are left. On each host, with a copy of that file:")
    peers = ",".join(f"{member.label}={url}" for member in view.voters for url in member.peers)
    for member in view.voters:
        say_command(shlex.join([
            "etcdctl", "snapshot", "restore", file, "--name", member.label, "--data-dir", f"{member.label}.restored", "--initial-cluster", peers,
            "--initial-cluster-token", f"restored-{cluster.id:x}", "--initial-advertise-peer-urls", ",".join(member.peers)]))
    paragraph(f"Start each server with its new data directory. More is in {GUIDE}.")


# All answer, and there is no leader


def show_cut_off(report):
    cluster, view = report.cluster, report.view
    up = view.answering_voters()
    paragraph(f"{clause((it.label for it in up), 'answers and has', 'answer and have')} no leader, so nothing can be written. If that lasts for more than "
              "an election, a few seconds, they do not reach each other at their peer URLs. Nothing is lost: as soon as a majority does, they elect one.")
    peers = {url: reason for found in at_once(cluster.why_peers_are_silent, view.voters) for url, reason in found.items()}
    show_rows([[*HEADINGS, "peer URL", "from here"],
               *(row(view, member, url, peers[url] or "can be reached") for member in view.voters for url in member.peers)])
    paragraph("Check on each server that it reaches the peer URLs of the others:")
    for url in peers:
        certificates = " --cacert PEER_CA --cert PEER_CERT --key PEER_KEY" if url.startswith("https:") else ""
        say_command(f"curl{certificates} {url}/version")
    paragraph("If not, look at the firewall and the network between them, and whether their names resolve.")
    if any(url.startswith("https:") for url in peers):
        paragraph("And at the certificates for peers (--peer-cert-file, --peer-trusted-ca-file), whether they have expired:")
        say_command("openssl x509 -noout -enddate -in PEER_CERT")
    paragraph("The log of each server says why it does not reach a peer.")


# The databases are full


def show_without_space(report):
    cluster, view = report.cluster, report.view
    full, leader = [name for name, alarm in report.alarms if alarm == "NOSPACE"], view.leader()
    last_is_leader = sorted(view.answering_voters(), key=lambda member: member == leader)
    urls = [view.statuses[member.id].url for member in last_is_leader]
    paragraph(f"{clause(full, 'has', 'have')} the alarm NOSPACE: the database has reached its quota. Keys can be read and deleted, and none can be put.")
    paragraph("1. Drop the history of the keys up to now. Who watches from an earlier revision has to begin anew:")
    say_command(cluster.etcdctl.shown(["compact", str(max(view.statuses[member.id].revision for member in last_is_leader))], urls[-1:]))
    paragraph("2. Give the space back, one server after another, each of which answers nothing meanwhile:")
    timeout = ["--command-timeout=10m"] if cluster.etcdctl.option("command-timeout") is None else []
    for url in urls:
        say_command(cluster.etcdctl.shown(["defrag", *timeout], [url]))
    paragraph("3. When the databases are smaller, as this command shows, end the alarm:")
    say_command(cluster.etcdctl.shown(["alarm", "disarm"], urls[-1:]))
    paragraph("If they are not, the keys themselves take the space: delete some and do it again, or start the servers with a larger --quota-backend-bytes.")


# Nothing is reached


def show_unreachable(cluster, reason):
    """What to do if no server answers."""
    found = [text for text in (*reason.silent.values(), reason.error) if text]
    if any("expired" in text and "refuses" not in text for text in found):
        paragraph("The certificate of a server has expired. Renew it on that server; etcd reads the file again at each connection. When it ends:")
        say_command("openssl x509 -noout -enddate -in CERT")
        show_past_certificate(cluster)
    elif any("its certificate is refused" in text or "x509" in text for text in found):
        paragraph("The certificate of a server is not of an authority, or not for a host, that etcdctl trusts. Give the authority of the servers: "
                  "--etcdctl 'etcdctl --cacert CA', and the names or addresses that their certificates have.")
        show_past_certificate(cluster)
    elif any("certificate of this client" in text or "remote error: tls" in text for text in found):
        paragraph("The servers refuse the certificate of this client. Give one that they accept and that has not expired: "
                  "--etcdctl 'etcdctl --cacert CA --cert CERT --key KEY'. When it ends:")
        say_command("openssl x509 -noout -enddate -in CERT")
    elif all(reason.silent.values()):
        show_all_dead(reason)


def show_past_certificate(cluster):
    if not cluster.etcdctl.has_flag("insecure-skip-tls-verify"):
        paragraph("To see the cluster meanwhile, without knowing who answers:")
        say_command(cluster.suggestion("status", flag="--insecure-skip-tls-verify"))


def show_all_dead(reason):
    hanging = [url for url, text in reason.silent.items() if text == reach.HANGS]
    paragraph("If these are client URLs of the cluster, all of these servers are down, or cut off from this host. Nothing can be written before a majority "
              "of the voters runs.")
    if hanging:
        paragraph(f"At {listed(hanging)} a server takes connections and answers nothing. If it has just started, it waits for a majority of the voters: start "
                  "the others. If not, it hangs: see whether its disk is full, end its process (kill -9), and start it again.")
    paragraph("On each host, look whether etcd runs and what its log says (systemctl status etcd; journalctl -u etcd), and start it again with the data that "
              "it has, as before. Nothing that was acknowledged is lost then. Never start one with an empty data directory: it would vote a second time.")
    paragraph(f"Only if the data of a majority is lost, restore a snapshot: {GUIDE}.")
