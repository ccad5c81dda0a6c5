"""The command status: who answers, whether the cluster takes writes, and how many more may fail."""
import contextlib
import json
import sys
import time

from . import lock, nagios, outage, reach, table
from .cluster import at_once
from .output import complain, now, paragraph, say
from .reasons import Leaderless, Stop, Unreachable, clause, listed, sentence, verb
from .refusals import unknown
from .reports import UNREAD, Doubt

# The exit statuses beside 0 and those of all commands: writes are taken and something is amiss, and writes are not taken.
DEGRADED, WITHOUT_QUORUM = 4, 5
# Seconds between two looks of --watch, and seconds for what is seen by several looks.
PAUSE, LOOKING = 5, 15


class Report:
    """What a look at a cluster shows. `takes_writes` is None if it is not known. `why_not` is why it takes none, or why that is
    not known. `run` is who changes the members now, if that is known."""

    def __init__(self, cluster, view):
        self.cluster, self.view = cluster, view
        ask = (lambda: cluster.alarms(view), lambda: cluster.read_errors(view), lambda: lock.holder(cluster))
        self.alarms, errors, self.run = at_once(lambda each: each(), ask)
        self.takes_writes, self.why_not = True, None
        if not any(error is None for error in errors.values()):
            self.takes_writes = None if all(cluster.etcdctl.is_nameless(error) for error in errors.values()) else False
            self.why_not = "; ".join(f"{member.label}: {errors[member.id]}" for member in view.members if member.id in errors)
        elif self.alarms:
            self.takes_writes, self.why_not = not self.without_space(), listed(f"{name}: {it}" for name, it in self.alarms)

    def without_space(self):
        return any(alarm == "NOSPACE" for _, alarm in self.alarms)

    @property
    def status(self):
        if self.takes_writes is False:
            return WITHOUT_QUORUM
        view = self.view
        fine = all(view.answers(member) and not view.is_cut_off(member) for member in view.members) and not self.alarms and view.leader() and self.takes_writes
        return 0 if fine else DEGRADED

    def is_past(self):
        """Whether another member leads by now: a read waits while one is elected, and who was up before that may be down."""
        leader = self.view.leader()
        return self.takes_writes and not (leader and self.view.answers(leader)) and self.cluster.look().leader() != leader

    def is_list_confirmed(self):
        """Whether a majority confirmed the list of members. Servers of 3.4 give what they have also where there is no leader."""
        return self.cluster.is_confirmed and self.view.leader() is not None

    def may_fail(self):
        """How many more voters may fail."""
        return max(0, len(self.view.voters_up()) - self.view.majority()) if self.takes_writes is not False else 0

    def leads(self):
        """Who leads, and whether writes are taken."""
        leader = self.view.leader()
        if self.takes_writes and not leader:
            return "The cluster takes writes, and its leader changed while it was looked at"
        writes = {True: "the cluster takes writes", None: "whether the cluster takes writes is not known", False: "nothing can be written"}
        return f"{f'{leader.label} leads' if leader else 'No leader is known'}, and {writes[self.takes_writes]}"

    def value(self):
        """The report as a value for JSON. Ids are hexadecimal, as etcdctl's tables have them."""
        view, leader = self.view, self.view.leader()
        return {
            "cluster": f"{self.cluster.id:x}",
            "leader": leader and f"{leader.id:x}",
            "takes_writes": self.takes_writes,
            "why_not": self.why_not,
            "voters": len(view.voters),
            "voters_up": len(view.voters_up()),
            "majority": view.majority(),
            "may_fail": self.may_fail(),
            "alarms": [{"member": name, "alarm": alarm} for name, alarm in self.alarms],
            "run": self.run,
            "list_confirmed": self.is_list_confirmed(),
            "status": self.status,
            "members": [self.member_value(member) for member in view.members],
        }

    def member_value(self, member):
        view, status = self.view, self.view.statuses.get(member.id)
        return {
            "id": f"{member.id:x}",
            "name": member.name,
            "role": "learner" if member.is_learner else "voter",
            "has_started": member.has_started,
            "answers": view.answers(member),
            "has_leader": not view.is_cut_off(member) if status else None,
            "heard_by": view.heard_by(member),
            "is_up": None if view.doubt(member) else view.is_up(member),
            "version": status and status.version,
            "term": status and status.term,
            "committed": status and status.committed,
            "applied": status and status.applied,
            "size": status and status.size,
            "peer_urls": list(member.peers),
            "client_urls": list(member.clients),
        }

    def show(self):
        view = self.view
        table.show_untested(view)
        say(f"cluster {self.cluster.id:x}")
        for line in table.member_lines(view):
            say(line)
        if not self.is_list_confirmed():
            paragraph("This list is one that a server has itself, since no majority confirms it.")
        if self.takes_writes is False:
            outage.show(self)
        else:
            paragraph(table.tolerance(view))
            paragraph(f"{self.leads()}{'' if self.takes_writes else f': {self.why_not}'}.")
        if not self.without_space():
            for name, alarm in self.alarms:
                paragraph(f"{name} has the alarm {alarm}.")
        if self.run:
            paragraph(f"A run changes the members now: {self.run}.")
        self.show_members()

    def show_members(self):
        """Shows what is amiss with single members."""
        failed, waiting = [], []
        for member in self.view.members:
            if not member.has_started:
                waiting.append(member)
            elif self.view.heard_by(member):
                self.show_heard(member)
            elif self.view.is_cut_off(member) and self.view.leader():
                self.show_cut_off(member)
            elif not self.view.answers(member) and self.takes_writes is not False:
                self.show_silent(member)
                failed += [] if member.is_learner else [member]
        if failed and self.takes_writes is not False:
            self.suggest_replacing(failed)
        for member in waiting:
            self.show_waiting(member, failed)

    def show_heard(self, member):
        hearers, urls = self.view.heard_by(member), " or ".join(self.cluster.clients_of(member))
        paragraph(f"{member.label} does not answer at {urls}, but {clause(hearers, 'hears', 'hear')} from it: it is up. "
                  f"If it is reached elsewhere: {self.cluster.client_hint(member)}")

    def show_cut_off(self, member):
        found = "; ".join(f"{url}: {reason or 'can be reached from here'}" for url, reason in self.cluster.why_peers_are_silent(member).items())
        paragraph(f"{member.label} answers and has no leader: it is cut off from the others. Its peer URL is {found}. Look at the network between them, "
                  "its certificates for peers and its log.")

    def show_silent(self, member):
        view = self.view
        reason = outage.reason_text(self.cluster, member)
        paragraph(f"{member.label} does not answer: {reason}.")
        if reach.HANGS in reason:
            paragraph(f"{member.label} hangs. Before you replace it, end its process for good (kill -9), so that it does not come back.")
        elif view.hangs(member):
            paragraph(table.hanging(member))
        is_seen = reach.HANGS in reason and view.doubt(member) is Doubt.EARLY
        if view.doubt(member) and not member.is_learner and not is_seen:
            paragraph(sentence(unknown(view, member)))

    def suggest_replacing(self, failed):
        words, unread = ([self.view.word(it) for it in failed if self.view.doubt(it) in doubts] for doubts in ((None, *Doubt), UNREAD))
        say(f"If {listed(it.label for it in failed)} failed, replace {verb(failed, 'it', 'them')}:")
        more = ["--failed", ",".join(unread)] if unread else []
        say(self.cluster.suggestion("replace", ",".join(words), "--with", ",".join(["NAME=URL"] * len(failed)), *more))

    def show_waiting(self, member, failed):
        """A member that was added and has not started. It is taken out with the voters that failed, since etcd adds no other."""
        paragraph(f"{member.label} ({', '.join(member.peers)}) was added and has not started. Start it with the settings of its addition; or take it out:")
        say(self.cluster.suggestion("remove", ",".join([*map(self.view.word, failed), self.view.word(member)])))


def show_report(report, form):
    """Shows a report in a form. The exit status."""
    if form == "nagios":
        return nagios.show(report)
    if form == "json":
        say(json.dumps(report.value()))
    else:
        report.show()
    return report.status


def show_stopped(reason, form, cluster=None):
    """Shows why there is no report. The exit status."""
    if form == "nagios":
        return nagios.stopped(reason)
    number = WITHOUT_QUORUM if isinstance(reason, Leaderless) else reason.status
    if form == "json":
        say(json.dumps({"takes_writes": False if number == WITHOUT_QUORUM else None, "why_not": str(reason), "status": number}))
        return number
    complain(f"confscript-etcd: {reason}")
    if isinstance(reason, Unreachable):
        outage.show_unreachable(cluster, reason)
    return number


def show(cluster, form, limit):
    """Shows the cluster as it is now. The exit status."""
    cluster.begin(limit)
    with nagios.ending_within(limit) if form == "nagios" else contextlib.nullcontext():
        report, stopped = looked_at(cluster)
    return show_stopped(stopped, form, cluster) if stopped else show_report(report, form)


def report_of(cluster):
    return Report(cluster, cluster.look_until_known(cluster.etcdctl.seconds(LOOKING)))


def looked_at(cluster):
    """The report of a look, or why there is none. It looks once more if another member was elected meanwhile."""
    try:
        report = report_of(cluster)
        return report_of(cluster) if report.is_past() else report, None
    except Stop as reason:
        return None, reason


def watch(cluster, form, limit):
    """Shows the cluster again and again, until it is interrupted. The exit status is that of the last look."""
    status = 0
    try:
        while True:
            if form == "text":
                say(f"\x1b[2J\x1b[H{now()}" if sys.stdout.isatty() else now())
            status = show(cluster, form, limit)
            time.sleep(PAUSE)
    except KeyboardInterrupt:
        return status
