"""A cluster, as etcdctl shows it."""
import json
import math
import shlex
import time
from concurrent.futures import ThreadPoolExecutor

from .etcdctl import without_user
from .metrics import context_of, read
from .reach import why_peer_is_silent, why_silent
from .reasons import Leaderless, NotYet, Settling, Stop, Unreachable, Unsettled, clause
from .reports import Doubt, Heard, Reports
from .servers import Member, answers_at, unreachable, word_for
from .view import Status, View


ALARMS = {1: "NOSPACE", 2: "CORRUPT"}


def at_once(ask, each):
    """What is answered for each of these, which are asked at the same time."""
    with ThreadPoolExecutor(max_workers=16) as pool:
        return list(pool.map(ask, each))


def sorted_members(members):
    """Members in the order of their names. Those without one come last."""
    return tuple(sorted(members, key=lambda member: (not member.name, member.name, member.id)))


def urls_of(member, urls):
    """The URLs that are given for a member, by its name or its id."""
    return next((urls[key] for key in (member.name, f"{member.id:x}") if key in urls), ())


class Cluster:
    """A cluster, as etcdctl shows and changes it. `urls` are the client URLs of members, by name or id, that are not
    reached at those that they advertise, and `metrics_urls` where their metrics are read, if not there."""

    def __init__(self, etcdctl, endpoints, urls, metrics_urls):
        self.etcdctl, self.endpoints, self.urls, self.metrics_urls = etcdctl, tuple(endpoints), urls, metrics_urls
        self.context, self.id = context_of(etcdctl), None
        # The members that were listed last.
        self.members = ()
        # The client URLs of the voters that answered last. Who answered at each URL then: the ids of a server and of its cluster.
        self.seen, self.answered = (), {}
        # The client URLs at which something takes connections, and gave no status: etcdctl would wait for one each time.
        self.silent = set()
        # Why servers refused to say their status at the last look.
        self.refusal = None
        # What members report if one does not answer, and whether this run has written something since it looked first.
        self.reports, self.has_written = Reports(), False

    def clients_of(self, member):
        """The client URLs at which a member is reached."""
        return urls_of(member, self.urls) or member.clients

    def list_at(self, urls):
        """The members as a server at one of these client URLs lists them, in the order of their names."""
        try:
            answer = self.etcdctl.answer(["member", "list"], urls)
        except NotYet as reason:
            raise Unreachable(self.why_silent(urls), str(reason).partition(": ")[2]) from None
        cluster = answer["header"]["cluster_id"]
        if self.id not in (None, cluster):
            raise Stop(f"{', '.join(urls)} is of the cluster {cluster:x}, and others are of {self.id:x}")
        self.id = cluster
        return sorted_members(Member(it["ID"], it.get("name", ""), tuple(it["peerURLs"]), tuple(it.get("clientURLs", ())), it.get("isLearner", False))
                              for it in answer["members"])

    def why_silent(self, urls):
        """Why there is no answer at each of these client URLs. None where there is one."""
        context = self.context if self.etcdctl.shows_certificates() else None
        return dict(zip(urls, at_once(lambda url: why_silent(url, context, self.etcdctl.seconds(3)), urls)))

    def why_peers_are_silent(self, member):
        """Why the others cannot reach a member at each of its peer URLs, as far as it is seen from here. None where they can."""
        return {url: why_peer_is_silent(url, self.context, self.etcdctl.seconds(3)) for url in member.peers}

    def list_at_endpoints(self):
        """The members as a server at one of the endpoints lists them. From 3.5 on etcd's list is current: a server that has
        no leader gives none, so those that have one are asked."""
        try:
            return self.list_at(self.endpoints)
        except NotYet as reason:
            why = reason
        if isinstance(why, Unreachable) and all(why.silent.values()):
            raise why
        answers = dict(zip(self.endpoints, at_once(self.status_at, self.endpoints)))
        leaders = {url: answer[1].leader for url, answer in answers.items() if answer}
        for url in (url for url, leader in leaders.items() if leader):
            try:
                return self.list_at_newest(url)
            except NotYet as reason:
                why = reason
        if not leaders or any(leaders.values()):
            raise why
        silent = [url for url in answers if url not in leaders]
        others = f", and {clause(silent, 'does', 'do')} not answer" if silent else ""
        reason = Leaderless(f"no list of members: {clause(leaders, 'answers and has', 'answer and have')} no leader{others}. Name other "
                            "voters (--endpoints). If a majority of them is down, nothing can be written (ETCD.md, 'If quorum is lost')")
        if len(leaders) > len(silent):
            reason.patience = math.inf  # they may be electing one
        raise reason

    def list_at_newest(self, url):
        """The members as a server lists them that has just answered. If it does not, the cluster may be electing a leader."""
        try:
            return self.list_at([url])
        except NotYet as reason:
            raise Unsettled(f"{url} answers, and gives no list of members: {reason}") from None

    def status_at(self, url, beside=()):
        """The id of the server that answers at a client URL, and its status. None if none does. A learner can't find out who
        asks: the voters with the client URLs `beside` do that for it."""
        if unreachable(url, self.etcdctl.seconds(3)) or (url in self.silent and not answers_at(url, 1)):
            return None
        answers = self.ask_status([url], with_user=False)
        if answers is None and self.etcdctl.has_user():
            # Later releases of 3.5 want to know who asks.
            answers = self.ask_status([url, *beside], with_user=True)
        it = next((answer["Status"] for answer in answers or () if answer["Endpoint"] == url), None)
        (self.silent.discard if it else self.silent.add)(url)
        return it and (it["header"]["member_id"], Status(
            url, it.get("version", ""), it.get("leader", 0), it.get("raftIndex", 0), it.get("raftAppliedIndex", 0), it.get("dbSize", 0),
            it.get("raftTerm", 0), it["header"].get("revision", 0), it["header"]["cluster_id"]))

    def ask_status(self, urls, with_user):
        """The statuses at client URLs. None if servers refuse them, such as to a user who may not see them."""
        try:
            return self.etcdctl.answer(["endpoint", "status"], urls, with_user)
        except NotYet:
            return []
        except Stop as reason:
            if with_user or not self.etcdctl.has_user():
                self.refusal = reason
            return None

    def statuses(self, members, beside=(), endpoints=()):
        """The statuses of the servers that answer at the client URLs of these members or at these endpoints, by their ids. Who
        answers at a URL says so: it may be another member, or a server of another cluster."""
        own, found = {url: member.id for member in members for url in self.clients_of(member)}, {}
        for id, status in filter(None, at_once(lambda url: self.status_at(url, beside), dict.fromkeys([*own, *endpoints]))):
            self.answered[status.url] = id, status.cluster
            if status.cluster != self.id and status.url in self.endpoints:
                raise Stop(f"the endpoints are of two clusters: {status.url} is of {status.cluster:x}, and others are of {self.id:x}. "
                           "Name those of one (--endpoints)")
            if id not in found or (own.get(status.url) == id and own.get(found[id].url) != id):
                found[id] = status
        return found

    def with_hearers(self, view):
        """A view with who hears from each member that has started and does not answer, by what the others report now."""
        silent, leader = [member for member in view.members if member.has_started and not view.answers(member)], view.leader()
        if not silent:
            return view
        here = [member for member in view.members if view.answers(member)]
        readings = dict(zip((member.id for member in here), at_once(lambda member: self.reading(member, view), here)))
        readings = {id: reading for id, reading in readings.items() if reading}
        self.reports.add(readings, leader and leader.id)
        heard = {}
        for it in silent:
            followers = frozenset(member.id for member in view.answering_voters() if view.statuses[member.id].leader == it.id)
            found = self.reports.of(it.id, readings)
            heard[it.id] = Heard(found.by | followers, None, False) if followers else found
        return view._replace(heard=heard)

    def reading(self, member, view):
        """What a member that answers reports now. None if that cannot be read."""
        url = view.statuses[member.id].url
        return read(url, next(iter(urls_of(member, self.metrics_urls)), url), self.context)

    def leader_reading(self, view):
        """What the leader reports now. None if it does not answer, or that cannot be read."""
        leader = view.leader()
        return self.reading(leader, view) if leader and view.answers(leader) else None

    def look_until_known(self, limit):
        """The cluster as it is now, after as many looks at what members report as it takes to know who is up, within a limit in
        seconds."""
        end, view = time.monotonic() + limit, self.look()
        while any(it.doubt is Doubt.EARLY for it in view.heard.values()) and time.monotonic() < end:
            time.sleep(0.5)
            view = self.with_hearers(view)
        return view

    def alarms(self, view):
        """The alarms of the cluster, each as the name of a member and of the alarm. None are known if etcd does not say."""
        try:
            found = self.etcdctl.answer(["alarm", "list"], self.voter_urls(view)).get("alarms", [])
        except Stop:
            return []
        names = {member.id: member.label for member in view.members}
        return [(names.get(it.get("memberID", 0), f"{it.get('memberID', 0):x}"), ALARMS.get(it.get("alarm"), "of a kind that is not known")) for it in found]

    def read_errors(self, view):
        """Why a read that a majority has to confirm fails at each voter that answers, by its id. None where it succeeds."""
        ids = {view.statuses[member.id].url: member.id for member in view.answering_voters()}
        _, printed, error = self.etcdctl.call(["endpoint", "health", "--write-out=json"], list(ids))
        try:
            found = {ids[it["endpoint"]]: None if it["health"] else it.get("error", "unhealthy") for it in json.loads(printed)}
        except (ValueError, KeyError, TypeError):
            found = {}
        return {id: found.get(id, error) for id in ids.values()}

    def voter_urls(self, view):
        return [view.statuses[member.id].url for member in view.answering_voters()]

    def client_hint(self, member):
        """The option that says where a member is reached."""
        return f"--client-url {shlex.quote(f'{word_for(member, self.members)}=URL')}"

    def suggestion(self, *words, flag=None):
        """A command line of this command for the same cluster, without user and password, with a flag more of etcdctl."""
        urls = [word for option, named in (("--client-url", self.urls), ("--metrics-url", self.metrics_urls))
                for name, its in named.items() for url in its for word in (option, f"{name}={url}")]
        called = [*without_user(self.etcdctl.words), *([flag] if flag else [])]
        etcdctl = [] if called == ["etcdctl"] else ["--etcdctl", shlex.join(called)]
        return shlex.join(["confscript-etcd", *words, "--endpoints", ",".join(self.endpoints), *urls, *etcdctl])

    def look(self):
        """The cluster as it is now: the members as the voter lists them that has applied most, of those that have a leader."""
        self.answered, self.refusal = {}, None
        members = self.members or self.list_at_endpoints()
        voters = [member for member in members if not member.is_learner]
        statuses = self.statuses(voters, endpoints=self.endpoints)
        answering = [statuses[member.id] for member in voters if member.id in statuses]
        if not answering:
            self.members = ()
            if self.refusal:
                raise Settling(str(self.refusal))
            raise Unsettled("no voter answers at the client URLs that are advertised (--client-url NAME=URL names others)")
        newest = max(answering, key=lambda status: (status.leader != 0, status.applied))
        self.members = self.list_at_newest(newest.url)
        statuses.update(self.statuses([member for member in self.members if member not in voters], [newest.url]))
        statuses = {member.id: statuses[member.id] for member in self.members if member.id in statuses}
        view = self.with_hearers(View(self.members, statuses, {}, False))
        self.seen = self.voter_urls(view)
        leader = view.leader()
        return view._replace(is_current=leader is not None and view.answers(leader) and newest.applied >= statuses[leader.id].committed)
