"""Taking the steps of a task: doing what is next, and saying what is waited for."""
import time

from . import starting
from .asking import agrees
from .deciding import Decider
from .output import note, say
from .plan import Call
from .reasons import NotYet, Stop, clause, listed, wait
from .refusals import refuse_cut_off, refuse_up, refuse_wrong_server
from .servers import NewServer, unreachable
from .settings import PLACE, lines_of, listening, settings
from .sizes import size_text
from .steady import Steady
from .table import step_text


STUCK = {
    "quorum-lost": "without {} no majority of the voters is left",
    "stalls": "with {} down, nothing can be committed on the way",
    "reused": "an id never comes back without its log and its vote: {}",
}


def words_of(step, etcd_id, new):
    """The arguments of etcdctl that carry out a step on a member, whose id is hexadecimal."""
    if not step.call.adds():
        return ["member", "promote" if step.call is Call.PROMOTE else "remove", etcd_id]
    learner = ["--learner"] if step.call is Call.ADD_LEARNER else []
    return ["member", "add", new.name, f"--peer-urls={','.join(new.peers)}", *learner]


class Carrying:
    """A task while its steps are taken in a cluster."""

    def __init__(self, cluster, task, options, lock, mode, files):
        self.cluster, self.task, self.options, self.lock, self.files = cluster, task, options, lock, files
        self.decider, self.steady = Decider(mode, task, options), Steady(options.steady)
        self.starting, self.described = {}, set()
        # How many steps were announced, the command that was shown last, and the new server that is waited for.
        self.announced, self.shown, self.awaited = 0, None, None
        # Whether a change was made, as far as is known.
        self.has_changed = False
        # How many steps may be taken before the operator is asked again. The question before the first one is answered.
        self.agreed = 1 if options.step else len(task.steps)

    def take_all(self):
        """Does what is next until nothing is left."""
        try:
            while not self.wait(self.advance):
                pass
        except Stop as reason:
            at = f"step {self.announced} of {len(self.task.steps)}: " if self.announced else ""
            raise type(reason)(f"{at}{reason}{self.way_out()}") from None

    def wait(self, attempt):
        def renewing():
            self.lock.renew()
            return attempt()

        return wait(self.options.limit, renewing)

    def way_out(self):
        """How a new server is taken out again that was waited for in vain."""
        member = self.awaited
        if member is None or not member.is_learner:
            return ""
        name = self.task.name(self.task.number_of(member))
        return f". To take {name} out again: {self.cluster.suggestion('remove', f'{member.id:x}', '--healthy')}"

    def advance(self):
        """Does what is next in the cluster as it is now. Whether nothing is left."""
        view, self.awaited = self.cluster.look(), None
        self.steady.add(view)
        if not self.is_known(view):
            return False
        answer = self.decider.answer(view)
        if answer.action in ("propose", "transfer") and self.decider.done >= self.agreed:
            self.ask(view)
        elif answer.action == "propose":
            self.make(answer.step, view)
        elif answer.action == "transfer":
            self.move_leadership(answer.numbers[0], view)
        elif answer.action == "stuck":
            raise Stop(STUCK[answer.why].format(listed(self.task.names(answer.numbers))))
        elif answer.action != "done":  # start, or wait
            self.wait_for(answer, view)
        else:
            self.steady.check("done")
        return answer.action == "done"

    def is_known(self, view):
        """Whether the members are those of the last look. If not, they are those after a later step: another run of the same
        command may have gone on meanwhile. Refused if someone else changes them."""
        decider, now = self.decider, self.task.configuration(view.members)
        done = decider.steps_to(now)
        if done is None:
            self.refuse_others(now, view)
        if now != decider.now:
            decider.goes_on(done, now)
            return False
        if decider.committed is None:
            decider.committed = max(status.committed for status in view.statuses.values())
            return False
        return True

    def refuse_others(self, now, view):
        """Stops if someone else changed the members. A list that may be old is read again."""
        if not view.is_current and self.decider.done and now == self.task.steps[self.decider.done - 1].before:
            raise NotYet("the list of members does not show it yet")
        text = f"the members are {now.named(self.task.name)}, and before this step they were {self.decider.now.named(self.task.name)}"
        raise Stop(f"{text}: someone else changes them") if view.is_current else NotYet(text)

    def announce(self, view):
        """Says which step comes, once, and before the last old member leaves which endpoints clients then need."""
        at = self.decider.done + 1
        if self.announced < at <= len(self.task.steps):
            self.announced, self.shown = at, None
            note(f"{at} {step_text(self.task, self.decider.step)}")
            if self.task.is_last_to_leave(self.decider.done):
                leaving = self.decider.step.id
                urls = [url for member in view.voters if self.task.number_of(member) != leaving for url in self.cluster.clients_of(member)]
                note(f"  before {self.task.name(leaving)} leaves, give your clients the new endpoints: {','.join(urls)}", is_command=True)

    def ask(self, view):
        """Asks before the next step. The cluster is looked at again after the answer."""
        self.announce(view)
        at = self.decider.done + 1
        if not agrees(f"Take step {at} of {len(self.task.steps)}?", self.lock.renew):
            raise Stop("not taken; the same command carries on")
        self.agreed = at

    def show(self, words, endpoints):
        if words != self.shown:
            note(f"  {self.cluster.etcdctl.shown(words, endpoints)}", is_command=True)
            self.shown = words

    # A change

    def make(self, step, view):
        """Makes the change of a step."""
        member, new = self.task.member(view, step.id), self.task.new.get(step.id)
        if step.promotes():
            self.bring_up(member, view)
            self.check_reached(member)
        self.announce(view)
        if step.call is Call.REMOVE and step.id in step.before.voters:
            self.steady.check(f"{self.task.name(step.id)} leaves")
        if step.call.adds():
            self.show_settings(new, view.members)
        words, endpoints = words_of(step, member and f"{member.id:x}", new), self.endpoints(view, member)
        self.show(words, endpoints)
        self.change(words, endpoints, view)
        self.decider.goes_on(self.decider.done + 1, step.after)

    def change(self, words, endpoints, view):
        try:
            self.cluster.etcdctl.run(words, endpoints)
            self.has_changed = True
        except NotYet as reason:
            self.has_changed = True
            if "unhealthy cluster" not in str(reason):
                raise
            silent = [member.label for member in view.silent_voters()]
            why = f"{clause(silent, 'does', 'do')} not answer" if silent else "it wants all voters to be connected for five seconds"
            raise NotYet(f"etcd changes no members now: {why}") from None

    def endpoints(self, view, member):
        """Where a change is asked for: at the leader, if it is not the member that is removed, or at all other voters."""
        voters = [voter for voter in view.answering_voters() if voter != member]
        leader = view.leader()
        return [view.statuses[voter.id].url for voter in ([leader] if leader in voters else voters)]

    def check_reached(self, member):
        """A server is promoted if the others reach it at its peer URLs. etcd does not look at that."""
        for url in member.peers:
            reason = unreachable(url)
            if reason:
                self.awaited = member
                raise NotYet(f"nothing listens at {url}, where the others are to reach {member.label}: {reason}")

    def move_leadership(self, number, view):
        """Moves leadership to a member."""
        self.announce(view)
        leader, chosen = view.leader(), self.task.member(view, number)
        if not view.answers(leader):
            raise NotYet(f"{leader.label} leads, and does not answer at {' or '.join(self.cluster.clients_of(leader))}")
        words, endpoints = ["move-leader", f"{chosen.id:x}"], [view.statuses[leader.id].url]
        self.show(words, endpoints)
        self.cluster.etcdctl.run(words, endpoints)
        raise NotYet(f"leadership moves from {leader.label} to {chosen.label}")

    # Waiting

    def wait_for(self, answer, view):
        """Says what is waited for. A new server that has not started is started."""
        members = [self.task.member(view, number) for number in answer.numbers]
        if not answer.waits_for("no-leader"):
            for member in members:
                if self.task.number_of(member) in self.task.new:
                    self.bring_up(member, view)
        self.announce(view)
        if answer.waits_for("no-leader"):
            raise NotYet("there is no leader")
        if answer.waits_for("heard"):
            for member in members:
                refuse_up(member, view, self.cluster, self.options)
            raise NotYet(f"{clause((member.label for member in members), 'was', 'were')} heard from just now")
        silent = [member.label for member in members if not view.answers(member)]
        if silent:
            raise NotYet(f"{clause(silent, 'does', 'do')} not answer")
        refuse_cut_off(view)
        raise NotYet(f"{clause((member.label for member in members), 'has', 'have')} not applied the last change yet")

    def bring_up(self, member, view):
        """Waits until a member that joins has started, answers, and has all that was committed before."""
        self.awaited = member
        if not member.has_started:
            new = self.task.new.get(self.task.number_of(member), NewServer(member.label, member.peers))
            self.start(new, member, view)
            refuse_wrong_server(new.name, member, self.cluster)
            self.wait_for_arrival(new.name, member, view)
            raise NotYet(f"{new.name} has not started: see its log; its data directory must be empty")
        status = view.statuses.get(member.id)
        if status is None:
            refuse_wrong_server(member.label, member, self.cluster)
            self.wait_for_arrival(member.label, member, view)
            urls = ", ".join(self.cluster.clients_of(member))
            raise NotYet(f"{member.label} does not answer at {urls} ({self.cluster.client_hint(member)} if it is reached elsewhere)")
        if member.is_learner and status.applied < self.decider.committed:
            raise NotYet(f"{member.label} has not applied all that was committed when it joined", f": {status.applied} of {self.decider.committed} entries",
                         status.applied)

    def wait_for_arrival(self, name, member, view):
        """Waits while something arrives at a member that does not answer yet: a snapshot, or entries. It answers when it has what
        was committed when it joined."""
        reading, leader = self.cluster.leader_reading(view), view.leader()
        match = reading and (reading.match or {}).get(member.id, 0)
        if reading and member.id in reading.snapshots:
            # How much of it has arrived is not reported: it is waited for as long as it is sent.
            is_sent = not any(map(unreachable, member.peers))
            raise NotYet(f"{name} is sent a snapshot of {size_text(view.statuses[leader.id].size)}", "", time.monotonic() if is_sent else None)
        if match and match < self.decider.committed:
            raise NotYet(f"{name} gets the log", f": {match} of {self.decider.committed} entries", match)

    def start(self, new, member, view):
        """Starts the server of a new member, once, by the command or by the operator. One at whose peer URL something
        listens was started before."""
        if member.id in self.starting:
            if self.starting[member.id]:
                self.starting[member.id].check()
            return
        # It asks any of the others for the members.
        behind = [voter for voter in view.answering_voters() if view.statuses[voter.id].applied < self.decider.committed]
        if behind:
            raise NotYet(f"{clause((voter.label for voter in behind), 'has', 'have')} not applied the last change yet")
        self.starting[member.id] = None
        self.show_settings(new, view.members)
        if not self.options.peer_proxy and not all(unreachable(url) for url in member.peers):
            note(f"  something listens at {', '.join(member.peers)} already, so {new.name} is not started again")
        elif self.options.start is None:
            note(f"  start {new.name} now")
        else:
            note(f"  starting {new.name}: {self.options.start}", is_command=True)
            it = self.starting[member.id] = starting.start(self.options.start, self.cluster.id, member.id, settings(new, view.members))
            if it.process is None:
                note(f"  it is not started again: the start command of an earlier run has not ended (what it printed: {it.log})")

    def show_settings(self, new, members):
        """Prints the settings of a new server, and writes them to its file, once: before it is added, or before it is started if
        an earlier run added it."""
        if new.name in self.described:
            return
        self.described.add(new.name)
        variables = {**settings(new, members), **listening(new, members, self.cluster.urls.get(new.name, ()))}
        self.files.write(new, variables)
        also = f" ({self.files.of(new)} has them)" if self.files.of(new) else ""
        fill = "; fill in its client URL" if any(PLACE in value for value in variables.values()) else ""
        note(f"  {new.name} joins with these settings{also} and an empty data directory{fill}:")
        for line in lines_of(variables):
            say(f"    {line}")
