"""What the operator asks for, and the task that carries it out."""
from typing import NamedTuple, Optional

from .plan import made_by, steps_of
from .reasons import Stop, listed
from .refusals import refuse_shared, refuse_unfit, refuse_up
from .servers import Member, NewServer
from .task import Task, configuration_of


class Pair(NamedTuple):
    """A member that leaves and a server that joins in its place; or only one of them. `known` is the member that the
    server is already, if an earlier run added it."""

    member: Optional[Member]
    new: Optional[NewServer]
    known: Optional[Member]


class Request:
    """Which members leave, and which servers are voters then. It is filled server by server. `kept` has the ids of those
    that leave by the words that named them, for the record."""

    def __init__(self, cluster, view, options):
        self.cluster, self.view = cluster, view
        self.options, self.is_healthy = options, getattr(options, "healthy", False)
        self.pairs, self.kept = [], {}

    @property
    def leaving(self):
        return [pair.member for pair in self.pairs if pair.member]

    def leaves(self, member, words, new=None):
        """A member leaves that the operator named by these words, and a server takes its place, if one is given."""
        if member in self.leaving:
            raise Stop(f"{member.label} is named twice")
        # A learner has no vote, so one that does not answer is removed even if it is up.
        is_free = self.is_healthy if self.view.answers(member) else member.is_learner
        if not is_free:
            refuse_up(member, self.view, self.cluster, self.options)
        self.pairs.append(Pair(member, new, None))
        self.kept[words] = member.id

    def joins(self, new):
        self.pairs.append(Pair(None, new, None))

    def find_known(self):
        """Finds which servers that join are members already. The names and the addresses of the others must be free when
        they are added."""
        leaving = self.leaving
        staying = [member for member in self.view.members if member not in leaving or self.view.answers(member)]
        for at, pair in enumerate(self.pairs):
            if not pair.new:
                continue
            new = pair.new
            known = next((member for member in self.view.members if member.shares_url(new) and member not in leaving), None)
            if known and known.name not in ("", new.name):
                raise Stop(f"{listed(new.peers)}: a URL of the member {known.label}")
            if known and set(known.peers) != set(new.peers):
                raise Stop(f"{new.name} is a member with other URLs: {', '.join(known.peers)}")
            if not known and any(member.name == new.name or member.shares_url(new) for member in staying):
                raise Stop(f"{new.name} is the name, or has a URL, of a member that is still there when it is added")
            if not known:
                refuse_unfit(new, staying, self.view.members, self.options.peer_proxy)
            self.pairs[at] = pair._replace(known=known)
        refuse_shared([pair.new for pair in self.pairs if pair.new and not pair.known])

    def refuse_other_learner(self):
        """Refuses a server more while there is a learner of others, which etcd's server does not take beside another one."""
        staying = [member for member in self.view.members if member.is_learner and member not in self.leaving]
        others = [member for member in staying if member not in [pair.known for pair in self.pairs]]
        new = [pair.new for pair in self.pairs if pair.new and not pair.known]
        if not others or not new:
            return
        it, words = others[0], [self.view.word(member) for member in [*self.view.silent_voters(), *others]]
        state = "is a learner" if it.has_started else "is a learner that has not started"
        removal = f"To take it out: {self.cluster.suggestion('remove', ','.join(words))}"
        addition = f", and then: {self.cluster.suggestion('add', *map(str, new))}" if len(words) > len(others) else ""
        raise Stop(f"{it.label} ({', '.join(it.peers)}) {state}, and etcd's server takes one learner at a time. {removal}{addition}")

    def groups(self, numbers):
        """The changes, in groups of which each is planned by itself. Failed members leave before a server joins, since etcd
        adds none while a voter is silent; and a learner that is there is promoted before another one is added. Then each
        server takes the place of its own member."""
        first, rest = [], []
        for pair in self.pairs:
            joins = [f"v{numbers[pair.new]}"] if pair.new and (not pair.known or pair.known.is_learner) else []
            leaves = [f"r{pair.member.id}"] if pair.member else []
            if pair.known:
                first, joins = first + joins, []
            if pair.new and pair.member and self.view.answers(pair.member):
                rest.append([*joins, *leaves])
            else:
                first += [*leaves, *joins]
        return [group for group in (first, *rest) if group]

    def task(self, program):
        """The task that carries it out, by the plans that the program makes."""
        self.find_known()
        self.refuse_other_learner()
        configuration, ids = configuration_of(self.view.members), {member.id for member in self.view.members}
        free = unused_numbers(ids, sum(pair.new is not None and pair.known is None for pair in self.pairs))
        numbers = {pair.new: pair.known.id if pair.known else free.pop(0) for pair in self.pairs if pair.new}
        failed = frozenset(member.id for member in self.leaving if not self.view.answers(member))
        steps = []
        for group in self.groups(numbers):
            steps += steps_of(made_by(program, configuration, " ".join(group), failed & configuration.voters), configuration)
            configuration = steps[-1].after if steps else configuration
        return Task(self.view, tuple(steps), {number: new for new, number in numbers.items()}, frozenset(ids), failed)


def unused_numbers(ids, count):
    """The greatest numbers that no member has, ascending. The program lets those that join do so in this order, so that
    a learner that is there already comes first."""
    found = []
    while len(found) < count:
        found.insert(0, next(id for id in range(2**64 - 1, 0, -1) if id not in ids and id not in found))
    return found
