"""What one run does: the steps, the servers that join, and which servers may be silent meanwhile."""
from typing import Dict, FrozenSet, NamedTuple, Tuple

from .cluster import View
from .plan import Call, Configuration, Step
from .servers import NewServer


class Task(NamedTuple):
    """The steps that are left in the cluster of `view`. A plan names a server that joins by a number, since etcd gives
    it its id when it is added: `new` has the server of each number. One that was added by an earlier run has its id
    for a number. `ids` are the numbers of members."""

    view: View
    steps: Tuple[Step, ...]
    new: Dict[int, NewServer]
    ids: FrozenSet[int]
    # The members that are named as failed. No other voter may be silent.
    failed: FrozenSet[int]

    def number_of(self, member):
        """The number of a member in the plan."""
        if member.id in self.ids:
            return member.id
        return next((number for number, new in self.new.items() if member.shares_url(new)), member.id)

    def member(self, view, number):
        return next((member for member in view.members if self.number_of(member) == number), None)

    def configuration(self, members):
        """The voters and learners of a list of members, by their numbers."""
        return configuration_of(members, self.number_of)

    def name(self, number):
        """How a server is shown. One that has the name of a member is the new one."""
        new, member = self.new.get(number), self.member(self.view, number)
        if member is not None and member.name:
            return member.name
        if new is None:
            return f"{number:x}"
        taken = any(other.name == new.name for other in self.view.members)
        return f"{new.name}(new)" if taken else new.name

    def names(self, numbers):
        return [self.name(number) for number in sorted(numbers)]

    def stay(self, number, done):
        """A key by which those come first that stay voters for more of the steps after so many."""
        return -sum(number in step.after.voters for step in self.steps[done:]), number

    def leaving(self):
        """The members that the steps remove."""
        return [step.id for step in self.steps if step.call is Call.REMOVE]

    def is_last_to_leave(self, done):
        """Whether the step after so many is the last one that removes a member, and servers have joined before it."""
        step, later = self.steps[done], self.steps[done + 1:]
        joined = any(number in step.before.voters for number in self.new)
        return step.call is Call.REMOVE and joined and step.id not in self.failed and not any(it.call is Call.REMOVE for it in later)

    def pending(self):
        """The new servers that an earlier run added, or another operator, and that have not started."""
        return [member for member in self.view.members if self.is_pending(member)]

    def is_pending(self, member):
        return not member.has_started and self.number_of(member) in self.new

    def unexpected(self, view):
        """The voters that are silent, and are neither named as failed nor new."""
        return [member for member in view.silent_voters() if member.id not in self.failed and not self.is_pending(member)]


def configuration_of(members, number_of=lambda member: member.id):
    """The voters and the learners of a list of members, by the ids that etcd gave them or by other numbers."""
    return Configuration(*(frozenset(number_of(member) for member in members if member.is_learner == role) for role in (False, True)))
