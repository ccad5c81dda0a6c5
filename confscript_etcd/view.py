"""A cluster as it is seen at one moment: its members, who answers, who leads, and who hears from whom."""
from typing import Dict, NamedTuple, Optional, Tuple

from .plan import majority
from .reports import NOT_HEARD, Heard
from .servers import Member, word_for


# The versions of etcd with which the command was tested begin so.
TESTED_VERSIONS = ("3.4.", "3.5.")


class Status(NamedTuple):
    """What a member says of itself, and the client URL at which it says so."""

    url: str
    version: str
    leader: int
    committed: int
    applied: int
    # Bytes of the database.
    size: int
    term: int
    # Of its keys.
    revision: int
    # The id of its cluster.
    cluster: int


class View(NamedTuple):
    """The members of a cluster as the server lists them that has applied most, and what those that answer say."""

    members: Tuple[Member, ...]
    statuses: Dict[int, Status]
    # Who hears from one that does not answer: takes it as its leader, or reports that something comes from it.
    heard: Dict[int, Heard]
    # Whether the list has all that was committed before.
    is_current: bool

    @property
    def voters(self):
        return [member for member in self.members if not member.is_learner]

    def answers(self, member):
        return member.id in self.statuses

    def answering_voters(self):
        return [member for member in self.voters if self.answers(member)]

    def silent_voters(self):
        return [member for member in self.voters if not self.answers(member)]

    def heard_by(self, member):
        """The names of the members that hear from one that does not answer here."""
        return [other.label for other in self.members if other.id in self.heard.get(member.id, NOT_HEARD).by]

    def doubt(self, member):
        """Why it is not known whether others hear from a member. None if that is known, or if it answers."""
        return self.heard.get(member.id, NOT_HEARD).doubt

    def hangs(self, member):
        """Whether a member keeps its connections, and nothing comes through them."""
        return self.heard.get(member.id, NOT_HEARD).hangs

    def leader(self) -> Optional[Member]:
        """The member that all voters which answer and have a leader take as theirs. It may not answer here. None if there is
        none. A learner that is cut off never gives up its leader."""
        leaders = {self.statuses[member.id].leader for member in self.answering_voters()} - {0}
        return next((member for member in self.voters if {member.id} == leaders), None)

    def is_cut_off(self, member):
        """Whether a member answers here and has no leader."""
        return self.answers(member) and not self.statuses[member.id].leader

    def voters_up(self):
        """The voters that answer and have a leader, and those that others hear from."""
        return [member for member in self.voters if self.is_up(member)]

    def has_leader(self, member):
        return self.answers(member) and not self.is_cut_off(member)

    def word(self, member):
        return word_for(member, self.members)

    def is_up(self, member):
        return self.has_leader(member) or bool(self.heard_by(member))

    def untested_versions(self):
        return sorted({status.version for status in self.statuses.values() if not status.version.startswith(TESTED_VERSIONS)})

    def majority(self):
        return majority(self.voters)
