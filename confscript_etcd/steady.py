"""The stabilisation time: for how long a cluster has been well, before a member leaves and before a run is done."""
import time

from .reasons import NotYet


class Steady:
    """Since when the same members have been up under the same leader."""

    def __init__(self, seconds, clock=time.monotonic):
        self.seconds, self.clock, self.seen, self.since = seconds, clock, None, clock()

    def add(self, view):
        """Adds a look at the cluster."""
        leader = view.leader()
        seen = leader and (leader.id, frozenset(member.id for member in view.members if view.is_up(member)))
        if seen is None or seen != self.seen:
            self.seen, self.since = seen, self.clock()

    def check(self, what):
        """Waits until it has lasted long enough for this."""
        lasted = self.clock() - self.since
        if lasted < self.seconds:
            raise NotYet(f"{what} when the same servers have been up for {self.seconds:g} s", f": {lasted:.0f} s so far")
