"""What members report of their peers over time, and what follows for a member that does not answer here.

A server that hangs, or that has lost power, keeps its connections: those of etcd 3.5 stay for minutes. So a member is up
only if something comes from it: the leader's match of it grows, or the bytes that another member received. It is not up if
it has no connection with those that report, or if nothing came from it for some seconds in which it lacked an entry that
is committed. On an idle cluster it lacks none, so that is not known before something is written, be it that a look asks for
the alarms: etcd answers that by an entry of its log.
"""
import enum
import time
from typing import FrozenSet, NamedTuple, Optional, Tuple

# Seconds without anything from a member that lacks a committed entry, after which it is not up.
QUIET = 5


class Doubt(enum.Enum):
    """Why it is not known whether a member is up."""

    UNREAD = "their /metrics cannot be read from here"
    LEADER_UNREAD = "the /metrics of the leader cannot be read from here"
    EARLY = "that takes some seconds to see"
    IDLE = "nothing came from it for some seconds, and nothing was written either"


UNREAD = (Doubt.UNREAD, Doubt.LEADER_UNREAD)


class Heard(NamedTuple):
    """Which members hear from one that does not answer here, why that is not known (None if it is), and whether it hangs: it
    keeps a connection through which nothing comes."""

    by: FrozenSet[int]
    doubt: Optional[Doubt]
    hangs: bool


NOT_HEARD = Heard(frozenset(), None, False)


class Trace(NamedTuple):
    """What came from a member to another one: at the last look, when it grew last, and since when the member has lacked an
    entry that is committed (None if it lacks none). `base` is the index that it has, or that was committed when it grew."""

    came: Tuple[int, float]
    base: int
    grew: float
    lacks_since: Optional[float]
    has_grown: bool


class Reports:
    """The traces of members that do not answer here. They begin anew when another member leads."""

    def __init__(self, clock=time.monotonic):
        self.clock, self.traces, self.leader = clock, {}, None

    def add(self, readings, leader):
        """Adds what members report now, by their ids."""
        if leader != self.leader:
            self.traces, self.leader = {}, leader
        now = self.clock()
        for reporter, reading in readings.items():
            for peer in reading.active:
                self.traces[reporter, peer] = self.next(self.traces.get((reporter, peer)), reading, peer, now)

    def next(self, trace, reading, peer, now):
        match = (reading.match or {}).get(peer)
        came, base = (match or 0, reading.received.get(peer, 0)), reading.committed if match is None else match
        if trace is None or any(new > old for new, old in zip(came, trace.came)):
            return Trace(came, base, now, now if base < reading.committed else None, trace is not None)
        lacks_since = trace.lacks_since if trace.lacks_since is not None else now if trace.base < reading.committed else None
        return trace._replace(lacks_since=lacks_since)

    def of(self, peer, readings):
        """Who hears from a member, by the readings that were added last."""
        connected = frozenset(reporter for reporter, reading in readings.items() if peer in reading.active)
        now, traces = self.clock(), {reporter: self.traces[reporter, peer] for reporter in connected}
        if any(trace.has_grown and now < trace.grew + QUIET for trace in traces.values()):
            return Heard(connected, None, False)
        if not readings:
            return NOT_HEARD._replace(doubt=Doubt.UNREAD)
        if self.leader is None:
            # Who looks for a leader would get answers.
            doubt = Doubt.EARLY if any(now < trace.grew + QUIET for trace in traces.values()) else None
        elif self.leader not in readings:
            doubt = Doubt.LEADER_UNREAD
        else:
            doubt = doubt_of(traces[self.leader], now) if self.leader in connected else None
        return Heard(frozenset(), doubt, doubt is None and bool(connected))


def doubt_of(trace, now):
    """Why it is not known that a member is down from which nothing came lately."""
    if trace.lacks_since is not None and now >= trace.lacks_since + QUIET:
        return None
    return Doubt.IDLE if trace.lacks_since is None and now >= trace.grew + QUIET else Doubt.EARLY
