"""The line of a plugin for Nagios, Icinga or NRPE, and its exit status."""
import contextlib
import os
import signal

from . import table
from .output import say
from .reasons import Leaderless, Stop, Unreachable

OK, WARNING, CRITICAL, UNKNOWN = range(4)
NAMES = ("OK", "WARNING", "CRITICAL", "UNKNOWN")


def show(report):
    """Prints the line of a report. The exit status."""
    view = report.view
    level = CRITICAL if report.takes_writes is False else WARNING if report.status else OK
    up, more = len(view.voters_up()), report.may_fail()
    why = f" ({report.why_not})" if report.why_not else ""
    numbers = f"voters={len(view.voters)} voters_up={up} may_fail={more} size={max((it.size for it in view.statuses.values()), default=0)}B"
    return end(level, f"{report.leads()}{why}. {table.tolerance(view) if report.takes_writes is not False else table.count(view)}", numbers)


def stopped(reason):
    """Prints the line where there is no report. That no server is reached is what an outage of all looks like."""
    return end(CRITICAL if isinstance(reason, (Leaderless, Unreachable)) else UNKNOWN, str(reason))


@contextlib.contextmanager
def ending_within(seconds):
    """Ends the process with a line of its own after so many seconds, whatever is still waited for: what runs a plugin ends it
    soon after that, and shows nothing."""
    signal.signal(signal.SIGALRM, lambda number, frame: os._exit(stopped(Stop(f"not known within {seconds:g} s"))))
    signal.setitimer(signal.ITIMER_REAL, max(seconds, 0.01))
    try:
        yield
    finally:
        signal.setitimer(signal.ITIMER_REAL, 0)


def end(level, text, numbers=None):
    say(f"ETCD {NAMES[level]} - {' '.join(text.replace('|', '/').split())}{f' | {numbers}' if numbers else ''}")
    return level
