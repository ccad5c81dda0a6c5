"""Why a run stops or waits."""
import math
import time

from .output import note

# Seconds after which it is said again what a run waits for.
REPEAT = 30


class Stop(Exception):
    """Why a task is not carried out, or not further, in one line. `status` is the exit status: nothing was changed."""

    status = 1


class Usage(Stop):
    """What is wrong with the arguments."""

    status = 2


class Halted(Stop):
    """Why a run stops on the way. The same command carries on."""

    status = 3


class GaveUp(Stop):
    """What was waited for in vain."""


class NotYet(Stop):
    """What is still missing, and may come. `progress` is how far it is, which changes all the while, and `arrived` a number that
    grows as long as something comes: then it is waited for. `patience` is for how many seconds at most before the first change."""

    patience = math.inf

    def __init__(self, reason, progress="", arrived=None):
        super().__init__(reason)
        self.progress, self.arrived = progress, arrived


class Settling(NotYet):
    """What passes within seconds by itself, or does not: a server that has just failed is heard from until its peers miss
    it."""

    patience = 15


class Unreachable(Settling):
    """No answer comes at client URLs. `silent` has the reason for each, None where something answers, and `error` is that of
    etcdctl."""

    def __init__(self, silent, error):
        self.silent, self.error = silent, error
        if not all(silent.values()):
            self.patience = math.inf  # a leader may be elected
        if any(silent.values()):
            urls = ", ".join(f"{url}: {reason or 'answers, and gives no list of members'}" for url, reason in silent.items())
            super().__init__(f"cannot reach {urls} (etcdctl: {error}); is --endpoints right?")
        else:
            super().__init__(f"no list of members from {', '.join(silent)} (etcdctl: {error})")


class Leaderless(Settling):
    """None of the servers that answer has a leader, and too few answer to elect one."""


class Unsettled(Settling):
    """What is not the end before the first change either: an election, a voter that answers now and then, or what takes several
    looks to see."""

    patience = math.inf


def wait(limit, attempt, kind=NotYet):
    """Calls `attempt` once a second as long as it raises a reason of this kind, and returns what it returns. It gives up when
    the limit, in seconds, has passed since something came last, or, where it waits for what settles, the patience for the reason.
    A reason is printed when it is a new one, and each half minute."""
    came, since, last, shown, arrived = time.monotonic(), 0, None, 0, {}
    while True:
        try:
            return attempt()
        except kind as reason:
            now = time.monotonic()
            if last is None or type(reason) is not type(last):
                since = now
            if reason.arrived is not None and reason.arrived > arrived.get(str(reason), -1):
                came, arrived[str(reason)] = now, reason.arrived
            if now > came + limit or (kind is Settling and now > since + reason.patience):
                raise GaveUp(f"{'' if kind is Settling else f'gave up after {limit:g} s: '}{reason}{reason.progress}") from None
            if str(reason) != str(last) or now > shown + REPEAT:
                note(f"  waiting: {reason}{reason.progress}")
                shown = now
            last = reason
        time.sleep(1)


def listed(names):
    """Names as `n1, n2 and n3`."""
    names = list(names)
    return " and ".join([", ".join(names[:-1]), names[-1]] if len(names) > 1 else names)


def verb(names, singular, plural):
    return singular if len(names) == 1 else plural


def clause(names, singular, plural):
    """Names and what is said of them: `n1 and n2 do not answer`."""
    names = list(names)
    return f"{listed(names)} {verb(names, singular, plural)}"


def sentence(text):
    return f"{text[:1].upper()}{text[1:]}."


def last_line(text):
    """The last line of a text that is not empty, or nothing."""
    return next((line.strip() for line in reversed(text.splitlines()) if line.strip()), "")
