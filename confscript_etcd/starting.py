"""The command of --start. It runs in a session of its own, and keeps nothing open of the run that starts it: what it prints
goes to a file. Whoever has that file open holds a lock on it, so no second run starts a server that is being started."""
import fcntl
import os
import subprocess

from .reasons import Stop, last_line
from .record import folder


class Started:
    """A start command that was run, and the file of what it prints. `process` is None if one of an earlier run has not
    ended."""

    def __init__(self, process, log):
        self.process, self.log = process, log

    def check(self):
        """Stops if it failed."""
        status = self.process and self.process.poll()
        if status:
            with open(self.log, encoding="utf-8", errors="replace") as file:
                reason = last_line(file.read())
            raise Stop(f"the start command failed with status {status}{reason and f': {reason}'} (what it printed: {self.log})")


def start(command, cluster, member, variables):
    """Runs the command for a new member of a cluster, unless one of an earlier run has not ended. Where the file cannot be
    written, nothing is kept of what it prints."""
    log = f"{folder()}/start/{cluster:x}-{member:x}.log"
    try:
        os.makedirs(os.path.dirname(log), mode=0o700, exist_ok=True)
        file = open(log, "ab")
    except OSError:
        log = os.devnull
        file = open(log, "ab")
    with file:
        try:
            if log != os.devnull:
                fcntl.flock(file, fcntl.LOCK_EX | fcntl.LOCK_NB)
                file.truncate(0)
        except BlockingIOError:
            return Started(None, log)
        return Started(subprocess.Popen(command, shell=True, stdin=subprocess.DEVNULL, stdout=file, stderr=file, env={**os.environ, **variables},
                                        start_new_session=True), log)
