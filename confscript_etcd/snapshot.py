"""The snapshot of the keys that a run saves before it changes anything."""
import os
import shutil
import time

from .output import note
from .plan import Call
from .reasons import Stop, Usage, wait
from .sizes import size_text

# Seconds for which a snapshot is tried again that a busy server does not give.
TRIED = 30


def new_file(cluster):
    """A file name that is not taken in the current folder."""
    name = time.strftime(f"etcd-{cluster:x}-%Y%m%dT%H%M%SZ", time.gmtime())
    return next(file for file in (f"{name}{more}.db" for more in ("", *(f"-{number}" for number in range(2, 1000)))) if not os.path.lexists(file))


def refuse_taken(file):
    """Refuses a file that is there: a snapshot may be all that is left of a cluster."""
    if os.path.lexists(file):
        raise Usage(f"--snapshot {file}: this file is there already, and is not overwritten")


def removes_voter(task):
    return any(step.call is Call.REMOVE and step.id in step.before.voters for step in task.steps)


class Snapshot:
    """What the options say of the snapshot. By default one is saved to a new file in the current folder if a voter is removed."""

    def __init__(self, options):
        self.file, self.is_left_out = options.snapshot, options.no_snapshot
        if self.file is not None:
            refuse_taken(self.file)

    def is_due(self, task):
        return self.file is not None or (not self.is_left_out and removes_voter(task))

    def lacks(self, view):
        """Why no snapshot can be saved to the current folder. None if there is room for two, or if a file is named."""
        if self.file is not None:
            return None
        size = max((status.size for status in view.statuses.values()), default=0)
        try:
            free = shutil.disk_usage(".").free
        except OSError as error:
            return f"the current folder cannot be looked at: {error.strerror}"
        if not os.access(".", os.W_OK):
            return "the current folder cannot be written"
        if free < 2 * size:
            return f"{size_text(free)} are free in the current folder, and the database has {size_text(size)}"
        return None

    def save(self, cluster, view, limit):
        """Saves a snapshot of the voter that has applied most, and checks it."""
        file = self.file if self.file is not None else new_file(cluster.id)
        newest = max((view.statuses[member.id] for member in view.answering_voters()), key=lambda status: status.applied)
        try:
            wait(min(limit, TRIED), lambda: cluster.etcdctl.run(["snapshot", "save", file], [newest.url], limit=limit))
            found = cluster.etcdctl.answer(["snapshot", "status", file], [newest.url])
        except Stop as reason:
            raise Stop(f"{reason}{'' if self.file is not None else ' (--no-snapshot goes on without a snapshot)'}") from None
        note(f"the snapshot {file} has {found['totalKey']} keys, of revision {found['revision']}")
