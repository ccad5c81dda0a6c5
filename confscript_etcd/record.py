"""What runs removed.

A server that is not a member may have been removed by an earlier run, or its name may be mistyped. etcd answers alike. So
before the first step the id of each server that is to be removed is written to a file, with the words by which the operator
named it and the members of then. When the run is done, that is written too: the same command again has nothing to do. The
file is $XDG_STATE_HOME/confscript-etcd/CLUSTER.json, below ~/.local/state if the variable is not set, and only its owner
reads it.
"""
import contextlib
import json
import os
import tempfile
from typing import NamedTuple, Tuple

from .output import say
from .reasons import Stop, listed


def folder():
    """Where this command keeps its files."""
    return f"{os.environ.get('XDG_STATE_HOME') or os.path.expanduser('~/.local/state')}/confscript-etcd"


class Kept(NamedTuple):
    """The id of a server that a run is to remove, the members when it began, and whether the run is done. Then the members are
    those at its end."""

    id: int
    members: Tuple[int, ...]
    is_done: bool


class Record:
    """What runs on one cluster were to remove, by the words that named the servers."""

    def __init__(self, cluster):
        self.path = f"{folder()}/{cluster:x}.json"

    def read(self):
        try:
            with open(self.path, encoding="utf-8") as file:
                return {words: Kept(int(it["id"], 16), tuple(int(id, 16) for id in it["members"]), it.get("is_done", False))
                        for words, it in json.load(file).items()}
        except (OSError, ValueError, AttributeError, TypeError, KeyError):
            return {}

    def removed(self, words, view, joining=()):
        """The id of the server that these words named when an interrupted run was to remove it. None if there was no such
        run. Refused if others have changed the members since: then it is not known what is left to do."""
        kept = self.read().get(words)
        if kept is None or kept.is_done:
            return None
        others = [it.label for it in view.members if it.id not in kept.members and not any(it.shares_url(new) for new in joining)]
        if kept.id not in {it.id for it in view.members} and others:
            raise Stop(f"an interrupted run removed {words.split()[0]}, and {listed(others)} joined since, so it is not carried on. "
                       "What is still to be done: confscript-etcd add or remove")
        return kept.id

    def done(self, words):
        """What is kept of a run that is done, by the words that named a server. None if there is nothing."""
        kept = self.read().get(words)
        return kept if kept and kept.is_done else None

    def keep(self, ids, view):
        """Adds the servers that a run is to remove. If the file cannot be written, the run goes on, and says what an
        interruption then needs."""
        members = tuple(it.id for it in view.members)
        self.write({**self.read(), **{words: Kept(id, members, False) for words, id in ids.items()}})

    def end(self, words, view):
        """A run is done, with the members of this view."""
        found, members = self.read(), tuple(it.id for it in view.members)
        ended = {name: Kept(it.id, members, True) for name, it in found.items() if name in words and not it.is_done}
        if ended:
            self.write({**found, **ended})

    def write(self, found):
        """Replaces the file as a whole, by one with a name of its own, since two runs may do so at once."""
        folder = os.path.dirname(self.path)
        try:
            os.makedirs(folder, mode=0o700, exist_ok=True)
            number, path = tempfile.mkstemp(dir=folder)  # of mode 0600
            try:
                with open(number, "w", encoding="utf-8") as file:
                    json.dump({words: {"id": f"{it.id:x}", "members": [f"{id:x}" for id in it.members], "is_done": it.is_done}
                               for words, it in found.items()}, file, indent=1)
                    file.flush()
                    os.fsync(file.fileno())
                os.replace(path, self.path)
            except BaseException:
                with contextlib.suppress(OSError):
                    os.remove(path)
                raise
        except OSError as error:
            say(f"{self.path}: {error.strerror}. If this run is interrupted after a removal, carry on with confscript-etcd add.")
