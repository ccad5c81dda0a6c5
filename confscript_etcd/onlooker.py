"""A cluster as `status` looks at it, which has to show something where most of it is down."""
import time

from .cluster import Cluster, at_once, sorted_members
from .own_list import own_list
from .reasons import NotYet


class Onlooker(Cluster):
    """A cluster that is looked at, within a limit in seconds, and not changed. Where no majority confirms the list of members,
    that of a server will do."""

    # Whether a majority confirmed the list of members at this look.
    is_confirmed = True

    def begin(self, limit):
        """Begins a look that has to be over after so many seconds."""
        self.etcdctl.end, self.is_confirmed = time.monotonic() + limit, True

    def list_at(self, urls):
        if not self.is_confirmed:
            return self.own_list_at(urls)
        try:
            return super().list_at(urls)
        except NotYet:
            members = self.own_list_at(urls)
            if not members:
                raise
            self.is_confirmed = False
            return members

    def own_list_at(self, urls):
        """The list that the first server has itself which gives one at these client URLs. Empty if none does."""
        for url, found in zip(urls, at_once(lambda url: own_list(url, self.context, self.etcdctl.seconds(3)), urls)):
            if found and self.is_of(url, found):
                self.id = found.cluster
                return sorted_members(found.members)
        return ()

    def is_of(self, url, found):
        """Whether a list has the server at a client URL: at another port of its host another cluster may run."""
        server = self.status_at(url)
        return self.id in (None, found.cluster) and server is not None and server[0] in {member.id for member in found.members}
