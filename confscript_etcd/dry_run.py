"""The calls that would change the cluster, for --dry-run."""
import shlex

from .carrying import words_of
from .plan import Call
from .servers import Member
from .settings import settings


def calls(task, cluster):
    """Yields the commands that change the cluster. What etcd gives new members is not known yet: their ids, and the client
    URLs that they will advertise."""
    members = {task.number_of(member): member for member in task.view.members}
    leader = task.view.leader() and task.number_of(task.view.leader())
    voters = [task.number_of(member) for member in task.view.answering_voters()]

    def id_of(number):
        return f"{members[number].id:x}" if number in members else f"ID_OF_{task.new[number].name}"

    def clients(number):
        return cluster.clients_of(members[number]) if number in members else (f"CLIENT_URL_OF_{task.new[number].name}",)

    for at, step in enumerate(task.steps):
        up = [number for number in sorted(step.before.voters & step.after.voters) if number not in task.failed]
        if step.call is Call.REMOVE and step.id == leader:
            could = [number for number in step.after.voters if number in voters or number not in members]
            leader = min(could, key=lambda number: task.stay(number, at), default=None)
            yield cluster.etcdctl.shown(["move-leader", id_of(leader)] if leader is not None else ["move-leader", "ID"], clients(step.id))
        yield cluster.etcdctl.shown(words_of(step, id_of(step.id), task.new.get(step.id)),
                                    [url for number in up for url in clients(number)])
        if step.call.adds():
            new = task.new[step.id]
            # Another new one is listed by then as a member that has started.
            there = [members.get(number) or Member(0, task.new[number].name, task.new[number].peers, (), False)
                     for number in sorted(step.before.members(), key=task.name)]
            yield f"# start {new.name}: {' '.join(f'{name}={shlex.quote(value)}' for name, value in settings(new, there).items())}"
