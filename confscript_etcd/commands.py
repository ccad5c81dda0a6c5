"""The commands that change the members: what their arguments ask for, and the task in the cluster as it is."""
import sys

from .plan import Call, read_plan, steps_of
from .reasons import Stop, Usage, listed
from .refusals import refuse_shared, refuse_unfit, refuse_up
from .request import Request
from .servers import NewServer, address, find, new_servers, server_names
from .task import Task

# Each command reads its arguments and its file when it is made, before the cluster is asked. Its `task` is asked twice:
# before the operator is, and before the first change. It returns the task, and by which words the operator named which
# servers that leave. `new` are the servers that join. `text` is what others see of it, and `words` are those of the record.


def leaving(options):
    """The names of the servers that leave. Those that --failed names are among them."""
    names = server_names(options.servers)
    for name in options.failed:
        if name not in names:
            raise Usage(f"--failed {name}: the servers that leave are {listed(names)}")
    return names


class Replace:
    """Each named member is replaced by the server at the same position of --with."""

    def __init__(self, options):
        names, self.new = leaving(options), new_servers(options.new)
        if len(names) != len(self.new):
            raise Usage(f"{len(names)} to replace, and {len(self.new)} with a name of their own in --with: expected as many")
        self.pairs = list(zip(names, self.new))
        self.words = [f"{name} {new}" for name, new in self.pairs]
        self.text = f"replace {','.join(names)} --with {','.join(map(str, self.new))}"

    def task(self, cluster, view, record, options, program):
        request = Request(cluster, view, options)
        for words, (name, new) in zip(self.words, self.pairs):
            member, removed = find(name, view.members), record.removed(words, view, self.new)
            if member and is_successor(member, new, removed, view):
                member = None
            elif member and member.shares_url(new) and view.answers(member) and is_done(member, record.done(words)):
                member = None
            elif member and member.shares_url(new) and view.answers(member):
                raise Stop(f"{member.label} answers at the URL of its successor, so nothing is changed. If it was replaced before, that is done; "
                           "if not, stop it first")
            elif member and member.is_learner:
                raise Stop(f"{member.label} is a learner: remove it, and add the other one")
            elif not member and removed is None and not any(it.shares_url(new) for it in view.members):
                raise Stop(f"{name} is not a member, and {new.name} is none either, so there is nothing to carry on: "
                           f"{members_text(view)}. To add {new.name}: {cluster.suggestion('add', str(new))}")
            if member:
                request.leaves(member, words, new)
            else:
                request.joins(new)
        return request.task(program), request.kept


def is_successor(member, new, removed, view):
    """Whether a member is the one that joined in place of an earlier one with its name and URL: a learner, or a voter that
    answers and is not the member that an interrupted run was to remove."""
    if not member.shares_url(new):
        return False
    return member.is_learner or (removed not in (None, member.id) and view.answers(member))


def is_done(member, kept):
    """Whether a member is there since a run is done that removed an earlier one with its name and URL."""
    return kept is not None and member.id != kept.id and member.id in kept.members


def members_text(view):
    return f"the members are {listed(member.label for member in view.members)}"


class Add:
    def __init__(self, options):
        self.new, self.words = new_servers(options.new), []
        self.text = f"add {','.join(map(str, self.new))}"

    def task(self, cluster, view, record, options, program):
        request = Request(cluster, view, options)
        for new in self.new:
            request.joins(new)
        return request.task(program), {}


class Remove:
    def __init__(self, options):
        self.words, self.new = leaving(options), []
        self.text = f"remove {','.join(self.words)}"

    def task(self, cluster, view, record, options, program):
        request = Request(cluster, view, options)
        for name in self.words:
            member = find(name, view.members)
            if member:
                request.leaves(member, name)
            elif record.removed(name, view) is None and record.done(name) is None:
                raise Stop(f"{name} is not a member: {members_text(view)}")
        return request.task(program), request.kept


class CarryOut:
    """The steps of a plan that are left."""

    def __init__(self, options):
        with sys.stdin if options.plan == "-" else open(options.plan, encoding="utf-8") as file:
            self.plan = read_plan(file)
        self.numbered, self.words, self.text = numbered(options.new), [], f"carry-out {options.plan}"
        self.new = list(self.numbered.values())
        for id in self.numbered:
            if id not in self.plan.ids():
                raise Usage(f"--new {id}: the plan adds no such member")

    def task(self, cluster, view, record, options, program):
        plan = self.plan
        task = Task(view, (), self.numbered, frozenset(plan.ids()) - set(self.numbered), frozenset())
        task = task._replace(steps=tuple(steps_of(plan, task.configuration(view.members))))
        check_new(task, options)
        named = plan.down if plan.down is not None else frozenset(task.leaving())
        for member in view.members:
            if plan.down and member.id in plan.down and view.answers(member):
                raise Stop(f"{member.label} is down in the plan, and answers: plan without it in --down, or stop it")
            if member.id in named and not view.answers(member):
                refuse_up(member, view, cluster, options)
        failed = frozenset(member.id for member in view.silent_voters() if member.id in named)
        return task._replace(steps=tuple(each for step in task.steps for each in step.learner_first(failed)), failed=failed), {}


def numbered(values):
    """The servers that a plan adds by their numbers, from the values of --new."""
    new = {}
    for id, name, urls in values:
        if not id.isdecimal() or int(id) in new:
            raise Usage(f"--new {id}: a decimal number is expected, each once")
        for url in urls.split(","):
            address(url)
        new[int(id)] = NewServer(name, tuple(urls.split(",")))
    if len({url for it in new.values() for url in it.peers}) < sum(len(it.peers) for it in new.values()):
        raise Usage("--new: two members have the same peer URL")
    return new


def check_new(task, options):
    """Each server that a plan adds has a name and URLs that are free then, and was not a member before."""
    gone, members = set(), task.view.members
    for at, step in enumerate(task.steps, 1):
        where = f"step {at} of {len(task.steps)}: "
        if step.call is Call.REMOVE:
            gone.add(step.id)
        elif step.call.adds():
            if step.id in gone:
                raise Stop(f"{where}{step.id} was removed, and an id never comes back without its log and its vote")
            if step.id not in task.new:
                raise Stop(f"{where}{step.id} is new: give its name and its peer URL (--new {step.id} NAME URL)")
            new = task.new[step.id]
            staying = [member for member in members if task.number_of(member) not in gone]
            for member in staying:
                if member.name == new.name or member.shares_url(new):
                    raise Stop(f"{where}the name or a peer URL of {step.id} ({new.name}) belongs to the member {member.label}")
            is_left = any(member.shares_url(new) for member in members if member not in staying)
            refuse_unfit(new, staying, members, options.peer_proxy or is_left)
    refuse_shared([task.new[step.id] for step in task.steps if step.call.adds()])


COMMANDS = {"replace": Replace, "add": Add, "remove": Remove, "carry-out": CarryOut}
