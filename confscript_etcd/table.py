"""How a plan and the members of a cluster are shown."""
from .output import paragraph
from .plan import majority
from .reasons import clause, listed, sentence, verb
from .refusals import is_declared, unknown
from .sizes import size_text


def lines_of(rows):
    """The rows of a table as lines."""
    widths = [max(len(row[at]) for row in rows) for at in range(len(rows[0]))]
    for row in rows:
        yield "  ".join(cell.ljust(width) for cell, width in zip(row, widths)).rstrip()


def mark(id, configuration):
    return "V" if id in configuration.voters else "L" if id in configuration.learners else "."


def number(count):
    return "stalls" if count is None or count < 0 else str(count)


def plan_lines(task):
    """The plan as a table, as `confscript plan --output table` shows it, with names."""
    now = task.steps[0].before
    order = [task.number_of(member) for member in task.view.members]
    columns = {id: task.name(id) for id in [*order, *(id for id in task.new if id not in order)]}
    down = frozenset(id for id in task.failed if id in now.voters)

    def row(label, configuration, may_be_down, besides):
        marks = " ".join(mark(id, configuration).rjust(len(name)) for id, name in columns.items())
        return [label, marks, f"{majority(configuration.voters)} of {len(configuration.voters)}", number(may_be_down), *([number(besides)] if down else [])]

    rows = [["step", " ".join(columns.values()), "majority", "may be down", *([f"besides {','.join(task.names(down))}"] if down else [])],
            row("now", now, now.spare(frozenset()), now.spare(down))]
    rows += [row(f"{at} {step_text(task, step)}", step.after, step.may_be_down, step.may_be_down_besides) for at, step in enumerate(task.steps, 1)]
    return lines_of(rows)


def notes(task):
    """What the operator has to know before the first step: who has to stay stopped, and who is started when."""
    names = task.names(id for id in task.failed if task.steps and id in task.steps[0].before.voters)
    if len(names) == 1:
        yield (f"Keep {names[0]} stopped. If it restarts with an empty data directory before it is removed, it rejoins under its old id and may vote "
               "twice; acknowledged writes can be lost.")
    elif names:
        yield (f"Keep {listed(names)} stopped. One that restarts with an empty data directory before it is removed rejoins under its old id and may vote "
               "twice; acknowledged writes can be lost.")
    for member in task.pending():
        yield f"{task.name(task.number_of(member))} is a member already, and has not started."
    for at, step in enumerate(task.steps, 1):
        if step.call.adds():
            yield f"Start {task.new[step.id].name} after step {at}, not before, with an empty data directory."
    lowest = min((step.may_be_down_besides if step.may_be_down_besides is not None else step.may_be_down for step in task.steps), default=None)
    if task.steps and not lowest:
        yield "Where the last column is 0, one more failure stops all writes until a server is back."


def doubted(task):
    """The voters that are named as failed, and may be up as far as is known."""
    return [member for member in task.view.voters if member.id in task.failed and task.view.doubt(member)]


def notes_on_failed(task, options):
    """What is known of the voters that are named as failed, where it is not that the others have no connection with them."""
    for member in task.view.voters:
        if member.id in task.failed and task.view.hangs(member):
            yield hanging(member)
    for member in doubted(task):
        reason = unknown(task.view, member)
        if is_declared(member, options):
            yield f"You say that {member.label} failed and does not come back (--failed); {reason}."
        else:
            yield f"{sentence(reason)} It is looked at again once this run has written its key, before the first change."


def hanging(member):
    return f"{member.label} hangs, or its network is cut: it keeps its connections, and nothing comes from it. Stop it, or see that it stays cut off."


def show_untested(view):
    untested = view.untested_versions()
    if untested:
        paragraph(f"servers of etcd {listed(untested)}: this command was tested with 3.4 and 3.5")


def identity(task, cluster):
    """Which cluster is changed, by its id and the ids of its members."""
    members = ", ".join(f"{member.name} {member.id:x}".strip() for member in task.view.members)
    return f"This is the cluster {cluster.id:x} at {','.join(cluster.endpoints)}: {members}."


def servers(view):
    """The versions of the servers that answer, and the sizes of their databases."""
    statuses = {member.label: view.statuses[member.id] for member in view.members if view.answers(member)}
    versions = {status.version for status in statuses.values()}
    text = versions.pop() if len(versions) == 1 else ", ".join(f"{status.version} ({name})" for name, status in statuses.items())
    return f"The servers are of etcd {text}, and their databases have up to {size_text(max(status.size for status in statuses.values()))}."


def count(view):
    """How many voters are up."""
    answering, up = view.answering_voters(), view.voters_up()
    others = [member.label for member in up if member not in answering]
    heard = f", and {clause(others, 'is', 'are')} heard from by others" if others else ""
    return f"{len(answering)} of {len(view.voters)} {verb(view.voters, 'voter answers', 'voters answer')} (majority: {view.majority()}){heard}."


def tolerance(view):
    """How many voters are up, and how many more may fail."""
    more = len(view.voters_up()) - view.majority()
    then = f"{more} more may fail." if more > 0 else "No further failure is tolerated." if more == 0 else "That is no majority."
    return f"{count(view)} {then}"


def member_lines(view):
    """The members as a table."""
    leader = view.leader()
    rows = [["name", "id", "decimal id", "role", "applied", "version", "peer URLs"]]
    for member in view.members:
        status = view.statuses.get(member.id)
        role = "learner" if member.is_learner else "voter, leads" if member == leader else "voter"
        if not member.has_started:
            role += ", has not started"
        elif status is None:
            role += ", does not answer"
        elif view.is_cut_off(member):
            role += ", has no leader"
        said = (str(status.applied), status.version) if status else ("-", "-")
        rows.append([member.name or "-", f"{member.id:x}", str(member.id), role, *said, ",".join(member.peers)])
    return lines_of(rows)


def step_text(task, step):
    return step.call.of(task.name(step.id))
