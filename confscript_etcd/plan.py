"""Plans: their JSON lines, as `confscript plan --strategy one-at-a-time --output json` prints them, and the call of
etcd's server that each line becomes."""
import enum
import json
import subprocess
from typing import NamedTuple, Optional, Tuple

from .reasons import Stop, last_line


def majority(voters):
    return len(voters) // 2 + 1


class Configuration(NamedTuple):
    """The voters and the learners, by their numbers in the plan."""

    voters: frozenset
    learners: frozenset

    def __str__(self):
        return self.named(str)

    def members(self):
        return self.voters | self.learners

    def spare(self, down):
        """How many may be down besides these. Negative if nothing commits."""
        return len(self.voters - down) - majority(self.voters)

    def named(self, name):
        """The text of the configuration, with a name for each number."""
        parts = [f"voters=({' '.join(map(name, sorted(self.voters)))})"]
        if self.learners:
            parts.append(f"learners=({' '.join(map(name, sorted(self.learners)))})")
        return " ".join(parts)


class Call(enum.Enum):
    """What etcd's server is asked for."""

    ADD = "add {} as a voter"
    ADD_LEARNER = "add {}"
    PROMOTE = "promote {}"
    REMOVE = "remove {}"

    def of(self, name):
        return self.value.format(name)

    def adds(self):
        return self in (Call.ADD, Call.ADD_LEARNER)


class Step(NamedTuple):
    """A step of a plan: the call, the number that it names, the configurations before and after it, and how many may be
    down after it, whichever they are and besides those that are down (None: nothing commits)."""

    call: Call
    id: int
    before: Configuration
    after: Configuration
    may_be_down: Optional[int]
    may_be_down_besides: Optional[int]

    def promotes(self):
        return self.call is Call.PROMOTE

    def learner_first(self, down):
        """The step, or if it adds a voter at once, two by which the server is a learner first."""
        if self.call is not Call.ADD:
            return [self]
        call = call_for("ConfChangeAddLearnerNode", self.id, self.before)
        between = after_call(call, self.id, self.before)
        besides = None if self.may_be_down_besides is None else between.spare(down)
        return [Step(call, self.id, self.before, between, between.spare(frozenset()), besides), self._replace(call=Call.PROMOTE, before=between)]


class Plan(NamedTuple):
    """The lines of a plan, one a step. `down` are the ids that it takes as down, if it says which."""

    lines: Tuple[dict, ...]
    down: Optional[frozenset]

    def ids(self):
        """All numbers that the plan names."""
        states = [line["conf_state"] for line in self.lines]
        return {id for state in states for id in (*state["voters"], *state["learners"])} | {id_of(line) for line in self.lines}


def id_of(line):
    """The number that the change of a line names."""
    changes = line["conf_change"]["changes"]
    if line["conf_state"]["voters_outgoing"] or len(changes) != 1 or line["conf_change"]["transition"] != "ConfChangeTransitionAuto":
        raise Stop("etcd's server has no call for joint configurations: plan with --strategy one-at-a-time")
    return changes[0]["node_id"]


# Reading


def refuse_float(text):
    raise ValueError(f"{text} is not an id, which has no fraction and no exponent")


def read_line(number, text):
    """A line of a plan, as a dictionary."""
    try:
        line = json.loads(text, parse_float=refuse_float)
    except ValueError as error:
        raise Stop(f"line {number}: bad JSON: {error}") from None
    if not isinstance(line, dict) or "plan" not in line:
        raise Stop(f"line {number}: this is not a line of `confscript plan --output json`")
    return line


def read_plan(lines):
    """The only plan in the lines."""
    found = [read_line(number, text) for number, text in enumerate(lines, 1) if text.strip()]
    if not found:
        raise Stop("there is no plan in the input")
    if any(line["plan"] != 1 for line in found):
        raise Stop("there is more than one plan in the input")
    if "no_plan" in found[0]:
        raise Stop(f"there is no plan: {found[0]['no_plan']}")
    if any(line.get("stalls") for line in found):
        raise Stop("the plan stalls: with the ids that are down, a configuration on the way commits nothing")
    steps = [line for line in found if line.get("steps") != 0]
    if [(line.get("step"), line.get("steps")) for line in steps] != [(at, len(steps)) for at in range(1, len(steps) + 1)]:
        raise Stop("the lines are not the steps of one plan, in order and complete")
    plan = Plan(tuple(steps), frozenset(found[0]["down"]) if "down" in found[0] else None)
    check_lines(plan)
    return plan


def check_lines(plan):
    """Refuses lines that are not the steps of a plan for etcd's server."""
    for line in plan.lines:
        try:
            id_of(line), planned(line)
        except Stop as reason:
            raise Stop(f"step {line['step']}: {reason}") from None
        except (KeyError, TypeError):
            raise Stop(f"step {line['step']}: this is not a step of `confscript plan --output json`") from None


def run_program(program, *words):
    try:
        return subprocess.run([program, *words], stdin=subprocess.DEVNULL, capture_output=True, text=True, encoding="utf-8", errors="replace", check=False)
    except OSError as error:
        raise Stop(f"{program} cannot be run: {error.strerror}") from None


def made_by(program, configuration, changes, down):
    """The plan that the program makes from a configuration to what changes such as `r3 v4` make of it."""
    words = ["plan", "--strategy", "one-at-a-time", "--output", "json", "--from", str(configuration), "--to", changes]
    if down:
        words += ["--down", ",".join(map(str, sorted(down)))]
    run = run_program(program, *words)
    if run.returncode not in (0, 1) or not run.stdout:
        raise Stop(f"{program} makes no plan: {last_line(run.stderr) or f'status {run.returncode}'}")
    return read_plan(run.stdout.splitlines())


# From the lines to the calls of etcd's server


def planned(line):
    """The configuration after a line."""
    state = line["conf_state"]
    return Configuration(frozenset(state["voters"]), frozenset(state["learners"]))


def call_for(kind, id, before):
    """The call that makes a change of this kind of an id in a configuration. Refused if there is none."""
    voters, learners = before
    if kind == "ConfChangeAddLearnerNode" and id in voters:
        raise Stop("etcd's server has no call that makes a learner of a voter")
    if kind == "ConfChangeAddLearnerNode" and id not in learners:
        if learners:
            raise Stop("etcd's server takes one learner at a time")
        return Call.ADD_LEARNER
    if kind == "ConfChangeAddNode" and id not in voters:
        return Call.PROMOTE if id in learners else Call.ADD
    if kind == "ConfChangeRemoveNode" and id in voters | learners:
        return Call.REMOVE
    raise Stop(f"the members are {before}, and etcd's server has no call for {kind} of {id}")


def after_call(call, id, before):
    """The configuration after a call that names an id."""
    voters, learners = before.voters - {id}, before.learners - {id}
    if call is Call.ADD_LEARNER:
        learners |= {id}
    elif call is not Call.REMOVE:
        voters |= {id}
    return Configuration(voters, learners)


def next_step(line, before):
    """The step of a line in a configuration. Refused if etcd's server has no call for it."""
    id = id_of(line)
    call = call_for(line["conf_change"]["changes"][0]["type"], id, before)
    after = after_call(call, id, before)
    if after != planned(line):
        raise Stop(f"the plan begins at other members: from {before} this step leads to {after}, and in the plan to {planned(line)}")
    return Step(call, id, before, after, line.get("may_be_down"), line.get("may_be_down_besides"))


def begins_at(plan, configuration):
    """Whether the first step of a plan leads from this configuration to the next one of the plan."""
    try:
        next_step(plan.lines[0], configuration)
    except Stop:
        return False
    return True


def steps_of(plan, configuration):
    """The steps of a plan that are left in a cluster with this configuration, which may have taken some already."""
    done = 0
    if plan.lines and not begins_at(plan, configuration):
        done = max((at for at, line in enumerate(plan.lines, 1) if planned(line) == configuration), default=0)
    steps = []
    for line in plan.lines[done:]:
        try:
            step = next_step(line, configuration)
        except Stop as reason:
            raise Stop(f"step {line['step']} of {line['steps']}: {reason}") from None
        configuration = step.after
        steps.append(step)
    return steps
