"""What to do next: the mode `confscript next` decides, by what is seen of the cluster."""
import json
import subprocess
from typing import NamedTuple, Optional, Tuple

from .plan import Configuration, Step, next_step
from .reasons import Stop, last_line
from .refusals import may_be_up


class Answer(NamedTuple):
    """What to do: start, transfer, propose, wait, stuck or done. `why` is why to wait or why nothing can be done. The numbers
    are those of the servers that are meant, and `step` is what is proposed."""

    action: str
    why: Optional[str]
    numbers: Tuple[int, ...]
    step: Optional[Step]

    def waits_for(self, *reasons):
        return self.action == "wait" and self.why in reasons


DONE = Answer("done", None, (), None)


class Mode:
    """`confscript next` in one process: a line of JSON goes in, and a line of JSON comes out."""

    def __init__(self, program):
        self.program = program
        try:
            self.process = subprocess.Popen([program, "next"], stdin=subprocess.PIPE, stdout=subprocess.PIPE, stderr=subprocess.PIPE,
                                            text=True, encoding="utf-8", errors="replace")
        except OSError as error:
            raise Stop(f"{program} cannot be run: {error.strerror}") from None

    def ask(self, question):
        try:
            print(json.dumps(question), file=self.process.stdin, flush=True)
            answer = json.loads(self.process.stdout.readline())
        except (OSError, ValueError):
            self.process.kill()
            raise Stop(f"{self.program} next gives no answer: {last_line(self.process.stderr.read()) or 'it has ended'}") from None
        if "error" in answer:
            raise Stop(f"{self.program} next: {answer['error']}")
        return answer

    def end(self):
        self.process.kill()
        self.process.communicate()


class Decider:
    """Asks the mode for the steps of a task. A member has caught up when it has applied all that was committed at the first
    look after its configuration was seen: so it knows that configuration, and new entries do not put it off."""

    def __init__(self, mode, task, options):
        self.mode, self.task, self.options = mode, task, options
        # How many of the steps are taken, the configuration then, and what was committed when it was known.
        self.done, self.now, self.committed = 0, task.configuration(task.view.members), None

    @property
    def step(self):
        """The step that is to be taken. None if all are."""
        return self.task.steps[self.done] if self.done < len(self.task.steps) else None

    def goes_on(self, done, configuration):
        """The members are those after this number of steps."""
        self.done, self.now, self.committed = done, configuration, None

    def steps_to(self, configuration):
        """How many steps lead to a configuration, from here on. None if none do."""
        found = [self.now, *(step.after for step in self.task.steps[self.done:])]
        return next((self.done + at for at, each in enumerate(found) if each == configuration), None)

    def answer(self, view):
        """What to do in a cluster with the configuration of now. A server joins or leaves when all who have not failed are up
        and have caught up. A learner that is there may become a voter while others do not answer."""
        step, heard = self.step, {self.task.number_of(member) for member in view.members if self.is_heard(view, member)}
        if step is None or not step.promotes():
            answer = self.ask(view, heard, self.now)
            if step is None and answer.waits_for("unheard", "behind") and not self.task.new.keys() & set(answer.numbers):
                return DONE  # who does not answer is named at the end
            if step is None or answer.action != "done":
                return answer
        return self.ask(view, heard, self.target())

    def target(self):
        """The configuration with the next server more or less. A server that joins is a voter there."""
        step, later = self.step, self.task.steps[self.done + 1:self.done + 2]
        return later[0].after if step.call.adds() and later and later[0].promotes() else step.after

    def ask(self, view, heard, target):
        """Asks what leads to a target. The first of the servers that may lead is chosen, so who stays longest has the least id."""
        task, members = self.task, {self.task.number_of(member): member for member in view.members}
        leader = view.leader() and task.number_of(view.leader())
        gone = set(task.leaving()) - members.keys()
        order = sorted({*members, *target.members(), *gone}, key=lambda number: task.stay(number, self.done))
        ids = {number: id for id, number in enumerate(order, 1)}
        # Learners that do not become voters are left alone. A member that stays is down as long as it is not heard of.
        ignored = {number for number in self.now.learners if number not in task.new and not task.stay(number, self.done)[0]}
        failed = {number for number in task.failed & self.now.voters if number in task.leaving() or number not in heard}
        answer = self.mode.ask({
            "conf_state": state(self.now, ids),
            "target": state(target, ids),
            "strategy": "one-at-a-time",
            "down": [ids[number] for number in members if number in failed or number in ignored],
            "lead": ids.get(leader, 0),
            "commit": self.committed,
            "conf_index": self.committed,
            "progress": [{"id": ids[number], "match": view.statuses[member.id].applied if view.answers(member) else 0, "recent_active": number in heard}
                         for number, member in members.items() if number not in ignored],
            # etcd adds a server before it is started.
            "running": [id for number, id in ids.items() if number not in gone and not (number in members and task.is_pending(members[number]))],
            "retired": [ids[number] for number in gone],
        })
        numbers = {id: number for number, id in ids.items()}
        step = next_step(renamed(answer, numbers), self.now) if answer["action"] == "propose" else None
        return Answer(answer["action"], answer.get("why"), tuple(numbers[id] for id in answer.get("ids", ())), step)

    def is_heard(self, view, member):
        """Whether a member is up: it answers, and has a leader. One that is named as failed is taken for up if it may be."""
        if member.id not in self.task.failed:
            return view.answers(member) and not view.is_cut_off(member)
        return may_be_up(member, view, self.options)


def state(configuration, ids):
    """A configuration as a ConfState in JSON."""
    return {"voters": sorted(ids[number] for number in configuration.voters), "learners": sorted(ids[number] for number in configuration.learners)}


def renamed(line, numbers):
    """The line of a step with other numbers."""
    change, after = line["conf_change"], line["conf_state"]
    return {
        "conf_change": {**change, "changes": [{**it, "node_id": numbers[it["node_id"]]} for it in change["changes"]]},
        "conf_state": {**after, **{role: [numbers[id] for id in after[role]] for role in ("voters", "learners")}},
    }
