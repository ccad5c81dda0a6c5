"""confscript plans membership changes of an etcd or Raft cluster, with code that is proved correct.

It shows how many servers may fail at each step. This is its library for Python: a thin layer over the shared library.
include/confscript.h says what each call returns.

A plan leads from a configuration to a target, both of which are str in one of the forms of confscript.h. The target
may also be a list of changes:

    >>> print(plan("voters=(1 2 3)", "r1 v4"), end="")
    enter-joint autoleave=false r1 v4
    leave-joint

`apply` and `check` take a ConfState line:

    >>> apply("Voters:[1 2] VotersOutgoing:[] Learners:[] LearnersNext:[] AutoLeave:false", "simple v3")
    'Voters:[1 2 3] VotersOutgoing:[] Learners:[] LearnersNext:[] AutoLeave:false'

A program that embeds the library keeps a Configuration and makes its steps by `step`, without texts; `stages` gives it
a plan as proposals to a raft library.

Any thread may call, also at the same time as others: a call keeps no state, and releases Python's lock meanwhile.

A call that is refused raises Refused, which has a Status and a number; if memory runs out, it raises MemoryError.
A number that is not an int raises TypeError, and one that is not in range OverflowError.
The library is the one that CONFSCRIPT_LIBRARY names, or else the one in this package, or else, in a package that was
not built, the one that the system's loader finds.
"""
import ctypes
import dataclasses
import operator
import os
from enum import IntEnum
from typing import Any, Callable, Iterable, Iterator, List, Mapping, NamedTuple, Optional, Sequence, SupportsIndex, Tuple, Union

__all__ = [
    "Action", "ChangeKind", "ConfChangeSingle", "ConfChangeTransition", "ConfChangeType", "ConfChangeV2", "Configuration", "Done", "MemberView", "Output", "Plan",
    "Propose", "Refused", "Stage", "Start", "Status", "StepKind", "Stop", "Strategy", "Stuck", "StuckReason", "Transfer", "View", "Vote", "Wait", "WaitReason",
    "apply", "apply_conf_change", "check", "committed", "committed_index", "may_be_down", "next_action", "plan", "restore", "stages", "step", "tally_votes",
    "version", "vote",
]
__version__ = "0.1.0"

DONE, TOO_SMALL = 0, 1
# What a stage in numbers has in place of a count, if nothing commits.
NO_QUORUM = 2**64 - 1
# The major and minor version of the confscript.h that the calls below are written for.
HEADER = (0, 1)


class Status(IntEnum):
    """Why a call is refused: the statuses of confscript.h. Later versions may have more."""

    NO_MEMORY = 2
    BAD_CONF_STATE = 3
    REPEATED_ID = 4
    NOT_A_CONFIGURATION = 5
    NO_VOTER = 6
    BAD_LINE = 7
    NOT_A_MEMBER = 8
    ALREADY_JOINT = 9
    ZERO_VOTER_JOINT = 10
    NOT_JOINT = 11
    SIMPLE_IN_JOINT = 12
    REMOVED_ALL_VOTERS = 13
    MORE_THAN_ONE_VOTER = 14
    ZERO_ID = 15
    NEXT_NOT_OUTGOING = 16
    NEXT_AND_INCOMING = 17
    LEARNER_AND_VOTER = 18
    ADDED_AGAIN = 19
    NOT_JOINT_BUT_AUTO_LEAVE = 20
    DIFFERENT_LENGTHS = 21
    BAD_VOTE = 22
    NO_QUORUM = 23
    BAD_STRATEGY = 24
    JOINT_TARGET = 25
    BAD_STEP = 26
    BAD_CHANGE = 27
    BAD_OUTPUT = 28
    UNKNOWN_FORM = 29
    BAD_PRINTED = 30
    BAD_JSON = 31
    BAD_CHANGE_LIST = 32
    DOWN_NOT_A_MEMBER = 33
    STRATEGY_MAY_STALL = 34
    AUTO_LEAVE_TARGET = 35
    NO_CONF_INDEX = 36
    NO_LEADER_PROGRESS = 37


_TEXTS = {
    Status.BAD_CONF_STATE, Status.NOT_A_CONFIGURATION, Status.NO_VOTER, Status.UNKNOWN_FORM, Status.BAD_PRINTED, Status.BAD_JSON, Status.BAD_CHANGE_LIST,
}
_IDS_NAMED = {
    Status.REPEATED_ID, Status.NEXT_NOT_OUTGOING, Status.NEXT_AND_INCOMING, Status.LEARNER_AND_VOTER, Status.NOT_A_MEMBER, Status.ADDED_AGAIN,
    Status.DOWN_NOT_A_MEMBER,
}
# What the number of another status is counted of.
_COUNTED = {
    "line": {Status.BAD_LINE},
    "step": {
        Status.ALREADY_JOINT, Status.ZERO_VOTER_JOINT, Status.NOT_JOINT, Status.SIMPLE_IN_JOINT, Status.REMOVED_ALL_VOTERS, Status.MORE_THAN_ONE_VOTER,
    },
    "change": {Status.BAD_CHANGE},
}


class Refused(Exception):
    """A call was refused: its `status`, and the `number` that confscript.h gives with it.

    The text names the id, text, line, step or change that the number denotes, and of `next_action` the `part` that is wrong.
    The status is a Status, or an int that this version of the package has no name for.
    """

    def __init__(self, status: int, number: int, part: str = "") -> None:
        # An exception is copied and pickled by a call with the arguments that are kept here.
        super().__init__(status, number, part)
        self.status = Status(status) if status in Status.__members__.values() else status
        self.number = number
        self.part = part

    def __str__(self) -> str:
        return f"{self.part}: {self._reason()}" if self.part else self._reason()

    def _reason(self) -> str:
        text = _text_of(self.status)
        if not self.number:
            return text
        if self.status in _TEXTS:
            return f"{'the configuration' if self.number == 1 else 'the target'}: {text}"
        for what, statuses in _COUNTED.items():
            if self.status in statuses:
                return f"{what} {self.number}: {text}"
        return f"{text} ({'id ' if self.status in _IDS_NAMED else ''}{self.number})"


class Strategy(IntEnum):
    """How a plan goes from one configuration to another."""

    SHORTEST = 0
    LEARNERS_FIRST = 1
    ONE_AT_A_TIME = 2


class Output(IntEnum):
    """What is written of a plan."""

    STEPS = 0
    TABLE = 1
    JSON = 2


class Vote(IntEnum):
    """The result of a vote."""

    PENDING = 0
    LOST = 1
    WON = 2


@dataclasses.dataclass(frozen=True)
class Configuration:
    """A configuration: etcd's ConfState.

    The ids of a list may be in any order, and are kept ascending in a tuple: two configurations are equal if their sets are,
    and may be the keys of a dict. It is printed as the program prints it, and as `plan` reads it:

    >>> print(Configuration([2, 1], [1, 2, 3], learners_next=[3]))
    voters=(1 2)&&(1 2 3) learners_next=(3)
    """

    voters: Sequence[int] = ()
    voters_outgoing: Sequence[int] = ()
    learners: Sequence[int] = ()
    learners_next: Sequence[int] = ()
    auto_leave: bool = False

    def __post_init__(self) -> None:
        for name in ("voters", "voters_outgoing", "learners", "learners_next"):
            object.__setattr__(self, name, tuple(sorted(getattr(self, name))))

    def __str__(self) -> str:
        voters, outgoing, learners, learners_next = (
            "({})".format(" ".join(map(str, ids))) for ids in (self.voters, self.voters_outgoing, self.learners, self.learners_next)
        )
        parts = [("voters=", voters), ("&&", outgoing), (" learners=", learners), (" learners_next=", learners_next)]
        text = "".join(what + ids for what, ids in parts if ids != "()" or what == "voters=")
        return text + (" autoleave" if self.auto_leave else "")


class ChangeKind(IntEnum):
    """What a change does to its id. The numbers are those of raftpb.ConfChangeType."""

    VOTER = 0
    REMOVE = 1
    UPDATE = 2
    LEARNER = 3


class StepKind(IntEnum):
    """How the changes of a step are made. The first three are the numbers of raftpb.ConfChangeTransition."""

    AUTO = 0
    IMPLICIT = 1
    EXPLICIT = 2
    SIMPLE = 3
    LEAVE_JOINT = 4


class ConfChangeType(IntEnum):
    """What a change of a proposal does to its id, with the names and the numbers of raftpb."""

    ConfChangeAddNode = 0
    ConfChangeRemoveNode = 1
    ConfChangeUpdateNode = 2
    ConfChangeAddLearnerNode = 3


class ConfChangeTransition(IntEnum):
    """How the changes of a proposal are made, with the names and the numbers of raftpb.

    With Auto, no change leaves a joint configuration, one is a simple change, and more enter a joint configuration that
    raft leaves by itself. With JointImplicit they always enter one, and with JointExplicit another proposal has to leave it.
    """

    ConfChangeTransitionAuto = 0
    ConfChangeTransitionJointImplicit = 1
    ConfChangeTransitionJointExplicit = 2


class ConfChangeSingle(NamedTuple):
    """A change of a proposal."""

    type: ConfChangeType
    node_id: int


class ConfChangeV2(NamedTuple):
    """A proposal, with the names of raftpb."""

    transition: ConfChangeTransition
    changes: Tuple[ConfChangeSingle, ...] = ()


class Stage(NamedTuple):
    """A proposal of a plan, and the configuration that it leads to.

    Propose `conf_change` once the stage before it is applied and its members have caught up. A joint configuration with
    auto_leave is left by raft itself: the stage that leaves it is not proposed, but waited for. `conf_state` is the
    configuration once it is applied.
    """

    conf_change: ConfChangeV2
    conf_state: Configuration
    # The members that have to catch up there.
    catching_up: Tuple[int, ...]
    # How many ids may be down there, whichever they are.
    may_be_down: Optional[int]
    # How many while members are catching up; None if nothing commits then.
    until_then: Optional[int]
    # How many besides those that are down already, while members are catching up; None also if none are.
    may_be_down_besides: Optional[int]


class Plan(NamedTuple):
    """A plan as proposals, one after another; none if there is nothing to do.

    It stalls if nothing commits in a configuration on the way, the first one among them, with the ids that are down.
    """

    stages: Tuple[Stage, ...]
    stalls: bool


class MemberView(NamedTuple):
    """What is known of a member: the last index at which it has the leader's log, and whether it was heard from lately.

    The leader itself always is. Raft resets RecentActive only with CheckQuorum, and sets that of a new leader only then.
    """

    match: int = 0
    recent_active: bool = False


class View(NamedTuple):
    """What a leader knows of its cluster, or a tool that asks all members. The names are those of etcd's raft."""

    # The configuration that the leader has applied.
    conf_state: Configuration
    # Who has this index knows that the configuration is in force. For a leader that applies a change: its last index plus
    # one; for one that begins to lead: its last index. If `match` is what the member has applied: the index of the change.
    conf_index: int = 0
    # Who leads, or 0.
    lead: int = 0
    # The leader's commit index.
    commit: int = 0
    # The index of a change in the leader's log that it has not applied, or 0.
    pending_conf_index: int = 0
    # The members, by id.
    progress: Mapping[int, MemberView] = {}
    # The servers that were started, and not stopped for good, whether they are up or not.
    started: Iterable[int] = ()
    # The servers that were stopped for good.
    retired: Iterable[int] = ()


class WaitReason(IntEnum):
    """Why to wait."""

    NO_LEADER = 1
    # A change is not applied yet.
    PENDING = 2
    # They are named as down, and are heard from, or one leads.
    HEARD = 3
    # They are neither heard from nor named as down.
    UNHEARD = 4
    # They are heard from, and have not caught up.
    BEHIND = 5
    # Raft leaves the joint configuration by itself.
    LEAVING = 6


class StuckReason(IntEnum):
    """Why the target is not reached."""

    # The voters that are not down are not a quorum.
    QUORUM_LOST = 7
    # With these ids down, nothing commits in a configuration on the way.
    STALLS = 8
    # The target adds ids that were stopped for good.
    REUSED = 9


class Start(NamedTuple):
    """Start these servers, each with an empty log that is created, and never opened anew."""

    ids: Tuple[int, ...]

    def __str__(self) -> str:
        return f"start {_listed(self.ids)}"


class Stop(NamedTuple):
    """Stop these servers for good: their ids do not come back."""

    ids: Tuple[int, ...]

    def __str__(self) -> str:
        return f"stop {_listed(self.ids)} for good"


class Transfer(NamedTuple):
    """Make this member the leader."""

    to: int

    def __str__(self) -> str:
        return f"transfer leadership to {self.to}"


class Propose(NamedTuple):
    """Propose this stage, at once, to the leader whose view this is."""

    stage: Stage

    def __str__(self) -> str:
        return f"propose {_step_of(self.stage.conf_change)}"


class Wait(NamedTuple):
    """Do nothing until these ids are as the reason says.

    `matched` are their indexes, and `needed` the one that they have to have, if the reason is BEHIND or PENDING.
    """

    reason: WaitReason
    ids: Tuple[int, ...]
    needed: int = 0
    matched: Tuple[int, ...] = ()

    def __str__(self) -> str:
        ids = _listed(self.ids)
        if self.reason is WaitReason.BEHIND:
            return ", ".join(f"{id} has not caught up: {match} of {self.needed}" for id, match in zip(self.ids, self.matched))
        return {
            WaitReason.NO_LEADER: f"there is no leader: waiting for {ids}",
            WaitReason.PENDING: f"the change at index {self.needed} is not applied: waiting for {ids}",
            WaitReason.HEARD: f"{ids} named as down, but heard from",
            WaitReason.UNHEARD: f"not heard from {ids}",
            WaitReason.LEAVING: f"the joint configuration is left automatically: waiting for {ids}",
        }[self.reason]


class Stuck(NamedTuple):
    """Do nothing, since the target is not reached as things are."""

    reason: StuckReason
    ids: Tuple[int, ...]

    def __str__(self) -> str:
        ids = _listed(self.ids)
        return {
            StuckReason.QUORUM_LOST: f"quorum is lost with {ids} down",
            StuckReason.STALLS: f"with {ids} down, nothing commits in a configuration on the way",
            StuckReason.REUSED: f"stopped for good, and not used again: {ids}",
        }[self.reason]


class Done(NamedTuple):
    """Do nothing, since the target is reached."""

    def __str__(self) -> str:
        return "done"


# What to do next. As text it is a line for a log.
Action = Union[Start, Stop, Transfer, Propose, Wait, Stuck, Done]


def _listed(ids: Iterable[int]) -> str:
    return " ".join(map(str, ids))


def _step_of(change: ConfChangeV2) -> str:
    """The line of the step of a plan that a proposal is for."""
    command = {0: "simple" if change.changes else "leave-joint", 1: "enter-joint autoleave=true", 2: "enter-joint autoleave=false"}[change.transition]
    return " ".join([command, *("vrul"[single.type] + str(single.node_id) for single in change.changes)])


class _Answer(ctypes.Structure):
    _fields_ = [("status", ctypes.c_uint32), ("number", ctypes.c_uint64)]


class _Change(ctypes.Structure):
    _fields_ = [("kind", ctypes.c_uint32), ("id", ctypes.c_uint64)]


Text = Union[str, bytes, bytearray, memoryview]


def _path() -> str:
    beside = os.path.join(os.path.dirname(os.path.abspath(__file__)), "libconfscript.so")
    return os.environ.get("CONFSCRIPT_LIBRARY") or (beside if os.path.exists(beside) else "libconfscript.so.{}.{}".format(*HEADER))


_library = ctypes.CDLL(_path())
_library.confscript_version.argtypes, _library.confscript_version.restype = (), ctypes.c_uint32


def version() -> Tuple[int, int, int]:
    """Returns the version of the library, as (major, minor, patch)."""
    number: int = _library.confscript_version()
    return number // 10000, number // 100 % 100, number % 100


# A library with another major or minor version may have calls with other parameters.
if version()[:2] != HEADER:
    raise ImportError("confscript: the library has version {}.{}.{}, and this package is for version {}.{}".format(*version(), *HEADER), path=_library._name)

_BYTES, _IDS = (ctypes.c_char_p, ctypes.c_size_t), (ctypes.POINTER(ctypes.c_uint64), ctypes.c_size_t)
_OUT = (ctypes.POINTER(ctypes.c_char), ctypes.c_size_t)
for _name, _types in {
    "plan": (*_BYTES * 2, ctypes.c_uint32, ctypes.c_uint32, *_IDS, *_OUT),
    "apply": _BYTES * 2 + _OUT,
    "check": _BYTES,
    "vote": _BYTES * 2,
    "may_be_down": _IDS * 3,
    "restore": _IDS * 2,
    "step": (*_IDS, ctypes.c_uint32, ctypes.POINTER(_Change), ctypes.c_size_t, *_IDS),
    "stages": (*_IDS * 2, ctypes.c_uint32, *_IDS * 2),
    "next": (*_IDS * 2, ctypes.c_uint32, *_IDS * 3),
    "status_text": (ctypes.c_uint32, *_OUT),
}.items():
    _call = getattr(_library, f"confscript_{_name}")
    _call.argtypes, _call.restype = _types, _Answer
_library.confscript_committed.argtypes, _library.confscript_committed.restype = _IDS * 2, ctypes.c_uint64


def _uint(value: SupportsIndex, bits: int = 64) -> int:
    """Returns an int that fits into this number of bits; ctypes would wrap it around."""
    number = operator.index(value)
    if not 0 <= number < 1 << bits:
        raise OverflowError(f"{number} is not in the range 0 to 2**{bits}-1")
    return number


def _bytes(text: Text) -> Tuple[bytes, int]:
    # bytes() would also take a number, as that many zero bytes.
    if not isinstance(text, (str, bytes, bytearray, memoryview)):
        raise TypeError(f"a text is a str or bytes, not {text!r}")
    data = text.encode() if isinstance(text, str) else bytes(text)
    # ctypes passes a pointer to the bytes, which is not null even if there are none.
    return data, len(data)


def _numbers(numbers: Iterable[SupportsIndex]) -> Tuple["ctypes.Array[ctypes.c_uint64]", int]:
    checked = [*map(_uint, numbers)]
    # The array has room for at least one number, so that its pointer is never null.
    return (ctypes.c_uint64 * max(len(checked), 1))(*checked), len(checked)


def _number(answer: _Answer) -> int:
    number: int = answer.number
    if answer.status != DONE:
        raise MemoryError() if answer.status == Status.NO_MEMORY else Refused(answer.status, number)
    return number


def _filled(kind: Any, call: Callable[..., _Answer], *arguments: Any) -> Any:
    """What a call writes to a buffer of this type. If that is too small, the call is made again with a larger one."""
    room = 256
    while True:
        out = (kind * room)()
        answer = call(*arguments, out, room)
        if answer.status != TOO_SMALL:
            return out[: _number(answer)]
        room = answer.number


def _written(call: Callable[..., _Answer], *arguments: Any) -> str:
    """The text that a call writes."""
    text: bytes = _filled(ctypes.c_char, call, *arguments)
    return text.decode()


def _array(configuration: Configuration) -> List[SupportsIndex]:
    """A configuration as an array (enum confscript_part)."""
    parts = [[*part] for part in (configuration.voters, configuration.voters_outgoing, configuration.learners, configuration.learners_next)]
    return [bool(configuration.auto_leave), *map(len, parts), 0, *(id for part in parts for id in part)]


def _configuration(numbers: Iterator[int]) -> Tuple[Configuration, Tuple[int, ...]]:
    """The configuration of an array that a call wrote, and the members that are catching up in it."""
    auto_leave, *counts = _next(numbers, 6)
    voters, outgoing, learners, learners_next, catching_up = (_next(numbers, count) for count in counts)
    return Configuration(voters, outgoing, learners, learners_next, bool(auto_leave)), catching_up


def _next(numbers: Iterator[int], count: int) -> Tuple[int, ...]:
    """The next numbers, as many as these."""
    return tuple(next(numbers) for _ in range(count))


def _configured(call: Callable[..., _Answer], configuration: Configuration, changes: int, *arguments: Any) -> Tuple[Configuration, Tuple[int, ...]]:
    """The configuration that a call writes, for this number of changes, and the members that are catching up in it.

    The buffer has the length of the macro CONFSCRIPT_STEP_ROOM of confscript.h.
    """
    array = _array(configuration)
    room = 6 + 2 * (len(array) - 6 + changes)
    out = (ctypes.c_uint64 * room)()
    length = _number(call(*_numbers(array), *arguments, out, room))
    return _configuration(iter(out[:length]))


def _text_of(status: int) -> str:
    return _written(_library.confscript_status_text, status)


def plan(
    configuration: Text, target: Text, strategy: Strategy = Strategy.SHORTEST, *, output: Output = Output.STEPS, down: Iterable[int] = ()
) -> str:
    """Returns the plan by a strategy from a configuration to a target, as the program prints it with this output.

    `down` are the ids that are down. If the plan stalls with them, the steps begin with a line such as
    `# stalls with 4 5 down` or `# no quorum with 4 5 down: no step can be made`. Each line of JSON is an object, what to
    propose to etcd's raft among it.
    """
    return _written(_library.confscript_plan, *_bytes(configuration), *_bytes(target), _uint(strategy, 32), _uint(output, 32), *_numbers(down))


def stages(configuration: Configuration, target: Configuration, strategy: Strategy = Strategy.SHORTEST, *, down: Iterable[int] = ()) -> Plan:
    """Returns the plan from a configuration to a target as the proposals that carry it out.

    A simple step of several changes is as many stages of one change each, since raft would take them through a joint
    configuration. Both configurations are checked as by `restore`, and must have a voter.

    >>> for stage in stages(Configuration([1, 2, 3]), Configuration([1, 2, 3, 4]), Strategy.LEARNERS_FIRST).stages:
    ...     print(stage.conf_change.changes[0].type.name, stage.conf_state, stage.catching_up)
    ConfChangeAddLearnerNode voters=(1 2 3) learners=(4) (4,)
    ConfChangeAddNode voters=(1 2 3 4) ()
    """
    ids = [*down]
    arrays = (*_numbers(_array(configuration)), *_numbers(_array(target)))
    stalls, count, *rest = _filled(ctypes.c_uint64, _library.confscript_stages, *arrays, _uint(strategy, 32), *_numbers(ids))
    numbers = iter(rest)
    return Plan(tuple(_stage(numbers, bool(ids)) for _ in range(count)), bool(stalls))


def _stage(numbers: Iterator[int], are_down: bool) -> Stage:
    """The stage that comes next (enum confscript_stage_part)."""
    transition, *counts, change_count = _next(numbers, 5)
    may_be_down, until_then, may_be_down_besides = (None if count == NO_QUORUM else count for count in counts)
    changes = tuple(ConfChangeSingle(ConfChangeType(next(numbers)), next(numbers)) for _ in range(change_count))
    change = ConfChangeV2(ConfChangeTransition(transition), changes)
    return Stage(change, *_configuration(numbers), may_be_down, until_then, may_be_down_besides if are_down else None)


def next_action(target: Configuration, view: View, strategy: Strategy, *, down: Iterable[int] = (), max_lag: int = 0) -> Action:
    """Returns what to do next on the way to a target, by LEARNERS_FIRST or ONE_AT_A_TIME.

    Call it with what is known now, do what it says, and call it again; it keeps nothing. `down` are the ids that do not
    come back: a member that is merely silent is not down. `max_lag` is how many of the committed entries a member that has
    caught up may lack. The configuration and the target are checked as by `stages`, but for ids that are down and that
    neither has, which are ignored.

    >>> members = {id: MemberView(60, True) for id in (1, 2, 3)}
    >>> view = View(Configuration([1, 2, 3]), conf_index=57, lead=1, commit=60, progress=members, started=[1, 2, 3])
    >>> print(next_action(Configuration([1, 2, 4]), view, Strategy.LEARNERS_FIRST))
    start 4
    >>> print(next_action(Configuration([1, 2, 4]), view._replace(started=[1, 2, 3, 4]), Strategy.LEARNERS_FIRST))
    propose simple l4
    """
    ids, view = [*down], view._replace(started=[*view.started], retired=[*view.retired])
    arrays = (*_numbers(_array(view.conf_state)), *_numbers(_array(target)))
    known = _numbers(_view(view, max_lag))
    try:
        numbers = iter(_filled(ctypes.c_uint64, _library.confscript_next, *arrays, _uint(strategy, 32), *_numbers(ids), *known))
    except Refused as why:
        raise Refused(why.status, why.number, _part_of(why, target, view, ids)) from None
    kind, reason, count = _next(numbers, 3)
    named = _next(numbers, count)
    actions: Mapping[int, Callable[[], Action]] = {
        0: lambda: Start(named),
        1: lambda: Stop(named),
        2: lambda: Transfer(*named),
        3: lambda: Propose(_stage(numbers, bool(ids))),
        4: lambda: _wait(WaitReason(reason), named, view, max_lag),
        5: lambda: Stuck(StuckReason(reason), named),
        6: Done,
    }
    return actions[kind]()


def _view(view: View, max_lag: SupportsIndex) -> List[SupportsIndex]:
    """A view as an array (enum confscript_view_part)."""
    started, retired = [*view.started], [*view.retired]
    members = [number for id, member in view.progress.items() for number in (id, member.match, bool(member.recent_active))]
    head = [view.conf_index, view.lead, view.commit, view.pending_conf_index, max_lag]
    return [*head, len(view.progress), len(started), len(retired), *members, *started, *retired]


def _part_of(refused: Refused, target: Configuration, view: View, down: Iterable[int]) -> str:
    """The part of what is asked that a refusal is about; empty if its number says that, or if it is about none."""
    if refused.status == Status.NO_VOTER:
        return ""
    for part, configuration in (("the configuration", view.conf_state), ("the target", target)):
        try:
            restore(configuration)
        except Refused as why:
            if why.status == refused.status:
                return part
    lists = (("down", down), ("the progress", view.progress), ("started", view.started), ("retired", view.retired))
    return next((part for part, ids in lists if refused.status == Status.ZERO_ID and 0 in ids), "")


def _wait(reason: WaitReason, ids: Tuple[int, ...], view: View, max_lag: int) -> Wait:
    """A wait, with the index that it waits for."""
    # A leader that does not vote may not add the entry after a change.
    known = view.conf_index - (view.lead not in (*view.conf_state.voters, *view.conf_state.voters_outgoing))
    index = {WaitReason.PENDING: view.pending_conf_index, WaitReason.BEHIND: max(known, view.commit - max_lag)}.get(reason)
    if index is None:
        return Wait(reason, ids)
    return Wait(reason, ids, index, tuple(view.progress.get(id, MemberView()).match for id in ids))


def apply_conf_change(configuration: Configuration, change: ConfChangeV2) -> Tuple[Configuration, Tuple[int, ...]]:
    """Returns the configuration after a proposal, as raft applies it, and the members that are catching up in it, as `step`."""
    kind = StepKind(ConfChangeTransition(change.transition))
    return step(configuration, kind, [(ChangeKind(single.type), single.node_id) for single in change.changes])


def apply(configuration: Text, steps: Text) -> str:
    """Returns the ConfState line of the configuration after the steps of a plan."""
    return _written(_library.confscript_apply, *_bytes(configuration), *_bytes(steps))


def check(configuration: Text) -> None:
    """Raises Refused if something is wrong with the configuration of a ConfState line."""
    _number(_library.confscript_check(*_bytes(configuration)))


def committed(incoming: Iterable[int], outgoing: Iterable[int], acknowledged: Mapping[int, int]) -> int:
    """Returns the committed index of a voter set, or of a joint pair; `acknowledged` maps each id to its index.

    An id that is not in the map has acknowledged 0. The committed index is 2**64-1 if there are no voters. A voter that
    is named twice counts once.

    >>> committed([1, 2, 3], [], {1: 9, 2: 7})
    7
    """
    known = {_uint(id): _uint(index) for id, index in acknowledged.items()}
    return committed_index(*([known.get(id, 0) for id in {*map(_uint, voters)}] for voters in (incoming, outgoing)))


def committed_index(incoming: Iterable[int], outgoing: Iterable[int] = ()) -> int:
    """Returns what `committed` does from the indexes themselves, each that of another voter."""
    index: int = _library.confscript_committed(*_numbers(incoming), *_numbers(outgoing))
    return index


def _ballots(votes: Iterable[Optional[bool]]) -> Tuple[bytes, int]:
    ballots = [*votes]
    for ballot in ballots:
        if ballot is not None and not isinstance(ballot, bool):
            raise TypeError(f"a vote is a bool, not {ballot!r}")
    return _bytes(bytes(2 if ballot is None else ballot for ballot in ballots))


def vote(incoming: Iterable[int], outgoing: Iterable[int], votes: Mapping[int, bool]) -> Vote:
    """Returns the result of a vote by a voter set, or by a joint pair; `votes` maps each id that voted to a bool.

    It is won if there are no voters. A voter that is named twice counts once.

    >>> vote([1, 2, 3], [], {1: True, 3: True})
    <Vote.WON: 2>
    """
    return tally_votes(*([votes.get(id) for id in {*map(_uint, voters)}] for voters in (incoming, outgoing)))


def tally_votes(incoming: Iterable[Optional[bool]], outgoing: Iterable[Optional[bool]] = ()) -> Vote:
    """Returns what `vote` does from the votes themselves, each that of another voter, None if it has not voted."""
    return Vote(_number(_library.confscript_vote(*_ballots(incoming), *_ballots(outgoing))))


def restore(configuration: Configuration) -> Tuple[Configuration, Tuple[int, ...]]:
    """Checks a saved configuration, and returns it and all its members, which are catching up.

    So a server restores it when it restarts (etcd's confchange.Restore).
    """
    return _configured(_library.confscript_restore, configuration, 0)


def step(
    configuration: Configuration, kind: StepKind, changes: Iterable[Tuple[ChangeKind, int]] = ()
) -> Tuple[Configuration, Tuple[int, ...]]:
    """Returns the configuration after one step, and the members that are catching up in it; the others keep their progress.

    Each of `changes` is a pair of a ChangeKind and an id.

    >>> step(Configuration([1, 2, 3]), StepKind.SIMPLE, [(ChangeKind.LEARNER, 4)])
    (Configuration(voters=(1, 2, 3), voters_outgoing=(), learners=(4,), learners_next=(), auto_leave=False), (4,))
    """
    checked = [_Change(_uint(change, 32), _uint(id)) for change, id in changes]
    array = (_Change * max(len(checked), 1))(*checked)
    return _configured(_library.confscript_step, configuration, len(checked), _uint(kind, 32), array, len(checked))


def may_be_down(incoming: Iterable[int], outgoing: Iterable[int], down: Iterable[int] = ()) -> Optional[int]:
    """Returns how many ids may be down, whichever they are, while the other voters are a quorum.

    Those in `down` do not count for the quorum. A voter that is named twice counts once. Returns None if the voters
    that count are not a quorum even when all are up, as if there are none.
    """
    answer = _library.confscript_may_be_down(*_numbers(incoming), *_numbers(outgoing), *_numbers(down))
    return None if answer.status == Status.NO_QUORUM else _number(answer)
