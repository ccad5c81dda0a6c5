"""Tests the calls of the binding from a Python program."""
import copy
import dataclasses
import doctest
import json
import multiprocessing
import pickle
import unittest

import confscript

NOW = "Voters:[1 2 3] VotersOutgoing:[] Learners:[] LearnersNext:[] AutoLeave:false"
TARGET = "Voters:[2 3 5] VotersOutgoing:[] Learners:[] LearnersNext:[] AutoLeave:false"


class Calls(unittest.TestCase):
    def test_plan_and_apply(self):
        steps = confscript.plan(NOW, TARGET)
        self.assertEqual(steps, "enter-joint autoleave=false r1 v5\nleave-joint\n")
        self.assertEqual(confscript.apply(NOW, steps), TARGET)

    def test_strategies(self):
        for strategy, steps in [
            (confscript.Strategy.SHORTEST, "enter-joint autoleave=false r1 v5\nleave-joint\n"),
            (confscript.Strategy.LEARNERS_FIRST, "simple l5\nenter-joint autoleave=false r1 v5\nleave-joint\n"),
            (confscript.Strategy.ONE_AT_A_TIME, "simple l5\nsimple v5\nsimple r1\n"),
        ]:
            self.assertEqual(confscript.plan(NOW, TARGET, strategy), steps)
            self.assertEqual(confscript.apply(NOW, steps), TARGET)

    def test_outputs(self):
        table = (
            "step         1 2  majority  may be down  catch up  until then  besides 2\n"
            "now          V .  1 of 1    0                                  0\n"
            "1 simple v2  V V  2 of 2    0            2         stalls      stalls\n"
        )
        for output, down, to, text in [
            (confscript.Output.STEPS, [1], "v2", "# no quorum with 1 down: no step can be made\nsimple v2\n"),
            (confscript.Output.TABLE, {2}, "v2", table),
            (confscript.Output.JSON, (), "v1", '{"plan":1,"steps":0}\n'),
        ]:
            self.assertEqual(confscript.plan("voters=(1)", to, output=output, down=down), text)

    def test_json(self):
        lines = confscript.plan('{"voters":[18446744073709551615]}', "v2", output=confscript.Output.JSON).splitlines()
        self.assertEqual([json.loads(line)["conf_state"]["voters"] for line in lines], [[2, 2**64 - 1]])

    def test_a_text_longer_than_the_first_room(self):
        many = "Voters:[%s] VotersOutgoing:[] Learners:[] LearnersNext:[] AutoLeave:false" % " ".join(map(str, range(1, 501)))
        self.assertEqual(confscript.apply(many, "simple u1"), many)

    def test_refusals(self):
        for call, status, number, text in [
            (lambda: confscript.plan("Voters:[1]", TARGET), 3, 1, "the configuration: not a ConfState line: expected Voters:[1 2] VotersOutgoing:[] Learners:[3] LearnersNext:[] AutoLeave:false"),
            (lambda: confscript.plan(NOW, "Voters:[1]"), 3, 2, "the target: not a ConfState line: expected Voters:[1 2] VotersOutgoing:[] Learners:[3] LearnersNext:[] AutoLeave:false"),
            (lambda: confscript.plan("", TARGET), 29, 1, "the configuration: no form of a configuration: expected voters=(1 2 3) learners=(4), a ConfState line, or JSON of a ConfState or of etcdctl member list"),
            (lambda: confscript.plan(NOW, "voters=(1"), 30, 2, "the target: not a printed configuration: expected voters=(1 2)&&(1 2 3) learners=(4) learners_next=(3) autoleave, without what is empty, with spaces between ids"),
            (lambda: confscript.plan("{}}", TARGET), 31, 1, "the configuration: not the JSON of a configuration: expected voters, voters_outgoing, learners, learners_next and auto_leave, or etcdctl member list -w json, with decimal numbers as ids"),
            (lambda: confscript.plan(NOW, "v1 x"), 32, 2, "the target: not a list of changes: expected changes as r1 v4 l5, or a configuration as voters=(1 2 3), a ConfState line, or JSON"),
            (lambda: confscript.plan(NOW, "r7"), 8, 7, "not a member (id 7)"),
            (lambda: confscript.plan(NOW, "r3 v3"), 19, 3, "removed and added again: a server that lost its log needs a new id (id 3)"),
            (lambda: confscript.plan(NOW, "v4", down=[3, 9]), 33, 9, "down and not a member (id 9)"),
            (lambda: confscript.plan(NOW, "v4", down=[0]), 15, 0, "the id 0"),
            (lambda: confscript.plan(NOW, "v4", output=3), 28, 0, "unknown output"),
            (lambda: confscript.apply(NOW, "leave-joint"), 11, 1, "step 1: can't leave a non-joint config"),
            (lambda: confscript.check(NOW.replace("1 2", "0 2")), 15, 0, "the id 0"),
            (lambda: confscript.plan(NOW, TARGET, 3), 24, 0, "unknown strategy"),
            (lambda: confscript.plan(NOW, NOW.replace("Outgoing:[]", "Outgoing:[4]"), confscript.Strategy.ONE_AT_A_TIME), 25, 0, "the target is joint"),
        ]:
            with self.assertRaises(confscript.Refused) as raised:
                call()
            self.assertEqual((raised.exception.status, raised.exception.number, str(raised.exception)), (status, number, text))
        confscript.check(NOW)

    def test_each_status_has_a_name(self):
        for status in range(2, 100):
            is_known = confscript._text_of(status) != "unknown status"
            self.assertEqual(is_known, status in [*map(int, confscript.Status)], status)
            self.assertIs(isinstance(confscript.Refused(status, 0).status, confscript.Status), is_known)
        with self.assertRaises(confscript.Refused) as raised:
            confscript.step(confscript.Configuration([1]), confscript.StepKind.LEAVE_JOINT)
        self.assertIs(raised.exception.status, confscript.Status.NOT_JOINT)
        self.assertEqual(raised.exception.status, 11)

    def test_texts_of_refusals(self):
        for status, number, text in [
            (6, 0, "no incoming voter"),
            (6, 2, "the target: no incoming voter"),
            (7, 3, "line 3: not a step: expected simple l4 l5, enter-joint autoleave=false r1 v4, or leave-joint"),
            (11, 0, "can't leave a non-joint config"),
            (17, 2**64 - 1, f"a next learner is an incoming voter (id {2**64 - 1})"),
            (27, 2, "change 2: unknown kind of change"),
            (1000, 7, "unknown status (7)"),
        ]:
            self.assertEqual(str(confscript.Refused(status, number)), text)

    def test_stages(self):
        from confscript import ConfChangeSingle, ConfChangeTransition, ConfChangeType, ConfChangeV2, Configuration, Plan, Stage, Strategy
        five, last = (1, 2, 3, 4, 5), (3, 4, 5, 6, 7)
        auto, add_learner, add, remove = (
            ConfChangeTransition.ConfChangeTransitionAuto, ConfChangeType.ConfChangeAddLearnerNode, ConfChangeType.ConfChangeAddNode, ConfChangeType.ConfChangeRemoveNode,
        )
        joint = ConfChangeV2(ConfChangeTransition.ConfChangeTransitionJointExplicit, tuple(ConfChangeSingle(*it) for it in [(remove, 1), (remove, 2), (add, 6), (add, 7)]))
        expected = (
            Stage(ConfChangeV2(auto, (ConfChangeSingle(add_learner, 6),)), Configuration(five, learners=(6,)), (6,), 2, 2, None),
            Stage(ConfChangeV2(auto, (ConfChangeSingle(add_learner, 7),)), Configuration(five, learners=(6, 7)), (7,), 2, 2, None),
            Stage(joint, Configuration(last, five), (), 2, 2, None),
            Stage(ConfChangeV2(auto), Configuration(last), (), 2, 2, None),
        )
        self.assertEqual(confscript.stages(Configuration([5, 4, 3, 2, 1]), Configuration(last), Strategy.LEARNERS_FIRST), Plan(expected, False))

    def test_stages_lead(self):
        from confscript import Configuration, Strategy
        most = 2**64 - 1
        states = [
            Configuration((most,)),
            Configuration((1, most - 2, most - 1), (), (most,)),
            Configuration((2, 2**53 + 1), (1, 2, most), (5,), (most,)),
            Configuration((3, 4), (1, 2), auto_leave=True),
        ]
        for now in states:
            for target in states:
                for strategy in Strategy:
                    if strategy == Strategy.ONE_AT_A_TIME and target.voters_outgoing and now != target:
                        with self.assertRaises(confscript.Refused) as raised:
                            confscript.stages(now, target, strategy)
                        self.assertIs(raised.exception.status, confscript.Status.JOINT_TARGET)
                        continue
                    state = now
                    for stage in confscript.stages(now, target, strategy).stages:
                        state, catching_up = confscript.apply_conf_change(state, stage.conf_change)
                        self.assertEqual((state, catching_up), (stage.conf_state, stage.catching_up))
                    self.assertEqual(state, target)

    def test_stages_with_ids_down(self):
        from confscript import Configuration
        three = Configuration([1, 2, 3])
        self.assertEqual(confscript.stages(three, three, down=[1, 2]), ((), True))
        plan = confscript.stages(three, Configuration([2, 3, 4]), down=[1])
        self.assertEqual((len(plan.stages), plan.stages[0].may_be_down, plan.stages[0].may_be_down_besides, plan.stalls), (2, 1, 0, False))
        plan = confscript.stages(Configuration([1]), Configuration([1, 2]), down=iter([2]))
        self.assertEqual((plan.stages[0].may_be_down, plan.stages[0].may_be_down_besides, plan.stalls), (0, None, True))
        stage = confscript.stages(Configuration([1]), Configuration([1, 2])).stages[0]
        self.assertEqual((stage.may_be_down, stage.until_then, stage.catching_up), (0, None, (2,)))

    def test_stages_of_more_numbers_than_the_first_room(self):
        from confscript import Configuration
        learners = tuple(range(1, 101))
        stages = confscript.stages(Configuration([1000]), Configuration([1000], learners=learners)).stages
        self.assertEqual((len(stages), stages[99].conf_state, stages[99].catching_up), (100, Configuration((1000,), learners=learners), (100,)))

    def test_next_action(self):
        from confscript import Configuration, MemberView, Strategy, View
        three, target, joint = Configuration((1, 2, 3)), Configuration((1, 2, 4)), Configuration((1, 2, 4), (1, 2, 3))
        learning, leaving = Configuration((1, 2, 3), learners=(4,)), Configuration((1, 2, 4), (1, 2, 3), auto_leave=True)

        def view(state, lead=1, indexes=(9, 9, 9, 9), started=(1, 2, 3, 4), silent=(), **more):
            progress = {id: MemberView(index, id not in silent) for id, index in enumerate(indexes, 1)}
            return View(state, 5, lead, 9, progress=progress, started=started, **more)

        for known, to, options, text in [
            (view(three), target, {"down": [2, 3]}, "quorum is lost with 2 3 down"),
            (view(three), target, {"down": iter([3])}, "3 named as down, but heard from"),
            (view(three, 0, silent=[3]), target, {}, "there is no leader: waiting for 3"),
            (view(three, pending_conf_index=10, indexes=(10, 9, 10)), target, {}, "the change at index 10 is not applied: waiting for 2"),
            (view(three, indexes=(9, 9, 9)), Configuration((3, 4)), {"down": [4]}, "with 4 down, nothing commits in a configuration on the way"),
            (view(three, started=[1, 2, 3], retired=[4]), target, {}, "stopped for good, and not used again: 4"),
            (view(three, started=iter([1, 2, 3])), target, {}, "start 4"),
            (view(three), three, {}, "stop 4 for good"),
            (view(leaving, indexes=(9, 9, 4, 9)), target, {}, "the joint configuration is left automatically: waiting for 3"),
            (view(joint, 3), target, {}, "transfer leadership to 1"),
            (view(three, started=(1, 2, 3), silent=[3]), three, {}, "not heard from 3"),
            (view(learning, indexes=(9, 9, 9, 2)), target, {"max_lag": 3}, "4 has not caught up: 2 of 6"),
            (view(learning, indexes=(9, 9, 9, 6)), target, {"max_lag": 3}, "propose enter-joint autoleave=false r3 v4"),
            (view(three), target, {}, "propose simple l4"),
            (view(joint), target, {}, "propose leave-joint"),
            (view(three, started=(1, 2, 3)), three, {"down": [9]}, "done"),
            (view(three, 4, indexes=(9, 9, 9))._replace(conf_index=11), three, {}, "1 has not caught up: 9 of 10, 2 has not caught up: 9 of 10, 3 has not caught up: 9 of 10"),
        ]:
            self.assertEqual(str(confscript.next_action(to, known, Strategy.LEARNERS_FIRST, **options)), text)
        wait = confscript.next_action(target, view(learning, indexes=(9, 9, 9, 2)), Strategy.ONE_AT_A_TIME)
        self.assertEqual(wait, confscript.Wait(confscript.WaitReason.BEHIND, (4,), 9, (2,)))
        propose = confscript.next_action(target, view(three), Strategy.LEARNERS_FIRST)
        self.assertEqual(propose.stage, confscript.stages(three, target, Strategy.LEARNERS_FIRST).stages[0])
        wrong = Configuration((1,), learners=(1,))
        for to, known, strategy, down, status, number, text in [
            (target, view(three), Strategy.SHORTEST, (), "STRATEGY_MAY_STALL", 0, "by this strategy the cluster may stall"),
            (Configuration(), view(three), Strategy.LEARNERS_FIRST, (), "NO_VOTER", 2, "the target: no incoming voter"),
            (wrong, view(three), Strategy.LEARNERS_FIRST, (), "LEARNER_AND_VOTER", 1, "the target: a learner is a voter (id 1)"),
            (target, view(wrong), Strategy.LEARNERS_FIRST, (), "LEARNER_AND_VOTER", 1, "the configuration: a learner is a voter (id 1)"),
            (target, view(three), Strategy.LEARNERS_FIRST, iter([2, 2, 0]), "ZERO_ID", 0, "down: the id 0"),
            (target, view(three, started=iter([1, 0])), Strategy.LEARNERS_FIRST, (), "ZERO_ID", 0, "started: the id 0"),
            (target, view(three, retired=[0]), Strategy.LEARNERS_FIRST, (), "ZERO_ID", 0, "retired: the id 0"),
            (target, view(three)._replace(progress={0: MemberView(), 1: MemberView(9, True)}), Strategy.LEARNERS_FIRST, (), "ZERO_ID", 0, "the progress: the id 0"),
            (joint, view(three), Strategy.ONE_AT_A_TIME, (), "JOINT_TARGET", 0, "the target is joint"),
        ]:
            with self.assertRaises(confscript.Refused) as raised:
                confscript.next_action(to, known, strategy, down=down)
            self.assertEqual((raised.exception.status.name, raised.exception.number, str(raised.exception)), (status, number, text))
        for to, known, status in [
            (target, view(three)._replace(conf_index=0), "NO_CONF_INDEX"),
            (target, view(three)._replace(progress={2: MemberView(9, True)}), "NO_LEADER_PROGRESS"),
            (leaving, view(three), "AUTO_LEAVE_TARGET"),
        ]:
            with self.assertRaises(confscript.Refused) as raised:
                confscript.next_action(to, known, Strategy.LEARNERS_FIRST)
            self.assertEqual(raised.exception.status.name, status)
        with self.assertRaises(OverflowError):
            confscript.next_action(target, view(three, -1), Strategy.LEARNERS_FIRST)

    def test_refused_stages(self):
        from confscript import Configuration, Strategy
        one = Configuration([1])
        for call, status, number in [
            (lambda: confscript.stages(one, one, 3), 24, 0),
            (lambda: confscript.stages(one, one, down=[0]), 15, 0),
            (lambda: confscript.stages(Configuration([7, 1, 7]), one), 4, 7),
            (lambda: confscript.stages(one, Configuration([2], learners=[2])), 18, 2),
            (lambda: confscript.stages(one, one, down=[1, 9]), 33, 9),
            (lambda: confscript.stages(Configuration(), one), 6, 1),
            (lambda: confscript.stages(one, Configuration(learners=[1])), 6, 2),
            (lambda: confscript.stages(one, Configuration([2], [1]), Strategy.ONE_AT_A_TIME), 25, 0),
        ]:
            with self.assertRaises(confscript.Refused) as raised:
                call()
            self.assertEqual((raised.exception.status, raised.exception.number), (status, number))

    def test_a_refusal_is_copied_and_pickled(self):
        refused = confscript.Refused(11, 1)
        for made in [copy.copy(refused), copy.deepcopy(refused), *(pickle.loads(pickle.dumps(refused, protocol)) for protocol in range(pickle.HIGHEST_PROTOCOL + 1))]:
            self.assertIs(type(made), confscript.Refused)
            self.assertEqual((made.status, made.number, str(made)), (11, 1, "step 1: can't leave a non-joint config"))
        # A pool waits forever for a result that cannot be pickled, so the wait has a limit.
        with multiprocessing.Pool(1) as pool:
            with self.assertRaises(confscript.Refused) as raised:
                pool.map_async(confscript.check, [NOW, "Voters:[1]"]).get(timeout=60)
        self.assertEqual((raised.exception.status, raised.exception.number), (3, 1))

    def test_texts_that_are_none(self):
        for call in [
            lambda: confscript.plan(5, ""),
            lambda: confscript.plan(NOW, 0),
            lambda: confscript.plan(NOW, None),
            lambda: confscript.plan([86], TARGET),
            lambda: confscript.apply(NOW, True),
            lambda: confscript.check(3),
        ]:
            self.assertRaises(TypeError, call)
        self.assertEqual(confscript.plan(NOW.encode(), bytearray(b"r1")), "simple r1\n")

    def test_quorums(self):
        self.assertEqual(confscript.committed([1, 2, 3], [], {1: 9, 2: 7}), 7)
        self.assertEqual(confscript.committed([1, 2, 3], [4], {1: 9, 2: 7, 4: 5}), 5)
        self.assertEqual(confscript.committed([], [], {}), 2**64 - 1)
        self.assertEqual(confscript.vote([1, 2, 3], [], {1: True, 2: True}), confscript.Vote.WON)
        self.assertEqual(confscript.vote([1, 2, 3], [], {1: False, 2: False}), confscript.Vote.LOST)
        self.assertEqual(confscript.vote([1, 2, 3], [], {}), confscript.Vote.PENDING)

    def test_quorums_of_values(self):
        self.assertEqual(confscript.committed_index([9, 7, 0]), 7)
        self.assertEqual(confscript.committed_index([9, 7, 0], [5]), 5)
        self.assertEqual(confscript.committed_index([]), 2**64 - 1)
        self.assertEqual(confscript.tally_votes([True, True, None]), confscript.Vote.WON)
        self.assertEqual(confscript.tally_votes([True], [None]), confscript.Vote.PENDING)
        self.assertEqual(confscript.tally_votes([False, False, None]), confscript.Vote.LOST)

    def test_configurations(self):
        from confscript import Configuration
        one = Configuration([2, 1], voters_outgoing=(3, 2**64 - 1), learners={5}, learners_next=[3], auto_leave=True)
        self.assertEqual(one, Configuration((1, 2), [2**64 - 1, 3], [5], (3,), True))
        self.assertEqual(len({one, Configuration((1, 2), [2**64 - 1, 3], [5], (3,), True), Configuration([1]), Configuration((1,), auto_leave=True)}), 3)
        self.assertEqual(str(one), "voters=(1 2)&&(3 18446744073709551615) learners=(5) learners_next=(3) autoleave")
        self.assertEqual(str(Configuration()), "voters=()")
        self.assertEqual(dataclasses.replace(one, voters=[4, 1]).voters, (1, 4))
        for made in [copy.deepcopy(one), pickle.loads(pickle.dumps(one))]:
            self.assertEqual((made, hash(made)), (one, hash(one)))
        with self.assertRaises(dataclasses.FrozenInstanceError):
            one.voters = (1,)

    def test_examples_of_the_documentation(self):
        result = doctest.testmod(confscript)
        self.assertEqual(result.failed, 0)
        self.assertGreaterEqual(result.attempted, 7)

    def test_a_voter_named_twice_counts_once(self):
        acknowledged = {1: 9, 2: 7, 3: 5, 4: 3}
        self.assertEqual(confscript.committed([1, 1, 1, 2, 3], [], acknowledged), 7)
        self.assertEqual(confscript.committed([1, 2], [1, 1, 1, 3, 4, 4], acknowledged), 5)
        self.assertEqual(confscript.vote([1, 1, 1, 2, 2, 3], [], {1: True}), confscript.Vote.PENDING)
        self.assertEqual(confscript.vote([1, 1, 1, 2, 2], [3], {1: True, 2: True, 3: True}), confscript.Vote.WON)
        self.assertEqual(confscript.may_be_down([1, 1, 1, 2, 3], [], [1, 1]), 0)
        self.assertEqual(confscript.may_be_down([1, 1, 2, 2, 3, 3], []), 1)

    def test_steps(self):
        from confscript import ChangeKind, Configuration, StepKind
        joint = confscript.step(Configuration(voters=[3, 2, 1]), StepKind.AUTO, [(ChangeKind.VOTER, 4), (ChangeKind.REMOVE, 1)])
        self.assertEqual(joint, (Configuration((2, 3, 4), (1, 2, 3), (), (), True), (4,)))
        joint, _ = joint
        self.assertEqual(confscript.step(joint, StepKind.LEAVE_JOINT), (Configuration((2, 3, 4)), ()))
        many, _ = confscript.step(Configuration([501]), StepKind.SIMPLE, [(ChangeKind.LEARNER, id) for id in range(1, 501)])
        self.assertEqual(many.learners, tuple(range(1, 501)))
        with self.assertRaises(confscript.Refused) as raised:
            confscript.step(joint, StepKind.SIMPLE)
        self.assertEqual((raised.exception.status, raised.exception.number), (12, 0))

    def test_restore(self):
        self.assertEqual(confscript.restore(confscript.Configuration([3, 1])), (confscript.Configuration((1, 3)), (1, 3)))
        with self.assertRaises(confscript.Refused) as raised:
            confscript.restore(confscript.Configuration([1, 2], learners=[2]))
        self.assertEqual((raised.exception.status, str(raised.exception)), (18, "a learner is a voter (id 2)"))

    def test_numbers_out_of_range(self):
        from confscript import Configuration
        for call in [
            lambda: confscript.committed([1], [], {1: -1}),
            lambda: confscript.committed([-1], [], {}),
            lambda: confscript.committed([2**64], [], {}),
            lambda: confscript.vote([2**64], [], {}),
            lambda: confscript.committed_index([-1]),
            lambda: confscript.may_be_down([1, -1], []),
            lambda: confscript.plan(NOW, TARGET, 2**32),
            lambda: confscript.plan(NOW, TARGET, output=2**32),
            lambda: confscript.plan(NOW, TARGET, down=[2**64]),
            lambda: confscript.plan(NOW, TARGET, down=[-1]),
            lambda: confscript.step(Configuration([1]), 2**32),
            lambda: confscript.step(Configuration([1]), 0, [(2**32, 1)]),
            lambda: confscript.restore(Configuration([-1])),
            lambda: confscript.stages(Configuration([1]), Configuration([-1])),
            lambda: confscript.stages(Configuration([2**64]), Configuration([1])),
            lambda: confscript.stages(Configuration([1]), Configuration([1]), 2**32),
            lambda: confscript.stages(Configuration([1]), Configuration([1]), down=[-1]),
        ]:
            self.assertRaises(OverflowError, call)
        for call in [
            lambda: confscript.committed([1], [], {1: 1.5}),
            lambda: confscript.committed(["1"], [], {}),
            lambda: confscript.committed_index([1.5]),
            lambda: confscript.tally_votes([1]),
            lambda: confscript.tally_votes(["no"]),
            lambda: confscript.vote([1, 2], [], {1: "no", 2: "no"}),
            lambda: confscript.vote([1, 2], [], {1: 1, 2: 1}),
            lambda: confscript.restore(Configuration([1.0])),
            lambda: confscript.plan(NOW, TARGET, down="45"),
            lambda: confscript.plan(NOW, TARGET, output="json"),
            lambda: confscript.stages(Configuration(["1"]), Configuration([1])),
            lambda: confscript.stages(Configuration([1]), Configuration([1]), down="1"),
        ]:
            self.assertRaises(TypeError, call)

    def test_may_be_down(self):
        self.assertEqual(confscript.may_be_down([1, 2, 3], []), 1)
        self.assertEqual(confscript.may_be_down([1, 2, 3], [], [3]), 0)
        self.assertIsNone(confscript.may_be_down([], []))

    def test_version(self):
        self.assertEqual(confscript.version(), (0, 1, 0))
        self.assertEqual(confscript.__version__, "0.1.0")


if __name__ == "__main__":
    unittest.main()
