//! Tests the calls of the binding from a Rust program.
use confscript::{
    apply, apply_conf_change, check, committed, committed_index, may_be_down, next, plan, plan_by, restore, stages, step, tally_votes,
    version, vote, Action, Change, ChangeKind, Configuration, DriveOptions, Error, MemberView, Options, Output, Status, StepKind, Strategy,
    UnknownName, View, VoteResult, WaitReason,
};

const NOW: &str = "Voters:[1 2 3] VotersOutgoing:[] Learners:[] LearnersNext:[] AutoLeave:false";
const TARGET: &str = "Voters:[2 3 5] VotersOutgoing:[] Learners:[] LearnersNext:[] AutoLeave:false";

// The status, the number and the text of a call that is refused.
fn refused<T: std::fmt::Debug>(result: Result<T, Error>) -> (Status, u64, String) {
    let why = result.unwrap_err();
    (why.status(), why.number(), why.to_string())
}

// What such a call is expected to report.
fn why(status: Status, number: u64, text: &str) -> (Status, u64, String) {
    (status, number, text.to_string())
}

#[test]
fn plans_and_applies() {
    let steps = plan(NOW, TARGET).unwrap();
    assert_eq!(steps, "enter-joint autoleave=false r1 v5\nleave-joint\n");
    assert_eq!(apply(NOW, &steps).unwrap(), TARGET);
}

#[test]
fn plans_by_each_strategy() {
    for (strategy, steps) in [
        (Strategy::default(), "enter-joint autoleave=false r1 v5\nleave-joint\n"),
        (Strategy::LearnersFirst, "simple l5\nenter-joint autoleave=false r1 v5\nleave-joint\n"),
        (Strategy::OneAtATime, "simple l5\nsimple v5\nsimple r1\n"),
    ] {
        assert_eq!(plan_by(Options { strategy, ..Options::default() }, NOW, TARGET).as_deref(), Ok(steps));
        assert_eq!(apply(NOW, steps).as_deref(), Ok(TARGET));
    }
    let joint = TARGET.replace("Outgoing:[]", "Outgoing:[1 2 3]");
    let one_at_a_time = Options { strategy: Strategy::OneAtATime, ..Options::default() };
    assert_eq!(refused(plan_by(one_at_a_time, NOW, &joint)), why(Status::JointTarget, 0, "the target is joint"));
}

#[test]
fn writes_each_output() {
    let table = "step         1 2  majority  may be down  catch up  until then  besides 2\n\
                 now          V .  1 of 1    0                                  0\n\
                 1 simple v2  V V  2 of 2    0            2         stalls      stalls\n";
    for (output, down, to, text) in [
        (Output::Steps, vec![1], "v2", "# no quorum with 1 down: no step can be made\nsimple v2\n"),
        (Output::Table, vec![2], "v2", table),
        (Output::Json, vec![], "v1", "{\"plan\":1,\"steps\":0}\n"),
    ] {
        assert_eq!(plan_by(Options { output, down: &down, ..Options::default() }, "voters=(1)", to).as_deref(), Ok(text));
    }
    assert_eq!(refused(plan_by(Options { down: &[0], ..Options::default() }, "voters=(1)", "v2")), why(Status::ZeroId, 0, "the id 0"));
    let down = plan_by(Options { down: &[1, 9], ..Options::default() }, "voters=(1)", "v2");
    assert_eq!(refused(down), why(Status::DownNotAMember, 9, "down and not a member (id 9)"));
}

#[test]
fn writes_a_text_longer_than_the_first_room() {
    let ids: Vec<String> = (1..=500).map(|id| id.to_string()).collect();
    let many = NOW.replace("1 2 3", &ids.join(" "));
    assert_eq!(apply(&many, "simple u1").unwrap(), many);
}

#[test]
fn refuses() {
    for (now, target, expected) in [
        ("Voters:[1]", TARGET, why(Status::BadConfState, 1, "the configuration: not a ConfState line: expected Voters:[1 2] VotersOutgoing:[] Learners:[3] LearnersNext:[] AutoLeave:false")),
        (NOW, "Voters:[1]", why(Status::BadConfState, 2, "the target: not a ConfState line: expected Voters:[1 2] VotersOutgoing:[] Learners:[3] LearnersNext:[] AutoLeave:false")),
        ("", TARGET, why(Status::UnknownForm, 1, "the configuration: no form of a configuration: expected voters=(1 2 3) learners=(4), a ConfState line, or JSON of a ConfState or of etcdctl member list")),
        (NOW, "voters=(1", why(Status::BadPrinted, 2, "the target: not a printed configuration: expected voters=(1 2)&&(1 2 3) learners=(4) learners_next=(3) autoleave, without what is empty, with spaces between ids")),
        ("{}}", TARGET, why(Status::BadJson, 1, "the configuration: not the JSON of a configuration: expected voters, voters_outgoing, learners, learners_next and auto_leave, or etcdctl member list -w json, with decimal numbers as ids")),
        (NOW, "v1 x", why(Status::BadChangeList, 2, "the target: not a list of changes: expected changes as r1 v4 l5, or a configuration as voters=(1 2 3), a ConfState line, or JSON")),
        (NOW, "r7", why(Status::NotAMember, 7, "not a member (id 7)")),
        (NOW, "r3 v3", why(Status::AddedAgain, 3, "removed and added again: a server that lost its log needs a new id (id 3)")),
        (NOW, "voters=()", why(Status::NoVoter, 2, "the target: no incoming voter")),
        ("voters=(1) learners=(1)", TARGET, why(Status::NotAConfiguration, 1, "the configuration: not a configuration: an id is 0 or listed twice, a learner is a voter, a next learner is not an outgoing voter alone, or auto-leave has no outgoing voters")),
    ] {
        assert_eq!(refused(plan(now, target)), expected);
    }
    assert_eq!(refused(apply(NOW, "leave-joint")), why(Status::NotJoint, 1, "step 1: can't leave a non-joint config"));
    assert_eq!(
        refused(apply(NOW, "simple v4\nx")),
        why(Status::BadLine, 2, "line 2: not a step: expected simple l4 l5, enter-joint autoleave=false r1 v4, or leave-joint")
    );
    assert_eq!(refused(check(&NOW.replace("1 2", "0 2"))), why(Status::ZeroId, 0, "the id 0"));
    assert_eq!(check(NOW), Ok(()));
}

// Each number has a name here if the library has a text for it.
#[test]
fn names_each_status() {
    let mut named = 0;
    for code in 2..100 {
        let status = Status::of(code);
        let mut out = [0; 256];
        let length = unsafe { confscript_status_text(code, out.as_mut_ptr(), out.len()) }.number as usize;
        assert_eq!(&out[..length] != b"unknown status", status != Status::Unknown, "{code}");
        if status != Status::Unknown {
            assert_eq!(status as u32, code);
            named += 1;
        }
    }
    assert!(named >= 29);
}

#[repr(C)]
struct Answer {
    _status: u32,
    number: u64,
}

extern "C" {
    fn confscript_status_text(status: u32, out: *mut u8, out_len: usize) -> Answer;
}

#[test]
fn counts() {
    assert_eq!(committed_index(&[9, 7, 0], &[]), 7);
    assert_eq!(committed_index(&[9, 7, 0], &[5]), 5);
    assert_eq!(committed_index(&[], &[]), u64::MAX);
    assert_eq!(tally_votes(&[Some(true), Some(true), None], &[]), VoteResult::Won);
    assert_eq!(tally_votes(&[Some(false), Some(false), None], &[]), VoteResult::Lost);
    assert_eq!(tally_votes(&[None, None, None], &[]), VoteResult::Pending);
    assert_eq!(tally_votes(&[Some(true)], &[None]), VoteResult::Pending);
    assert_eq!(may_be_down(&[1, 2, 3], &[], &[]), Ok(1));
    assert_eq!(may_be_down(&[1, 1, 1, 2, 3], &[], &[]), Ok(1));
    assert_eq!(refused(may_be_down(&[], &[], &[])), why(Status::NoQuorum, 0, "the voters are no quorum"));
}

// A voter that is listed twice counts once.
#[test]
fn counts_by_id() {
    let acknowledged = |id| [0, 9, 7, 5, 3][id as usize];
    assert_eq!(committed(&[1, 2, 3], &[], acknowledged), 7);
    assert_eq!(committed(&[1, 1, 1, 2, 3], &[], acknowledged), 7);
    assert_eq!(committed(&[1, 2], &[1, 1, 1, 3, 4, 4], acknowledged), 5);
    assert_eq!(committed(&[], &[], acknowledged), u64::MAX);
    assert_eq!(vote(&[1, 1, 1, 2, 2, 3], &[], |id| (id == 1).then_some(true)), VoteResult::Pending);
    assert_eq!(vote(&[1, 1, 1, 2, 2], &[3], |_| Some(true)), VoteResult::Won);
    assert_eq!(vote(&[1, 2, 3], &[], |id| Some(id == 3)), VoteResult::Lost);
}

#[test]
fn prints_values() {
    let all = Configuration {
        voters: vec![2, 1],
        voters_outgoing: vec![u64::MAX, 3],
        learners: vec![5],
        learners_next: vec![3],
        auto_leave: true,
    };
    assert_eq!(all.to_string(), "voters=(1 2)&&(3 18446744073709551615) learners=(5) learners_next=(3) autoleave");
    assert_eq!(voters(&[]).to_string(), "voters=()");
    for (strategy, name) in
        [(Strategy::Shortest, "shortest"), (Strategy::LearnersFirst, "learners-first"), (Strategy::OneAtATime, "one-at-a-time")]
    {
        assert_eq!((strategy.to_string().as_str(), name.parse()), (name, Ok(strategy)));
    }
    for (output, name) in [(Output::Steps, "steps"), (Output::Table, "table"), (Output::Json, "json")] {
        assert_eq!((output.to_string().as_str(), name.parse()), (name, Ok(output)));
    }
    assert_eq!(("Shortest".parse::<Strategy>(), "".parse::<Output>()), (Err(UnknownName), Err(UnknownName)));
    assert_eq!([VoteResult::Pending, VoteResult::Lost, VoteResult::Won].map(|it| it.to_string()), ["VotePending", "VoteLost", "VoteWon"]);
    assert_eq!(
        std::collections::HashSet::from([
            voters(&[1, 3]),
            voters(&[3, 1]),
            voters(&[1]),
            Configuration { auto_leave: true, ..voters(&[1]) }
        ])
        .len(),
        3
    );
}

// A configuration is read from each text that the program reads, and from no other one.
#[test]
fn reads_printed_configurations() {
    let all = Configuration {
        voters: vec![1, 2],
        voters_outgoing: vec![3, u64::MAX],
        learners: vec![5],
        learners_next: vec![3],
        auto_leave: true,
    };
    for configuration in [voters(&[]), voters(&[7]), all.clone(), Configuration { learners: vec![2], ..voters(&[1]) }] {
        assert_eq!(configuration.to_string().parse(), Ok(configuration));
    }
    let text = " voters =( 02 1)&& (18446744073709551615 3)\tlearners=(5)learners_next=(3)  autoleave\n";
    assert_eq!((text.parse(), plan(text, &all.to_string()).as_deref()), (Ok(all), Ok("nothing to do\n")));
    for text in [
        "",
        "voters",
        "voters=",
        "voters=(1",
        "voters=(1))",
        "voters=(1,2)",
        "voters=(1 x)",
        "voters=(+1)",
        "voters=(-1)",
        "voters=(18446744073709551616)",
        "voters=(1)&&()",
        "voters=(1) learners=()",
        "voters=(1) learners_next=(2) learners=(3)",
        "voters=(1) autoleave autoleave",
        "voters=(1) voters=(1)",
        "learners=(1)",
        "(1)",
        "voters=(1) autoleav",
    ] {
        let (status, number, why) = refused(text.parse::<Configuration>());
        assert_eq!((status, number), (Status::BadPrinted, 0), "{text:?}");
        assert!(why.starts_with("not a printed configuration"));
        assert!(plan(text, "voters=(1)").is_err(), "{text:?}");
    }
}

fn voters(ids: &[u64]) -> Configuration {
    Configuration { voters: ids.to_vec(), ..Configuration::default() }
}

#[test]
fn steps() {
    let change = |kind, id| Change { kind, id };
    let joint = step(&voters(&[3, 2, 1]), StepKind::Auto, &[change(ChangeKind::Voter, 4), change(ChangeKind::Remove, 1)]).unwrap();
    let (joint, catching_up) = joint;
    assert_eq!(joint, Configuration { voters_outgoing: vec![1, 2, 3], auto_leave: true, ..voters(&[2, 3, 4]) });
    assert_eq!(catching_up, [4]);
    assert_eq!(step(&joint, StepKind::LeaveJoint, &[]), Ok((voters(&[2, 3, 4]), vec![])));
    assert_eq!(
        refused(step(&joint, StepKind::Simple, &[])),
        why(Status::SimpleInJoint, 0, "can't apply simple config change in joint config")
    );
    let many: Vec<Change> = (1..=500).map(|id| change(ChangeKind::Learner, id)).collect();
    assert_eq!(step(&voters(&[501]), StepKind::Simple, &many).unwrap().0.learners, (1..=500).collect::<Vec<_>>());
}

#[test]
fn restores() {
    assert_eq!(restore(&voters(&[3, 1])), Ok((voters(&[1, 3]), vec![1, 3])));
    assert_eq!(restore(&voters(&[])), Ok((voters(&[]), vec![])));
    assert_eq!(refused(restore(&voters(&[1, 3, 3]))), why(Status::RepeatedId, 3, "an id is named twice (id 3)"));
    let learner = Configuration { learners: vec![2], ..voters(&[1, 2]) };
    assert_eq!(refused(restore(&learner)), why(Status::LearnerAndVoter, 2, "a learner is a voter (id 2)"));
    assert_eq!(refused(restore(&Configuration { learners: vec![2], ..voters(&[]) })), why(Status::NoVoter, 0, "no incoming voter"));
}

#[test]
fn stages_a_plan() {
    let (five, last) = (voters(&[5, 4, 3, 2, 1]), voters(&[3, 4, 5, 6, 7]));
    let plan = stages(Options { strategy: Strategy::LearnersFirst, ..Options::default() }, &five, &last).unwrap();
    let lines: Vec<String> = plan.stages.iter().map(|it| it.to_string()).collect();
    assert_eq!(
        lines,
        [
            "Auto AddLearnerNode(6) -> voters=(1 2 3 4 5) learners=(6), catching up (6), may be down 2, until then 2",
            "Auto AddLearnerNode(7) -> voters=(1 2 3 4 5) learners=(6 7), catching up (7), may be down 2, until then 2",
            "Explicit RemoveNode(1) RemoveNode(2) AddNode(6) AddNode(7) -> voters=(3 4 5 6 7)&&(1 2 3 4 5), may be down 2, until then 2",
            "Auto -> voters=(3 4 5 6 7), may be down 2, until then 2",
        ]
    );
    assert_eq!((&plan.stages[3].conf_state, plan.stalls), (&last, false));
}

// Each proposal leads to the configuration of its stage, the last one to the target.
#[test]
fn stages_lead() {
    let next =
        Configuration { learners: vec![5], learners_next: vec![u64::MAX], voters_outgoing: vec![1, 2, u64::MAX], ..voters(&[2, 1 << 53]) };
    let left = Configuration { voters_outgoing: vec![1, 2], auto_leave: true, ..voters(&[3, 4]) };
    let states = [voters(&[u64::MAX]), Configuration { learners: vec![4], ..voters(&[1, 2, 3]) }, next, left];
    for now in &states {
        for target in &states {
            for strategy in [Strategy::Shortest, Strategy::LearnersFirst, Strategy::OneAtATime] {
                let plan = stages(Options { strategy, ..Options::default() }, now, target);
                if strategy == Strategy::OneAtATime && !target.voters_outgoing.is_empty() && now != target {
                    assert_eq!(refused(plan), why(Status::JointTarget, 0, "the target is joint"));
                    continue;
                }
                let mut state = now.clone();
                for stage in plan.unwrap().stages {
                    let (next, catching_up) = apply_conf_change(&state, &stage.conf_change).unwrap();
                    assert_eq!((&next, &catching_up), (&stage.conf_state, &stage.catching_up));
                    state = next;
                }
                assert_eq!(state, *target);
            }
        }
    }
}

#[test]
fn stages_with_ids_down() {
    let options = |down| Options { down, output: Output::Table, ..Options::default() };
    let plan = stages(options(&[1, 2]), &voters(&[1, 2, 3]), &voters(&[1, 2, 3])).unwrap();
    assert!(plan.stages.is_empty() && plan.stalls);
    let plan = stages(options(&[1]), &voters(&[1, 2, 3]), &voters(&[2, 3, 4])).unwrap();
    assert_eq!(
        (plan.stages.len(), plan.stages[0].may_be_down, plan.stages[0].may_be_down_besides, plan.stalls),
        (2, Some(1), Some(0), false)
    );
    let plan = stages(options(&[2]), &voters(&[1]), &voters(&[1, 2])).unwrap();
    assert_eq!((plan.stages[0].may_be_down, plan.stages[0].may_be_down_besides, plan.stalls), (Some(0), None, true));
    let plan = stages(Options::default(), &voters(&[1]), &voters(&[1, 2])).unwrap();
    assert_eq!((plan.stages[0].may_be_down, plan.stages[0].until_then, &plan.stages[0].catching_up), (Some(0), None, &vec![2]));
}

// A view in which the members have these indexes, those that are silent are not heard from, and 9 is committed.
fn view(conf_state: Configuration, lead: u64, indexes: &[u64], silent: &[u64], started: &[u64]) -> View {
    let progress = (1..).zip(indexes).map(|(id, matched)| MemberView { id, matched: *matched, recent_active: !silent.contains(&id) });
    View { conf_state, conf_index: 5, lead, commit: 9, progress: progress.collect(), started: started.to_vec(), ..View::default() }
}

#[test]
fn next_actions() {
    let (three, target) = (voters(&[1, 2, 3]), voters(&[1, 2, 4]));
    let learning = Configuration { learners: vec![4], ..three.clone() };
    let joint = Configuration { voters_outgoing: vec![1, 2, 3], ..target.clone() };
    let leaving = Configuration { auto_leave: true, ..joint.clone() };
    let (all, four) = ([9, 9, 9, 9], [1, 2, 3, 4]);
    let pending = View { pending_conf_index: 10, ..view(three.clone(), 1, &[10, 9, 10], &[], &four) };
    let retired = View { retired: vec![4], ..view(three.clone(), 1, &all, &[], &four[..3]) };
    for (known, to, down, text) in [
        (view(three.clone(), 1, &all, &[], &four), &target, &[2, 3][..], "quorum is lost with 2 3 down"),
        (view(three.clone(), 1, &all, &[], &four), &target, &[3], "3 named as down, but heard from"),
        (view(three.clone(), 0, &all, &[3], &four), &target, &[], "there is no leader: waiting for 3"),
        (pending, &target, &[], "the change at index 10 is not applied: waiting for 2"),
        (
            view(three.clone(), 1, &all[..3], &[], &four),
            &voters(&[3, 4]),
            &[4],
            "with 4 down, nothing commits in a configuration on the way",
        ),
        (retired, &target, &[], "stopped for good, and not used again: 4"),
        (view(three.clone(), 1, &all, &[], &four[..3]), &target, &[], "start 4"),
        (view(three.clone(), 1, &all, &[], &four), &three, &[], "stop 4 for good"),
        (view(leaving, 1, &[9, 9, 4, 9], &[], &four), &target, &[], "the joint configuration is left automatically: waiting for 3"),
        (view(joint.clone(), 3, &all, &[], &four), &target, &[], "transfer leadership to 1"),
        (view(three.clone(), 1, &all, &[3], &four[..3]), &three, &[], "not heard from 3"),
        (view(learning.clone(), 1, &[9, 9, 9, 2], &[], &four), &target, &[], "4 has not caught up: 2 of 6"),
        (view(learning.clone(), 1, &[9, 9, 9, 6], &[], &four), &target, &[], "propose enter-joint autoleave=false r3 v4"),
        (view(three.clone(), 1, &all, &[], &four), &target, &[], "propose simple l4"),
        (view(joint.clone(), 1, &all, &[], &four), &target, &[], "propose leave-joint"),
        (view(three.clone(), 1, &all, &[], &four[..3]), &three, &[9], "done"),
        (
            View { conf_index: 12, ..view(three.clone(), 4, &[9, 9, 9], &[], &four) },
            &three,
            &[],
            "1 has not caught up: 9 of 11, 2 has not caught up: 9 of 11, 3 has not caught up: 9 of 11",
        ),
    ] {
        let options = DriveOptions { strategy: Strategy::LearnersFirst, down, max_lag: 3 };
        assert_eq!(next(options, to, &known).unwrap().to_string(), text);
    }
    let known = view(three.clone(), 1, &all, &[], &four);
    let plan = stages(Options { strategy: Strategy::LearnersFirst, ..Options::default() }, &three, &target).unwrap();
    let first = DriveOptions::by(Strategy::LearnersFirst);
    assert_eq!(next(first, &target, &known), Ok(Action::Propose(plan.stages[0].clone())));
    let (one_at_a_time, waiting) = (DriveOptions::by(Strategy::OneAtATime), view(learning, 1, &[9, 9, 9, 2], &[], &four));
    match next(one_at_a_time, &target, &waiting) {
        Ok(Action::Wait(WaitReason::Behind, waited)) => {
            assert_eq!((waited.len(), waited[0].id, waited[0].matched, waited[0].needed), (1, 4, 2, 9))
        }
        other => panic!("{other:?}"),
    }
}

#[test]
fn refuses_next() {
    let (one, wrong) = (voters(&[1]), Configuration { learners: vec![1], ..voters(&[1]) });
    let joint = Configuration { voters_outgoing: vec![2], ..voters(&[1]) };
    let known = view(one.clone(), 1, &[9], &[], &[1]);
    let (first, one_at_a_time) = (DriveOptions::by(Strategy::LearnersFirst), DriveOptions::by(Strategy::OneAtATime));
    for (options, target, view, expected) in [
        (
            DriveOptions::by(Strategy::Shortest),
            &one,
            known.clone(),
            why(Status::StrategyMayStall, 0, "by this strategy the cluster may stall"),
        ),
        (first, &voters(&[]), known.clone(), why(Status::NoVoter, 2, "the target: no incoming voter")),
        (first, &wrong, known.clone(), why(Status::LearnerAndVoter, 1, "the target: a learner is a voter (id 1)")),
        (
            first,
            &one,
            View { conf_state: wrong.clone(), ..known.clone() },
            why(Status::LearnerAndVoter, 1, "the configuration: a learner is a voter (id 1)"),
        ),
        (DriveOptions { down: &[2, 2, 0], ..first }, &one, known.clone(), why(Status::ZeroId, 0, "down: the id 0")),
        (first, &one, View { started: vec![1, 0], ..known.clone() }, why(Status::ZeroId, 0, "started: the id 0")),
        (first, &one, View { retired: vec![0], ..known.clone() }, why(Status::ZeroId, 0, "retired: the id 0")),
        (
            first,
            &one,
            View { progress: vec![known.progress[0], MemberView::default()], ..known.clone() },
            why(Status::ZeroId, 0, "the progress: the id 0"),
        ),
        (one_at_a_time, &joint, known.clone(), why(Status::JointTarget, 0, "the target is joint")),
    ] {
        assert_eq!(refused(next(options, target, &view)), expected);
    }
    let leaving = Configuration { auto_leave: true, ..joint.clone() };
    for (target, view, status) in [
        (&one, View { conf_index: 0, ..known.clone() }, Status::NoConfIndex),
        (&one, View { progress: vec![], ..known.clone() }, Status::NoLeaderProgress),
        (&leaving, known.clone(), Status::AutoLeaveTarget),
    ] {
        assert_eq!(next(first, target, &view).unwrap_err().status(), status);
    }
}

// The numbers are more than those of the first buffer.
#[test]
fn stages_many_changes() {
    let target = Configuration { learners: (1..=100).collect(), ..voters(&[1000]) };
    let plan = stages(Options::default(), &voters(&[1000]), &target).unwrap();
    assert_eq!((plan.stages.len(), &plan.stages[99].conf_state, &plan.stages[99].catching_up), (100, &target, &vec![100]));
}

#[test]
fn refuses_stages() {
    let joint = Configuration { voters_outgoing: vec![1], ..voters(&[2]) };
    let invalid = Configuration { learners: vec![2], ..voters(&[2]) };
    let one_at_a_time = Options { strategy: Strategy::OneAtATime, ..Options::default() };
    for (options, now, target, expected) in [
        (Options { down: &[0], ..Options::default() }, voters(&[1]), voters(&[2]), why(Status::ZeroId, 0, "the id 0")),
        (Options::default(), voters(&[7, 1, 7]), voters(&[2]), why(Status::RepeatedId, 7, "an id is named twice (id 7)")),
        (Options::default(), voters(&[1]), invalid, why(Status::LearnerAndVoter, 2, "a learner is a voter (id 2)")),
        (
            Options { down: &[1, 9], ..Options::default() },
            voters(&[1]),
            voters(&[2]),
            why(Status::DownNotAMember, 9, "down and not a member (id 9)"),
        ),
        (Options::default(), voters(&[]), voters(&[2]), why(Status::NoVoter, 1, "the configuration: no incoming voter")),
        (Options::default(), voters(&[1]), voters(&[]), why(Status::NoVoter, 2, "the target: no incoming voter")),
        (one_at_a_time, voters(&[1]), joint, why(Status::JointTarget, 0, "the target is joint")),
    ] {
        assert_eq!(refused(stages(options, &now, &target)), expected);
    }
}

#[test]
fn has_the_version() {
    assert_eq!(version(), 100);
}
