//! Sessions: what each command of a script answers.

use crate::arguments::{Argument, each_argument};
use crate::change::{Change, Edit};
use crate::conf_state::{self, ConfState};
use crate::config::{Config, StepKind};
use crate::plan::{Step, plan, write as write_plan};
use crate::quorum::{self, Known, Vote};
use crate::text::{number_from_1, words};
use crate::tracker::Tracker;
use std::collections::VecDeque;
use std::mem;

const HISTORY: usize = 100;
const FIRST_NEXT: u64 = 1;

#[derive(Default)]
pub struct Session {
    tracker: Tracker,
    last_index: u64,
    /// The configurations from before the accepted changes, the newest first.
    history: VecDeque<Config>,
    /// Buffers that are reused between directives.
    next: Tracker,
    edits: Vec<Edit>,
    changes: Vec<Change>,
}

/// A reply of one line, whose end is a part of the directive.
struct Reply<'a>(&'static str, &'a [u8]);

type Answer<'a> = Result<(), Reply<'a>>;

impl From<&'static str> for Reply<'_> {
    fn from(text: &'static str) -> Self {
        Reply(text, b"")
    }
}

fn bad_argument(key: &[u8]) -> Reply<'_> {
    Reply("bad argument: ", key)
}

fn no_arguments(arguments: &[u8]) -> Answer<'_> {
    each_argument(arguments, |_| false).map_err(bad_argument)
}

/// Sets an argument's value, if it is the first of its key and its value is allowed.
fn set_once<T>(slot: &mut Option<T>, value: Option<T>) -> bool {
    let is_set = slot.is_none() && value.is_some();
    if is_set {
        *slot = value;
    }
    is_set
}

impl Session {
    /// Carries a directive out, and fills `found` with its output.
    pub fn run(&mut self, command: &[u8], arguments: &[u8], input: &[u8], found: &mut Vec<u8>) {
        found.clear();
        if let Err(Reply(front, back)) = self.answer(command, arguments, input, found) {
            found.extend_from_slice(front.as_bytes());
            found.extend_from_slice(back);
            found.push(b'\n');
        }
        self.last_index = self.last_index.saturating_add(1);
    }

    fn answer<'a>(&mut self, command: &[u8], arguments: &'a [u8], input: &'a [u8], found: &mut Vec<u8>) -> Answer<'a> {
        match command {
            b"restore" => return self.restore(arguments, input, found),
            b"conf-state" | b"undo" | b"committed" | b"vote" => {
                if !input.is_empty() {
                    return Err("this command takes no input".into());
                }
            }
            _ => self.read_changes(input)?,
        }
        match command {
            b"simple" => self.change(StepKind::Simple, found),
            b"enter-joint" => self.enter_joint(arguments, found),
            b"leave-joint" if self.changes.is_empty() => self.change(StepKind::LeaveJoint, found),
            b"leave-joint" => Err("this command takes no input".into()),
            b"conf-state" => {
                no_arguments(arguments)?;
                conf_state::write(&self.tracker.config, found);
                Ok(())
            }
            b"undo" => self.undo(arguments, found),
            b"committed" => committed(arguments, found),
            b"vote" => vote(arguments, found),
            _ => Err("unknown command".into()),
        }
    }

    fn read_changes<'a>(&mut self, input: &'a [u8]) -> Answer<'a> {
        self.changes.clear();
        for token in words(input) {
            self.changes.push(Change::parse(token).map_err(|fault| Reply(fault, token))?);
        }
        Ok(())
    }

    fn fresh_next(&self) -> u64 {
        self.last_index.max(FIRST_NEXT)
    }

    /// Takes a step with the changes that were read, and keeps the configuration from before it.
    fn change<'a>(&mut self, kind: StepKind, found: &mut Vec<u8>) -> Answer<'a> {
        self.tracker.step(kind, &self.changes, self.fresh_next(), &mut self.edits, &mut self.next)?;
        mem::swap(&mut self.tracker, &mut self.next);
        let oldest = if self.history.len() < HISTORY { None } else { self.history.pop_back() };
        self.history.push_front(mem::replace(&mut self.next.config, oldest.unwrap_or_default()));
        self.tracker.write(found);
        Ok(())
    }

    fn enter_joint<'a>(&mut self, arguments: &'a [u8], found: &mut Vec<u8>) -> Answer<'a> {
        let mut auto_leave = None;
        each_argument(arguments, |argument| {
            let value = match argument.value() {
                Some(b"true") => Some(true),
                Some(b"false") => Some(false),
                _ => None,
            };
            argument.key == b"autoleave" && set_once(&mut auto_leave, value)
        })
        .map_err(bad_argument)?;
        self.change(StepKind::EnterJoint { auto_leave: auto_leave.unwrap_or(false) }, found)
    }

    fn restore<'a>(&mut self, arguments: &'a [u8], input: &[u8], found: &mut Vec<u8>) -> Answer<'a> {
        let conf_state = ConfState::parse(input).ok_or("bad conf state")?;
        no_arguments(arguments)?;
        let config = conf_state.restore().ok_or("not a configuration")?;
        self.tracker = Tracker::fresh(config, self.fresh_next());
        self.history.clear();
        self.tracker.write(found);
        Ok(())
    }

    /// The plan to the configuration from before the last `count` changes, or the line that says why there is none.
    pub fn undo_plan(&self, count: u64) -> Result<Vec<Step>, String> {
        let kept = self.history.len();
        let index = usize::try_from(count - 1).unwrap_or(usize::MAX);
        let target =
            self.history.get(index).ok_or_else(|| format!("no plan: {kept} earlier configurations are kept\n"))?;
        if target.incoming.is_empty() {
            return Err("no plan: the earlier configuration has no voter\n".into());
        }
        Ok(plan(&self.tracker.config, target))
    }

    fn undo<'a>(&mut self, arguments: &'a [u8], found: &mut Vec<u8>) -> Answer<'a> {
        let mut count = None;
        each_argument(arguments, |argument| {
            argument.key == b"steps" && set_once(&mut count, argument.value().and_then(number_from_1))
        })
        .map_err(bad_argument)?;
        let count = count.unwrap_or(1);
        let steps = match self.undo_plan(count) {
            Ok(steps) => steps,
            Err(reason) => {
                found.extend_from_slice(reason.as_bytes());
                return Ok(());
            }
        };
        write_plan(&steps, found);
        for Step { kind, changes } in &steps {
            self.tracker.step(*kind, changes, self.fresh_next(), &mut self.edits, &mut self.next)?;
            mem::swap(&mut self.tracker, &mut self.next);
        }
        self.history.drain(..count as usize);
        self.tracker.write(found);
        Ok(())
    }
}

/// A quorum that arguments name, and what they say of its ids.
struct NamedQuorum<T> {
    incoming: Vec<u64>,
    outgoing: Vec<u64>,
    known: Known<T>,
}

fn id_list(argument: &Argument) -> Option<Vec<u64>> {
    argument.values().map(number_from_1).collect()
}

fn read_quorum<'a, T: Copy>(
    arguments: &'a [u8],
    values_key: &[u8],
    read_value: impl Fn(&[u8]) -> Option<Option<T>>,
) -> Result<NamedQuorum<T>, Reply<'a>> {
    let (mut incoming, mut outgoing, mut values) = (None, None, None);
    each_argument(arguments, |argument| match argument.key {
        b"cfg" => set_once(&mut incoming, id_list(&argument)),
        b"cfgj" if argument.value() == Some(b"zero") => set_once(&mut outgoing, Some(Vec::new())),
        b"cfgj" => set_once(&mut outgoing, id_list(&argument)),
        key => {
            key == values_key && set_once(&mut values, argument.values().map(&read_value).collect::<Option<Vec<_>>>())
        }
    })
    .map_err(bad_argument)?;
    let (mut incoming, mut outgoing) = (incoming.unwrap_or_default(), outgoing.unwrap_or_default());
    let values = values.unwrap_or_default();
    let mut ids: Vec<(u64, usize)> = incoming.iter().chain(&outgoing).copied().zip(0..).collect();
    ids.sort_unstable();
    ids.dedup_by_key(|entry| entry.0);
    ids.sort_unstable_by_key(|entry| entry.1);
    if ids.len() != values.len() {
        return Err("wrong number of values".into());
    }
    let mut known: Known<T> = ids.into_iter().zip(values).map(|((id, _), value)| (id, value)).collect();
    known.sort_unstable_by_key(|entry| entry.0);
    for set in [&mut incoming, &mut outgoing] {
        set.sort_unstable();
        set.dedup();
    }
    Ok(NamedQuorum { incoming, outgoing, known })
}

fn committed<'a>(arguments: &'a [u8], found: &mut Vec<u8>) -> Answer<'a> {
    let read_index = |value: &[u8]| if value == b"_" { Some(None) } else { number_from_1(value).map(Some) };
    let NamedQuorum { incoming, outgoing, known } = read_quorum(arguments, b"idx", read_index)?;
    quorum::write_chart(&known, found);
    quorum::write_index(quorum::committed(&incoming, &outgoing, &known), found);
    Ok(())
}

fn vote<'a>(arguments: &'a [u8], found: &mut Vec<u8>) -> Answer<'a> {
    let read_vote = |value: &[u8]| match value {
        b"y" => Some(Some(true)),
        b"n" => Some(Some(false)),
        b"_" => Some(None),
        _ => None,
    };
    let NamedQuorum { incoming, outgoing, known } = read_quorum(arguments, b"votes", read_vote)?;
    found.extend_from_slice(match quorum::vote(&incoming, &outgoing, &known) {
        Vote::Won => b"VoteWon\n" as &[u8],
        Vote::Lost => b"VoteLost\n",
        Vote::Pending => b"VotePending\n",
    });
    Ok(())
}
