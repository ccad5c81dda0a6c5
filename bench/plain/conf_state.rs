//! Saved configurations, as lines.

use crate::config::Config;
use crate::text::{number, push_numbers};

const FIELDS: [&str; 4] = ["Voters:[", " VotersOutgoing:[", " Learners:[", " LearnersNext:["];

pub struct ConfState {
    lists: [Vec<u64>; 4],
    auto_leave: bool,
}

impl ConfState {
    pub fn parse(line: &[u8]) -> Option<ConfState> {
        let mut lists = [const { Vec::new() }; 4];
        let mut rest = line;
        for (field, list) in FIELDS.iter().zip(&mut lists) {
            rest = rest.strip_prefix(field.as_bytes())?;
            let end = rest.iter().position(|byte| *byte == b']')?;
            if end > 0 {
                for digits in rest[..end].split(|byte| *byte == b' ') {
                    list.push(number(digits)?);
                }
            }
            rest = &rest[end + 1..];
        }
        let auto_leave = match rest {
            b" AutoLeave:true" => true,
            b" AutoLeave:false" => false,
            _ => return None,
        };
        Some(ConfState { lists, auto_leave })
    }

    /// The valid configuration that this describes, if it has a voter or is empty.
    pub fn restore(mut self) -> Option<Config> {
        for list in &mut self.lists {
            list.sort_unstable();
            if list.first() == Some(&0) || !list.is_sorted_by(|id, next| id < next) {
                return None;
            }
        }
        let [incoming, outgoing, learners, next_learners] = self.lists;
        let config = Config { incoming, outgoing, learners, next_learners, auto_leave: self.auto_leave };
        let is_restored = config.is_valid() && (!config.incoming.is_empty() || config == Config::default());
        is_restored.then_some(config)
    }
}

pub fn write(config: &Config, out: &mut Vec<u8>) {
    let lists = [&config.incoming, &config.outgoing, &config.learners, &config.next_learners];
    for (field, list) in FIELDS.iter().zip(lists) {
        out.extend_from_slice(field.as_bytes());
        push_numbers(out, list);
        out.push(b']');
    }
    out.extend_from_slice(if config.auto_leave { b" AutoLeave:true\n" } else { b" AutoLeave:false\n" });
}
