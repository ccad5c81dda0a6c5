//! The words of a directive: its command and its arguments.

use crate::text::{is_space, trim};

/// An argument: a key, and the text of its values with whether that is a list, if it has any.
pub struct Argument<'a> {
    pub key: &'a [u8],
    values: Option<(&'a [u8], bool)>,
}

impl<'a> Argument<'a> {
    pub fn values(&self) -> impl Iterator<Item = &'a [u8]> + use<'a> {
        let (text, is_list) = self.values.unwrap_or((b"", true));
        let is_empty = is_list && trim(text).is_empty();
        let values = text.split(move |byte| is_list && *byte == b',').map(trim);
        values.take(if is_empty { 0 } else { usize::MAX })
    }

    /// The value, if there is exactly one.
    pub fn value(&self) -> Option<&'a [u8]> {
        let mut values = self.values();
        values.next().filter(|_| values.next().is_none())
    }

    /// The argument at the start of a text, and the rest of the text. There is none if the text does not begin with one.
    fn parse(text: &'a [u8]) -> Option<(Argument<'a>, &'a [u8])> {
        let (key, rest) = text.split_at(key_len(text));
        let (values, rest) = match rest {
            [b'=', b'(', rest @ ..] => {
                let end = rest.iter().position(|byte| *byte == b')')?;
                (Some((&rest[..end], true)), &rest[end + 1..])
            }
            [b'=', rest @ ..] => {
                let end = rest.iter().position(|byte| is_space(*byte) || b"()".contains(byte)).unwrap_or(rest.len());
                (Some((&rest[..end], false)), &rest[end..])
            }
            _ => (None, rest),
        };
        let is_ended = !key.is_empty() && rest.first().is_none_or(|byte| is_space(*byte));
        is_ended.then_some((Argument { key, values }, trim(rest)))
    }
}

fn key_len(text: &[u8]) -> usize {
    let is_key = |byte: &u8| byte.is_ascii_alphanumeric() || b"-_/,.".contains(byte);
    text.iter().position(|byte| !is_key(byte)).unwrap_or(text.len())
}

/// The length of the command that begins a directive, if the whole text is one.
pub fn command_len(text: &[u8]) -> Option<usize> {
    let (command, rest) = Argument::parse(text)?;
    if command.values.is_some() || command.key == b"subtest" {
        return None;
    }
    let mut rest = rest;
    while !rest.is_empty() {
        rest = Argument::parse(rest)?.1;
    }
    Some(command.key.len())
}

/// Passes the arguments on, one by one. The key of the first one that is not taken is the error.
pub fn each_argument<'a>(text: &'a [u8], mut takes: impl FnMut(Argument<'a>) -> bool) -> Result<(), &'a [u8]> {
    let mut rest = trim(text);
    while let Some((argument, behind)) = Argument::parse(rest) {
        let key = argument.key;
        if !takes(argument) {
            return Err(key);
        }
        rest = behind;
    }
    Ok(())
}
