//! Script files: lines, items, and the words of a directive.

use crate::arguments::command_len;
use crate::text::trim;
use std::io::{BufRead, BufReader, Read};
use std::ops::Range;

pub enum Fault {
    Read,
    Write,
    /// What is wrong with the input, and in which line it is reported.
    Input(u64, &'static str),
}

/// The lines of an input, each without its newline and the one carriage return before it.
pub struct Lines<R> {
    input: BufReader<R>,
    pub count: u64,
}

impl<R: Read> Lines<R> {
    pub fn new(input: R) -> Lines<R> {
        Lines { input: BufReader::with_capacity(1 << 16, input), count: 0 }
    }

    /// Appends the next line, and then a newline. At the end there is none.
    pub fn append_next(&mut self, text: &mut Vec<u8>) -> Result<Option<Range<usize>>, Fault> {
        let start = text.len();
        if self.input.read_until(b'\n', text).map_err(|_| Fault::Read)? == 0 {
            return Ok(None);
        }
        if text.last() == Some(&b'\n') {
            text.pop();
        }
        if text.len() > start && text.last() == Some(&b'\r') {
            text.pop();
        }
        let line = start..text.len();
        text.push(b'\n');
        self.count += 1;
        Ok(Some(line))
    }
}

/// An item of a script. It is read into again and again, so that its memory is reused.
#[derive(Default)]
pub struct Item {
    /// Its lines, each with a newline.
    pub text: Vec<u8>,
    pub first_line: u64,
    pub is_directive: bool,
    /// The directive's line, whole and trimmed, and how long its command is.
    joined: Vec<u8>,
    command_len: usize,
    /// Where in the text the input ends, and where both are.
    directive_end: usize,
    pub input_end: usize,
    expected: Range<usize>,
}

impl Item {
    pub fn command(&self) -> &[u8] {
        &self.joined[..self.command_len]
    }

    pub fn arguments(&self) -> &[u8] {
        &self.joined[self.command_len..]
    }

    pub fn input(&self) -> &[u8] {
        trim(&self.text[self.directive_end..self.input_end])
    }

    pub fn expected(&self) -> &[u8] {
        &self.text[self.expected.clone()]
    }

    /// Reads the next item, if there is one.
    pub fn read<R: Read>(&mut self, lines: &mut Lines<R>) -> Result<bool, Fault> {
        self.text.clear();
        self.is_directive = false;
        let Some(line) = lines.append_next(&mut self.text)? else { return Ok(false) };
        self.first_line = lines.count;
        let trimmed = trim(&self.text[line]);
        if trimmed.is_empty() || trimmed[0] == b'#' {
            return Ok(true);
        }
        self.joined.clear();
        self.joined.extend_from_slice(trimmed);
        while self.joined.last() == Some(&b'\\') {
            let Some(line) = lines.append_next(&mut self.text)? else { break };
            self.joined.pop();
            self.joined.push(b' ');
            self.joined.extend_from_slice(trim(&self.text[line]));
        }
        if trim(&self.joined).is_empty() {
            return Ok(true);
        }
        self.is_directive = true;
        let command_len = command_len(&self.joined).filter(|_| self.joined.last() != Some(&b'\\'));
        self.command_len = command_len.ok_or(Fault::Input(self.first_line, "bad directive"))?;
        self.directive_end = self.text.len();
        self.read_input(lines)?;
        Ok(true)
    }

    fn read_input<R: Read>(&mut self, lines: &mut Lines<R>) -> Result<(), Fault> {
        loop {
            self.input_end = self.text.len();
            self.expected = self.input_end..self.input_end;
            let Some(line) = lines.append_next(&mut self.text)? else { return Ok(()) };
            if trim(&self.text[line]) == b"----" {
                return self.read_expected(lines);
            }
        }
    }

    fn read_expected<R: Read>(&mut self, lines: &mut Lines<R>) -> Result<(), Fault> {
        let start = self.text.len();
        self.expected = start..start;
        while let Some(line) = lines.append_next(&mut self.text)? {
            if trim(&self.text[line]).is_empty() {
                break;
            }
            self.expected.end = self.text.len();
        }
        Ok(())
    }
}
