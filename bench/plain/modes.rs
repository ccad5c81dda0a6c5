//! The modes of the program.

use crate::change::{Change, Edit};
use crate::conf_state::ConfState;
use crate::config::{Config, StepKind};
use crate::plan::{plan as plan_between, write as write_plan};
use crate::script::{Fault, Item, Lines};
use crate::session::Session;
use crate::text::{push_number, words};
use std::io::{BufRead, Read, Write};
use std::mem;

const BLOCK: usize = 1 << 16;

/// Writes what there is, all but the last two bytes, once it is a block.
fn write_block(out: &mut Vec<u8>, to: &mut impl Write) -> Result<(), Fault> {
    if out.len() > BLOCK {
        let end = out.len() - 2;
        to.write_all(&out[..end]).map_err(|_| Fault::Write)?;
        out.drain(..end);
    }
    Ok(())
}

pub fn lines(input: impl Read, to: &mut impl Write) -> Result<bool, Fault> {
    let mut lines = Lines::new(input);
    let (mut config, mut next) = (Config::default(), Config::default());
    let mut edits = Vec::new();
    let (mut text, mut out) = (Vec::new(), Vec::new());
    while let Some(line) = lines.append_next(&mut text)? {
        if let Err((front, token)) = change_line(&text[line], &mut config, &mut next, &mut edits) {
            out.extend_from_slice(front.as_bytes());
            out.extend_from_slice(token);
            out.push(b'\n');
        } else {
            config.write(&mut out);
        }
        text.clear();
        write_block(&mut out, to)?;
    }
    to.write_all(&out).map_err(|_| Fault::Write)?;
    Ok(true)
}

fn change_line<'a>(
    line: &'a [u8],
    config: &mut Config,
    next: &mut Config,
    edits: &mut Vec<Edit>,
) -> Result<(), (&'static str, &'a [u8])> {
    let mut tokens = words(line);
    let (Some(token), None) = (tokens.next(), tokens.next()) else { return Err(("one change expected", b"")) };
    let change = Change::parse(token).map_err(|fault| (fault, token))?;
    config.step(StepKind::Simple, &[change], edits, next).map_err(|refusal| (refusal, &b""[..]))?;
    mem::swap(config, next);
    Ok(())
}

/// Carries a script out, and passes each item on with the output that it has.
fn run_script(
    input: impl Read,
    session: &mut Session,
    mut takes: impl FnMut(&Item, &[u8]) -> Result<(), Fault>,
) -> Result<(), Fault> {
    let mut lines = Lines::new(input);
    let (mut item, mut found) = (Item::default(), Vec::new());
    while item.read(&mut lines)? {
        if item.is_directive {
            session.run(item.command(), item.arguments(), item.input(), &mut found);
        }
        takes(&item, &found)?;
    }
    Ok(())
}

pub fn check(input: impl Read, to: &mut impl Write) -> Result<bool, Fault> {
    let (mut directives, mut mismatches) = (0, 0);
    let mut out = Vec::new();
    let result = run_script(input, &mut Session::default(), |item, found| {
        if !item.is_directive {
            return Ok(());
        }
        directives += 1;
        if item.expected() != found {
            mismatches += 1;
            report(item, found, &mut out);
            write_block(&mut out, to)?;
        }
        Ok(())
    });
    if result.is_ok() {
        push_number(&mut out, directives);
        out.extend_from_slice(b" directives, ");
        push_number(&mut out, mismatches);
        out.extend_from_slice(b" mismatches\n");
    }
    to.write_all(&out).map_err(|_| Fault::Write)?;
    result.map(|()| mismatches == 0)
}

fn report(item: &Item, found: &[u8], out: &mut Vec<u8>) {
    push_number(out, item.first_line);
    out.extend_from_slice(b": ");
    out.extend_from_slice(item.command());
    out.push(b'\n');
    for (sign, mut text) in [(b"- ", item.expected()), (b"+ ", found)] {
        while !text.is_empty() {
            out.extend_from_slice(sign);
            text.read_until(b'\n', out).expect("memory can be read");
        }
    }
}

pub fn rewrite(input: impl Read, to: &mut impl Write) -> Result<bool, Fault> {
    let mut out = Vec::new();
    let result = run_script(input, &mut Session::default(), |item, found| {
        if item.is_directive {
            write_directive(&item.text[..item.input_end], found, &mut out);
        } else {
            out.extend_from_slice(&item.text);
        }
        write_block(&mut out, to)
    });
    end_script(&mut out, to)?;
    result.map(|()| true)
}

/// Appends a directive with its output, none of whose lines is blank.
fn write_directive(lines: &[u8], found: &[u8], out: &mut Vec<u8>) {
    out.extend_from_slice(lines);
    out.extend_from_slice(b"----\n");
    out.extend_from_slice(found);
    out.push(b'\n');
}

/// Writes the end of a script. Of two newlines there, the last one is dropped.
fn end_script(out: &mut Vec<u8>, to: &mut impl Write) -> Result<(), Fault> {
    if out.ends_with(b"\n\n") {
        out.pop();
    }
    to.write_all(out).map_err(|_| Fault::Write)
}

pub fn undo(input: impl Read, to: &mut impl Write) -> Result<bool, Fault> {
    let mut session = Session::default();
    run_script(input, &mut session, |_, _| Ok(()))?;
    let mut out = Vec::new();
    let plan = session.undo_plan(1);
    match &plan {
        Err(reason) => {
            out.extend_from_slice(b"# ");
            out.extend_from_slice(reason.as_bytes());
        }
        Ok(steps) if steps.is_empty() => out.extend_from_slice(b"# nothing to do\n"),
        Ok(steps) => {
            let (mut lines, mut changes, mut found) = (Vec::new(), Vec::new(), Vec::new());
            for step in steps {
                changes.clear();
                step.write_changes(&mut changes);
                let head = step.head().as_bytes();
                let (command, arguments) =
                    head.split_at(head.iter().position(|byte| *byte == b' ').unwrap_or(head.len()));
                session.run(command, arguments, &changes, &mut found);
                lines.clear();
                lines.extend_from_slice(head);
                lines.push(b'\n');
                if !changes.is_empty() {
                    lines.extend_from_slice(&changes);
                    lines.push(b'\n');
                }
                write_directive(&lines, &found, &mut out);
            }
        }
    }
    end_script(&mut out, to)?;
    Ok(plan.is_ok())
}

pub fn plan(input: impl Read, to: &mut impl Write) -> Result<bool, Fault> {
    let mut lines = Lines::new(input);
    let (mut text, mut out) = (Vec::new(), Vec::new());
    let (mut current, mut pairs) = (None, 0);
    while let Some(line) = lines.append_next(&mut text)? {
        let found = ConfState::parse(&text[line]).and_then(ConfState::restore);
        let config = found.ok_or(Fault::Input(lines.count, "not a configuration"))?;
        text.clear();
        let Some(now) = current.take() else {
            current = Some(config);
            continue;
        };
        if pairs > 0 {
            out.push(b'\n');
        }
        pairs += 1;
        write_plan(&plan_between(&now, &config), &mut out);
        write_block(&mut out, to)?;
    }
    to.write_all(&out).map_err(|_| Fault::Write)?;
    if current.is_some() || pairs == 0 {
        return Err(Fault::Input(lines.count, "expected two lines"));
    }
    Ok(true)
}
