//! Scripts and audit files: their lines, each in its place (docs/FORMATS.md).

use crate::line::{read_line, Command, Entry, Fault, Line, SESSIONS};
use crate::server::Plan;
use crate::write::Write;
use std::io::BufRead;

const MAX_LINES: usize = 65_536;
const MAX_ENTRIES: usize = 65_536;

/// Why an input is refused.
pub enum Refusal {
    Input,
    /// The line of this number has a fault.
    Line(usize, Fault),
}

pub struct Script {
    pub plan: Plan,
    pub commands: Vec<Command>,
}

pub struct AuditFile {
    pub count: u8,
    pub entries: Vec<Entry>,
    /// For each server the Writes that it holds, in order of receipt.
    pub dumps: Vec<Vec<Write>>,
}

/// Hands over each line that isn't empty, with its number.
fn for_each_line(
    mut input: impl BufRead,
    mut add: impl FnMut(usize, Line) -> Result<(), Fault>,
) -> Result<(), Refusal> {
    let mut bytes = Vec::new();
    for number in 1.. {
        bytes.clear();
        if input
            .read_until(b'\n', &mut bytes)
            .map_err(|_| Refusal::Input)?
            == 0
        {
            break;
        }
        let line = bytes.strip_suffix(b"\n").unwrap_or(&bytes);
        if line.is_empty() {
            continue;
        }
        let added = read_line(line).and_then(|line| add(number, line));
        added.map_err(|fault| Refusal::Line(number, fault))?;
    }
    Ok(())
}

fn must(is_in_place: bool) -> Result<(), Fault> {
    if is_in_place {
        Ok(())
    } else {
        Err(Fault::Place)
    }
}

pub fn read_script(input: impl BufRead) -> Result<Script, Refusal> {
    let mut plan = None;
    let mut commands = Vec::new();
    let mut is_open = [false; SESSIONS];
    for_each_line(input, |number, line| {
        must(number <= MAX_LINES)?;
        match line {
            Line::Servers(servers) => must(plan.replace(servers).is_none()),
            Line::Command(command) => {
                let Plan { count, .. } = plan.ok_or(Fault::Place)?;
                must(is_in_place(&command, count, &mut is_open))?;
                commands.push(command);
                Ok(())
            }
            Line::Entry(..) | Line::Held(..) => Err(Fault::Place),
        }
    })?;
    let plan = plan.ok_or(Refusal::Line(1, Fault::Place))?;
    Ok(Script { plan, commands })
}

/// Whether the command's servers are there and its session is open, or is opened by it.
fn is_in_place(command: &Command, count: u8, is_open: &mut [bool; SESSIONS]) -> bool {
    match command {
        Command::Session(session, _) => {
            !std::mem::replace(&mut is_open[usize::from(*session)], true)
        }
        Command::Write(session, server, _) | Command::Read(session, server, _) => {
            is_open[usize::from(*session)] && *server < count
        }
        Command::Again(session) | Command::Drop(session) => is_open[usize::from(*session)],
        Command::Log(server)
        | Command::Fuse(server, _)
        | Command::Lose(server, _)
        | Command::Reopen(server)
        | Command::Restart(server) => *server < count,
        Command::Pull(to, from, _) | Command::Resend(to, from) => {
            *to < count && *from < count && to != from
        }
        Command::Totals | Command::Judge | Command::Survey | Command::Book | Command::Phase => true,
    }
}

/// Whether a vector that tells so many counts is one of so many servers.
fn is_vector_of(count: u8, told: Option<usize>) -> bool {
    told.is_none_or(|told| told == usize::from(count))
}

impl AuditFile {
    fn add(&mut self, line: Line) -> Result<(), Fault> {
        let count = self.count;
        match line {
            Line::Entry(entry, told) => {
                must(entry.server < count && is_vector_of(count, told))?;
                must(self.entries.len() < MAX_ENTRIES)?;
                self.entries.push(entry);
                Ok(())
            }
            Line::Held(server, write, told) => {
                must(server < count && write.wid.origin < count)?;
                must(is_vector_of(count, Some(told)))?;
                self.dumps[usize::from(server)].push(write);
                Ok(())
            }
            Line::Servers(_) | Line::Command(_) => Err(Fault::Place),
        }
    }
}

pub fn read_audit_file(input: impl BufRead) -> Result<AuditFile, Refusal> {
    let mut file = None;
    for_each_line(input, |_, line| match (&mut file, line) {
        (None, Line::Servers(Plan { count, .. })) => {
            let dumps = (0..count).map(|_| Vec::new()).collect();
            file = Some(AuditFile {
                count,
                entries: Vec::new(),
                dumps,
            });
            Ok(())
        }
        (None, _) => Err(Fault::Place),
        (Some(file), line) => file.add(line),
    })?;
    file.ok_or(Refusal::Line(1, Fault::Place))
}
