//! A script's run: its servers, its sessions, and the book of what they were served (docs/FORMATS.md, docs/AUDIT.md).

use crate::judge::survey;
use crate::line::{Asks, Command, Entry, What, SESSIONS};
use crate::print::{self, List, Status, Text, DONE};
use crate::program::{Key, Program, Value};
use crate::script::Script;
use crate::server::{Server, Tag, WriteRefusal};
use crate::write::{dominates, join, Vector, Write, SERVERS};
use std::io;

/// A Write that a session may ask again: its tag, where it was asked, and for what.
struct Asked {
    tag: Tag,
    server: u8,
    program: Program,
}

#[derive(Default)]
struct Session {
    asks: Asks,
    // How many operations it tried.
    tried: u32,
    read: Vector,
    wrote: Vector,
    asked: Option<Asked>,
    // Whether the reply to what it tries next is dropped.
    drops: bool,
}

impl Session {
    /// What an operation needs, by whether it asks for what the session wrote, and for what it read.
    fn need(&self, asks_for_wrote: bool, asks_for_read: bool) -> Vector {
        let mut need = [0; SERVERS];
        if asks_for_wrote {
            join(&mut need, &self.wrote);
        }
        if asks_for_read {
            join(&mut need, &self.read);
        }
        need
    }

    fn need_of_read(&self) -> Vector {
        let [ryw, mr, _, _] = self.asks;
        self.need(ryw, mr)
    }

    fn need_of_write(&self) -> Vector {
        let [_, _, wfr, mw] = self.asks;
        self.need(mw, wfr)
    }
}

struct Machine<'a, W> {
    count: usize,
    servers: Vec<Server>,
    sessions: Vec<Session>,
    entries: Vec<Entry>,
    output: &'a mut W,
    status: Status,
}

pub fn run(script: Script, output: &mut impl io::Write) -> io::Result<Status> {
    let plan = script.plan;
    let mut machine = Machine {
        count: usize::from(plan.count),
        servers: (0..plan.count)
            .filter_map(|id| Server::new(id, plan))
            .collect(),
        sessions: (0..SESSIONS).map(|_| Session::default()).collect(),
        entries: Vec::new(),
        output,
        status: DONE,
    };
    for command in script.commands {
        machine.execute(command)?;
    }
    machine.output.flush()?;
    Ok(machine.status)
}

impl<W: io::Write> Machine<'_, W> {
    fn execute(&mut self, command: Command) -> io::Result<()> {
        match command {
            Command::Session(session, asks) => self.sessions[usize::from(session)].asks = asks,
            Command::Write(session, server, program) => self.write(session, server, program)?,
            Command::Read(session, server, key) => self.read(session, server, key)?,
            Command::Again(session) => self.again(session)?,
            Command::Drop(session) => self.sessions[usize::from(session)].drops = true,
            Command::Log(server) => self.log(server)?,
            Command::Fuse(server, fuse) => self.server(server).device.set_fuse(fuse),
            Command::Lose(server, count) => self.server(server).device.lose(count),
            Command::Reopen(server) => self.reopen(server)?,
            Command::Restart(server) => self.restart(server)?,
            Command::Pull(to, from, cut) => {
                let offer = self.server(to).replica.vector;
                self.exchange(to, from, &offer, cut)?;
            }
            Command::Resend(to, from) => self.exchange(to, from, &[0; SERVERS], None)?,
            Command::Totals => self.totals()?,
            Command::Judge => self.judge()?,
            Command::Survey => self.survey()?,
            Command::Book => self.book()?,
            Command::Phase => {}
        }
        Ok(())
    }

    fn server(&mut self, id: u8) -> &mut Server {
        &mut self.servers[usize::from(id)]
    }

    fn file(&mut self, session: u8, server: u8, what: What) {
        let told = &self.sessions[usize::from(session)];
        self.entries.push(Entry {
            session,
            place: told.tried,
            asks: told.asks,
            server,
            what,
        });
    }

    /// Begins an operation, and tells whether a reply to it is dropped.
    fn begin(&mut self, session: u8) -> bool {
        let state = &mut self.sessions[usize::from(session)];
        state.tried += 1;
        std::mem::take(&mut state.drops)
    }

    fn lose(&mut self, session: u8) -> io::Result<()> {
        writeln!(self.output, "{session} lost")
    }

    fn refuse(&mut self, session: u8, server: u8, refusal: WriteRefusal) -> io::Result<()> {
        self.file(session, server, What::Refused);
        let vector = &self.servers[usize::from(server)].replica.vector[..self.count];
        let output = &mut self.output;
        match refusal {
            WriteRefusal::Behind => {
                writeln!(output, "{session} refused behind at {}", List(vector))
            }
            WriteRefusal::Used => writeln!(output, "{session} refused used"),
            WriteRefusal::Down => writeln!(output, "{session} refused down"),
            WriteRefusal::Full => writeln!(output, "{session} refused full"),
            WriteRefusal::Journal => writeln!(output, "{session} refused journal"),
        }
    }

    fn write(&mut self, session: u8, server: u8, program: Program) -> io::Result<()> {
        let is_dropped = self.begin(session);
        let state = &mut self.sessions[usize::from(session)];
        state.asked = None;
        let tag = Tag {
            session,
            place: state.tried,
        };
        let asked = Asked {
            tag,
            server,
            program,
        };
        self.ask(session, asked, is_dropped)
    }

    fn again(&mut self, session: u8) -> io::Result<()> {
        let Some(asked) = self.sessions[usize::from(session)].asked.take() else {
            return writeln!(self.output, "{session} again none");
        };
        let is_dropped = self.begin(session);
        self.ask(session, asked, is_dropped)
    }

    /// Asks the Write at the place that was begun. Unless it is told as accepted, it may be asked again.
    fn ask(&mut self, session: u8, asked: Asked, is_dropped: bool) -> io::Result<()> {
        let state = &mut self.sessions[usize::from(session)];
        let need = state.need_of_write();
        let Asked { tag, server, .. } = asked;
        let is_stopped = self.servers[usize::from(server)].is_stopped;
        let replica = &mut self.servers[usize::from(server)];
        let answer = (!is_stopped).then(|| replica.write(tag, &need, &asked.program));
        let write = match answer {
            Some(Ok(write)) if !is_dropped => write,
            Some(Err(refusal)) if !is_dropped => {
                state.asked = Some(asked);
                return self.refuse(session, server, refusal);
            }
            _ => {
                state.asked = Some(asked);
                return self.lose(session);
            }
        };
        let (wid, stamp, deps) = (write.wid, write.stamp(), write.deps);
        let wrote = &mut state.wrote[usize::from(wid.origin)];
        *wrote = (*wrote).max(wid.seq);
        self.file(session, server, What::Write(wid, stamp, deps));
        let (clock, deps) = (stamp.clock, List(&deps[..self.count]));
        writeln!(
            self.output,
            "{session} wrote {wid} clock {clock} deps {deps}"
        )
    }

    fn read(&mut self, session: u8, server: u8, key: Key) -> io::Result<()> {
        let is_dropped = self.begin(session);
        let is_stopped = self.server(server).is_stopped;
        let state = &mut self.sessions[usize::from(session)];
        state.asked = None;
        if is_dropped || is_stopped {
            return self.lose(session);
        }
        let replica = &self.servers[usize::from(server)].replica;
        if !dominates(&replica.vector, &state.need_of_read()) {
            return self.refuse(session, server, WriteRefusal::Behind);
        }
        join(&mut state.read, &replica.vector);
        let vector = List(&replica.vector[..self.count]);
        let output = &mut self.output;
        match replica.database.get(&key) {
            None => writeln!(output, "{session} read {key} none at {vector}")?,
            Some(Value::Number(number)) => {
                writeln!(output, "{session} read {key} num {number} at {vector}")?;
            }
            Some(Value::Text(text)) => {
                let text = Text(text);
                writeln!(output, "{session} read {key} text {text} at {vector}")?;
            }
        }
        let vector = replica.vector;
        self.file(session, server, What::Read(key, vector));
        Ok(())
    }

    fn log(&mut self, id: u8) -> io::Result<()> {
        let server = &self.servers[usize::from(id)];
        if server.is_stopped {
            return writeln!(self.output, "stopped {id}");
        }
        for (write, outcome) in server.replica.listing() {
            let Write { wid, clock, .. } = write;
            writeln!(self.output, "log {id} {wid} clock {clock} {outcome}")?;
        }
        let vector = &server.replica.vector[..self.count];
        writeln!(self.output, "log {id} at {}", List(vector))
    }

    fn reopen(&mut self, id: u8) -> io::Result<()> {
        let server = self.server(id);
        if server.is_stopped {
            return writeln!(self.output, "reopen refused stopped");
        }
        match server.reopen() {
            Ok(None) => writeln!(self.output, "reopened {id} adopted none"),
            Ok(Some(wid)) => writeln!(self.output, "reopened {id} adopted {wid}"),
            Err(word) => writeln!(self.output, "reopen refused {word}"),
        }
    }

    fn restart(&mut self, id: u8) -> io::Result<()> {
        let server = self.server(id);
        match server.restart() {
            Ok(dropped) => {
                let holds = server.replica.writes.len();
                writeln!(
                    self.output,
                    "restarted {id} holds {holds} dropped {dropped}"
                )
            }
            Err(word) => writeln!(self.output, "restart refused {word}"),
        }
    }

    fn exchange(&mut self, to: u8, from: u8, offer: &Vector, cut: Option<usize>) -> io::Result<()> {
        if self.server(to).is_stopped || self.server(from).is_stopped {
            return writeln!(self.output, "pull fault lost");
        }
        let mut answer = self.server(from).answer(offer);
        let is_cut = cut.is_some_and(|count| answer.cut_after(count));
        match self.server(to).pull(&answer, is_cut) {
            Ok(pulled) => writeln!(self.output, "pulled {} had {}", pulled.taken, pulled.had),
            Err(word) => writeln!(self.output, "pull fault {word}"),
        }
    }

    fn totals(&mut self) -> io::Result<()> {
        let (mut reads, mut writes, mut refusals) = (0, 0, 0);
        for entry in &self.entries {
            match entry.what {
                What::Read(..) => reads += 1,
                What::Write(..) => writes += 1,
                What::Refused => refusals += 1,
            }
        }
        let output = &mut self.output;
        writeln!(
            output,
            "totals reads {reads} writes {writes} refusals {refusals} slips 0"
        )
    }

    fn dumps(&self) -> Vec<&[Write]> {
        self.servers
            .iter()
            .map(|server| &server.replica.writes[..])
            .collect()
    }

    fn judge(&mut self) -> io::Result<()> {
        let survey = survey(self.count as u8, &self.entries, &self.dumps());
        let status = print::print_verdict(self.output, &survey)?;
        self.status = self.status.max(status);
        Ok(())
    }

    fn survey(&mut self) -> io::Result<()> {
        let survey = survey(self.count as u8, &self.entries, &self.dumps());
        let status = print::print_survey(self.output, &survey)?;
        self.status = self.status.max(status);
        Ok(())
    }

    fn book(&mut self) -> io::Result<()> {
        writeln!(self.output, r#"["servers",{}]"#, self.count)?;
        for entry in &self.entries {
            print::print_entry(self.output, entry, self.count)?;
        }
        for (id, server) in self.servers.iter().enumerate() {
            for write in &server.replica.writes {
                print::print_held(self.output, id, write, self.count)?;
            }
        }
        Ok(())
    }
}
