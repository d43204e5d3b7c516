//! A server: what it holds, with its journal (docs/TROUBLE.md), and how it takes Writes from another (docs/GUARANTEES.md).

use crate::journal::{self, Device, Journal, Opened};
use crate::line::SESSIONS;
use crate::program::{Database, Outcome, Program};
use crate::write::{dominates, Stamp, Vector, Wid, Write, SERVERS};
use std::collections::BTreeMap;

/// What a server holds.
#[derive(Default)]
pub struct Replica {
    /// In order of receipt.
    pub writes: Vec<Write>,
    // The places of the Writes that were applied, in stamp order, and what became of each.
    order: Vec<u32>,
    outcomes: Vec<Outcome>,
    // For each server the places of its Writes, by their numbers.
    own: [Vec<u32>; SERVERS],
    // The places of the Writes that have a tag.
    tags: BTreeMap<Tag, u32>,
    clock: u32,
    pub vector: Vector,
    pub database: Database,
}

impl Replica {
    pub fn find(&self, wid: Wid) -> Option<&Write> {
        let at = self.own[usize::from(wid.origin)].get(wid.seq as usize - 1)?;
        Some(&self.writes[*at as usize])
    }

    fn stamp_at(&self, at: u32) -> Stamp {
        self.writes[at as usize].stamp()
    }

    /// The greatest clock among the Writes that the vector counts. Of one server clocks rise.
    fn clock_among(&self, vector: &Vector) -> u32 {
        let last = |(origin, seq): (usize, &u32)| {
            let at = self.own[origin][seq.checked_sub(1)? as usize];
            Some(self.writes[at as usize].clock)
        };
        vector
            .iter()
            .enumerate()
            .filter_map(last)
            .max()
            .unwrap_or(0)
    }

    /// Why the Write may not be held next, if it may not.
    fn misfit(&self, write: &Write, count: u8) -> Option<&'static str> {
        let Wid { origin, seq } = write.wid;
        let own = usize::from(origin);
        if origin >= count || seq != self.vector[own] + 1 || !dominates(&self.vector, &write.deps) {
            return Some("gap");
        }
        let is_stamped =
            write.deps[own] + 1 == seq && write.clock == self.clock_among(&write.deps) + 1;
        (!is_stamped).then_some("stamp")
    }

    /// Holds the Write, which isn't applied yet, under its tag.
    fn add(&mut self, write: Write, tag: Option<Tag>) {
        if let Some(tag) = tag {
            self.tags.insert(tag, self.writes.len() as u32);
        }
        let own = usize::from(write.wid.origin);
        self.own[own].push(self.writes.len() as u32);
        self.vector[own] = write.wid.seq;
        self.clock = self.clock.max(write.clock);
        self.writes.push(write);
    }

    /// Applies what was added: the Writes after the least of it in stamp order are taken back, and applied again in their place.
    fn apply_added(&mut self) {
        let added = self.order.len() as u32..self.writes.len() as u32;
        let Some(least) = added.clone().map(|at| self.stamp_at(at)).min() else {
            return;
        };
        let is_later = |at: &&u32| self.stamp_at(**at) > least;
        let later = self.order.iter().rev().take_while(is_later).count();
        let from = self.order.len() - later;
        for at in (from..self.order.len()).rev() {
            let program = &self.writes[self.order[at] as usize].program;
            self.database.take_back(program, self.outcomes[at]);
        }
        self.outcomes.truncate(from);
        self.order.extend(added);
        let writes = &self.writes;
        self.order[from..].sort_by_key(|at| writes[*at as usize].stamp());
        for at in &self.order[from..] {
            let outcome = self.database.apply(&self.writes[*at as usize].program);
            self.outcomes.push(outcome);
        }
    }

    /// The Writes in stamp order, with what became of each.
    pub fn listing(&self) -> impl Iterator<Item = (&Write, Outcome)> {
        let writes = self.order.iter().map(|at| &self.writes[*at as usize]);
        writes.zip(self.outcomes.iter().copied())
    }

    /// The Writes that the vector doesn't count, in stamp order.
    fn lacking(&self, vector: &Vector) -> Vec<&Write> {
        let counted = self.own.iter().zip(vector);
        let places = counted.flat_map(|(own, count)| own.iter().skip(*count as usize));
        let mut lacking: Vec<&Write> = places.map(|at| &self.writes[*at as usize]).collect();
        lacking.sort_by_key(|write| write.stamp());
        lacking
    }
}

/// How many servers there are, and how many Writes each may hold.
#[derive(Clone, Copy)]
pub struct Plan {
    pub count: u8,
    pub limit: u32,
}

pub enum WriteRefusal {
    Used,
    Down,
    Behind,
    Full,
    Journal,
}

/// What one server sends to another: the bytes of Writes, in stamp order.
#[derive(Default)]
pub struct Answer {
    bytes: Vec<u8>,
    ends: Vec<usize>,
}

impl Answer {
    fn bodies(&self) -> impl Iterator<Item = &[u8]> {
        let starts = std::iter::once(&0).chain(&self.ends);
        starts
            .zip(&self.ends)
            .map(|(start, end)| &self.bytes[*start..*end])
    }

    fn add(&mut self, write: &Write) {
        write.encode(&mut self.bytes);
        self.ends.push(self.bytes.len());
    }

    /// Keeps so many Writes at the most, and tells whether the stream is cut: after them comes nothing, no End either.
    pub fn cut_after(&mut self, count: usize) -> bool {
        let is_cut = count <= self.ends.len();
        self.ends.truncate(count);
        is_cut
    }
}

/// What became of a pull that came to its End.
#[derive(Default)]
pub struct Pulled {
    pub taken: u32,
    pub had: u32,
}

/// The tag under which a session asks for a Write: the session, and at which of its places it does first. There is one run.
#[derive(Clone, Copy, PartialEq, Eq, PartialOrd, Ord)]
pub struct Tag {
    pub session: u8,
    pub place: u32,
}

// What a record of a journal begins with: of another server's Write, and of an own one, after which comes the tag.
const OTHERS: u8 = 0;
const OWN: u8 = 1;
const RUN: u32 = 1;

impl Tag {
    fn encode(self, bytes: &mut Vec<u8>) {
        bytes.push(self.session);
        bytes.extend(RUN.to_be_bytes());
        bytes.extend(self.place.to_be_bytes());
    }

    /// The tag that these bytes begin with, and what stands after it.
    fn decode(bytes: &[u8]) -> Option<(Tag, &[u8])> {
        let (session, rest) = bytes.split_first()?;
        let (run, rest) = rest.split_first_chunk::<4>()?;
        let (place, rest) = rest.split_first_chunk::<4>()?;
        let place = u32::from_be_bytes(*place);
        let is_tag = usize::from(*session) < SESSIONS && *run == RUN.to_be_bytes() && place > 0;
        let session = *session;
        is_tag.then_some((Tag { session, place }, rest))
    }
}

/// The Write of a record in the journal of this server, and its tag, which its own have.
fn write_of(record: &[u8], id: u8) -> Option<(Write, Option<Tag>)> {
    let (word, rest) = record.split_first()?;
    let (tag, body) = match *word {
        OTHERS => (None, rest),
        OWN => {
            let (tag, body) = Tag::decode(rest)?;
            (Some(tag), body)
        }
        _ => return None,
    };
    let write = Write::decode(body)?;
    (tag.is_some() == (write.wid.origin == id)).then_some((write, tag))
}

pub struct Server {
    id: u8,
    plan: Plan,
    pub device: Device,
    journal: Journal,
    pub replica: Replica,
    // The Write whose entry may be in the journal, or not, its tag, and its record.
    doubt: Option<(Write, Option<Tag>, Vec<u8>)>,
    // Where a record is encoded.
    buffer: Vec<u8>,
    /// Whether its last start was refused. It has what it held before.
    pub is_stopped: bool,
}

/// What the journal's bodies make, of a server that starts.
fn replay(opened: &Opened, id: u8, plan: Plan) -> Result<Replica, &'static str> {
    let mut replica = Replica::default();
    for body in opened.bodies() {
        let (write, tag) = write_of(body, id).ok_or("record")?;
        if tag.is_some_and(|tag| replica.tags.contains_key(&tag)) {
            return Err("record");
        }
        let is_own_past = write.wid.origin != id || write.deps == replica.vector;
        if replica.misfit(&write, plan.count).is_some() || !is_own_past {
            return Err("gap");
        }
        if replica.writes.len() >= plan.limit as usize {
            return Err("full");
        }
        replica.add(write, tag);
    }
    replica.apply_added();
    Ok(replica)
}

impl Server {
    /// A server on an empty device.
    pub fn new(id: u8, plan: Plan) -> Option<Server> {
        let mut device = Device::default();
        let opened = journal::open(&mut device, id).ok()?;
        Some(Server {
            id,
            plan,
            device,
            journal: opened.journal(),
            replica: Replica::default(),
            doubt: None,
            buffer: Vec::new(),
            is_stopped: false,
        })
    }

    fn is_full(&self) -> bool {
        self.replica.writes.len() >= self.plan.limit as usize
    }

    /// Adds the Write to the journal, and then to what is held; or it is in doubt.
    fn store(&mut self, write: Write, tag: Option<Tag>, record: &[u8]) -> bool {
        if self.journal.append(&mut self.device, record).is_err() {
            self.doubt = Some((write, tag, record.to_vec()));
            return false;
        }
        self.replica.add(write, tag);
        true
    }

    /// Accepts the program; what is held under the tag is known, be the server down or full.
    pub fn write(
        &mut self,
        tag: Tag,
        need: &Vector,
        program: &Program,
    ) -> Result<&Write, WriteRefusal> {
        if let Some(at) = self.replica.tags.get(&tag) {
            let write = &self.replica.writes[*at as usize];
            let is_known = write.program == *program && dominates(&write.deps, need);
            return if is_known {
                Ok(write)
            } else {
                Err(WriteRefusal::Used)
            };
        }
        if self.doubt.is_some() {
            return Err(WriteRefusal::Down);
        }
        if !dominates(&self.replica.vector, need) {
            return Err(WriteRefusal::Behind);
        }
        if self.is_full() {
            return Err(WriteRefusal::Full);
        }
        let write = Write {
            wid: Wid {
                origin: self.id,
                seq: self.replica.vector[usize::from(self.id)] + 1,
            },
            clock: self.replica.clock + 1,
            deps: self.replica.vector,
            program: program.clone(),
        };
        let mut record = std::mem::take(&mut self.buffer);
        record.clear();
        record.push(OWN);
        tag.encode(&mut record);
        write.encode(&mut record);
        let is_stored = self.store(write, Some(tag), &record);
        self.buffer = record;
        if !is_stored {
            return Err(WriteRefusal::Journal);
        }
        self.replica.apply_added();
        self.replica.writes.last().ok_or(WriteRefusal::Journal)
    }

    /// What it answers to an Offer: the Writes that the vector doesn't count.
    pub fn answer(&self, offer: &Vector) -> Answer {
        let mut answer = Answer::default();
        for write in self.replica.lacking(offer) {
            answer.add(write);
        }
        answer
    }

    /// Takes one Write, and tells whether it is new.
    fn take(&mut self, body: &[u8]) -> Result<bool, &'static str> {
        let write = Write::decode(body).ok_or("frame")?;
        if let Some(held) = self.replica.find(write.wid) {
            return if *held == write {
                Ok(false)
            } else {
                Err("conflict")
            };
        }
        if self.doubt.is_some() {
            return Err("down");
        }
        if write.wid.origin == self.id {
            return Err("ownlost");
        }
        if let Some(misfit) = self.replica.misfit(&write, self.plan.count) {
            return Err(misfit);
        }
        if self.is_full() {
            return Err("full");
        }
        let mut record = std::mem::take(&mut self.buffer);
        record.clear();
        record.push(OTHERS);
        record.extend_from_slice(body);
        let is_stored = self.store(write, None, &record);
        self.buffer = record;
        if !is_stored {
            return Err("journal");
        }
        Ok(true)
    }

    /// Takes the Writes of an answer up to the first that is refused. What was taken is applied at once, at the end.
    pub fn pull(&mut self, answer: &Answer, is_cut: bool) -> Result<Pulled, &'static str> {
        let mut pulled = Pulled::default();
        let mut fault = is_cut.then_some("cut");
        for body in answer.bodies() {
            match self.take(body) {
                Ok(true) => pulled.taken += 1,
                Ok(false) => pulled.had += 1,
                Err(refusal) => {
                    fault = Some(refusal);
                    break;
                }
            }
        }
        self.replica.apply_added();
        match fault {
            None => Ok(pulled),
            Some(fault) => Err(fault),
        }
    }

    /// Opens the journal of a server that is down, and gives the Write in doubt that it adopted.
    pub fn reopen(&mut self) -> Result<Option<Wid>, &'static str> {
        let Some((_, _, record)) = &self.doubt else {
            return Err("notdown");
        };
        let opened = journal::open(&mut self.device, self.id).map_err(|_| "journal")?;
        let held = self.replica.writes.len();
        if !opened.begins_with(&self.journal, held) {
            return Err("lost");
        }
        let behind: Vec<&[u8]> = opened.bodies().skip(held).collect();
        if behind.len() > 1 || behind.iter().any(|other| *other != record.as_slice()) {
            return Err("record");
        }
        self.journal = opened.journal();
        let doubt = self.doubt.take().filter(|_| !behind.is_empty());
        let adopted = doubt.as_ref().map(|(write, ..)| write.wid);
        if let Some((write, tag, _)) = doubt {
            self.replica.add(write, tag);
            self.replica.apply_added();
        }
        Ok(adopted)
    }

    /// Starts the server on what its device has, and tells how many bytes were dropped there.
    pub fn restart(&mut self) -> Result<usize, &'static str> {
        self.is_stopped = true;
        let opened = journal::open(&mut self.device, self.id).map_err(|_| "journal")?;
        self.replica = replay(&opened, self.id, self.plan)?;
        self.journal = opened.journal();
        self.doubt = None;
        self.is_stopped = false;
        Ok(opened.dropped)
    }
}
