//! The judge over entries and dumps (docs/AUDIT.md): whether they can be, and the least breach of each guarantee in each session.

use crate::line::{Asks, Entry, What, GUARANTEES, SESSIONS};
use crate::write::{dominates, join, Stamp, Vector, Wid, Write, SERVERS};
use std::collections::HashSet;

// The places of the guarantees.
const RYW: usize = 0;
const MR: usize = 1;
const WFR: usize = 2;
const MW: usize = 3;

/// Why entries and dumps stand for no history.
pub enum BadEvidence {
    Dump(usize, usize),
    Forged(usize),
}

/// Two operations of a session, by their places, and the server and the Write by which a guarantee is broken.
#[derive(Clone, Copy)]
pub struct Breach {
    pub first: u32,
    pub second: u32,
    pub server: usize,
    pub wid: Wid,
}

/// The least breach of each guarantee in a session, if it has one.
pub struct Surveyed {
    pub session: u8,
    pub asks: Asks,
    pub breaches: [Option<Breach>; GUARANTEES.len()],
}

/// A server's Writes, with the places of each origin's among them by their numbers.
struct Dump<'a> {
    writes: &'a [Write],
    own: [Vec<u32>; SERVERS],
}

impl<'a> Dump<'a> {
    fn place(&self, wid: Wid) -> Option<u32> {
        let own = &self.own[usize::from(wid.origin)];
        own.get(wid.seq as usize - 1).copied()
    }

    fn find(&self, wid: Wid) -> Option<&'a Write> {
        Some(&self.writes[self.place(wid)? as usize])
    }

    fn vector(&self) -> Vector {
        std::array::from_fn(|origin| self.own[origin].len() as u32)
    }

    /// The last Write of each origin that the vector counts.
    fn last<'b>(&'b self, vector: &'b Vector) -> impl Iterator<Item = &'b Write> {
        let counted = self.own.iter().zip(vector);
        counted.filter_map(|(own, count)| {
            let place = own.get(count.checked_sub(1)? as usize)?;
            Some(&self.writes[*place as usize])
        })
    }

    /// Whether the Write may stand after those that are there, as the next of the server's.
    fn may_follow(&self, write: &Write, count: u8, server: usize) -> bool {
        let own = usize::from(write.wid.origin);
        let held = self.vector();
        let has_no_gap = write.wid.origin < count
            && write.wid.seq == held[own] + 1
            && dominates(&held, &write.deps);
        if !has_no_gap || write.deps[own] + 1 != write.wid.seq {
            return false;
        }
        let clock = self.last(&write.deps).map(|write| write.clock).max();
        write.clock == clock.unwrap_or(0) + 1 && (own != server || write.deps == held)
    }

    fn index(writes: &'a [Write], count: u8, smaller: &[Dump]) -> Result<Dump<'a>, BadEvidence> {
        let server = smaller.len();
        let mut dump = Dump {
            writes,
            own: Default::default(),
        };
        for (at, write) in writes.iter().enumerate() {
            let is_same = |other: &Dump| other.find(write.wid).is_none_or(|held| held == write);
            if !dump.may_follow(write, count, server) || !smaller.iter().all(is_same) {
                return Err(BadEvidence::Dump(server, at));
            }
            dump.own[usize::from(write.wid.origin)].push(at as u32);
        }
        Ok(dump)
    }

    /// Whether the vector counts the first so many Writes, for some number of them.
    fn has_front(&self, vector: &Vector) -> bool {
        let size: u32 = vector.iter().sum();
        let is_within = |(own, count): (&Vec<u32>, &u32)| match count.checked_sub(1) {
            Some(last) => own.get(last as usize).is_some_and(|place| *place < size),
            None => true,
        };
        self.own.iter().zip(vector).all(is_within)
    }
}

/// Of which Writes operations told, as vector, and the last stamp among those.
#[derive(Clone, Copy, Default)]
struct Told {
    counts: Vector,
    last: Option<Stamp>,
}

impl Told {
    fn join(&mut self, other: &Told) {
        join(&mut self.counts, &other.counts);
        self.last = self.last.max(other.last);
    }
}

/// What an operation demands at a server of the Writes that were told of before: where they stand, and their stamps.
enum Demand<'a> {
    /// The vector of a read counts them.
    Counted(&'a Vector),
    /// They stand no later than at this place of the dump, before this stamp.
    Before(&'a Dump<'a>, u32, Stamp),
}

impl Demand<'_> {
    fn is_met_by(&self, wid: Wid, stamp: Stamp) -> bool {
        match self {
            Demand::Counted(vector) => wid.seq <= vector[usize::from(wid.origin)],
            Demand::Before(dump, place, next) => {
                stamp < *next && dump.place(wid).is_some_and(|at| at <= *place)
            }
        }
    }

    /// Whether all that was told of meets it. Of each origin the last Write shows it.
    fn is_met_by_all(&self, told: &Told) -> bool {
        match self {
            Demand::Counted(vector) => dominates(vector, &told.counts),
            Demand::Before(dump, place, next) => {
                let is_there = |(own, count): (&Vec<u32>, &u32)| match count.checked_sub(1) {
                    Some(last) => own.get(last as usize).is_some_and(|at| at <= place),
                    None => true,
                };
                told.last.is_none_or(|last| last < *next)
                    && dump.own.iter().zip(&told.counts).all(is_there)
            }
        }
    }
}

struct Evidence<'a> {
    entries: &'a [Entry],
    dumps: Vec<Dump<'a>>,
}

impl<'a> Evidence<'a> {
    fn dump_of(&self, entry: &Entry) -> &Dump<'a> {
        &self.dumps[usize::from(entry.server)]
    }

    /// Whether the entry's server can have answered so.
    fn is_true(&self, entry: &Entry, told: &mut HashSet<Wid>) -> bool {
        let dump = self.dump_of(entry);
        match &entry.what {
            What::Read(_, vector) => dump.has_front(vector),
            What::Write(wid, stamp, deps) => {
                let is_it = |held: &Write| held.stamp() == *stamp && held.deps == *deps;
                dump.find(*wid).is_some_and(is_it) && told.insert(*wid)
            }
            What::Refused => true,
        }
    }

    fn first_forged(&self) -> Option<usize> {
        let mut told = HashSet::new();
        let mut last: [Option<&Entry>; SESSIONS] = [None; SESSIONS];
        self.entries.iter().position(|entry| {
            let last = &mut last[usize::from(entry.session)];
            let follows = |last: &Entry| last.place < entry.place && last.asks == entry.asks;
            let is_genuine = last.is_none_or(follows) && self.is_true(entry, &mut told);
            *last = Some(entry);
            !is_genuine
        })
    }

    /// Of which Writes the entry told.
    fn told_by(&self, entry: &Entry) -> Told {
        let mut told = Told::default();
        match &entry.what {
            What::Read(_, vector) => {
                let last = self.dump_of(entry).last(vector);
                told.last = last.map(Write::stamp).max();
                told.counts = *vector;
            }
            What::Write(wid, stamp, _) => {
                told.last = Some(*stamp);
                told.counts[usize::from(wid.origin)] = wid.seq;
            }
            What::Refused => {}
        }
        told
    }

    /// What the entry demands at the server of this dump, if it demands something.
    fn demand_at<'b>(&'b self, entry: &'b Entry, server: usize) -> Option<Demand<'b>> {
        let dump = &self.dumps[server];
        match &entry.what {
            What::Read(_, vector) => {
                (server == usize::from(entry.server)).then_some(Demand::Counted(vector))
            }
            What::Write(wid, stamp, _) => Some(Demand::Before(dump, dump.place(*wid)?, *stamp)),
            What::Refused => None,
        }
    }

    /// What the entry demands at each server, where it demands something.
    fn demands<'b>(&'b self, entry: &'b Entry) -> impl Iterator<Item = (usize, Demand<'b>)> {
        let servers = 0..self.dumps.len();
        servers.filter_map(|server| Some((server, self.demand_at(entry, server)?)))
    }

    /// The least name of a Write that the entry told of and that doesn't meet the demand. Of one origin all after it don't either.
    fn least_unmet(&self, entry: &Entry, demand: &Demand) -> Option<Wid> {
        if let What::Write(wid, stamp, _) = entry.what {
            return (!demand.is_met_by(wid, stamp)).then_some(wid);
        }
        let What::Read(_, vector) = &entry.what else {
            return None;
        };
        let dump = self.dump_of(entry);
        let is_unmet = |wid: &Wid| match dump.find(*wid) {
            Some(write) => !demand.is_met_by(*wid, write.stamp()),
            None => false,
        };
        (0..SERVERS as u8).find_map(|origin| {
            let names = (1..=vector[usize::from(origin)])
                .rev()
                .map(|seq| Wid { origin, seq });
            names.take_while(is_unmet).last()
        })
    }

    fn breach_between(&self, first: &Entry, second: &Entry) -> Option<Breach> {
        self.demands(second).find_map(|(server, demand)| {
            Some(Breach {
                first: first.place,
                second: second.place,
                server,
                wid: self.least_unmet(first, &demand)?,
            })
        })
    }

    /// The breach of the entry with the first of those before it, of its session, that the guarantee speaks of.
    fn breach_at(&self, guarantee: usize, at: usize) -> Option<Breach> {
        let second = &self.entries[at];
        let is_first =
            |entry: &&Entry| entry.session == second.session && is_first_of(guarantee, &entry.what);
        let mut firsts = self.entries[..at].iter().filter(is_first);
        firsts.find_map(|first| self.breach_between(first, second))
    }

    /// Goes on with the entry at this place, which is the session's.
    fn add(&self, at: usize, progress: &mut Progress) {
        let entry = &self.entries[at];
        for guarantee in 0..GUARANTEES.len() {
            let told = match guarantee {
                RYW | MW => &progress.wrote,
                _ => &progress.read,
            };
            let is_kept = progress.surveyed.breaches[guarantee].is_some()
                || !is_second_of(guarantee, &entry.what)
                || self
                    .demands(entry)
                    .all(|(_, demand)| demand.is_met_by_all(told));
            if !is_kept {
                progress.surveyed.breaches[guarantee] = self.breach_at(guarantee, at);
            }
        }
        match entry.what {
            What::Read(..) => progress.read.join(&self.told_by(entry)),
            What::Write(..) => progress.wrote.join(&self.told_by(entry)),
            What::Refused => {}
        }
    }
}

/// Whether the guarantee speaks of such an operation as the earlier one.
fn is_first_of(guarantee: usize, what: &What) -> bool {
    match what {
        What::Read(..) => matches!(guarantee, MR | WFR),
        What::Write(..) => matches!(guarantee, RYW | MW),
        What::Refused => false,
    }
}

/// Whether the guarantee speaks of such an operation as the later one.
fn is_second_of(guarantee: usize, what: &What) -> bool {
    match what {
        What::Read(..) => matches!(guarantee, RYW | MR),
        What::Write(..) => matches!(guarantee, WFR | MW),
        What::Refused => false,
    }
}

/// What a session was told of so far, by its reads and by its Writes, and its breaches so far.
struct Progress {
    read: Told,
    wrote: Told,
    surveyed: Surveyed,
}

impl Progress {
    fn new(entry: &Entry) -> Progress {
        Progress {
            read: Told::default(),
            wrote: Told::default(),
            surveyed: Surveyed {
                session: entry.session,
                asks: entry.asks,
                breaches: Default::default(),
            },
        }
    }
}

/// What became of each session that has an entry, by number.
pub fn survey(
    count: u8,
    entries: &[Entry],
    dumps: &[&[Write]],
) -> Result<Vec<Surveyed>, BadEvidence> {
    let mut indexed = Vec::new();
    for writes in dumps {
        let dump = Dump::index(writes, count, &indexed)?;
        indexed.push(dump);
    }
    let evidence = Evidence {
        entries,
        dumps: indexed,
    };
    if let Some(at) = evidence.first_forged() {
        return Err(BadEvidence::Forged(at));
    }
    let mut sessions: [Option<Progress>; SESSIONS] = Default::default();
    for (at, entry) in entries.iter().enumerate() {
        let session = &mut sessions[usize::from(entry.session)];
        evidence.add(at, session.get_or_insert_with(|| Progress::new(entry)));
    }
    Ok(sessions
        .into_iter()
        .flatten()
        .map(|progress| progress.surveyed)
        .collect())
}

/// The least breach of what was asked for, with its session and its guarantee, if there is one.
pub fn least_asked(surveyed: &[Surveyed]) -> Option<(u8, usize, Breach)> {
    surveyed.iter().find_map(|session| {
        let mut breaches = session.breaches.iter().enumerate();
        breaches.find_map(|(guarantee, breach)| match breach {
            Some(breach) if session.asks[guarantee] => Some((session.session, guarantee, *breach)),
            _ => None,
        })
    })
}
