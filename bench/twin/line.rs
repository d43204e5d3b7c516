//! The lines of scripts and of audit files (docs/FORMATS.md).

use crate::journal::Fuse;
use crate::json::{self, Json};
use crate::program::{
    self, Alternative, Condition, Key, Op, Program, Term, Value, MAX_ALTERNATIVES, MAX_CONDITIONS,
    MAX_OPS,
};
use crate::server::Plan;
use crate::write::{Stamp, Vector, Wid, Write, MAX_WRITES, SERVERS};

pub const SESSIONS: usize = 32;
const DEFAULT_LIMIT: u32 = 4_096;
const MAX_LINE_BYTES: usize = 65_536;
const MAX_FUSE_CALLS: i64 = 1_000;
const MAX_FUSE_KEPT: i64 = 8_192;
const MAX_LOST_BYTES: i64 = 1_000_000_000;

/// The guarantees, in their order.
pub const GUARANTEES: [&str; 4] = ["ryw", "mr", "wfr", "mw"];

/// For each guarantee whether it is asked for.
pub type Asks = [bool; GUARANTEES.len()];

#[derive(Clone, Copy)]
pub enum Fault {
    NotJson,
    Shape,
    Key,
    Program,
    Place,
}

pub enum Command {
    Session(u8, Asks),
    Write(u8, u8, Program),
    Read(u8, u8, Key),
    Again(u8),
    Drop(u8),
    Log(u8),
    Fuse(u8, Fuse),
    Lose(u8, usize),
    Reopen(u8),
    Restart(u8),
    Pull(u8, u8, Option<usize>),
    Resend(u8, u8),
    Totals,
    Judge,
    Survey,
    Book,
    Phase,
}

/// What became of an operation that was answered.
pub enum What {
    Read(Key, Vector),
    Write(Wid, Stamp, Vector),
    Refused,
}

pub struct Entry {
    pub session: u8,
    pub place: u32,
    pub asks: Asks,
    pub server: u8,
    pub what: What,
}

pub enum Line {
    Servers(Plan),
    Command(Command),
    /// With the number of counts that its vector has.
    Entry(Entry, Option<usize>),
    Held(u8, Write, usize),
}

type Read<T> = Result<T, Fault>;

pub fn read_line(line: &[u8]) -> Read<Line> {
    if line.len() > MAX_LINE_BYTES {
        return Err(Fault::Shape);
    }
    let value = json::parse(line).ok_or(Fault::NotJson)?;
    let (word, behind) = word_of(&value)?;
    match (word, behind) {
        ("servers", [count]) => Ok(Line::Servers(plan(count, None)?)),
        ("servers", [count, limit]) => Ok(Line::Servers(plan(count, Some(limit))?)),
        ("entry", [session, place, asks, server, behind @ ..]) => {
            entry(session, place, asks, server, behind)
        }
        ("held", [server, write]) => held(server, write),
        _ => Ok(Line::Command(command(word, behind)?)),
    }
}

fn command(word: &str, behind: &[Json]) -> Read<Command> {
    Ok(match (word, behind) {
        ("session", [session, asks]) => Command::Session(session_of(session)?, asks_of(asks)?),
        ("write", [session, server, program]) => Command::Write(
            session_of(session)?,
            server_of(server)?,
            program_of(program)?,
        ),
        ("read", [session, server, key]) => {
            Command::Read(session_of(session)?, server_of(server)?, key_of(key)?)
        }
        ("again", [session]) => Command::Again(session_of(session)?),
        ("drop", [session]) => Command::Drop(session_of(session)?),
        ("log", [server]) => Command::Log(server_of(server)?),
        ("fuse", [server, calls, kept]) => Command::Fuse(server_of(server)?, fuse(calls, kept)?),
        ("lose", [server, count]) => Command::Lose(
            server_of(server)?,
            number(count, 0, MAX_LOST_BYTES)? as usize,
        ),
        ("reopen", [server]) => Command::Reopen(server_of(server)?),
        ("restart", [server]) => Command::Restart(server_of(server)?),
        ("pull", [to, from]) => Command::Pull(server_of(to)?, server_of(from)?, None),
        ("pull", [to, from, items]) => {
            let (to, from) = (server_of(to)?, server_of(from)?);
            Command::Pull(to, from, Some(count(items)? as usize))
        }
        ("resend", [to, from]) => Command::Resend(server_of(to)?, server_of(from)?),
        ("totals", []) => Command::Totals,
        ("judge", []) => Command::Judge,
        ("survey", []) => Command::Survey,
        ("book", []) => Command::Book,
        ("phase", []) => Command::Phase,
        _ => return Err(Fault::Shape),
    })
}

/// An array's first member, which is a text, and what stands after it.
fn word_of<'a>(value: &'a Json) -> Read<(&'a str, &'a [Json<'a>])> {
    match array(value)? {
        [Json::Text(word), behind @ ..] => Ok((word, behind)),
        _ => Err(Fault::Shape),
    }
}

fn array<'a>(value: &'a Json) -> Read<&'a [Json<'a>]> {
    match value {
        Json::Array(members) => Ok(members),
        _ => Err(Fault::Shape),
    }
}

fn number(value: &Json, least: i64, most: i64) -> Read<i64> {
    match value {
        Json::Integer(number) if (least..=most).contains(number) => Ok(*number),
        _ => Err(Fault::Shape),
    }
}

fn count(value: &Json) -> Read<u32> {
    Ok(number(value, 0, i64::from(MAX_WRITES))? as u32)
}

/// A sequence number, a clock or a limit.
fn positive(value: &Json) -> Read<u32> {
    Ok(number(value, 1, i64::from(MAX_WRITES))? as u32)
}

fn server_of(value: &Json) -> Read<u8> {
    Ok(number(value, 0, SERVERS as i64 - 1)? as u8)
}

fn session_of(value: &Json) -> Read<u8> {
    Ok(number(value, 0, SESSIONS as i64 - 1)? as u8)
}

fn plan(count: &Json, limit: Option<&Json>) -> Read<Plan> {
    Ok(Plan {
        count: number(count, 1, SERVERS as i64)? as u8,
        limit: limit.map_or(Ok(DEFAULT_LIMIT), positive)?,
    })
}

fn fuse(calls: &Json, kept: &Json) -> Read<Fuse> {
    Ok(Fuse {
        calls: number(calls, 1, MAX_FUSE_CALLS)? as u32,
        kept: number(kept, 0, MAX_FUSE_KEPT)? as usize,
    })
}

fn asks_of(value: &Json) -> Read<Asks> {
    let mut asks = Asks::default();
    for member in array(value)? {
        let Json::Text(word) = member else {
            return Err(Fault::Shape);
        };
        let place = GUARANTEES.iter().position(|guarantee| guarantee == word);
        asks[place.ok_or(Fault::Shape)?] = true;
    }
    Ok(asks)
}

fn key_of(value: &Json) -> Read<Key> {
    match value {
        Json::Text(text) if program::is_key(text) => Ok(text.as_ref().into()),
        Json::Text(_) => Err(Fault::Key),
        _ => Err(Fault::Shape),
    }
}

fn prefix_of(value: &Json) -> Read<Box<str>> {
    match value {
        Json::Text(text) if program::is_prefix(text) => Ok(text.as_ref().into()),
        Json::Text(_) => Err(Fault::Key),
        _ => Err(Fault::Shape),
    }
}

/// How many keys may begin so.
fn most(value: &Json) -> Read<u32> {
    Ok(number(value, 0, i64::from(u32::MAX))? as u32)
}

fn long(value: &Json) -> Read<i64> {
    number(value, i64::MIN, i64::MAX)
}

fn value_of(value: &Json) -> Read<Value> {
    match value {
        Json::Integer(number) => Ok(Value::Number(*number)),
        Json::Text(text) if text.len() <= program::MAX_TEXT_BYTES => {
            Ok(Value::Text(text.as_ref().into()))
        }
        _ => Err(Fault::Shape),
    }
}

fn term(value: &Json) -> Read<Term> {
    if !matches!(value, Json::Array(_)) {
        return Ok(Term::Literal(value_of(value)?));
    }
    match word_of(value)? {
        ("copy", [key]) => Ok(Term::Copy(key_of(key)?)),
        ("plus", [key, more]) => Ok(Term::Plus(key_of(key)?, long(more)?)),
        _ => Err(Fault::Shape),
    }
}

fn op(value: &Json) -> Read<Op> {
    match word_of(value)? {
        ("put", [key, value]) => Ok(Op::Put(key_of(key)?, term(value)?)),
        ("del", [key]) => Ok(Op::Delete(key_of(key)?)),
        _ => Err(Fault::Shape),
    }
}

fn condition(value: &Json) -> Read<Condition> {
    match word_of(value)? {
        ("equals", [key, value]) => Ok(Condition::Equals(key_of(key)?, value_of(value)?)),
        ("absent", [key]) => Ok(Condition::Absent(key_of(key)?)),
        ("atleast", [key, least]) => Ok(Condition::AtLeast(key_of(key)?, long(least)?)),
        ("atmost", [prefix, count]) => Ok(Condition::AtMost(prefix_of(prefix)?, most(count)?)),
        _ => Err(Fault::Shape),
    }
}

/// The members of an object that has these at the most, each by its place among the names.
fn members<'a, const N: usize>(
    value: &'a Json,
    names: [&str; N],
) -> Read<[Option<&'a Json<'a>>; N]> {
    let Json::Object(members) = value else {
        return Err(Fault::Shape);
    };
    let mut found = [None; N];
    for (name, member) in members {
        let place = names.iter().position(|known| known == name);
        found[place.ok_or(Fault::Shape)?] = Some(member);
    }
    Ok(found)
}

fn list<T>(value: Option<&Json>, most: usize, member: impl Fn(&Json) -> Read<T>) -> Read<Box<[T]>> {
    let members = value.map_or(Ok(&[][..]), array)?;
    if members.len() > most {
        return Err(Fault::Program);
    }
    members.iter().map(member).collect()
}

fn alternative(value: &Json) -> Read<Alternative> {
    let [when, ops] = members(value, ["when", "ops"])?;
    Ok(Alternative {
        when: list(when, MAX_CONDITIONS, condition)?,
        ops: list(ops, MAX_OPS, op)?,
    })
}

fn program_of(value: &Json) -> Read<Program> {
    let [check, update, merge] = members(value, ["check", "update", "merge"])?;
    Ok(Program {
        check: list(check, MAX_CONDITIONS, condition)?,
        update: list(update, MAX_OPS, op)?,
        merge: list(merge, MAX_ALTERNATIVES, alternative)?,
    })
}

/// A vector, of which the first counts may be told alone, and how many of them are.
fn vector(value: &Json) -> Read<(Vector, usize)> {
    let counts = array(value)?;
    if !(1..=SERVERS).contains(&counts.len()) {
        return Err(Fault::Shape);
    }
    let mut vector = [0; SERVERS];
    for (place, value) in vector.iter_mut().zip(counts) {
        *place = count(value)?;
    }
    Ok((vector, counts.len()))
}

fn entry(session: &Json, place: &Json, asks: &Json, server: &Json, behind: &[Json]) -> Read<Line> {
    let [Json::Text(word), behind @ ..] = behind else {
        return Err(Fault::Shape);
    };
    let session = session_of(session)?;
    let place = number(place, 1, i64::from(u32::MAX))? as u32;
    let asks = asks_of(asks)?;
    let server = server_of(server)?;
    let (what, told) = match (word.as_ref(), behind) {
        ("refused", []) => (What::Refused, None),
        ("read", [key, counts]) => {
            let key = key_of(key)?;
            let (counts, told) = vector(counts)?;
            (What::Read(key, counts), Some(told))
        }
        ("write", [seq, clock, deps]) => {
            let origin = server;
            let (seq, clock) = (positive(seq)?, positive(clock)?);
            let (wid, stamp) = (Wid { origin, seq }, Stamp { clock, origin });
            let (deps, told) = vector(deps)?;
            (What::Write(wid, stamp, deps), Some(told))
        }
        _ => return Err(Fault::Shape),
    };
    let entry = Entry {
        session,
        place,
        asks,
        server,
        what,
    };
    Ok(Line::Entry(entry, told))
}

fn held(server: &Json, write: &Json) -> Read<Line> {
    let server = server_of(server)?;
    let [origin, seq, clock, deps, program] = array(write)? else {
        return Err(Fault::Shape);
    };
    let wid = Wid {
        origin: server_of(origin)?,
        seq: positive(seq)?,
    };
    let clock = positive(clock)?;
    let (deps, told) = vector(deps)?;
    let write = Write {
        wid,
        clock,
        deps,
        program: program_of(program)?,
    };
    Ok(Line::Held(server, write, told))
}
