//! Writes, their names and stamps, vectors, and the bytes that they have (docs/FORMATS.md).

use crate::program::{self, Alternative, Condition, Key, Op, Program, Term, Value};

pub const SERVERS: usize = 16;
pub const MAX_WRITES: u32 = 65_536;

/// For each server a number of its Writes.
pub type Vector = [u32; SERVERS];

pub fn dominates(vector: &Vector, other: &Vector) -> bool {
    vector
        .iter()
        .zip(other)
        .all(|(count, least)| count >= least)
}

pub fn join(vector: &mut Vector, other: &Vector) {
    for (count, more) in vector.iter_mut().zip(other) {
        *count = (*count).max(*more);
    }
}

/// A Write's name.
#[derive(Clone, Copy, PartialEq, Eq, Hash, PartialOrd, Ord)]
pub struct Wid {
    pub origin: u8,
    pub seq: u32,
}

#[derive(Clone, Copy, PartialEq, Eq, PartialOrd, Ord)]
pub struct Stamp {
    pub clock: u32,
    pub origin: u8,
}

#[derive(Clone, PartialEq)]
pub struct Write {
    pub wid: Wid,
    pub clock: u32,
    pub deps: Vector,
    pub program: Program,
}

impl Write {
    pub fn stamp(&self) -> Stamp {
        Stamp {
            clock: self.clock,
            origin: self.wid.origin,
        }
    }

    /// Puts its bytes after those that are there.
    pub fn encode(&self, bytes: &mut Vec<u8>) {
        bytes.push(self.wid.origin);
        bytes.extend(self.wid.seq.to_be_bytes());
        bytes.extend(self.clock.to_be_bytes());
        for count in self.deps {
            bytes.extend(count.to_be_bytes());
        }
        put_list(bytes, &self.program.check, put_condition);
        put_list(bytes, &self.program.update, put_op);
        put_list(bytes, &self.program.merge, |bytes, alternative| {
            put_list(bytes, &alternative.when, put_condition);
            put_list(bytes, &alternative.ops, put_op);
        });
    }

    /// The Write that all of the bytes spell.
    pub fn decode(bytes: &[u8]) -> Option<Write> {
        let mut reader = Reader { bytes };
        let wid = Wid {
            origin: reader.byte(0, SERVERS - 1)?,
            seq: reader.number(1)?,
        };
        let clock = reader.number(1)?;
        let mut deps = [0; SERVERS];
        for count in &mut deps {
            *count = reader.number(0)?;
        }
        let program = Program {
            check: reader.list(program::MAX_CONDITIONS, Reader::condition)?,
            update: reader.list(program::MAX_OPS, Reader::op)?,
            merge: reader.list(program::MAX_ALTERNATIVES, Reader::alternative)?,
        };
        reader.bytes.is_empty().then_some(Write {
            wid,
            clock,
            deps,
            program,
        })
    }
}

fn put_list<T>(bytes: &mut Vec<u8>, list: &[T], put: impl Fn(&mut Vec<u8>, &T)) {
    bytes.push(list.len() as u8);
    for member in list {
        put(bytes, member);
    }
}

fn put_text(bytes: &mut Vec<u8>, text: &str) {
    bytes.push(text.len() as u8);
    bytes.extend_from_slice(text.as_bytes());
}

fn put_value(bytes: &mut Vec<u8>, value: &Value) {
    match value {
        Value::Number(number) => {
            bytes.push(1);
            bytes.extend(number.to_be_bytes());
        }
        Value::Text(text) => {
            bytes.push(2);
            put_text(bytes, text);
        }
    }
}

fn put_term(bytes: &mut Vec<u8>, term: &Term) {
    match term {
        Term::Literal(value) => {
            bytes.push(1);
            put_value(bytes, value);
        }
        Term::Copy(key) => {
            bytes.push(2);
            put_text(bytes, key);
        }
        Term::Plus(key, more) => {
            bytes.push(3);
            put_text(bytes, key);
            bytes.extend(more.to_be_bytes());
        }
    }
}

fn put_op(bytes: &mut Vec<u8>, op: &Op) {
    match op {
        Op::Put(key, term) => {
            bytes.push(1);
            put_text(bytes, key);
            put_term(bytes, term);
        }
        Op::Delete(key) => {
            bytes.push(2);
            put_text(bytes, key);
        }
    }
}

fn put_condition(bytes: &mut Vec<u8>, condition: &Condition) {
    match condition {
        Condition::Equals(key, value) => {
            bytes.push(1);
            put_text(bytes, key);
            put_value(bytes, value);
        }
        Condition::Absent(key) => {
            bytes.push(2);
            put_text(bytes, key);
        }
        Condition::AtLeast(key, least) => {
            bytes.push(3);
            put_text(bytes, key);
            bytes.extend(least.to_be_bytes());
        }
        Condition::AtMost(prefix, most) => {
            bytes.push(4);
            put_text(bytes, prefix);
            bytes.extend(most.to_be_bytes());
        }
    }
}

struct Reader<'a> {
    bytes: &'a [u8],
}

impl<'a> Reader<'a> {
    fn take(&mut self, count: usize) -> Option<&'a [u8]> {
        let (taken, behind) = self.bytes.split_at_checked(count)?;
        self.bytes = behind;
        Some(taken)
    }

    fn byte(&mut self, least: usize, most: usize) -> Option<u8> {
        let byte = self.take(1)?[0];
        (least..=most).contains(&usize::from(byte)).then_some(byte)
    }

    fn short(&mut self) -> Option<u32> {
        Some(u32::from_be_bytes(self.take(4)?.try_into().ok()?))
    }

    fn number(&mut self, least: u32) -> Option<u32> {
        let number = self.short()?;
        (least..=MAX_WRITES).contains(&number).then_some(number)
    }

    fn long(&mut self) -> Option<i64> {
        Some(i64::from_be_bytes(self.take(8)?.try_into().ok()?))
    }

    fn text(&mut self, most: usize) -> Option<&'a str> {
        let count = self.byte(0, most)?;
        std::str::from_utf8(self.take(usize::from(count))?).ok()
    }

    fn key(&mut self) -> Option<Key> {
        let text = self.text(program::MAX_KEY_BYTES)?;
        program::is_key(text).then(|| text.into())
    }

    fn prefix(&mut self) -> Option<Box<str>> {
        let text = self.text(program::MAX_KEY_BYTES)?;
        program::is_prefix(text).then(|| text.into())
    }

    fn value(&mut self) -> Option<Value> {
        Some(match self.byte(1, 2)? {
            1 => Value::Number(self.long()?),
            _ => Value::Text(self.text(program::MAX_TEXT_BYTES)?.into()),
        })
    }

    fn term(&mut self) -> Option<Term> {
        Some(match self.byte(1, 3)? {
            1 => Term::Literal(self.value()?),
            2 => Term::Copy(self.key()?),
            _ => Term::Plus(self.key()?, self.long()?),
        })
    }

    fn op(&mut self) -> Option<Op> {
        Some(match self.byte(1, 2)? {
            1 => Op::Put(self.key()?, self.term()?),
            _ => Op::Delete(self.key()?),
        })
    }

    fn condition(&mut self) -> Option<Condition> {
        Some(match self.byte(1, 4)? {
            1 => Condition::Equals(self.key()?, self.value()?),
            2 => Condition::Absent(self.key()?),
            3 => Condition::AtLeast(self.key()?, self.long()?),
            _ => Condition::AtMost(self.prefix()?, self.short()?),
        })
    }

    fn alternative(&mut self) -> Option<Alternative> {
        Some(Alternative {
            when: self.list(program::MAX_CONDITIONS, Reader::condition)?,
            ops: self.list(program::MAX_OPS, Reader::op)?,
        })
    }

    fn list<T>(
        &mut self,
        most: usize,
        member: impl Fn(&mut Self) -> Option<T>,
    ) -> Option<Box<[T]>> {
        let count = self.byte(0, most)?;
        (0..count).map(|_| member(self)).collect()
    }
}

#[cfg(test)]
mod tests {
    use super::*;

    /// The Write 0:1 of docs/FORMATS.md: name and clock, then the past, then the program.
    const BYTES: &str = "00000000010000000100010104726f6f6d0101000000000000000100";

    #[test]
    fn a_count_has_the_bytes_of_the_page() {
        for (prefix, most, bytes) in [
            ("room/", 1, &b"\x04\x05room/\0\0\0\x01"[..]),
            ("", 0, b"\x04\0\0\0\0\0"),
        ] {
            let condition = Condition::AtMost(prefix.into(), most);
            let mut put = Vec::new();
            put_condition(&mut put, &condition);
            assert_eq!(put, bytes);
            let mut reader = Reader { bytes };
            assert!(reader.condition() == Some(condition) && reader.bytes.is_empty());
        }
    }

    #[test]
    fn a_write_has_the_bytes_of_the_page() {
        let write = Write {
            wid: Wid { origin: 0, seq: 1 },
            clock: 1,
            deps: [0; SERVERS],
            program: Program {
                check: Box::new([]),
                update: Box::new([Op::Put("room".into(), Term::Literal(Value::Number(1)))]),
                merge: Box::new([]),
            },
        };
        let mut bytes = Vec::new();
        write.encode(&mut bytes);
        assert!(Write::decode(&bytes).is_some_and(|decoded| decoded == write));
        let past = 9..9 + 4 * SERVERS;
        assert!(bytes[past.clone()].iter().all(|byte| *byte == 0));
        bytes.drain(past);
        let digits: String = bytes.iter().map(|byte| format!("{byte:02x}")).collect();
        assert_eq!(digits, BYTES);
    }
}
