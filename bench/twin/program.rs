//! Programs, and the database that they are applied to (docs/LANGUAGE.md).

use std::collections::{BTreeSet, HashMap};
use std::ops::Bound;

pub const MAX_KEY_BYTES: usize = 32;
pub const MAX_TEXT_BYTES: usize = 32;
pub const MAX_CONDITIONS: usize = 8;
pub const MAX_OPS: usize = 8;
pub const MAX_ALTERNATIVES: usize = 4;

pub type Key = Box<str>;

/// What keys may begin with.
pub fn is_prefix(text: &str) -> bool {
    let is_letter = |byte| matches!(byte, b'a'..=b'z' | b'0'..=b'9' | b'.' | b'_' | b'-' | b'/');
    text.len() <= MAX_KEY_BYTES && text.bytes().all(is_letter)
}

pub fn is_key(text: &str) -> bool {
    !text.is_empty() && is_prefix(text)
}

#[derive(Clone, PartialEq)]
pub enum Value {
    Number(i64),
    Text(Box<str>),
}

#[derive(Clone, PartialEq)]
pub enum Term {
    Literal(Value),
    Copy(Key),
    Plus(Key, i64),
}

#[derive(Clone, PartialEq)]
pub enum Op {
    Put(Key, Term),
    Delete(Key),
}

#[derive(Clone, PartialEq)]
pub enum Condition {
    Equals(Key, Value),
    Absent(Key),
    AtLeast(Key, i64),
    /// At most so many keys that are present begin so.
    AtMost(Box<str>, u32),
}

#[derive(Clone, PartialEq)]
pub struct Alternative {
    pub when: Box<[Condition]>,
    pub ops: Box<[Op]>,
}

#[derive(Clone, PartialEq)]
pub struct Program {
    pub check: Box<[Condition]>,
    pub update: Box<[Op]>,
    pub merge: Box<[Alternative]>,
}

/// What became of a program.
#[derive(Clone, Copy)]
pub enum Outcome {
    Updated,
    Merged(u8),
    Nothing,
}

impl Op {
    fn key(&self) -> &Key {
        match self {
            Op::Put(key, _) | Op::Delete(key) => key,
        }
    }
}

impl Program {
    /// The ops that were done, by what became of it.
    fn done(&self, outcome: Outcome) -> &[Op] {
        match outcome {
            Outcome::Updated => &self.update,
            Outcome::Merged(at) => &self.merge[usize::from(at)].ops,
            Outcome::Nothing => &[],
        }
    }
}

#[derive(Default)]
pub struct Database {
    values: HashMap<Key, Value>,
    // What each op that was done found at its key, so that it can be taken back.
    before: Vec<Option<Value>>,
    // The keys that are present, in order, from the first condition on that counts some.
    in_order: Option<BTreeSet<Key>>,
}

impl Database {
    pub fn get(&self, key: &str) -> Option<&Value> {
        self.values.get(key)
    }

    fn number(&self, key: &str) -> Option<i64> {
        match self.get(key)? {
            Value::Number(number) => Some(*number),
            Value::Text(_) => None,
        }
    }

    /// Whether at most so many keys that are present begin so. So few keys can't be more, whatever they begin with.
    fn has_at_most(&mut self, prefix: &str, most: u32) -> bool {
        let keys = self
            .in_order
            .get_or_insert_with(|| self.values.keys().cloned().collect());
        let most = most as usize;
        let behind = keys.range::<str, _>((Bound::Included(prefix), Bound::Unbounded));
        let beginning = behind.take_while(|key| key.starts_with(prefix));
        keys.len() <= most || beginning.take(most + 1).count() <= most
    }

    fn holds(&mut self, condition: &Condition) -> bool {
        match condition {
            Condition::AtMost(prefix, most) => self.has_at_most(prefix, *most),
            Condition::Equals(key, value) => self.get(key) == Some(value),
            Condition::Absent(key) => self.get(key).is_none(),
            Condition::AtLeast(key, least) => self.number(key).is_some_and(|has| has >= *least),
        }
    }

    fn value_of(&self, term: &Term) -> Option<Value> {
        match term {
            Term::Literal(value) => Some(value.clone()),
            Term::Copy(key) => self.get(key).cloned(),
            Term::Plus(key, more) => Some(Value::Number(self.number(key)?.checked_add(*more)?)),
        }
    }

    /// Gives the key that value, or none, and tells what it had.
    fn replace(&mut self, key: &Key, value: Option<Value>) -> Option<Value> {
        let Some(value) = value else {
            if let Some(keys) = &mut self.in_order {
                keys.remove(key);
            }
            return self.values.remove(key);
        };
        if let Some(keys) = &mut self.in_order {
            if !keys.contains(key) {
                keys.insert(key.clone());
            }
        }
        match self.values.get_mut(key) {
            Some(place) => Some(std::mem::replace(place, value)),
            None => self.values.insert(key.clone(), value),
        }
    }

    /// Does the op, and tells whether it could be done.
    fn perform(&mut self, op: &Op) -> bool {
        let value = match op {
            Op::Delete(_) => None,
            Op::Put(_, term) => match self.value_of(term) {
                None => return false,
                value => value,
            },
        };
        let before = self.replace(op.key(), value);
        self.before.push(before);
        true
    }

    /// Takes the ops back that were done last.
    fn revert(&mut self, ops: &[Op]) {
        for op in ops.iter().rev() {
            let before = self.before.pop().flatten();
            self.replace(op.key(), before);
        }
    }

    /// Does all of the ops, or none, and tells which.
    fn perform_all(&mut self, ops: &[Op]) -> bool {
        for (at, op) in ops.iter().enumerate() {
            if !self.perform(op) {
                self.revert(&ops[..at]);
                return false;
            }
        }
        true
    }

    fn all_hold(&mut self, conditions: &[Condition]) -> bool {
        conditions.iter().all(|condition| self.holds(condition))
    }

    pub fn apply(&mut self, program: &Program) -> Outcome {
        if self.all_hold(&program.check) {
            return match self.perform_all(&program.update) {
                true => Outcome::Updated,
                false => Outcome::Nothing,
            };
        }
        for (at, alternative) in program.merge.iter().enumerate() {
            if self.all_hold(&alternative.when) && self.perform_all(&alternative.ops) {
                return Outcome::Merged(at as u8);
            }
        }
        Outcome::Nothing
    }

    /// Takes the program back that was applied last, and had this outcome.
    pub fn take_back(&mut self, program: &Program, outcome: Outcome) {
        self.revert(program.done(outcome));
    }
}
