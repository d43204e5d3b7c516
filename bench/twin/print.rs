//! What is printed (docs/FORMATS.md).

use crate::judge::{least_asked, BadEvidence, Breach, Surveyed};
use crate::line::{Asks, Entry, What, GUARANTEES};
use crate::program::{Alternative, Condition, Op, Outcome, Program, Term, Value};
use crate::write::{Stamp, Wid, Write};
use std::fmt::{self, Display, Formatter, Write as _};
use std::io;

/// What the process ends with.
pub type Status = i32;
pub const DONE: Status = 0;
pub const BROKEN: Status = 1;
pub const REFUSED: Status = 2;
pub const FAILED: Status = 3;

/// Members with commas between them.
pub struct List<'a, T>(pub &'a [T]);

impl<T: Display> Display for List<'_, T> {
    fn fmt(&self, to: &mut Formatter) -> fmt::Result {
        for (at, member) in self.0.iter().enumerate() {
            let comma = if at == 0 { "" } else { "," };
            write!(to, "{comma}{member}")?;
        }
        Ok(())
    }
}

/// A text as JSON has it.
pub struct Text<'a>(pub &'a str);

impl Display for Text<'_> {
    fn fmt(&self, to: &mut Formatter) -> fmt::Result {
        to.write_char('"')?;
        for character in self.0.chars() {
            match character {
                '"' => to.write_str("\\\"")?,
                '\\' => to.write_str("\\\\")?,
                '\u{8}' => to.write_str("\\b")?,
                '\u{c}' => to.write_str("\\f")?,
                '\n' => to.write_str("\\n")?,
                '\r' => to.write_str("\\r")?,
                '\t' => to.write_str("\\t")?,
                '\0'..='\u{1f}' => write!(to, "\\u{:04x}", u32::from(character))?,
                _ => to.write_char(character)?,
            }
        }
        to.write_char('"')
    }
}

impl Display for Value {
    fn fmt(&self, to: &mut Formatter) -> fmt::Result {
        match self {
            Value::Number(number) => write!(to, "{number}"),
            Value::Text(text) => write!(to, "{}", Text(text)),
        }
    }
}

impl Display for Term {
    fn fmt(&self, to: &mut Formatter) -> fmt::Result {
        match self {
            Term::Literal(value) => write!(to, "{value}"),
            Term::Copy(key) => write!(to, r#"["copy","{key}"]"#),
            Term::Plus(key, more) => write!(to, r#"["plus","{key}",{more}]"#),
        }
    }
}

impl Display for Op {
    fn fmt(&self, to: &mut Formatter) -> fmt::Result {
        match self {
            Op::Put(key, term) => write!(to, r#"["put","{key}",{term}]"#),
            Op::Delete(key) => write!(to, r#"["del","{key}"]"#),
        }
    }
}

impl Display for Condition {
    fn fmt(&self, to: &mut Formatter) -> fmt::Result {
        match self {
            Condition::Equals(key, value) => write!(to, r#"["equals","{key}",{value}]"#),
            Condition::Absent(key) => write!(to, r#"["absent","{key}"]"#),
            Condition::AtLeast(key, least) => write!(to, r#"["atleast","{key}",{least}]"#),
            Condition::AtMost(prefix, most) => write!(to, r#"["atmost","{prefix}",{most}]"#),
        }
    }
}

impl Display for Alternative {
    fn fmt(&self, to: &mut Formatter) -> fmt::Result {
        let (ops, when) = (List(&self.ops), List(&self.when));
        write!(to, r#"{{"ops":[{ops}],"when":[{when}]}}"#)
    }
}

impl Display for Program {
    fn fmt(&self, to: &mut Formatter) -> fmt::Result {
        let (check, update) = (List(&self.check), List(&self.update));
        let merge = List(&self.merge);
        write!(
            to,
            r#"{{"check":[{check}],"merge":[{merge}],"update":[{update}]}}"#
        )
    }
}

impl Display for Wid {
    fn fmt(&self, to: &mut Formatter) -> fmt::Result {
        write!(to, "{}:{}", self.origin, self.seq)
    }
}

impl Display for Outcome {
    fn fmt(&self, to: &mut Formatter) -> fmt::Result {
        match self {
            Outcome::Updated => to.write_str("updated"),
            Outcome::Merged(at) => write!(to, "merged {at}"),
            Outcome::Nothing => to.write_str("nothing"),
        }
    }
}

struct AskedFor(Asks);

impl Display for AskedFor {
    fn fmt(&self, to: &mut Formatter) -> fmt::Result {
        let asked = GUARANTEES
            .iter()
            .zip(self.0)
            .filter(|(_, is_asked)| *is_asked);
        let words: Vec<Text> = asked.map(|(word, _)| Text(word)).collect();
        write!(to, "{}", List(&words))
    }
}

pub fn print_entry(to: &mut impl io::Write, entry: &Entry, count: usize) -> io::Result<()> {
    let Entry {
        session,
        place,
        server,
        ..
    } = entry;
    let asks = AskedFor(entry.asks);
    write!(to, r#"["entry",{session},{place},[{asks}],{server},"#)?;
    match &entry.what {
        What::Refused => writeln!(to, r#""refused"]"#),
        What::Read(key, vector) => {
            writeln!(to, r#""read","{key}",[{}]]"#, List(&vector[..count]))
        }
        What::Write(Wid { seq, .. }, Stamp { clock, .. }, deps) => {
            let deps = List(&deps[..count]);
            writeln!(to, r#""write",{seq},{clock},[{deps}]]"#)
        }
    }
}

pub fn print_held(
    to: &mut impl io::Write,
    server: usize,
    write: &Write,
    count: usize,
) -> io::Result<()> {
    let Wid { origin, seq } = write.wid;
    let (clock, program) = (write.clock, &write.program);
    let deps = List(&write.deps[..count]);
    writeln!(
        to,
        r#"["held",{server},[{origin},{seq},{clock},[{deps}],{program}]]"#
    )
}

fn print_bad(to: &mut impl io::Write, bad: &BadEvidence) -> io::Result<Status> {
    match bad {
        BadEvidence::Dump(server, at) => writeln!(to, "judge refused dump {server} {at}")?,
        BadEvidence::Forged(at) => writeln!(to, "judge refused forged {at}")?,
    }
    Ok(REFUSED)
}

type Survey = Result<Vec<Surveyed>, BadEvidence>;

pub fn print_verdict(to: &mut impl io::Write, survey: &Survey) -> io::Result<Status> {
    let surveyed = match survey {
        Ok(surveyed) => surveyed,
        Err(bad) => return print_bad(to, bad),
    };
    let Some((session, guarantee, breach)) = least_asked(surveyed) else {
        writeln!(to, "clean")?;
        return Ok(DONE);
    };
    let guarantee = GUARANTEES[guarantee];
    let Breach {
        first,
        second,
        server,
        wid,
    } = breach;
    write!(
        to,
        "broken {guarantee} session {session} places {first} {second} "
    )?;
    writeln!(to, "server {server} wid {wid}")?;
    Ok(BROKEN)
}

pub fn print_survey(to: &mut impl io::Write, survey: &Survey) -> io::Result<Status> {
    let surveyed = match survey {
        Ok(surveyed) => surveyed,
        Err(bad) => return print_bad(to, bad),
    };
    for session in surveyed {
        write!(to, "survey {}", session.session)?;
        for (guarantee, breach) in GUARANTEES.iter().zip(&session.breaches) {
            print_breach(to, guarantee, breach)?;
        }
        writeln!(to)?;
    }
    Ok(DONE)
}

fn print_breach(
    to: &mut impl io::Write,
    guarantee: &str,
    breach: &Option<Breach>,
) -> io::Result<()> {
    let Some(breach) = breach else {
        return write!(to, " {guarantee} ok");
    };
    let Breach {
        first,
        second,
        server,
        wid,
    } = breach;
    write!(to, " {guarantee} broken {first} {second} {server} {wid}")
}
