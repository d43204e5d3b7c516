//! A plain twin of `bayou`, for benchmarks and comparisons: what is written where nothing is proved, with the standard library alone.
//!
//!     twin run [FILE]     runs a script, as `bayou run` does
//!     twin audit FILE     judges an audit file, as `bayou audit` does
//!
//! `-`, or no FILE, is the standard input. Lines and statuses are those of docs/FORMATS.md. Want of memory ends it at once.

mod journal;
mod json;
mod judge;
mod line;
mod machine;
mod print;
mod program;
mod script;
mod server;
mod sha256;
mod write;

use line::Fault;
use print::{Status, FAILED, REFUSED};
use script::Refusal;
use std::fs::File;
use std::io::{self, BufRead, BufReader, BufWriter, Write};

const OUTPUT_BYTES: usize = 65_536;

/// Why nothing, or not all, was done.
enum Failure {
    Refused(Refusal),
    Output,
}

impl From<Refusal> for Failure {
    fn from(refusal: Refusal) -> Self {
        Failure::Refused(refusal)
    }
}

impl From<io::Error> for Failure {
    fn from(_: io::Error) -> Self {
        Failure::Output
    }
}

fn input_of(file: Option<&str>) -> Result<Box<dyn BufRead>, Refusal> {
    match file {
        None | Some("-") => Ok(Box::new(io::stdin().lock())),
        Some(name) => match File::open(name) {
            Ok(file) => Ok(Box::new(BufReader::new(file))),
            Err(_) => Err(Refusal::Input),
        },
    }
}

fn audit(input: impl BufRead, output: &mut impl Write) -> Result<Status, Failure> {
    let file = script::read_audit_file(input)?;
    let dumps: Vec<_> = file.dumps.iter().map(Vec::as_slice).collect();
    let survey = judge::survey(file.count, &file.entries, &dumps);
    let status = print::print_verdict(output, &survey)?;
    if survey.is_ok() {
        print::print_survey(output, &survey)?;
    }
    output.flush()?;
    Ok(status)
}

fn run(words: &[&str]) -> Result<Option<Status>, Failure> {
    let mut output = BufWriter::with_capacity(OUTPUT_BYTES, io::stdout().lock());
    let status = match words {
        ["run", file @ ..] if file.len() < 2 => {
            let input = input_of(file.first().copied())?;
            let script = script::read_script(input)?;
            machine::run(script, &mut output)?
        }
        ["audit", file] => audit(input_of(Some(file))?, &mut output)?,
        _ => return Ok(None),
    };
    Ok(Some(status))
}

fn word_of(fault: Fault) -> &'static str {
    match fault {
        Fault::NotJson => "not JSON",
        Fault::Shape => "bad shape",
        Fault::Key => "bad key",
        Fault::Program => "bad program",
        Fault::Place => "out of place",
    }
}

fn main() {
    let words: Vec<String> = std::env::args().skip(1).collect();
    let words: Vec<&str> = words.iter().map(String::as_str).collect();
    let status = match run(&words) {
        Ok(Some(status)) => status,
        Ok(None) => {
            eprintln!("twin run [FILE] | twin audit FILE");
            REFUSED
        }
        Err(Failure::Refused(Refusal::Line(number, fault))) => {
            eprintln!("bayou: line {number}: {}", word_of(fault));
            REFUSED
        }
        Err(Failure::Refused(Refusal::Input)) => {
            eprintln!("bayou: input");
            FAILED
        }
        Err(Failure::Output) => {
            eprintln!("bayou: output");
            FAILED
        }
    };
    std::process::exit(status);
}
