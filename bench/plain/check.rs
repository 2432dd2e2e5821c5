//! `check P` as a plain program would do it: the whole language read to trees, each rule tried in its order, and the line that
//! `covern check P` prints. Of a malformed text it names no fault, and it proves nothing. Of several files it prints a line each, and ends
//! with the status of the last.
mod arithmetic;
mod declared;
mod syntax;
mod terms;
mod typed;
mod valid;

use std::io::{Read, Write};
use std::process::exit;

const LIMIT: u64 = 1_048_576;

/// What is said of a program that is refused.
pub struct Refusal(String);

pub fn refusal(said: String) -> Refusal {
    Refusal(format!("refused {said}"))
}

pub fn refused<T>(rule: &str, at: usize, names: &[&str]) -> Result<T, Refusal> {
    Err(refusal(format!("{rule} at {at}: {}", names.join(" "))))
}

fn judged(p: &syntax::Program) -> Result<String, Refusal> {
    let d = declared::declared(p)?;
    let mut entailments = 0;
    for thread in &p.threads {
        let mut checker = typed::Checker::new(&d, thread);
        checker.check()?;
        entailments += checker.entailments;
    }
    Ok(format!("accepted: {} threads, {} statements, {entailments} entailments", p.threads.len(), p.statements))
}

fn verdict(name: &str, text: &[u8]) -> (String, i32) {
    match syntax::parse(text).as_ref().map(judged) {
        Some(Ok(line)) => (line, 0),
        Some(Err(Refusal(line))) => (line, 1),
        None => (format!("malformed {name}"), 3),
    }
}

/// The line of a file and its status.
fn checked(name: &str) -> (String, i32) {
    let Ok(file) = std::fs::File::open(name) else { exit(4) };
    let mut text = Vec::new();
    if file.take(LIMIT + 1).read_to_end(&mut text).is_err() {
        exit(4);
    }
    if text.len() as u64 > LIMIT {
        exit(7);
    }
    verdict(name, &text)
}

fn main() {
    let words: Vec<String> = std::env::args().skip(1).collect();
    let [command, names @ .., last] = words.as_slice() else { exit(2) };
    if command != "check" {
        exit(2);
    }
    for name in names {
        if writeln!(std::io::stdout(), "{}", checked(name).0).is_err() {
            exit(5);
        }
    }
    let (line, status) = checked(last);
    if writeln!(std::io::stdout(), "{line}").is_err() {
        exit(5);
    }
    exit(status);
}
