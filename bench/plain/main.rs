//! `fmt P`, the rules of modes and checks of certificates as a plain program would do them, for a comparison of times: the same tokens,
//! grammar, limits and rules, with a map of std's own, and no proof. Faults of a text aren't told apart.
mod certs;
mod format;

use std::collections::HashMap;
use std::io::{Read, Write};
use std::process::exit;

const LIMIT: u64 = 1_048_576;

const KEYWORDS: [&str; 45] = [
    "var", "low", "high", "when", "lock", "nowrite", "hide", "inv", "thread", "assume", "guarantee", "skip", "unlock",
    "if", "else", "join", "while", "note", "as", "retype", "by", "auto", "hyp", "calc", "clash", "and", "left", "right",
    "use", "cases", "split", "have", "absurd", "not", "contra", "refl", "fwd", "rev", "axiom", "ring", "range",
    "version", "output", "level", "seen",
];

#[derive(Clone, Copy, PartialEq)]
enum Token<'t> {
    Word(&'t [u8]),
    Name(u32),
    Number(u32),
    Sign(&'t [u8]),
}

/// The tokens of a text, and its names by number.
fn lex(text: &[u8]) -> Option<(Vec<Token<'_>>, Vec<&[u8]>)> {
    let mut names: HashMap<&[u8], u32> = HashMap::new();
    let mut tokens = Vec::new();
    let mut listed = Vec::new();
    let mut rest = text;
    while let [first, ..] = rest {
        let run = |is: fn(u8) -> bool| rest.iter().position(|b| !is(*b)).unwrap_or(rest.len());
        let len = match first {
            b' ' | b'\t' | b'\n' | b'\r' => 1,
            b'/' if rest.starts_with(b"//") => run(|b| b != b'\n'),
            b'a'..=b'z' => {
                let len = run(|b| b.is_ascii_lowercase() || b.is_ascii_digit() || b == b'_');
                let word = &rest[..len];
                if len > 32 {
                    return None;
                }
                if KEYWORDS.iter().any(|k| k.as_bytes() == word) {
                    tokens.push(Token::Word(word));
                } else {
                    let next = names.len() as u32;
                    tokens.push(Token::Name(*names.entry(word).or_insert_with(|| {
                        listed.push(word);
                        next
                    })));
                }
                len
            }
            b'0'..=b'9' => {
                let len = run(|b| b.is_ascii_digit());
                tokens.push(Token::Number(std::str::from_utf8(&rest[..len]).ok()?.parse().ok()?));
                len
            }
            _ => {
                let doubles: [&[u8]; 6] = [b":=", b"==", b"!=", b"<=", b"&&", b"||"];
                let len = if doubles.iter().any(|d| rest.starts_with(d)) { 2 } else { 1 };
                if len == 1 && !b":;,{}()[]_+-*&|^<!".contains(first) {
                    return None;
                }
                tokens.push(Token::Sign(&rest[..len]));
                len
            }
        };
        rest = &rest[len..];
    }
    Some((tokens, listed))
}

struct Reader<'t> {
    left: &'t [Token<'t>],
    has_outputs: bool,
}

impl<'t> Reader<'t> {
    fn next(&mut self) -> Option<Token<'t>> {
        let (first, left) = self.left.split_first()?;
        self.left = left;
        Some(*first)
    }

    fn take(&mut self, token: Token<'_>) -> bool {
        let is_next = self.left.first() == Some(&token);
        if is_next {
            self.left = &self.left[1..];
        }
        is_next
    }

    fn name(&mut self) -> Option<u32> {
        match self.next()? {
            Token::Name(n) => Some(n),
            _ => None,
        }
    }
}

/// Tries the rules of modes so many times on a text that keeps them.
fn modes(repeats: u32, text: &[u8]) {
    let (tokens, _) = lex(text).expect("tokens");
    let modes = format::modes_of(&format::parse(&tokens).expect("a program"));
    let held = (0..repeats).filter(|_| format::are_compatible(std::hint::black_box(&modes))).count();
    println!("{held}");
}

fn malformed(name: &str) -> ! {
    println!("malformed {name}");
    exit(3)
}

fn main() {
    let words: Vec<String> = std::env::args().skip(1).collect();
    if let [command, repeats, name] = words.as_slice() {
        if command == "certs" {
            return certs::run(repeats.parse().unwrap(), &std::fs::read_to_string(name).unwrap());
        }
        if command == "modes" {
            return modes(repeats.parse().unwrap(), &std::fs::read(name).unwrap());
        }
    }
    let [command, name] = words.as_slice() else { exit(2) };
    if command != "fmt" {
        exit(2);
    }
    let mut text = Vec::new();
    let Ok(file) = std::fs::File::open(name) else { exit(4) };
    if file.take(LIMIT + 1).read_to_end(&mut text).is_err() {
        exit(4);
    }
    if text.len() as u64 > LIMIT {
        exit(7);
    }
    let Some((tokens, names)) = lex(&text) else { malformed(name) };
    let Some(program) = format::parse(&tokens) else { malformed(name) };
    if std::io::stdout().write_all(&format::print(&program, &names)).is_err() {
        exit(5);
    }
}
