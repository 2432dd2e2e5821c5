//! `certs REPEATS FILE` as a plain program would do it: reads texts of notes, checks the first certificate of each so many times, and
//! prints its verdict. It reads the first thread of a text, which has one note; names are interned, and facts are lent to the
//! walk, but those that it makes.
use std::borrow::Cow;
use std::collections::HashMap;

const HOLE: u32 = u32::MAX;

#[derive(Clone, Copy, PartialEq)]
enum Op {
    Add,
    Sub,
    Mul,
    And,
    Or,
    Xor,
    Eq,
    Ne,
    Lt,
    Le,
    Both,
    Either,
}

#[derive(Clone, PartialEq)]
enum Expr {
    Const(u32),
    Var(u32),
    Not(Box<Expr>),
    Bin(Op, Box<Expr>, Box<Expr>),
}

enum Cert {
    Auto,
    Hyp(u32),
    Calc,
    Clash(u32),
    And(Box<Cert>, Box<Cert>),
    Left(Box<Cert>),
    Right(Box<Cert>),
    Use(u32, Box<Cert>),
    Cases(u32, Box<Cert>, Box<Cert>),
    Split(Expr, Box<Cert>, Box<Cert>),
    Have(Expr, Box<Cert>, Box<Cert>),
    Absurd(u32, u32),
    Not(Box<Cert>),
    Contra(Box<Cert>),
    Refl,
    Fwd(u32, Expr, Box<Cert>),
    Rev(u32, Expr, Box<Cert>),
    Axiom(u32, Vec<Expr>, Box<Cert>),
    Later,
}

// Reading -----------------------------------------------------------------------------------------------------------

/// The operators from the loosest on, and whether one repeats.
const LEVELS: [(&[(&[u8], Op)], bool); 8] = [
    (&[(b"||", Op::Either)], true),
    (&[(b"&&", Op::Both)], true),
    (&[(b"==", Op::Eq), (b"!=", Op::Ne), (b"<=", Op::Le), (b"<", Op::Lt)], false),
    (&[(b"|", Op::Or)], true),
    (&[(b"^", Op::Xor)], true),
    (&[(b"&", Op::And)], true),
    (&[(b"+", Op::Add), (b"-", Op::Sub)], true),
    (&[(b"*", Op::Mul)], true),
];

fn tokens(text: &[u8]) -> Vec<&[u8]> {
    let mut found = Vec::new();
    let mut rest = text;
    while let [first, ..] = rest {
        let run = |is: fn(u8) -> bool| rest.iter().position(|b| !is(*b)).unwrap_or(rest.len());
        let len = match first {
            b' ' | b'\n' => 1,
            b'/' => run(|b| b != b'\n'),
            b'a'..=b'z' => run(|b| b.is_ascii_alphanumeric() || b == b'_'),
            b'0'..=b'9' => run(|b| b.is_ascii_digit()),
            _ if [b"==", b"!=", b"<=", b"&&", b"||"].iter().any(|d| rest.starts_with(*d)) => 2,
            _ => 1,
        };
        if !b" \n/".contains(first) {
            found.push(&rest[..len]);
        }
        rest = &rest[len..];
    }
    found
}

struct Reader<'t> {
    left: &'t [&'t [u8]],
    names: HashMap<&'t [u8], u32>,
}

impl<'t> Reader<'t> {
    fn next(&mut self) -> Option<&'t [u8]> {
        let (first, left) = self.left.split_first()?;
        self.left = left;
        Some(first)
    }

    fn take(&mut self, token: &[u8]) -> bool {
        let is_next = self.left.first() == Some(&token);
        if is_next {
            self.left = &self.left[1..];
        }
        is_next
    }

    fn expect(&mut self, token: &[u8]) -> Option<()> {
        self.take(token).then_some(())
    }

    fn number(&mut self) -> Option<u32> {
        std::str::from_utf8(self.next()?).ok()?.parse().ok()
    }

    fn name(&mut self) -> Option<u32> {
        let name = self.next()?;
        let next = self.names.len() as u32;
        Some(*self.names.entry(name).or_insert(next))
    }

    fn expr(&mut self, level: usize) -> Option<Expr> {
        let Some((ops, repeats)) = LEVELS.get(level) else { return self.unary() };
        let mut left = self.expr(level + 1)?;
        while let Some((_, op)) = ops.iter().find(|(sign, _)| self.take(sign)) {
            left = Expr::Bin(*op, Box::new(left), Box::new(self.expr(level + 1)?));
            if !repeats {
                break;
            }
        }
        Some(left)
    }

    fn unary(&mut self) -> Option<Expr> {
        match self.left.first()? {
            [b'!'] => {
                self.next();
                Some(Expr::Not(Box::new(self.unary()?)))
            }
            [b'('] => {
                self.next();
                let inner = self.expr(0)?;
                self.expect(b")")?;
                Some(inner)
            }
            [b'_'] => {
                self.next();
                Some(Expr::Var(HOLE))
            }
            [b'0'..=b'9', ..] => Some(Expr::Const(self.number()?)),
            _ => Some(Expr::Var(self.name()?)),
        }
    }

    fn bracketed(&mut self) -> Option<Expr> {
        self.expect(b"[")?;
        let inner = self.expr(0)?;
        self.expect(b"]")?;
        Some(inner)
    }

    fn args(&mut self) -> Option<Vec<Expr>> {
        self.expect(b"(")?;
        let mut found = vec![self.expr(0)?];
        while self.take(b",") {
            found.push(self.expr(0)?);
        }
        self.expect(b")")?;
        Some(found)
    }

    fn part(&mut self) -> Option<Box<Cert>> {
        if !self.take(b"(") {
            return Some(Box::new(self.cert()?));
        }
        let inner = self.cert()?;
        self.expect(b")")?;
        Some(Box::new(inner))
    }

    fn cert(&mut self) -> Option<Cert> {
        Some(match self.next()? {
            b"auto" => Cert::Auto,
            b"hyp" => Cert::Hyp(self.number()?),
            b"calc" => Cert::Calc,
            b"clash" => Cert::Clash(self.number()?),
            b"and" => Cert::And(self.part()?, self.part()?),
            b"left" => Cert::Left(self.part()?),
            b"right" => Cert::Right(self.part()?),
            b"use" => Cert::Use(self.number()?, self.part()?),
            b"cases" => Cert::Cases(self.number()?, self.part()?, self.part()?),
            b"split" => Cert::Split(self.bracketed()?, self.part()?, self.part()?),
            b"have" => Cert::Have(self.bracketed()?, self.part()?, self.part()?),
            b"absurd" => Cert::Absurd(self.number()?, self.number()?),
            b"not" => Cert::Not(self.part()?),
            b"contra" => Cert::Contra(self.part()?),
            b"refl" => Cert::Refl,
            b"fwd" => Cert::Fwd(self.number()?, self.bracketed()?, self.part()?),
            b"rev" => Cert::Rev(self.number()?, self.bracketed()?, self.part()?),
            b"axiom" => Cert::Axiom(self.number()?, self.args()?, self.part()?),
            b"ring" | b"range" => Cert::Later,
            _ => return None,
        })
    }

    /// The hypotheses, the goal and the certificate of `thread NAME { note { .. } by { NUMBER: .. }; }`.
    fn note(&mut self) -> Option<(Vec<Expr>, Expr, Cert)> {
        self.expect(b"thread")?;
        self.name()?;
        for token in [b"{".as_slice(), b"note", b"{"] {
            self.expect(token)?;
        }
        let mut hyps = Vec::new();
        while !self.take(b";") && !self.take(b"}") {
            hyps.push(self.expr(0)?);
            self.take(b",");
        }
        let goal = if self.take(b"by") { hyps.pop()? } else { self.typed()? };
        self.expect(b"{")?;
        self.number()?;
        self.expect(b":")?;
        let cert = self.cert()?;
        for token in [b"}".as_slice(), b";", b"}"] {
            self.expect(token)?;
        }
        self.left.is_empty().then_some((hyps, goal, cert))
    }

    fn typed(&mut self) -> Option<Expr> {
        self.name()?;
        self.expect(b":")?;
        let goal = self.expr(0)?;
        self.expect(b"}")?;
        self.expect(b"by")?;
        Some(goal)
    }
}

// Checking ----------------------------------------------------------------------------------------------------------

fn value(e: &Expr) -> Option<u32> {
    Some(match e {
        Expr::Const(k) => *k,
        Expr::Var(_) => return None,
        Expr::Not(a) => (value(a)? == 0) as u32,
        Expr::Bin(op, a, b) => {
            let (a, b) = (value(a)?, value(b)?);
            match op {
                Op::Add => a.wrapping_add(b),
                Op::Sub => a.wrapping_sub(b),
                Op::Mul => a.wrapping_mul(b),
                Op::And => a & b,
                Op::Or => a | b,
                Op::Xor => a ^ b,
                Op::Eq => (a == b) as u32,
                Op::Ne => (a != b) as u32,
                Op::Lt => (a < b) as u32,
                Op::Le => (a <= b) as u32,
                Op::Both => (a != 0 && b != 0) as u32,
                Op::Either => (a != 0 || b != 0) as u32,
            }
        }
    })
}

fn has_conjunct(e: &Expr, part: &Expr) -> bool {
    match e {
        Expr::Bin(Op::Both, a, b) => has_conjunct(a, part) || has_conjunct(b, part),
        _ => e == part,
    }
}


/// A template with expressions in the place of variables.
fn filled(template: &Expr, part: &dyn Fn(u32) -> Option<Expr>) -> Expr {
    match template {
        Expr::Const(k) => Expr::Const(*k),
        Expr::Var(x) => part(*x).unwrap_or(Expr::Var(*x)),
        Expr::Not(a) => Expr::Not(Box::new(filled(a, part))),
        Expr::Bin(op, a, b) => Expr::Bin(*op, Box::new(filled(a, part)), Box::new(filled(b, part))),
    }
}

/// Whether an expression is a template with a part in its holes.
fn is_filled(template: &Expr, part: &Expr, e: &Expr) -> bool {
    match (template, e) {
        (Expr::Var(HOLE), _) => part == e,
        (Expr::Not(t), Expr::Not(a)) => is_filled(t, part, a),
        (Expr::Bin(o, t, u), Expr::Bin(p, a, b)) => o == p && is_filled(t, part, a) && is_filled(u, part, b),
        _ => template == e,
    }
}

/// The axioms, with their letters as the first variables.
fn axioms() -> Vec<(usize, Expr)> {
    let texts = [
        "a == b || a != b", "!(a == b) || b == a", "!(a != b) || b != a", "!(a == b) || !(a != b)",
        "!(a == b && b == c) || a == c", "a < b || a == b || b < a", "!(a < a)", "!(a < b && b < c) || a < c",
        "!(a < b) || a <= b", "!(a <= b) || a < b || a == b", "!(a == b) || a <= b", "!(a <= b && b <= c) || a <= c",
        "!(a <= b && b <= a) || a == b", "0 <= a", "a <= 4294967295", "a + b == b + a", "(a + b) - b == a",
        "a - a == 0", "(a ^ a) == 0", "(a & b) <= a", "a <= (a | b)", "a == 0 || 0 < a", "(a & b) == (b & a)",
        "!a || a != 0",
    ];
    let read = |text: &&str| {
        let found = tokens(text.as_bytes());
        let mut reader = Reader { left: &found, names: HashMap::new() };
        let e = reader.expr(0).unwrap();
        (reader.names.len(), e)
    };
    texts.iter().map(read).collect()
}

struct Walk<'x> {
    axioms: &'x [(usize, Expr)],
    given: &'x [Expr],
    added: Vec<Cow<'x, Expr>>,
    path: Vec<u8>,
}

impl<'x> Walk<'x> {
    fn hyp(&self, i: u32) -> Option<&Expr> {
        let place = (i as usize).checked_sub(1)?;
        self.given.get(place).or_else(|| self.added.get(place - self.given.len()).map(|f| &**f))
    }

    fn facts(&self) -> impl Iterator<Item = &Expr> {
        self.given.iter().chain(self.added.iter().map(|f| &**f))
    }

    fn is_known(&self, goal: &Expr) -> bool {
        match goal {
            Expr::Bin(Op::Both, a, b) => self.given.contains(goal) || self.is_known(a) && self.is_known(b),
            _ => value(goal).is_some_and(|v| v != 0) || self.facts().any(|h| has_conjunct(h, goal)),
        }
    }

    /// The operands of a fact, lent where the fact is.
    fn operands(&self, op: Op, i: u32) -> Option<(Cow<'x, Expr>, Cow<'x, Expr>)> {
        let place = (i as usize).checked_sub(1)?;
        let lent = match self.given.get(place) {
            Some(e) => e,
            None => match self.added.get(place - self.given.len())? {
                Cow::Borrowed(e) => e,
                Cow::Owned(Expr::Bin(o, a, b)) if *o == op => {
                    return Some((Cow::Owned((**a).clone()), Cow::Owned((**b).clone())));
                }
                Cow::Owned(_) => return None,
            },
        };
        match lent {
            Expr::Bin(o, a, b) if *o == op => Some((Cow::Borrowed(&**a), Cow::Borrowed(&**b))),
            _ => None,
        }
    }

    fn child(&mut self, c: &'x Cert, step: u8, goal: &Expr) -> Option<()> {
        self.path.push(step);
        self.node(c, goal)?;
        self.path.pop();
        Some(())
    }

    fn under(&mut self, c: &'x Cert, step: u8, fact: Cow<'x, Expr>, goal: &Expr) -> Option<()> {
        self.added.push(fact);
        self.child(c, step, goal)?;
        self.added.pop();
        Some(())
    }

    fn rewritten(&self, i: u32, forward: bool, template: &Expr, goal: &Expr) -> Option<Expr> {
        let Expr::Bin(Op::Eq, a, b) = self.hyp(i)? else { return None };
        let (from, to) = if forward { (a, b) } else { (b, a) };
        is_filled(template, from, goal).then(|| filled(template, &|x| (x == HOLE).then(|| (**to).clone())))
    }

    /// Nothing where some node fails; the path leads to the first then.
    fn node(&mut self, cert: &'x Cert, goal: &Expr) -> Option<()> {
        let zero = Expr::Const(0);
        match (cert, goal) {
            (Cert::Auto, _) => {
                (self.facts().any(|h| value(h) == Some(0)) || self.is_known(goal)).then_some(())
            }
            (Cert::Hyp(i), _) => (self.hyp(*i)? == goal).then_some(()),
            (Cert::Calc, _) => (value(goal)? != 0).then_some(()),
            (Cert::Clash(i), _) => (value(self.hyp(*i)?)? == 0).then_some(()),
            (Cert::And(c, d), Expr::Bin(Op::Both, a, b)) => {
                self.child(c, 1, a)?;
                self.child(d, 2, b)
            }
            (Cert::Left(c), Expr::Bin(Op::Either, a, _)) => self.child(c, 1, a),
            (Cert::Right(c), Expr::Bin(Op::Either, _, b)) => self.child(c, 1, b),
            (Cert::Use(i, c), _) => {
                let (a, b) = self.operands(Op::Both, *i)?;
                self.added.push(a);
                self.under(c, 1, b, goal)?;
                self.added.pop();
                Some(())
            }
            (Cert::Cases(i, c, d), _) => {
                let (a, b) = self.operands(Op::Either, *i)?;
                self.under(c, 1, a, goal)?;
                self.under(d, 2, b, goal)
            }
            (Cert::Split(e, c, d), _) => {
                self.under(c, 1, Cow::Borrowed(e), goal)?;
                self.under(d, 2, Cow::Owned(Expr::Not(Box::new(e.clone()))), goal)
            }
            (Cert::Have(e, c, d), _) => {
                self.child(c, 1, e)?;
                self.under(d, 2, Cow::Borrowed(e), goal)
            }
            (Cert::Absurd(i, j), _) => {
                matches!((self.hyp(*i)?, self.hyp(*j)?), (e, Expr::Not(f)) if *e == **f).then_some(())
            }
            (Cert::Not(c), Expr::Not(a)) => self.under(c, 1, Cow::Owned((**a).clone()), &zero),
            (Cert::Contra(c), _) => self.under(c, 1, Cow::Owned(Expr::Not(Box::new(goal.clone()))), &zero),
            (Cert::Refl, Expr::Bin(Op::Eq, a, b)) => (a == b).then_some(()),
            (Cert::Fwd(i, t, c), _) => {
                let next = self.rewritten(*i, true, t, goal)?;
                self.child(c, 1, &next)
            }
            (Cert::Rev(i, t, c), _) => {
                let next = self.rewritten(*i, false, t, goal)?;
                self.child(c, 1, &next)
            }
            (Cert::Axiom(k, args, c), _) => {
                let (letters, schema) = self.axioms.get((*k as usize).checked_sub(1)?)?;
                let made = (args.len() == *letters).then(|| filled(schema, &|x| args.get(x as usize).cloned()))?;
                self.under(c, 1, Cow::Owned(made), goal)
            }
            _ => None,
        }
    }
}

fn verdict(axioms: &[(usize, Expr)], hyps: &[Expr], goal: &Expr, cert: &Cert) -> String {
    let mut walk = Walk { axioms, given: hyps, added: Vec::new(), path: Vec::new() };
    match walk.node(cert, goal) {
        Some(()) => "valid".to_string(),
        None if walk.path.is_empty() => "invalid at top".to_string(),
        None => format!("invalid at {}", walk.path.iter().map(u8::to_string).collect::<Vec<_>>().join(" ")),
    }
}

pub fn run(repeats: u32, text: &str) {
    let axioms = axioms();
    for row in format!("\n{text}").split("\n//// ").skip(1) {
        let (name, text) = row.split_once('\n').unwrap_or((row, ""));
        let found = tokens(text.as_bytes());
        let said = match (Reader { left: &found, names: HashMap::new() }).note() {
            Some((hyps, goal, cert)) => {
                for _ in 1..repeats {
                    std::hint::black_box(verdict(&axioms, &hyps, &goal, &cert));
                }
                verdict(&axioms, &hyps, &goal, &cert)
            }
            None => "malformed".to_string(),
        };
        println!("{name}: {said}");
    }
}
