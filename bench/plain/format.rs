//! `fmt P`: the whole language read to trees, within its limits, and printed.
use crate::{Reader, Token};

enum Expr {
    Const(u32),
    Var(u32),
    Hole,
    Not(Box<Expr>),
    Bin(&'static str, Box<Expr>, Box<Expr>),
}

/// A word, and behind it numbers, expressions in brackets and further certificates.
struct Cert {
    word: &'static str,
    numbers: Vec<u32>,
    exprs: Vec<Expr>,
    parts: Vec<Cert>,
}

#[derive(Default)]
struct State {
    preds: Vec<Expr>,
    types: Vec<(u32, Expr)>,
}

enum Kind {
    Skip,
    Assign(u32, Expr, Option<Expr>, Vec<(u32, Expr)>),
    Lock(u32),
    Unlock(u32),
    If(Expr, Vec<Stmt>, Vec<Stmt>, State),
    While(Expr, State, Vec<Stmt>),
    Note(State),
    Output(Expr),
}

struct Stmt {
    kind: Kind,
    proofs: Vec<(u32, Cert)>,
}

enum Class {
    Low,
    High,
    When(Expr),
}

struct Lock {
    name: u32,
    lists: [Vec<u32>; 2],
    inv: Option<Expr>,
}

struct Thread {
    name: u32,
    modes: [Vec<u32>; 4],
    body: Vec<Stmt>,
}

pub struct Program {
    has_outputs: bool,
    vars: Vec<(u32, Class)>,
    locks: Vec<Lock>,
    threads: Vec<Thread>,
}

const LEVELS: [&[(&[u8], &str)]; 8] = [
    &[(b"||", " || ")],
    &[(b"&&", " && ")],
    &[(b"==", " == "), (b"!=", " != "), (b"<", " < "), (b"<=", " <= ")],
    &[(b"|", " | ")],
    &[(b"^", " ^ ")],
    &[(b"&", " & ")],
    &[(b"+", " + "), (b"-", " - ")],
    &[(b"*", " * ")],
];
const COMPARISON: usize = 2;

fn nodes(e: &Expr) -> usize {
    match e {
        Expr::Const(_) | Expr::Var(_) | Expr::Hole => 1,
        Expr::Not(a) => 1 + nodes(a),
        Expr::Bin(_, a, b) => 1 + nodes(a) + nodes(b),
    }
}

fn height(e: &Expr) -> usize {
    match e {
        Expr::Const(_) | Expr::Var(_) | Expr::Hole => 1,
        Expr::Not(a) => 1 + height(a),
        Expr::Bin(_, a, b) => 1 + height(a).max(height(b)),
    }
}

impl Cert {
    fn nodes(&self) -> usize {
        1 + self.parts.iter().map(Cert::nodes).sum::<usize>()
    }

    fn height(&self) -> usize {
        1 + self.parts.iter().map(Cert::height).max().unwrap_or(0)
    }
}

impl<'t> Reader<'t> {
    fn word(&mut self, word: &[u8]) -> bool {
        self.take(Token::Word(word))
    }

    fn sign(&mut self, sign: &[u8]) -> bool {
        self.take(Token::Sign(sign))
    }

    fn must(&mut self, sign: &[u8]) -> Option<()> {
        self.sign(sign).then_some(())
    }

    fn number(&mut self) -> Option<u32> {
        match self.next()? {
            Token::Number(n) => Some(n),
            _ => None,
        }
    }

    fn expr(&mut self, holes: bool) -> Option<Expr> {
        let e = self.level(0, holes)?;
        (nodes(&e) <= 1000 && height(&e) <= 64).then_some(e)
    }

    fn level(&mut self, level: usize, holes: bool) -> Option<Expr> {
        if level == LEVELS.len() {
            return self.unary(holes);
        }
        let mut left = self.level(level + 1, holes)?;
        while let Some((_, op)) = LEVELS[level].iter().find(|(sign, _)| self.sign(sign)) {
            let right = self.level(level + 1, holes)?;
            left = Expr::Bin(op, Box::new(left), Box::new(right));
            if level == COMPARISON {
                break;
            }
        }
        Some(left)
    }

    fn unary(&mut self, holes: bool) -> Option<Expr> {
        if self.sign(b"!") {
            return Some(Expr::Not(Box::new(self.unary(holes)?)));
        }
        match self.next()? {
            Token::Number(n) => Some(Expr::Const(n)),
            Token::Name(n) => Some(Expr::Var(n)),
            Token::Sign(b"_") if holes => Some(Expr::Hole),
            Token::Sign(b"(") => {
                let e = self.level(0, holes)?;
                self.must(b")")?;
                Some(e)
            }
            _ => None,
        }
    }

    fn part(&mut self) -> Option<Cert> {
        let lone = |word| Some(Cert { word, numbers: vec![], exprs: vec![], parts: vec![] });
        match self.next()? {
            Token::Word(b"auto") => lone("auto"),
            Token::Word(b"calc") => lone("calc"),
            Token::Word(b"refl") => lone("refl"),
            Token::Word(b"ring") => lone("ring"),
            Token::Word(b"range") => lone("range"),
            Token::Sign(b"(") => {
                let c = self.cert()?;
                self.must(b")")?;
                Some(c)
            }
            _ => None,
        }
    }

    fn cert(&mut self) -> Option<Cert> {
        // (the word, how many numbers, what in brackets, how many parts)
        const FORMS: [(&[u8], &str, usize, u8, usize); 15] = [
            (b"hyp", "hyp", 1, 0, 0),
            (b"clash", "clash", 1, 0, 0),
            (b"absurd", "absurd", 2, 0, 0),
            (b"and", "and", 0, 0, 2),
            (b"left", "left", 0, 0, 1),
            (b"right", "right", 0, 0, 1),
            (b"use", "use", 1, 0, 1),
            (b"cases", "cases", 1, 0, 2),
            (b"split", "split", 0, 1, 2),
            (b"have", "have", 0, 1, 2),
            (b"not", "not", 0, 0, 1),
            (b"contra", "contra", 0, 0, 1),
            (b"fwd", "fwd", 1, 2, 1),
            (b"rev", "rev", 1, 2, 1),
            (b"axiom", "axiom", 1, 3, 1),
        ];
        let Some((_, word, count, inside, parts)) = FORMS.iter().find(|form| self.word(form.0)) else {
            return self.part();
        };
        let numbers = (0..*count).map(|_| self.number()).collect::<Option<Vec<_>>>()?;
        let mut exprs = vec![];
        match inside {
            1 | 2 => {
                self.must(b"[")?;
                exprs.push(self.expr(*inside == 2)?);
                self.must(b"]")?;
            }
            3 => {
                self.must(b"(")?;
                exprs.push(self.expr(false)?);
                while self.sign(b",") {
                    exprs.push(self.expr(false)?);
                }
                self.must(b")")?;
            }
            _ => {}
        }
        let parts = (0..*parts).map(|_| self.part()).collect::<Option<Vec<_>>>()?;
        Some(Cert { word, numbers, exprs, parts })
    }

    fn proofs(&mut self) -> Option<Vec<(u32, Cert)>> {
        let mut proofs = vec![];
        if !self.word(b"by") {
            return Some(proofs);
        }
        self.must(b"{")?;
        loop {
            let number = self.number()?;
            self.must(b":")?;
            let cert = self.cert()?;
            if cert.nodes() > 10_000 || cert.height() > 64 {
                return None;
            }
            proofs.push((number, cert));
            if !self.sign(b",") {
                break;
            }
        }
        self.must(b"}")?;
        Some(proofs)
    }

    fn state(&mut self) -> Option<State> {
        self.must(b"{")?;
        let mut state = State::default();
        if !matches!(self.left.first(), Some(Token::Sign(b";" | b"}"))) {
            state.preds.push(self.expr(false)?);
            while self.sign(b",") {
                state.preds.push(self.expr(false)?);
            }
        }
        if self.sign(b";") {
            loop {
                let x = self.name()?;
                self.must(b":")?;
                state.types.push((x, self.expr(false)?));
                if !self.sign(b",") {
                    break;
                }
            }
        }
        self.must(b"}")?;
        (state.preds.len() <= 64 && state.types.len() <= 256).then_some(state)
    }

    fn block(&mut self, depth: usize, count: &mut usize) -> Option<Vec<Stmt>> {
        self.must(b"{")?;
        if depth > 63 {
            return None;
        }
        let mut body = vec![];
        while !self.sign(b"}") {
            *count += 1;
            body.push(self.stmt(depth, count)?);
        }
        Some(body)
    }

    fn stmt(&mut self, depth: usize, count: &mut usize) -> Option<Stmt> {
        let mut ends = true;
        let (kind, proofs) = match self.next()? {
            Token::Word(b"skip") => (Kind::Skip, vec![]),
            Token::Word(b"lock") => (Kind::Lock(self.name()?), vec![]),
            Token::Word(b"unlock") => (Kind::Unlock(self.name()?), self.proofs()?),
            Token::Word(b"note") => (Kind::Note(self.state()?), self.proofs()?),
            Token::Word(b"output") if self.has_outputs => (Kind::Output(self.expr(false)?), self.proofs()?),
            Token::Word(b"if") => {
                ends = false;
                let e = self.expr(false)?;
                let first = self.block(depth + 1, count)?;
                self.word(b"else").then_some(())?;
                let second = self.block(depth + 1, count)?;
                let join = if self.word(b"join") { self.state()? } else { State::default() };
                (Kind::If(e, first, second, join), self.proofs()?)
            }
            Token::Word(b"while") => {
                ends = false;
                let e = self.expr(false)?;
                let inv = if self.word(b"inv") { self.state()? } else { State::default() };
                (Kind::While(e, inv, self.block(depth + 1, count)?), self.proofs()?)
            }
            Token::Name(x) => {
                self.must(b":=")?;
                let e = self.expr(false)?;
                let class = if self.word(b"as") { Some(self.expr(false)?) } else { None };
                let mut retypes = vec![];
                while self.word(b"retype") {
                    let z = self.name()?;
                    self.word(b"as").then_some(())?;
                    retypes.push((z, self.expr(false)?));
                }
                (Kind::Assign(x, e, class, retypes), self.proofs()?)
            }
            _ => return None,
        };
        if ends {
            self.must(b";")?;
        }
        Some(Stmt { kind, proofs })
    }

    fn names(&mut self) -> Option<Vec<u32>> {
        let mut names = vec![self.name()?];
        while self.sign(b",") {
            names.push(self.name()?);
        }
        Some(names)
    }

    fn lock(&mut self) -> Option<Lock> {
        let name = self.name()?;
        let nowrite = if self.word(b"nowrite") { self.names()? } else { vec![] };
        let hide = if self.word(b"hide") { self.names()? } else { vec![] };
        let inv = if self.word(b"inv") { Some(self.expr(false)?) } else { None };
        self.must(b";")?;
        Some(Lock { name, lists: [nowrite, hide], inv })
    }

    fn modes(&mut self, word: &[u8]) -> Option<[Vec<u32>; 2]> {
        let mut lists = [vec![], vec![]];
        if self.word(word) {
            if self.word(b"nowrite") {
                lists[0] = self.names()?;
                if !self.word(word) {
                    return Some(lists);
                }
            }
            self.word(b"hide").then_some(())?;
            lists[1] = self.names()?;
        }
        Some(lists)
    }
}

pub fn parse(tokens: &[Token]) -> Option<Program> {
    let mut reader = Reader { left: tokens, has_outputs: false };
    if reader.word(b"version") {
        (reader.number()? == 2).then_some(())?;
        reader.must(b";")?;
        reader.has_outputs = true;
    }
    let mut program = Program { has_outputs: reader.has_outputs, vars: vec![], locks: vec![], threads: vec![] };
    while reader.word(b"var") {
        let name = reader.name()?;
        reader.must(b":")?;
        let class = if reader.word(b"high") {
            Class::High
        } else {
            reader.word(b"low").then_some(())?;
            if reader.word(b"when") { Class::When(reader.expr(false)?) } else { Class::Low }
        };
        reader.must(b";")?;
        program.vars.push((name, class));
    }
    while reader.word(b"lock") {
        program.locks.push(reader.lock()?);
    }
    let mut count = 0;
    while reader.word(b"thread") {
        let name = reader.name()?;
        let [a, b] = reader.modes(b"assume")?;
        let [c, d] = reader.modes(b"guarantee")?;
        let body = reader.block(0, &mut count)?;
        program.threads.push(Thread { name, modes: [a, b, c, d], body });
    }
    let small = program.vars.len() <= 256 && program.locks.len() <= 64 && program.threads.len() <= 16 && count <= 20_000;
    (reader.left.is_empty() && small).then_some(program)
}

// Rules of modes --------------------------------------------------------------------------------------------------

/// The places of declared names, by the number of a name.
fn places(names: impl Iterator<Item = u32>) -> Vec<Option<usize>> {
    let mut places = vec![];
    for (place, name) in names.enumerate() {
        if places.len() <= name as usize {
            places.resize(name as usize + 1, None);
        }
        places[name as usize] = Some(place);
    }
    places
}

fn vars_of(e: &Expr, place: &dyn Fn(u32) -> usize, found: &mut Vec<usize>) {
    match e {
        Expr::Const(_) | Expr::Hole => {}
        Expr::Var(x) => found.push(place(*x)),
        Expr::Not(a) => vars_of(a, place, found),
        Expr::Bin(_, a, b) => {
            vars_of(a, place, found);
            vars_of(b, place, found);
        }
    }
}

/// What the rules of modes look at, with places of variables in place of names.
pub struct Modes {
    controls: Vec<Vec<usize>>,
    locks: Vec<Vec<usize>>,
    threads: Vec<[Vec<usize>; 4]>,
}

pub fn modes_of(program: &Program) -> Modes {
    let at = places(program.vars.iter().map(|(name, _)| *name));
    let place = |x: u32| at[x as usize].expect("a variable");
    let numbers = |names: &Vec<u32>| names.iter().map(|x| place(*x)).collect::<Vec<_>>();
    let controls = |class: &Class| {
        let mut found = vec![];
        if let Class::When(e) = class {
            vars_of(e, &place, &mut found);
        }
        found
    };
    Modes {
        controls: program.vars.iter().map(|(_, class)| controls(class)).collect(),
        locks: program.locks.iter().map(|l| l.lists.iter().flat_map(&numbers).collect()).collect(),
        threads: program.threads.iter().map(|t| [0, 1, 2, 3].map(|i| numbers(&t.modes[i]))).collect(),
    }
}

/// Whether the rules of modes hold.
pub fn are_compatible(modes: &Modes) -> bool {
    let count = modes.controls.len();
    let marked = |lists: &[&Vec<usize>]| {
        let mut marks = vec![false; count];
        for x in lists.iter().copied().flatten() {
            marks[*x] = true;
        }
        marks
    };
    let locked = marked(&modes.locks.iter().collect::<Vec<_>>());
    let assumed: Vec<Vec<bool>> = modes.threads.iter().map(|t| marked(&[&t[0], &t[1]])).collect();
    let guaranteed: Vec<[Vec<bool>; 2]> = modes.threads.iter().map(|t| [marked(&[&t[2], &t[3]]), marked(&[&t[3]])]).collect();
    let mut by_all = vec![true; count];
    for marks in &assumed {
        by_all.iter_mut().zip(marks).for_each(|(all, one)| *all = *all && *one);
    }
    let locks_kept = modes.locks.iter().all(|lock| {
        let own = marked(&[lock]);
        lock.iter().flat_map(|x| &modes.controls[*x]).all(|c| own[*c] || by_all[*c])
    });
    let threads_kept = modes.threads.iter().zip(&assumed).all(|(t, own)| {
        t[..2].iter().flatten().all(|x| !locked[*x] && modes.controls[*x].iter().all(|c| own[*c]))
    });
    let met = modes.threads.iter().enumerate().all(|(i, t)| {
        guaranteed.iter().enumerate().all(|(j, [weak, strong])| {
            i == j || (t[0].iter().all(|x| weak[*x]) && t[1].iter().all(|x| strong[*x]))
        })
    });
    locks_kept && threads_kept && met
}

// Printing -------------------------------------------------------------------------------------------------------

struct Printer<'n> {
    names: &'n [&'n [u8]],
    out: Vec<u8>,
}

impl Printer<'_> {
    fn put(&mut self, text: &str) {
        self.out.extend_from_slice(text.as_bytes());
    }

    fn name(&mut self, x: u32) {
        self.out.extend_from_slice(self.names[x as usize]);
    }

    fn expr(&mut self, e: &Expr, operand: bool) {
        match e {
            Expr::Const(n) => self.put(&n.to_string()),
            Expr::Var(x) => self.name(*x),
            Expr::Hole => self.put("_"),
            Expr::Not(a) => {
                self.put("!");
                self.expr(a, true);
            }
            Expr::Bin(op, a, b) => {
                self.put(if operand { "(" } else { "" });
                self.expr(a, true);
                self.put(op);
                self.expr(b, true);
                self.put(if operand { ")" } else { "" });
            }
        }
    }

    fn separated<T>(&mut self, items: &[T], mut one: impl FnMut(&mut Self, &T)) {
        for (i, item) in items.iter().enumerate() {
            if i > 0 {
                self.put(", ");
            }
            one(self, item);
        }
    }

    fn exprs(&mut self, es: &[Expr]) {
        self.separated(es, |p, e| p.expr(e, false));
    }

    fn cert(&mut self, c: &Cert) {
        self.put(c.word);
        for n in &c.numbers {
            self.put(&format!(" {n}"));
        }
        if !c.exprs.is_empty() {
            let (open, close) = if c.word == "axiom" { (" (", ")") } else { (" [", "]") };
            self.put(open);
            self.exprs(&c.exprs);
            self.put(close);
        }
        for part in &c.parts {
            let lone = part.numbers.is_empty() && part.parts.is_empty();
            self.put(if lone { " " } else { " (" });
            self.cert(part);
            self.put(if lone { "" } else { ")" });
        }
    }

    fn proofs(&mut self, proofs: &[(u32, Cert)]) {
        if !proofs.is_empty() {
            self.put(" by { ");
            self.separated(proofs, |p, (n, c)| {
                p.put(&format!("{n}: "));
                p.cert(c);
            });
            self.put(" }");
        }
    }

    fn state(&mut self, state: &State) {
        if state.preds.is_empty() && state.types.is_empty() {
            return self.put("{}");
        }
        self.put("{ ");
        self.exprs(&state.preds);
        if !state.types.is_empty() {
            self.put(if state.preds.is_empty() { "; " } else { " ; " });
            self.separated(&state.types, |p, (x, e)| {
                p.name(*x);
                p.put(": ");
                p.expr(e, false);
            });
        }
        self.put(" }");
    }

    fn stated(&mut self, word: &str, state: &State) {
        if !state.preds.is_empty() || !state.types.is_empty() {
            self.put(word);
            self.state(state);
        }
    }

    fn block(&mut self, body: &[Stmt], depth: usize) {
        for stmt in body {
            self.margin(depth);
            self.stmt(stmt, depth);
            self.put("\n");
        }
    }

    fn margin(&mut self, depth: usize) {
        for _ in 0..depth {
            self.put("  ");
        }
    }

    fn stmt(&mut self, stmt: &Stmt, depth: usize) {
        match &stmt.kind {
            Kind::Skip => self.put("skip"),
            Kind::Lock(l) => {
                self.put("lock ");
                self.name(*l);
            }
            Kind::Unlock(l) => {
                self.put("unlock ");
                self.name(*l);
            }
            Kind::Note(state) => {
                self.put("note ");
                self.state(state);
            }
            Kind::Output(e) => {
                self.put("output ");
                self.expr(e, false);
            }
            Kind::Assign(x, e, class, retypes) => {
                self.name(*x);
                self.put(" := ");
                self.expr(e, false);
                if let Some(q) = class {
                    self.put(" as ");
                    self.expr(q, false);
                }
                for (z, e) in retypes {
                    self.put(" retype ");
                    self.name(*z);
                    self.put(" as ");
                    self.expr(e, false);
                }
            }
            Kind::If(e, first, second, join) => {
                self.put("if ");
                self.expr(e, false);
                self.put(" {\n");
                self.block(first, depth + 1);
                self.margin(depth);
                self.put("} else {\n");
                self.block(second, depth + 1);
                self.margin(depth);
                self.put("}");
                self.stated(" join ", join);
            }
            Kind::While(e, inv, body) => {
                self.put("while ");
                self.expr(e, false);
                self.stated(" inv ", inv);
                self.put(" {\n");
                self.block(body, depth + 1);
                self.margin(depth);
                self.put("}");
            }
        }
        self.proofs(&stmt.proofs);
        if !matches!(stmt.kind, Kind::If(..) | Kind::While(..)) {
            self.put(";");
        }
    }

    fn listed(&mut self, word: &str, names: &[u32]) {
        if !names.is_empty() {
            self.put(word);
            self.separated(names, |p, x| p.name(*x));
        }
    }
}

pub fn print(program: &Program, names: &[&[u8]]) -> Vec<u8> {
    let mut p = Printer { names, out: vec![] };
    if program.has_outputs {
        p.put("version 2;\n");
    }
    for (name, class) in &program.vars {
        p.put("var ");
        p.name(*name);
        match class {
            Class::Low => p.put(": low"),
            Class::High => p.put(": high"),
            Class::When(e) => {
                p.put(": low when ");
                p.expr(e, false);
            }
        }
        p.put(";\n");
    }
    for lock in &program.locks {
        p.put("lock ");
        p.name(lock.name);
        p.listed(" nowrite ", &lock.lists[0]);
        p.listed(" hide ", &lock.lists[1]);
        if let Some(e) = &lock.inv {
            p.put(" inv ");
            p.expr(e, false);
        }
        p.put(";\n");
    }
    let words = [" assume nowrite ", " assume hide ", " guarantee nowrite ", " guarantee hide "];
    for thread in &program.threads {
        p.put("thread ");
        p.name(thread.name);
        for (word, list) in words.iter().zip(&thread.modes) {
            p.listed(word, list);
        }
        p.put(" {\n");
        p.block(&thread.body, 1);
        p.put("}\n");
    }
    p.out
}
