//! Programs of the whole language, as `check` reads them: trees with places, in which names are numbers of declarations.
use std::collections::HashMap;

#[derive(Clone, Copy, PartialEq)]
pub enum Op {
    Add,
    Sub,
    Mul,
    And,
    Or,
    Xor,
    Eq,
    Ne,
    Lt,
    Le,
    Both,
    Either,
}

pub enum Expr {
    Const(u32),
    Var(u32),
    Not(Term),
    Bin(Op, Term, Term),
}

/// An expression. It lives as long as the program runs, which ends with its verdict; so parts are shared and nothing is copied.
pub type Term = &'static Expr;

/// The variable `_` of a template.
pub const HOLE: u32 = u32::MAX;

/// A name that isn't declared. The rules of names refuse it before the trees are looked at.
const UNKNOWN: u32 = u32::MAX - 1;

pub fn term(e: Expr) -> Term {
    Box::leak(Box::new(e))
}

pub struct Class {
    pub is_plain_low: bool,
    pub term: Term,
}

pub struct Var {
    pub name: usize,
    pub at: usize,
    pub class: Class,
}

pub struct Lock {
    pub name: usize,
    pub at: usize,
    pub nowrite: Vec<u32>,
    pub hide: Vec<u32>,
    pub inv: Option<Term>,
}

#[derive(Default)]
pub struct Modes {
    pub assume_nowrite: Vec<u32>,
    pub assume_hide: Vec<u32>,
    pub guarantee_nowrite: Vec<u32>,
    pub guarantee_hide: Vec<u32>,
}

pub struct Thread {
    pub name: usize,
    pub at: usize,
    pub modes: Modes,
    pub body: Vec<Stmt>,
    pub end: usize,
}

#[derive(Default)]
pub struct State {
    pub preds: Vec<Term>,
    pub types: Vec<(u32, Term)>,
}

pub enum Cert {
    Auto,
    Hyp(u32),
    Calc,
    Clash(u32),
    And(Box<Cert>, Box<Cert>),
    Left(Box<Cert>),
    Right(Box<Cert>),
    Use(u32, Box<Cert>),
    Cases(u32, Box<Cert>, Box<Cert>),
    Split(Term, Box<Cert>, Box<Cert>),
    Have(Term, Box<Cert>, Box<Cert>),
    Absurd(u32, u32),
    Not(Box<Cert>),
    Contra(Box<Cert>),
    Refl,
    Fwd(u32, Term, Box<Cert>),
    Rev(u32, Term, Box<Cert>),
    Axiom(u32, Vec<Term>, Box<Cert>),
    Ring,
    Range,
}

pub struct Stmt {
    pub at: usize,
    pub kind: Kind,
    pub proofs: Vec<(u32, Cert)>,
}

pub enum Kind {
    Skip,
    Assign { to: u32, value: Term, class: Option<Term>, retypes: Vec<(u32, Term)> },
    Lock(u32),
    Unlock(u32),
    If { guard: Term, yes: Vec<Stmt>, no: Vec<Stmt>, join: State },
    While { guard: Term, inv: State, body: Vec<Stmt> },
    Note(State),
    Output(Term),
}

/// A name that is used as a variable or as a lock.
pub struct Use {
    pub name: usize,
    pub is_lock: bool,
    pub at: usize,
}

pub struct Program<'t> {
    pub names: Vec<&'t str>,
    pub vars: Vec<Var>,
    pub locks: Vec<Lock>,
    pub threads: Vec<Thread>,
    pub uses: Vec<Use>,
    pub statements: usize,
}

// Tokens ----------------------------------------------------------------------------------------------------------

#[derive(Clone, Copy, PartialEq)]
enum Kinds<'t> {
    /// A keyword or a sign.
    Word(&'t str),
    Name(usize),
    Number(u32),
}

#[derive(Clone, Copy)]
struct Token<'t> {
    at: usize,
    kind: Kinds<'t>,
}

fn is_keyword(word: &str) -> bool {
    matches!(
        word,
        "var" | "low" | "high" | "when" | "lock" | "nowrite" | "hide" | "inv" | "thread" | "assume" | "guarantee" | "skip" | "unlock"
            | "if" | "else" | "join" | "while" | "note" | "as" | "retype" | "by" | "auto" | "hyp" | "calc" | "clash" | "and" | "left"
            | "right" | "use" | "cases" | "split" | "have" | "absurd" | "not" | "contra" | "refl" | "fwd" | "rev" | "axiom" | "ring"
            | "range" | "version" | "output" | "level" | "seen"
    )
}

/// The length of the first token, blank run or comment, and whether it is a token.
fn first_token(rest: &[u8]) -> Option<(usize, bool)> {
    let run = |is: fn(&u8) -> bool| rest.iter().position(|b| !is(b)).unwrap_or(rest.len());
    Some(match rest[0] {
        b' ' | b'\t' | b'\n' | b'\r' => (run(|b| b" \t\n\r".contains(b)), false),
        b'/' if rest.starts_with(b"//") => (run(|b| *b != b'\n'), false),
        b'a'..=b'z' => (run(|b| b.is_ascii_lowercase() || b.is_ascii_digit() || *b == b'_'), true),
        b'0'..=b'9' => (run(u8::is_ascii_digit), true),
        first => match (first, rest.get(1)) {
            (b':' | b'=' | b'!' | b'<', Some(b'=')) | (b'&', Some(b'&')) | (b'|', Some(b'|')) => (2, true),
            _ => b":;,{}()[]_+-*&|^<!".contains(&first).then_some((1, true))?,
        },
    })
}

/// The tokens of a text and its names, by first occurrence.
fn lex(text: &[u8]) -> Option<(Vec<Token<'_>>, Vec<&str>)> {
    let mut numbers: HashMap<&str, usize> = HashMap::new();
    let (mut tokens, mut names) = (Vec::new(), Vec::new());
    let mut at = 0;
    while at < text.len() {
        let (len, is_token) = first_token(&text[at..])?;
        if is_token {
            let piece = std::str::from_utf8(&text[at..at + len]).ok()?;
            let kind = match piece.as_bytes()[0] {
                b'0'..=b'9' => Kinds::Number(piece.parse().ok()?),
                b'a'..=b'z' if len > 32 => return None,
                b'a'..=b'z' if !is_keyword(piece) => Kinds::Name(*numbers.entry(piece).or_insert_with(|| {
                    names.push(piece);
                    names.len() - 1
                })),
                _ => Kinds::Word(piece),
            };
            tokens.push(Token { at, kind });
        }
        at += len;
    }
    Some((tokens, names))
}

/// At most 200 brackets open at a token, and at most 64 marks in a row.
fn is_shallow(tokens: &[Token]) -> bool {
    let (mut open, mut marks) = (0usize, 0);
    tokens.iter().all(|token| {
        marks = if token.kind == Kinds::Word("!") { marks + 1 } else { 0 };
        match token.kind {
            Kinds::Word("(" | "[" | "{") => open += 1,
            Kinds::Word(")" | "]" | "}") => open = open.saturating_sub(1),
            _ => {}
        }
        open <= 200 && marks <= 64
    })
}

/// The number of the first declaration of each name, of variables and of locks. They are declared before the first thread.
fn declared(tokens: &[Token], names: usize) -> [Vec<u32>; 2] {
    let mut places = [vec![UNKNOWN; names], vec![UNKNOWN; names]];
    let mut counts = [0; 2];
    let head = tokens.iter().position(|t| t.kind == Kinds::Word("thread")).unwrap_or(tokens.len());
    for pair in tokens[..head].windows(2) {
        let kind = match pair[0].kind {
            Kinds::Word("var") => 0,
            Kinds::Word("lock") => 1,
            _ => continue,
        };
        if let Kinds::Name(name) = pair[1].kind {
            if places[kind][name] == UNKNOWN {
                places[kind][name] = counts[kind];
            }
            counts[kind] += 1;
        }
    }
    places
}

// Reading ---------------------------------------------------------------------------------------------------------

/// How tightly an operator binds, and the operator of a sign.
fn operator(sign: &str) -> Option<(u8, Op)> {
    Some(match sign {
        "||" => (0, Op::Either),
        "&&" => (1, Op::Both),
        "==" => (COMPARISON, Op::Eq),
        "!=" => (COMPARISON, Op::Ne),
        "<" => (COMPARISON, Op::Lt),
        "<=" => (COMPARISON, Op::Le),
        "|" => (3, Op::Or),
        "^" => (4, Op::Xor),
        "&" => (5, Op::And),
        "+" => (6, Op::Add),
        "-" => (6, Op::Sub),
        "*" => (7, Op::Mul),
        _ => return None,
    })
}

/// Comparisons bind so, and don't group.
const COMPARISON: u8 = 2;

/// How large a tree is. A part counts in the whole even where the whole is too large to be built by recursion.
#[derive(Clone, Copy)]
struct Size {
    nodes: usize,
    height: usize,
}

const LEAF: Size = Size { nodes: 1, height: 1 };

impl Size {
    fn above(sizes: &[Size]) -> Size {
        Size {
            nodes: 1 + sizes.iter().map(|s| s.nodes).sum::<usize>(),
            height: 1 + sizes.iter().map(|s| s.height).max().unwrap_or(0),
        }
    }
}

struct Reader<'t> {
    tokens: Vec<Token<'t>>,
    next: usize,
    places: [Vec<u32>; 2],
    uses: Vec<Use>,
    statements: usize,
    has_outputs: bool,
}

impl<'t> Reader<'t> {
    fn peek(&self) -> Option<Kinds<'t>> {
        self.tokens.get(self.next).map(|t| t.kind)
    }

    fn at(&self) -> usize {
        self.tokens.get(self.next).map_or(0, |t| t.at)
    }

    fn take(&mut self, word: &str) -> bool {
        let is_next = self.peek() == Some(Kinds::Word(word));
        self.next += is_next as usize;
        is_next
    }

    fn expect(&mut self, word: &str) -> Option<()> {
        self.take(word).then_some(())
    }

    fn name(&mut self) -> Option<(usize, usize)> {
        let Kinds::Name(name) = self.peek()? else { return None };
        let at = self.at();
        self.next += 1;
        Some((name, at))
    }

    fn number(&mut self) -> Option<u32> {
        let Kinds::Number(k) = self.peek()? else { return None };
        self.next += 1;
        Some(k)
    }

    fn used(&mut self, is_lock: bool) -> Option<u32> {
        let (name, at) = self.name()?;
        self.uses.push(Use { name, is_lock, at });
        Some(self.places[is_lock as usize][name])
    }

    fn variable(&mut self) -> Option<u32> {
        self.used(false)
    }

    /// Items with commas between.
    fn separated<T>(&mut self, mut item: impl FnMut(&mut Self) -> Option<T>) -> Option<Vec<T>> {
        let mut items = vec![item(self)?];
        while self.take(",") {
            items.push(item(self)?);
        }
        Some(items)
    }

    fn expr(&mut self) -> Option<Term> {
        self.whole(false)
    }

    fn whole(&mut self, holes: bool) -> Option<Term> {
        let (e, size) = self.level(0, holes)?;
        (size.nodes <= 1_000 && size.height <= 64).then_some(e)
    }

    /// An expression of operators that bind at least so tightly.
    fn level(&mut self, least: u8, holes: bool) -> Option<(Term, Size)> {
        let (mut left, mut size) = self.unary(holes)?;
        let mut is_compared = false;
        while let Some(Kinds::Word(sign)) = self.peek() {
            let Some((level, op)) = operator(sign).filter(|(level, _)| *level >= least) else { break };
            if is_compared && level == COMPARISON {
                return None;
            }
            self.next += 1;
            let (right, right_size) = self.level(level + 1, holes)?;
            left = term(Expr::Bin(op, left, right));
            size = Size::above(&[size, right_size]);
            is_compared = level == COMPARISON;
        }
        Some((left, size))
    }

    fn unary(&mut self, holes: bool) -> Option<(Term, Size)> {
        Some(match self.peek()? {
            Kinds::Number(k) => {
                self.next += 1;
                (term(Expr::Const(k)), LEAF)
            }
            Kinds::Name(_) => (term(Expr::Var(self.variable()?)), LEAF),
            Kinds::Word("_") if holes => {
                self.next += 1;
                (term(Expr::Var(HOLE)), LEAF)
            }
            Kinds::Word("!") => {
                self.next += 1;
                let (e, size) = self.unary(holes)?;
                (term(Expr::Not(e)), Size::above(&[size]))
            }
            Kinds::Word("(") => {
                self.next += 1;
                let inner = self.level(0, holes)?;
                self.expect(")")?;
                inner
            }
            _ => return None,
        })
    }

    fn bracketed(&mut self, holes: bool) -> Option<Term> {
        self.expect("[")?;
        let e = self.whole(holes)?;
        self.expect("]")?;
        Some(e)
    }

    fn part(&mut self) -> Option<(Box<Cert>, Size)> {
        let Kinds::Word(word) = self.peek()? else { return None };
        self.next += 1;
        let cert = match word {
            "auto" => Cert::Auto,
            "calc" => Cert::Calc,
            "refl" => Cert::Refl,
            "ring" => Cert::Ring,
            "range" => Cert::Range,
            "(" => {
                let (cert, size) = self.cert()?;
                self.expect(")")?;
                return Some((Box::new(cert), size));
            }
            _ => return None,
        };
        Some((Box::new(cert), LEAF))
    }

    fn cert(&mut self) -> Option<(Cert, Size)> {
        let Kinds::Word(word) = self.peek()? else { return None };
        if matches!(word, "auto" | "calc" | "refl" | "ring" | "range" | "(") {
            return self.part().map(|(cert, size)| (*cert, size));
        }
        self.next += 1;
        match word {
            "hyp" => Some((Cert::Hyp(self.number()?), LEAF)),
            "clash" => Some((Cert::Clash(self.number()?), LEAF)),
            "absurd" => Some((Cert::Absurd(self.number()?, self.number()?), LEAF)),
            "and" | "cases" | "split" | "have" => self.with_two(word),
            _ => self.with_one(word),
        }
    }

    fn with_two(&mut self, word: &str) -> Option<(Cert, Size)> {
        let number = if word == "cases" { self.number()? } else { 0 };
        let e = if matches!(word, "split" | "have") { Some(self.bracketed(false)?) } else { None };
        let ((c, first), (d, second)) = (self.part()?, self.part()?);
        let cert = match (word, e) {
            ("split", Some(e)) => Cert::Split(e, c, d),
            ("have", Some(e)) => Cert::Have(e, c, d),
            ("cases", _) => Cert::Cases(number, c, d),
            _ => Cert::And(c, d),
        };
        Some((cert, Size::above(&[first, second])))
    }

    fn with_one(&mut self, word: &str) -> Option<(Cert, Size)> {
        let number = if matches!(word, "use" | "fwd" | "rev" | "axiom") { self.number()? } else { 0 };
        let template = if matches!(word, "fwd" | "rev") { Some(self.bracketed(true)?) } else { None };
        let mut args = Vec::new();
        if word == "axiom" {
            self.expect("(")?;
            args = self.separated(Self::expr)?;
            self.expect(")")?;
        }
        let (c, size) = self.part()?;
        let cert = match (word, template) {
            ("fwd", Some(t)) => Cert::Fwd(number, t, c),
            ("rev", Some(t)) => Cert::Rev(number, t, c),
            ("use", _) => Cert::Use(number, c),
            ("axiom", _) => Cert::Axiom(number, args, c),
            ("left", _) => Cert::Left(c),
            ("right", _) => Cert::Right(c),
            ("not", _) => Cert::Not(c),
            ("contra", _) => Cert::Contra(c),
            _ => return None,
        };
        Some((cert, Size::above(&[size])))
    }

    fn proofs(&mut self) -> Option<Vec<(u32, Cert)>> {
        if !self.take("by") {
            return Some(Vec::new());
        }
        self.expect("{")?;
        let proofs = self.separated(|r| {
            let number = r.number()?;
            r.expect(":")?;
            let (cert, size) = r.cert()?;
            (size.nodes <= 10_000 && size.height <= 64).then_some((number, cert))
        })?;
        self.expect("}")?;
        Some(proofs)
    }

    fn state(&mut self) -> Option<State> {
        self.expect("{")?;
        let mut state = State::default();
        if !matches!(self.peek(), Some(Kinds::Word(";" | "}"))) {
            state.preds = self.separated(Self::expr)?;
        }
        if self.take(";") {
            state.types = self.separated(|r| {
                let x = r.variable()?;
                r.expect(":")?;
                Some((x, r.expr()?))
            })?;
        }
        self.expect("}")?;
        (state.preds.len() <= 64 && state.types.len() <= 256).then_some(state)
    }

    fn state_behind(&mut self, word: &str) -> Option<State> {
        if self.take(word) { self.state() } else { Some(State::default()) }
    }

    /// A block with so many blocks around it, and the place of its end.
    fn block(&mut self, around: usize) -> Option<(Vec<Stmt>, usize)> {
        self.expect("{")?;
        if around > 63 {
            return None;
        }
        let mut body = Vec::new();
        loop {
            let at = self.at();
            if self.take("}") {
                return Some((body, at));
            }
            self.statements += 1;
            body.push(self.stmt(around)?);
        }
    }

    fn stmt(&mut self, around: usize) -> Option<Stmt> {
        let at = self.at();
        let has_block = matches!(self.peek(), Some(Kinds::Word("if" | "while")));
        let kind = self.kind(around)?;
        let has_proofs = !matches!(kind, Kind::Skip | Kind::Lock(_));
        let proofs = if has_proofs { self.proofs()? } else { Vec::new() };
        if !has_block {
            self.expect(";")?;
        }
        Some(Stmt { at, kind, proofs })
    }

    fn kind(&mut self, around: usize) -> Option<Kind> {
        let Kinds::Word(word) = self.peek()? else { return self.assignment() };
        self.next += 1;
        Some(match word {
            "skip" => Kind::Skip,
            "lock" => Kind::Lock(self.used(true)?),
            "unlock" => Kind::Unlock(self.used(true)?),
            "note" => Kind::Note(self.state()?),
            "output" if self.has_outputs => Kind::Output(self.expr()?),
            "if" => {
                let guard = self.expr()?;
                let (yes, _) = self.block(around + 1)?;
                self.expect("else")?;
                let (no, _) = self.block(around + 1)?;
                Kind::If { guard, yes, no, join: self.state_behind("join")? }
            }
            "while" => {
                let guard = self.expr()?;
                let inv = self.state_behind("inv")?;
                let (body, _) = self.block(around + 1)?;
                Kind::While { guard, inv, body }
            }
            _ => return None,
        })
    }

    fn assignment(&mut self) -> Option<Kind> {
        let to = self.variable()?;
        self.expect(":=")?;
        let value = self.expr()?;
        let class = if self.take("as") { Some(self.expr()?) } else { None };
        let mut retypes = Vec::new();
        while self.take("retype") {
            let z = self.variable()?;
            self.expect("as")?;
            retypes.push((z, self.expr()?));
        }
        Some(Kind::Assign { to, value, class, retypes })
    }

    fn class(&mut self) -> Option<Class> {
        if self.take("high") {
            return Some(Class { is_plain_low: false, term: term(Expr::Const(0)) });
        }
        self.expect("low")?;
        if self.take("when") {
            return Some(Class { is_plain_low: false, term: self.expr()? });
        }
        Some(Class { is_plain_low: true, term: term(Expr::Const(1)) })
    }

    /// Whether the text is of version 2, which it says at its front.
    fn version(&mut self) -> Option<bool> {
        if !self.take("version") {
            return Some(false);
        }
        (self.number()? == 2).then_some(())?;
        self.expect(";")?;
        Some(true)
    }

    fn var(&mut self) -> Option<Var> {
        let (name, at) = self.name()?;
        self.expect(":")?;
        let class = self.class()?;
        self.expect(";")?;
        Some(Var { name, at, class })
    }

    fn listed(&mut self, word: &str) -> Option<Vec<u32>> {
        if self.take(word) { self.separated(Self::variable) } else { Some(Vec::new()) }
    }

    fn lock(&mut self) -> Option<Lock> {
        let (name, at) = self.name()?;
        let (nowrite, hide) = (self.listed("nowrite")?, self.listed("hide")?);
        let inv = if self.take("inv") { Some(self.expr()?) } else { None };
        self.expect(";")?;
        Some(Lock { name, at, nowrite, hide, inv })
    }

    /// A list behind two words. Nothing is taken where the second isn't there.
    fn mode(&mut self, first: &str, second: &str) -> Option<Vec<u32>> {
        if self.take(first) {
            if self.take(second) {
                return self.separated(Self::variable);
            }
            self.next -= 1;
        }
        Some(Vec::new())
    }

    fn thread(&mut self) -> Option<Thread> {
        let (name, at) = self.name()?;
        let modes = Modes {
            assume_nowrite: self.mode("assume", "nowrite")?,
            assume_hide: self.mode("assume", "hide")?,
            guarantee_nowrite: self.mode("guarantee", "nowrite")?,
            guarantee_hide: self.mode("guarantee", "hide")?,
        };
        let (body, end) = self.block(0)?;
        Some(Thread { name, at, modes, body, end })
    }

    fn all<T>(&mut self, word: &str, most: usize, mut item: impl FnMut(&mut Self) -> Option<T>) -> Option<Vec<T>> {
        let mut items = Vec::new();
        while self.take(word) {
            items.push(item(self)?);
        }
        (items.len() <= most).then_some(items)
    }
}

/// The program that a text spells, within the limits.
pub fn parse(text: &[u8]) -> Option<Program<'_>> {
    let (tokens, names) = lex(text)?;
    if !is_shallow(&tokens) {
        return None;
    }
    let places = declared(&tokens, names.len());
    let mut reader = Reader { tokens, next: 0, places, uses: Vec::new(), statements: 0, has_outputs: false };
    reader.has_outputs = reader.version()?;
    let vars = reader.all("var", 256, Reader::var)?;
    let locks = reader.all("lock", 64, Reader::lock)?;
    let threads = reader.all("thread", 16, Reader::thread)?;
    let Reader { uses, statements, .. } = reader;
    (reader.next == reader.tokens.len() && statements <= 20_000).then_some(Program { names, vars, locks, threads, uses, statements })
}
