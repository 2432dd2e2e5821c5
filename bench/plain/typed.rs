//! The rules of statements, V1 to V16.
use crate::declared::{Declared, listed};
use crate::syntax::{Cert, Expr, Kind, Op, State, Stmt, Term, Thread, term};
use crate::terms::{all_conjuncts, all_vars, mentions, nodes, same, subst, vars, width};
use crate::valid::is_valid;
use crate::{Refusal, refusal};

const MOST_PREDS: usize = 64;
const MOST_NODES: usize = 1_000;

/// What is known of a thread between two statements.
#[derive(Clone)]
struct Point {
    held: Vec<bool>,
    stable: Vec<bool>,
    hidden: Vec<bool>,
    /// The type of each variable that is tracked.
    types: Vec<Option<Term>>,
    preds: Vec<Pred>,
}

#[derive(Clone, Copy)]
pub struct Pred {
    pub term: Term,
    nodes: usize,
}

/// A goal, and the hypothesis beside the predicates, if there is one.
struct Claim {
    more: Option<Term>,
    goal: Term,
}

/// The statement that is tried, and how many of its entailments were.
struct Site<'s> {
    thread: &'s str,
    at: usize,
    proofs: &'s [(u32, Cert)],
    tried: u32,
}

impl Site<'_> {
    fn ensure(&self, rule: &str, holds: bool) -> Result<(), Refusal> {
        self.ensure_with(rule, holds, || String::new())
    }

    fn ensure_of(&self, rule: &str, name: &str, holds: bool) -> Result<(), Refusal> {
        self.ensure_with(rule, holds, || format!(": {name}"))
    }

    fn ensure_with(&self, rule: &str, holds: bool, detail: impl Fn() -> String) -> Result<(), Refusal> {
        if holds { Ok(()) } else { Err(refusal(format!("{rule} in {} at {}{}", self.thread, self.at, detail()))) }
    }

    /// V16, of claims with these predicates. Nothing stands for claims of which some term is too large.
    fn small(&self, preds: &[Pred], claims: &Option<Vec<Claim>>) -> Result<(), Refusal> {
        let are_small = claims.as_ref().is_some_and(|c| c.is_empty() || preds.iter().all(|p| p.nodes <= MOST_NODES));
        self.ensure("V16", are_small)
    }

    /// V9, of each claim in turn.
    fn prove(&mut self, preds: &[Pred], claims: &Option<Vec<Claim>>) -> Result<(), Refusal> {
        for claim in claims.iter().flatten() {
            self.tried += 1;
            let n = self.tried;
            let cert = self.proofs.iter().find(|(number, _)| *number == n).map_or(&Cert::Auto, |(_, cert)| cert);
            self.ensure_with("V9", is_valid(preds, claim.more, claim.goal, cert), || format!(" entailment {n}"))?;
        }
        Ok(())
    }

    /// V13: the proofs are of entailments, each of another.
    fn numbered(&self) -> Result<(), Refusal> {
        let mut times = vec![0; self.tried as usize + 1];
        for (n, _) in self.proofs {
            if let Some(times) = times.get_mut(*n as usize) {
                *times += 1;
            }
        }
        let is_wrong = |n: u32| n == 0 || times.get(n as usize) != Some(&1);
        match self.proofs.iter().find(|(n, _)| is_wrong(*n)) {
            Some((n, _)) => self.ensure_with("V13", false, || format!(" entailment {n}")),
            None => Ok(()),
        }
    }
}

fn add_pred(preds: &mut Vec<Pred>, e: Term) {
    if !preds.iter().any(|p| same(p.term, e)) {
        preds.push(Pred { term: e, nodes: nodes(e) });
    }
}

impl Point {
    fn is_over_stable(&self, e: Term) -> bool {
        all_vars(e, &mut |x| self.stable[x as usize])
    }

    fn add_guard(&mut self, e: Term) {
        if self.is_over_stable(e) {
            add_pred(&mut self.preds, e);
        }
    }

    /// The types of a state in the place of those that stand, and its predicates alone.
    fn note(&mut self, state: &State) {
        for (z, r) in &state.types {
            self.types[*z as usize] = Some(r);
        }
        self.preds.clear();
        state.preds.iter().for_each(|e| add_pred(&mut self.preds, e));
    }

    /// What a state claims where this point stands.
    fn claims(&self, state: &State) -> Option<Vec<Claim>> {
        let preds = state.preds.iter().map(|goal| Claim { more: None, goal });
        let types = state.types.iter().map(|(z, r)| Some(Claim { more: Some(r), goal: self.types[*z as usize]? }));
        preds.map(Some).chain(types).collect()
    }
}

pub struct Checker<'d> {
    d: &'d Declared<'d, 'd>,
    thread: &'d Thread,
    unwritten: Vec<bool>,
    untouched: Vec<bool>,
    pub entailments: usize,
}

impl<'d> Checker<'d> {
    pub fn new(d: &'d Declared<'d, 'd>, thread: &'d Thread) -> Self {
        let (mut unwritten, mut untouched) = (vec![false; d.p.vars.len()], vec![false; d.p.vars.len()]);
        for x in &thread.modes.guarantee_hide {
            untouched[*x as usize] = true;
        }
        for x in thread.modes.guarantee_nowrite.iter().chain(&thread.modes.guarantee_hide) {
            unwritten[*x as usize] = true;
        }
        Checker { d, thread, unwritten, untouched, entailments: 0 }
    }

    /// Tries each obligation of the thread, in order.
    pub fn check(&mut self) -> Result<(), Refusal> {
        let mut point = self.start();
        self.block(&mut point, &self.thread.body)?;
        match point.held.iter().position(|held| *held) {
            Some(l) => self.site(self.thread.end, &[]).ensure_of("V11", self.lock_name(l), false),
            None => Ok(()),
        }
    }

    fn site<'s>(&self, at: usize, proofs: &'s [(u32, Cert)]) -> Site<'s>
    where
        'd: 's,
    {
        Site { thread: self.d.p.names[self.thread.name], at, proofs, tried: 0 }
    }

    fn lock_name(&self, l: usize) -> &'d str {
        self.d.p.names[self.d.p.locks[l].name]
    }

    fn class(&self, x: usize) -> Term {
        self.d.p.vars[x].class.term
    }

    fn start(&self) -> Point {
        let count = self.d.p.vars.len();
        let mut point = Point {
            held: vec![false; self.d.p.locks.len()],
            stable: vec![false; count],
            hidden: vec![false; count],
            types: vec![None; count],
            preds: Vec::new(),
        };
        for x in &self.thread.modes.assume_hide {
            point.hidden[*x as usize] = true;
        }
        for x in self.thread.modes.assume_nowrite.iter().chain(&self.thread.modes.assume_hide) {
            self.make_stable(&mut point, *x as usize);
        }
        point
    }

    fn make_stable(&self, point: &mut Point, x: usize) {
        point.stable[x] = true;
        if !self.d.is_control[x] {
            point.types[x] = Some(self.class(x));
        }
    }

    fn default_type(&self, point: &Point, x: usize) -> Term {
        if point.hidden[x] { &Expr::Const(0) } else { self.class(x) }
    }

    fn type_of(&self, point: &Point, x: u32) -> Term {
        let x = x as usize;
        if self.d.is_control[x] { &Expr::Const(1) } else { point.types[x].unwrap_or(self.class(x)) }
    }

    /// The type of the value of an expression, unless it has too many nodes.
    fn type_of_value(&self, point: &Point, read: &[u32]) -> Option<Term> {
        let mut parts: Vec<Term> = Vec::new();
        let mut size = 0;
        for x in read {
            let fits = all_conjuncts(self.type_of(point, *x), &mut |part| {
                if !matches!(part, Expr::Const(1)) && !parts.iter().any(|p| same(p, part)) {
                    parts.push(part);
                    size += nodes(part) + 1;
                }
                size <= MOST_NODES + 1
            });
            if !fits {
                return None;
            }
        }
        let join = |a, b| term(Expr::Bin(Op::Both, a, b));
        Some(parts.into_iter().reduce(join).unwrap_or(&Expr::Const(1)))
    }

    fn is_over_controls(&self, point: &Point, e: Term) -> bool {
        all_vars(e, &mut |x| point.stable[x as usize] && self.d.is_control[x as usize])
    }

    // Parts of rules ------------------------------------------------------------------------------------------------

    fn may_read(&self, point: &Point, x: u32) -> bool {
        let is_locked = matches!(self.d.under[x as usize], Some((l, true)) if !point.held[l as usize]);
        !self.untouched[x as usize] && !is_locked
    }

    fn may_write(&self, point: &Point, x: u32) -> bool {
        let is_locked = self.d.under[x as usize].is_some_and(|(l, _)| !point.held[l as usize]);
        !self.unwritten[x as usize] && !is_locked
    }

    fn reads(&self, site: &Site, point: &Point, read: &[u32]) -> Result<(), Refusal> {
        read.iter().try_for_each(|x| site.ensure_of("V1", self.d.name(*x), self.may_read(point, *x)))
    }

    /// V3 and V10.
    fn evaluates(&self, site: &Site, point: &Point, e: Term) -> Result<(), Refusal> {
        let mut unstable = 0;
        all_vars(e, &mut |x| {
            unstable += !point.stable[x as usize] as usize;
            unstable <= 1
        });
        site.ensure("V3", unstable <= 1)?;
        site.ensure("V10", width(e) <= 7)
    }

    /// V14 and V4 of types that are written.
    fn types(&self, site: &Site, point: &Point, types: &[(u32, Term)], may: bool) -> Result<(), Refusal> {
        for (i, (z, r)) in types.iter().enumerate() {
            let is_new = !types[..i].iter().any(|(x, _)| x == z);
            site.ensure_of("V14", self.d.name(*z), may && is_new && point.types[*z as usize].is_some())?;
            site.ensure("V4", self.is_over_controls(point, r))?;
        }
        Ok(())
    }

    /// V12, V14 and V4 of a state.
    fn state(&self, site: &Site, point: &Point, state: &State) -> Result<(), Refusal> {
        state.preds.iter().try_for_each(|e| site.ensure("V12", point.is_over_stable(e)))?;
        self.types(site, point, &state.types, true)
    }

    fn guard_claims(&self, point: &Point, read: &[u32]) -> Option<Vec<Claim>> {
        Some(vec![Claim { more: None, goal: self.type_of_value(point, read)? }])
    }

    /// The point of a join or of a loop.
    fn meet(&self, mut point: Point, state: &State) -> Point {
        for z in 0..point.types.len() {
            if point.types[z].is_some() {
                point.types[z] = Some(self.default_type(&point, z));
            }
        }
        point.note(state);
        point
    }

    // Statements ----------------------------------------------------------------------------------------------------

    fn block(&mut self, point: &mut Point, body: &[Stmt]) -> Result<(), Refusal> {
        body.iter().try_for_each(|stmt| self.stmt(point, stmt))
    }

    fn stmt(&mut self, point: &mut Point, stmt: &Stmt) -> Result<(), Refusal> {
        let mut site = self.site(stmt.at, &stmt.proofs);
        match &stmt.kind {
            Kind::Skip => {}
            Kind::Assign { to, value, class, retypes } => self.assign(&mut site, point, *to, value, *class, retypes)?,
            Kind::Lock(l) => self.lock(&site, point, *l as usize)?,
            Kind::Unlock(l) => self.unlock(&mut site, point, *l as usize)?,
            Kind::If { guard, yes, no, join } => self.branch(&mut site, point, guard, [yes, no], join)?,
            Kind::While { guard, inv, body } => self.repeat(&mut site, point, guard, inv, body)?,
            Kind::Note(state) => self.note(&mut site, point, state)?,
            Kind::Output(value) => self.output(&mut site, point, value)?,
        }
        site.numbered()?;
        self.entailments += site.tried as usize;
        Ok(())
    }

    fn assign(&self, site: &mut Site, point: &mut Point, x: u32, e: Term, class: Option<Term>, retypes: &[(u32, Term)]) -> Result<(), Refusal> {
        let read = vars(e);
        let is_control = self.d.is_control[x as usize];
        self.reads(site, point, &read)?;
        site.ensure_of("V2", self.d.name(x), self.may_write(point, x))?;
        self.evaluates(site, point, e)?;
        let is_fit = match class {
            Some(q) => self.is_over_controls(point, q),
            None => read.iter().all(|y| self.is_over_controls(point, self.type_of(point, *y))),
        };
        site.ensure("V4", is_fit)?;
        if is_control {
            read.iter().try_for_each(|y| site.ensure_of("V5", self.d.name(*y), point.stable[*y as usize]))?;
        }
        self.types(site, point, retypes, is_control)?;
        let derived = self.type_of_value(point, &read);
        let claims = derived.and_then(|ty| self.assign_claims(point, x, e, ty, class, retypes));
        let preds = self.preds_after(point, x, e);
        site.ensure("V15", preds.len() <= MOST_PREDS)?;
        site.small(&point.preds, &claims)?;
        site.prove(&point.preds, &claims)?;
        point.preds = preds;
        if is_control {
            self.forget(point, x, retypes);
        } else if let (Some(g), Some(q)) = (&mut point.types[x as usize], class.or(derived)) {
            *g = q;
        }
        Ok(())
    }

    fn assign_claims(&self, point: &Point, x: u32, e: Term, ty: Term, class: Option<Term>, retypes: &[(u32, Term)]) -> Option<Vec<Claim>> {
        let q = class.unwrap_or(ty);
        let is_control = self.d.is_control[x as usize];
        let mut claims = Vec::new();
        if class.is_some() {
            claims.push(Claim { more: Some(q), goal: ty });
        }
        if is_control || !point.hidden[x as usize] {
            claims.push(Claim { more: Some(self.class(x as usize)), goal: q });
        }
        if is_control {
            let shown = |y: &u32| !point.hidden[*y as usize] && self.d.controls[*y as usize].contains(&x);
            for y in (0..self.d.p.vars.len() as u32).filter(shown) {
                claims.push(Claim { more: Some(replaced(self.class(y as usize), x, e)?), goal: self.type_of(point, y) });
            }
        }
        for (z, r) in retypes {
            claims.push(Claim { more: Some(replaced(r, x, e)?), goal: point.types[*z as usize]? });
        }
        Some(claims)
    }

    fn preds_after(&self, point: &Point, x: u32, e: Term) -> Vec<Pred> {
        let mut preds: Vec<Pred> = point.preds.iter().filter(|p| !mentions(p.term, x)).copied().collect();
        if point.stable[x as usize] && point.is_over_stable(e) && !mentions(e, x) {
            add_pred(&mut preds, term(Expr::Bin(Op::Eq, term(Expr::Var(x)), e)));
        }
        preds
    }

    /// The types after an assignment to a control.
    fn forget(&self, point: &mut Point, x: u32, retypes: &[(u32, Term)]) {
        for z in 0..point.types.len() {
            let Some(g) = point.types[z] else { continue };
            let listed = retypes.iter().find(|(y, _)| *y as usize == z).map(|(_, r)| *r);
            point.types[z] = Some(listed.unwrap_or_else(|| if mentions(g, x) { self.default_type(point, z) } else { g }));
        }
    }

    fn lock(&self, site: &Site, point: &mut Point, l: usize) -> Result<(), Refusal> {
        let lock = &self.d.p.locks[l];
        site.ensure_of("V6", self.lock_name(l), !point.held[l])?;
        point.held[l] = true;
        for x in &lock.hide {
            point.hidden[*x as usize] = true;
        }
        for x in listed(lock) {
            self.make_stable(point, x as usize);
        }
        if let Some(inv) = lock.inv {
            add_pred(&mut point.preds, inv);
        }
        site.ensure("V15", point.preds.len() <= MOST_PREDS)
    }

    fn unlock(&self, site: &mut Site, point: &mut Point, l: usize) -> Result<(), Refusal> {
        let lock = &self.d.p.locks[l];
        site.ensure_of("V7", self.lock_name(l), point.held[l])?;
        let kept = lock.inv.map(|goal| Claim { more: None, goal });
        let freed = lock.hide.iter().filter_map(|x| {
            let goal = point.types[*x as usize]?;
            Some(Claim { more: Some(self.class(*x as usize)), goal })
        });
        let claims = Some(kept.into_iter().chain(freed).collect());
        site.small(&point.preds, &claims)?;
        site.prove(&point.preds, &claims)?;
        point.held[l] = false;
        for x in listed(lock) {
            point.stable[x as usize] = false;
            point.hidden[x as usize] = false;
            point.types[x as usize] = None;
        }
        let mut preds = std::mem::take(&mut point.preds);
        preds.retain(|p| point.is_over_stable(p.term));
        point.preds = preds;
        for z in 0..point.types.len() {
            if point.types[z].is_some_and(|g| !point.is_over_stable(g)) {
                point.types[z] = Some(self.default_type(point, z));
            }
        }
        Ok(())
    }

    fn branch(&mut self, site: &mut Site, point: &mut Point, guard: Term, [yes, no]: [&[Stmt]; 2], join: &State) -> Result<(), Refusal> {
        let read = vars(guard);
        self.reads(site, point, &read)?;
        self.evaluates(site, point, guard)?;
        let (mut first, mut second) = (point.clone(), point.clone());
        first.add_guard(guard);
        second.add_guard(term(Expr::Not(guard)));
        site.ensure("V15", first.preds.len() <= MOST_PREDS && second.preds.len() <= MOST_PREDS)?;
        let claims = self.guard_claims(point, &read);
        site.small(&point.preds, &claims)?;
        site.prove(&point.preds, &claims)?;
        self.block(&mut first, yes)?;
        self.block(&mut second, no)?;
        site.ensure("V8", first.held == second.held)?;
        self.state(site, &first, join)?;
        let claims = [first.claims(join), second.claims(join)];
        site.small(&first.preds, &claims[0])?;
        site.small(&second.preds, &claims[1])?;
        site.prove(&first.preds, &claims[0])?;
        site.prove(&second.preds, &claims[1])?;
        *point = self.meet(first, join);
        Ok(())
    }

    fn repeat(&mut self, site: &mut Site, point: &mut Point, guard: Term, inv: &State, body: &[Stmt]) -> Result<(), Refusal> {
        let read = vars(guard);
        self.state(site, point, inv)?;
        self.reads(site, point, &read)?;
        self.evaluates(site, point, guard)?;
        let head = self.meet(point.clone(), inv);
        let (mut inside, mut after) = (head.clone(), head.clone());
        inside.add_guard(guard);
        after.add_guard(term(Expr::Not(guard)));
        site.ensure("V15", inside.preds.len() <= MOST_PREDS && after.preds.len() <= MOST_PREDS)?;
        let (entry, tested) = (point.claims(inv), self.guard_claims(&head, &read));
        site.small(&point.preds, &entry)?;
        site.small(&head.preds, &tested)?;
        site.prove(&point.preds, &entry)?;
        site.prove(&head.preds, &tested)?;
        self.block(&mut inside, body)?;
        site.ensure("V8", inside.held == point.held)?;
        let kept = inside.claims(inv);
        site.small(&inside.preds, &kept)?;
        site.prove(&inside.preds, &kept)?;
        *point = after;
        Ok(())
    }

    fn output(&self, site: &mut Site, point: &Point, value: Term) -> Result<(), Refusal> {
        let read = vars(value);
        self.reads(site, point, &read)?;
        self.evaluates(site, point, value)?;
        let claims = self.guard_claims(point, &read);
        site.small(&point.preds, &claims)?;
        site.prove(&point.preds, &claims)
    }

    fn note(&self, site: &mut Site, point: &mut Point, state: &State) -> Result<(), Refusal> {
        self.state(site, point, state)?;
        let claims = point.claims(state);
        site.small(&point.preds, &claims)?;
        site.prove(&point.preds, &claims)?;
        point.note(state);
        Ok(())
    }
}

/// A class or a type with an expression for a variable, unless it has too many nodes.
fn replaced(e: Term, x: u32, part: Term) -> Option<Term> {
    let mut times = 0;
    all_vars(e, &mut |y| {
        times += (y == x) as usize;
        true
    });
    (nodes(e) + times * (nodes(part) - 1) <= MOST_NODES).then(|| subst(e, &|y| (y == x).then_some(part)))
}
