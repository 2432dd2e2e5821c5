//! Equations of polynomials, and bounds of words.
use crate::syntax::{Expr, Op, Term};
use crate::terms::same;
use std::collections::BTreeMap;

/// Coefficients modulo 2^32, by the numbers of the atoms in rising order.
type Poly = BTreeMap<Vec<usize>, u32>;

fn is_small(p: &Poly) -> bool {
    p.len() <= 256 && p.keys().all(|atoms| atoms.len() <= 8)
}

fn add(p: &mut Poly, atoms: Vec<usize>, coefficient: u32) {
    let sum = p.entry(atoms).or_insert(0);
    *sum = sum.wrapping_add(coefficient);
}

fn atom(atoms: &mut Vec<Term>, e: Term) -> Poly {
    let number = atoms.iter().position(|a| same(a, e)).unwrap_or_else(|| {
        atoms.push(e);
        atoms.len() - 1
    });
    Poly::from([(vec![number], 1)])
}

fn normal(atoms: &mut Vec<Term>, e: Term) -> Option<Poly> {
    let (op, a, b) = match e {
        Expr::Const(0) => return Some(Poly::new()),
        Expr::Const(k) => return Some(Poly::from([(vec![], *k)])),
        Expr::Bin(op @ (Op::Add | Op::Sub | Op::Mul), a, b) => (*op, *a, *b),
        _ => return Some(atom(atoms, e)),
    };
    let mut p = normal(atoms, a)?;
    let q = normal(atoms, b)?;
    if op == Op::Mul {
        let mut product = Poly::new();
        for (x, c) in &p {
            for (y, d) in &q {
                let mut both = [x.as_slice(), y.as_slice()].concat();
                both.sort_unstable();
                add(&mut product, both, c.wrapping_mul(*d));
            }
        }
        p = product;
    } else {
        for (y, d) in q {
            add(&mut p, y, if op == Op::Add { d } else { d.wrapping_neg() });
        }
    }
    p.retain(|_, c| *c != 0);
    is_small(&p).then_some(p)
}

/// Whether a goal is an equation whose sides are one polynomial.
pub fn ring(goal: Term) -> bool {
    let Expr::Bin(Op::Eq, a, b) = goal else { return false };
    let mut atoms = Vec::new();
    let (p, q) = (normal(&mut atoms, a), normal(&mut atoms, b));
    p.is_some() && p == q
}

/// The words from one to another; None where there are none.
type Bound = Option<(u64, u64)>;

const GREATEST: u64 = u32::MAX as u64;

fn cut(a: Bound, low: u64, high: u64) -> Bound {
    let (l, h) = a?;
    let (l, h) = (l.max(low), h.min(high));
    (l <= h).then_some((l, h))
}

fn number(e: Term) -> Option<u64> {
    if let Expr::Const(k) = e { Some(u64::from(*k)) } else { None }
}

/// Cut with what a hypothesis says of an expression.
fn limited(b: Bound, h: Term, e: Term) -> Bound {
    let Expr::Bin(op, x, y) = h else { return b };
    let right = if same(x, e) { number(y) } else { None };
    let left = if same(y, e) { number(x) } else { None };
    match op {
        Op::Le => cut(cut(b, 0, right.unwrap_or(GREATEST)), left.unwrap_or(0), GREATEST),
        Op::Lt => {
            let below = match right {
                Some(0) => None,
                Some(k) => cut(b, 0, k - 1),
                None => b,
            };
            left.map_or(below, |k| cut(below, k + 1, GREATEST))
        }
        Op::Eq => right.map_or(b, |k| cut(b, k, k)),
        _ => b,
    }
}

fn of_operation(op: Op, a: Bound, b: Bound) -> Bound {
    let ((la, ha), (lb, hb)) = (a?, b?);
    let all = (0, GREATEST);
    Some(match op {
        Op::Add if ha + hb <= GREATEST => (la + lb, ha + hb),
        Op::Sub if la >= hb => (la - hb, ha - lb),
        Op::Mul if ha * hb <= GREATEST => (la * lb, ha * hb),
        Op::Add | Op::Sub | Op::Mul | Op::Xor => all,
        Op::And => (0, ha.min(hb)),
        Op::Or => (la.max(lb), GREATEST),
        Op::Eq | Op::Ne | Op::Lt | Op::Le | Op::Both | Op::Either => (0, 1),
    })
}

fn bound(hyps: &[Term], e: Term) -> Bound {
    let shape = match e {
        Expr::Const(k) => Some((u64::from(*k), u64::from(*k))),
        Expr::Var(_) => Some((0, GREATEST)),
        Expr::Not(a) => bound(hyps, a).map(|_| (0, 1)),
        Expr::Bin(op, a, b) => of_operation(*op, bound(hyps, a), bound(hyps, b)),
    };
    hyps.iter().fold(shape, |b, h| limited(b, h, e))
}

/// Whether a goal is a comparison that the bounds of its sides make hold.
pub fn range(hyps: &[Term], goal: Term) -> bool {
    let Expr::Bin(op @ (Op::Le | Op::Lt | Op::Eq | Op::Ne), a, b) = goal else { return false };
    let (Some((la, ha)), Some((lb, hb))) = (bound(hyps, a), bound(hyps, b)) else { return true };
    match op {
        Op::Le => ha <= lb,
        Op::Lt => ha < lb,
        Op::Eq => la == ha && ha == lb && lb == hb,
        _ => ha < lb || hb < la,
    }
}
