//! Which certificates are valid.
use crate::arithmetic::{range, ring};
use crate::syntax::{Cert, Expr, HOLE, Op, Term, term};
use crate::terms::{all_conjuncts, has_conjunct, is_filled, same, subst, value};
use crate::typed::Pred;

fn not(a: Term) -> Term {
    term(Expr::Not(a))
}

fn bin(op: Op, a: Term, b: Term) -> Term {
    term(Expr::Bin(op, a, b))
}

/// Whether a goal follows by `auto`.
fn is_known(hyps: impl Iterator<Item = Term> + Clone, goal: Term) -> bool {
    let is_stated = |part: Term| value(part).is_some_and(|v| v != 0) || hyps.clone().any(|h| has_conjunct(h, part));
    all_conjuncts(goal, &mut { is_stated }) || hyps.clone().any(|h| value(h) == Some(0))
}

/// Whether a certificate shows that a goal follows from hypotheses and one more.
pub fn is_valid(preds: &[Pred], more: Option<Term>, goal: Term, cert: &Cert) -> bool {
    let hyps = preds.iter().map(|p| p.term).chain(more);
    match cert {
        Cert::Auto => is_known(hyps, goal),
        _ => node(&mut hyps.collect(), goal, cert),
    }
}

fn hyp(hyps: &[Term], i: u32) -> Option<Term> {
    hyps.get((i as usize).checked_sub(1)?).copied()
}

/// The operands of a hypothesis whose operator this is.
fn operands(hyps: &[Term], i: u32, op: Op) -> Option<(Term, Term)> {
    match hyp(hyps, i)? {
        Expr::Bin(o, a, b) if *o == op => Some((a, b)),
        _ => None,
    }
}

fn with(hyps: &mut Vec<Term>, added: &[Term], goal: Term, cert: &Cert) -> bool {
    let len = hyps.len();
    hyps.extend_from_slice(added);
    let is_valid = node(hyps, goal, cert);
    hyps.truncate(len);
    is_valid
}

fn rewritten(hyps: &mut Vec<Term>, equal: Option<(Term, Term)>, template: Term, goal: Term, cert: &Cert) -> bool {
    let Some((from, to)) = equal else { return false };
    is_filled(template, from, goal) && node(hyps, subst(template, &|x| (x == HOLE).then_some(to)), cert)
}

fn node(hyps: &mut Vec<Term>, goal: Term, cert: &Cert) -> bool {
    match (cert, goal) {
        (Cert::Auto, _) => is_known(hyps.iter().copied(), goal),
        (Cert::Hyp(i), _) => hyp(hyps, *i).is_some_and(|h| same(h, goal)),
        (Cert::Calc, _) => value(goal).is_some_and(|v| v != 0),
        (Cert::Clash(i), _) => hyp(hyps, *i).and_then(value) == Some(0),
        (Cert::And(c, d), Expr::Bin(Op::Both, a, b)) => node(hyps, a, c) && node(hyps, b, d),
        (Cert::Left(c), Expr::Bin(Op::Either, a, _)) => node(hyps, a, c),
        (Cert::Right(c), Expr::Bin(Op::Either, _, b)) => node(hyps, b, c),
        (Cert::Use(i, c), _) => operands(hyps, *i, Op::Both).is_some_and(|(a, b)| with(hyps, &[a, b], goal, c)),
        (Cert::Cases(i, c, d), _) => {
            operands(hyps, *i, Op::Either).is_some_and(|(a, b)| with(hyps, &[a], goal, c) && with(hyps, &[b], goal, d))
        }
        (Cert::Split(e, c, d), _) => with(hyps, &[e], goal, c) && with(hyps, &[not(e)], goal, d),
        (Cert::Have(e, c, d), _) => node(hyps, e, c) && with(hyps, &[e], goal, d),
        (Cert::Absurd(i, j), _) => match (hyp(hyps, *i), hyp(hyps, *j)) {
            (Some(a), Some(Expr::Not(b))) => same(a, b),
            _ => false,
        },
        (Cert::Not(c), Expr::Not(a)) => with(hyps, &[a], &Expr::Const(0), c),
        (Cert::Contra(c), _) => with(hyps, &[not(goal)], &Expr::Const(0), c),
        (Cert::Refl, Expr::Bin(Op::Eq, a, b)) => same(a, b),
        (Cert::Fwd(i, t, c), _) => rewritten(hyps, operands(hyps, *i, Op::Eq), t, goal, c),
        (Cert::Rev(i, t, c), _) => rewritten(hyps, operands(hyps, *i, Op::Eq).map(|(a, b)| (b, a)), t, goal, c),
        (Cert::Ring, _) => ring(goal),
        (Cert::Range, _) => range(hyps, goal),
        (Cert::Axiom(k, args, c), _) => axiom(*k, args).is_some_and(|e| with(hyps, &[e], goal, c)),
        _ => false,
    }
}

/// The axiom of a number with expressions for its letters.
fn axiom(k: u32, args: &[Term]) -> Option<Term> {
    use Op::{Add, And, Both, Either, Eq, Le, Lt, Ne, Or, Sub, Xor};
    let number = |k| term(Expr::Const(k));
    let implied = |a, b| bin(Either, not(a), b);
    Some(match (k, args) {
        (1, [a, b]) => bin(Either, bin(Eq, a, b), bin(Ne, a, b)),
        (2, [a, b]) => implied(bin(Eq, a, b), bin(Eq, b, a)),
        (3, [a, b]) => implied(bin(Ne, a, b), bin(Ne, b, a)),
        (4, [a, b]) => implied(bin(Eq, a, b), not(bin(Ne, a, b))),
        (5, [a, b, c]) => implied(bin(Both, bin(Eq, a, b), bin(Eq, b, c)), bin(Eq, a, c)),
        (6, [a, b]) => bin(Either, bin(Either, bin(Lt, a, b), bin(Eq, a, b)), bin(Lt, b, a)),
        (7, [a]) => not(bin(Lt, a, a)),
        (8, [a, b, c]) => implied(bin(Both, bin(Lt, a, b), bin(Lt, b, c)), bin(Lt, a, c)),
        (9, [a, b]) => implied(bin(Lt, a, b), bin(Le, a, b)),
        (10, [a, b]) => bin(Either, implied(bin(Le, a, b), bin(Lt, a, b)), bin(Eq, a, b)),
        (11, [a, b]) => implied(bin(Eq, a, b), bin(Le, a, b)),
        (12, [a, b, c]) => implied(bin(Both, bin(Le, a, b), bin(Le, b, c)), bin(Le, a, c)),
        (13, [a, b]) => implied(bin(Both, bin(Le, a, b), bin(Le, b, a)), bin(Eq, a, b)),
        (14, [a]) => bin(Le, number(0), a),
        (15, [a]) => bin(Le, a, number(u32::MAX)),
        (16, [a, b]) => bin(Eq, bin(Add, a, b), bin(Add, b, a)),
        (17, [a, b]) => bin(Eq, bin(Sub, bin(Add, a, b), b), a),
        (18, [a]) => bin(Eq, bin(Sub, a, a), number(0)),
        (19, [a]) => bin(Eq, bin(Xor, a, a), number(0)),
        (20, [a, b]) => bin(Le, bin(And, a, b), a),
        (21, [a, b]) => bin(Le, a, bin(Or, a, b)),
        (22, [a]) => bin(Either, bin(Eq, a, number(0)), bin(Lt, number(0), a)),
        (23, [a, b]) => bin(Eq, bin(And, a, b), bin(And, b, a)),
        (24, [a]) => implied(a, bin(Ne, a, number(0))),
        _ => return None,
    })
}
