//! What the rules ask of expressions.
use crate::syntax::{Expr, HOLE, Op, Term, term};

pub fn same(a: Term, b: Term) -> bool {
    std::ptr::eq(a, b)
        || match (a, b) {
            (Expr::Const(k), Expr::Const(l)) => k == l,
            (Expr::Var(x), Expr::Var(y)) => x == y,
            (Expr::Not(c), Expr::Not(d)) => same(c, d),
            (Expr::Bin(o, c, d), Expr::Bin(p, f, g)) => o == p && same(c, f) && same(d, g),
            _ => false,
        }
}

/// The value of an expression without variables.
pub fn value(e: Term) -> Option<u32> {
    Some(match e {
        Expr::Const(k) => *k,
        Expr::Var(_) => return None,
        Expr::Not(a) => (value(a)? == 0) as u32,
        Expr::Bin(op, a, b) => {
            let (a, b) = (value(a)?, value(b)?);
            match op {
                Op::Add => a.wrapping_add(b),
                Op::Sub => a.wrapping_sub(b),
                Op::Mul => a.wrapping_mul(b),
                Op::And => a & b,
                Op::Or => a | b,
                Op::Xor => a ^ b,
                Op::Eq => (a == b) as u32,
                Op::Ne => (a != b) as u32,
                Op::Lt => (a < b) as u32,
                Op::Le => (a <= b) as u32,
                Op::Both => (a != 0 && b != 0) as u32,
                Op::Either => (a != 0 || b != 0) as u32,
            }
        }
    })
}

/// Whether each occurrence of a variable passes a test.
pub fn all_vars(e: Term, test: &mut impl FnMut(u32) -> bool) -> bool {
    match e {
        Expr::Const(_) => true,
        Expr::Var(x) => test(*x),
        Expr::Not(a) => all_vars(a, test),
        Expr::Bin(_, a, b) => all_vars(a, test) && all_vars(b, test),
    }
}

pub fn mentions(e: Term, x: u32) -> bool {
    !all_vars(e, &mut |y| y != x)
}

/// The variables, by first occurrence.
pub fn vars(e: Term) -> Vec<u32> {
    let mut found = Vec::new();
    all_vars(e, &mut |x| {
        if !found.contains(&x) {
            found.push(x);
        }
        true
    });
    found
}

pub fn width(e: Term) -> usize {
    match e {
        Expr::Const(_) | Expr::Var(_) => 1,
        Expr::Not(a) => width(a).max(2),
        Expr::Bin(_, a, b) => width(a).max(width(b) + 1),
    }
}

pub fn nodes(e: Term) -> usize {
    match e {
        Expr::Const(_) | Expr::Var(_) => 1,
        Expr::Not(a) => 1 + nodes(a),
        Expr::Bin(_, a, b) => 1 + nodes(a) + nodes(b),
    }
}

/// Whether an expression is a conjunct of another.
pub fn has_conjunct(e: Term, part: Term) -> bool {
    match e {
        Expr::Bin(Op::Both, a, b) => has_conjunct(a, part) || has_conjunct(b, part),
        _ => same(e, part),
    }
}

/// Whether each conjunct passes a test.
pub fn all_conjuncts(e: Term, test: &mut impl FnMut(Term) -> bool) -> bool {
    match e {
        Expr::Bin(Op::Both, a, b) => all_conjuncts(a, test) && all_conjuncts(b, test),
        _ => test(e),
    }
}

/// The expression with a part for some of its variables. What has none of them is shared.
pub fn subst(e: Term, part: &impl Fn(u32) -> Option<Term>) -> Term {
    match e {
        Expr::Const(_) => e,
        Expr::Var(x) => part(*x).unwrap_or(e),
        Expr::Not(a) => {
            let new = subst(a, part);
            if std::ptr::eq(*a, new) { e } else { term(Expr::Not(new)) }
        }
        Expr::Bin(op, a, b) => {
            let (left, right) = (subst(a, part), subst(b, part));
            if std::ptr::eq(*a, left) && std::ptr::eq(*b, right) { e } else { term(Expr::Bin(*op, left, right)) }
        }
    }
}

/// Whether an expression is a template with a part in its holes.
pub fn is_filled(template: Term, part: Term, e: Term) -> bool {
    match (template, e) {
        (Expr::Var(HOLE), _) => same(part, e),
        (Expr::Not(t), Expr::Not(a)) => is_filled(t, part, a),
        (Expr::Bin(o, t, u), Expr::Bin(p, a, b)) => o == p && is_filled(t, part, a) && is_filled(u, part, b),
        _ => same(template, e),
    }
}
