//! The rules of declarations, W1 to W9.
use crate::syntax::{Lock, Program};
use crate::terms::vars;
use crate::{Refusal, refused};

/// The rules of names: what is declared twice, and what is used without being declared.
fn check_names(p: &Program) -> Result<(), Refusal> {
    let mut kinds = vec![None; p.names.len()];
    let vars = p.vars.iter().map(|v| (v.name, v.at, 0));
    let locks = p.locks.iter().map(|l| (l.name, l.at, 1));
    let threads = p.threads.iter().map(|t| (t.name, t.at, 2));
    for (name, at, kind) in vars.chain(locks).chain(threads) {
        if kinds[name].replace(kind).is_some() {
            return refused("W1", at, &[p.names[name]]);
        }
    }
    match p.uses.iter().find(|u| kinds[u.name] != Some(u.is_lock as u8)) {
        Some(used) => refused("W2", used.at, &[p.names[used.name]]),
        None => Ok(()),
    }
}

pub struct Declared<'p, 't> {
    pub p: &'p Program<'t>,
    /// The controls of each variable, by first occurrence.
    pub controls: Vec<Vec<u32>>,
    pub is_control: Vec<bool>,
    /// The lock that each variable is under, and whether it is hidden there.
    pub under: Vec<Option<(u32, bool)>>,
}

pub fn listed(lock: &Lock) -> impl Iterator<Item = u32> + '_ {
    lock.nowrite.iter().chain(&lock.hide).copied()
}

/// The declarations with what the rules of statements ask of them, where all rules hold.
pub fn declared<'p, 't>(p: &'p Program<'t>) -> Result<Declared<'p, 't>, Refusal> {
    check_names(p)?;
    let controls: Vec<Vec<u32>> = p.vars.iter().map(|v| vars(v.class.term)).collect();
    let mut is_control = vec![false; p.vars.len()];
    controls.iter().flatten().for_each(|c| is_control[*c as usize] = true);
    let mut d = Declared { p, controls, is_control, under: vec![None; p.vars.len()] };
    d.check_classes()?;
    d.check_locks()?;
    d.check_modes()?;
    Ok(d)
}

impl<'t> Declared<'_, 't> {
    pub fn name(&self, x: u32) -> &'t str {
        self.p.names[self.p.vars[x as usize].name]
    }

    fn controls_of(&self, x: u32) -> impl Iterator<Item = u32> + '_ {
        self.controls[x as usize].iter().copied()
    }

    fn check_classes(&self) -> Result<(), Refusal> {
        for (x, var) in self.p.vars.iter().enumerate() {
            if let Some(c) = self.controls_of(x as u32).find(|c| !self.p.vars[*c as usize].class.is_plain_low) {
                return refused("W3", var.at, &[self.name(c)]);
            }
        }
        Ok(())
    }

    fn check_locks(&mut self) -> Result<(), Refusal> {
        for (l, lock) in self.p.locks.iter().enumerate() {
            for (i, x) in listed(lock).enumerate() {
                let place = (l as u32, i >= lock.nowrite.len());
                if self.under[x as usize].replace(place).is_some() {
                    return refused("W4", lock.at, &[self.name(x)]);
                }
            }
        }
        for (l, lock) in self.p.locks.iter().enumerate() {
            let free = lock.inv.and_then(|inv| vars(inv).into_iter().find(|x| !self.is_under(*x, l)));
            if let Some(x) = free {
                return refused("W5", lock.at, &[self.name(x)]);
            }
        }
        Ok(())
    }

    fn is_under(&self, x: u32, l: usize) -> bool {
        self.under[x as usize].is_some_and(|(lock, _)| lock as usize == l)
    }

    fn marked(&self, lists: [&[u32]; 2]) -> Vec<bool> {
        let mut marks = vec![false; self.p.vars.len()];
        lists.iter().copied().flatten().for_each(|x| marks[*x as usize] = true);
        marks
    }

    fn check_modes(&self) -> Result<(), Refusal> {
        let p = self.p;
        let assumed: Vec<Vec<bool>> = p.threads.iter().map(|t| self.marked([&t.modes.assume_nowrite, &t.modes.assume_hide])).collect();
        let assumptions = |t: usize| {
            let modes = &p.threads[t].modes;
            modes.assume_nowrite.iter().chain(&modes.assume_hide).copied()
        };
        for (t, thread) in p.threads.iter().enumerate() {
            if let Some(x) = assumptions(t).find(|x| self.under[*x as usize].is_some()) {
                return refused("W6", thread.at, &[self.name(x)]);
            }
        }
        for (l, lock) in p.locks.iter().enumerate() {
            for x in listed(lock) {
                let is_free = |c: &u32| !self.is_under(*c, l) && !assumed.iter().all(|a| a[*c as usize]);
                if let Some(c) = self.controls_of(x).find(is_free) {
                    return refused("W7", lock.at, &[self.name(x), self.name(c)]);
                }
            }
        }
        for (t, thread) in p.threads.iter().enumerate() {
            for x in assumptions(t) {
                if let Some(c) = self.controls_of(x).find(|c| !assumed[t][*c as usize]) {
                    return refused("W8", thread.at, &[self.name(x), self.name(c)]);
                }
            }
        }
        self.check_guarantees()
    }

    fn check_guarantees(&self) -> Result<(), Refusal> {
        let p = self.p;
        let kept = |t: &crate::syntax::Thread| {
            [self.marked([&t.modes.guarantee_nowrite, &t.modes.guarantee_hide]), self.marked([&[], &t.modes.guarantee_hide])]
        };
        let kept: Vec<[Vec<bool>; 2]> = p.threads.iter().map(kept).collect();
        for (t, thread) in p.threads.iter().enumerate() {
            for (u, [unwritten, untouched]) in kept.iter().enumerate().filter(|(u, _)| *u != t) {
                let free = |list: &[u32], kept: &[bool]| list.iter().copied().find(|x| !kept[*x as usize]);
                let found = free(&thread.modes.assume_nowrite, unwritten).or_else(|| free(&thread.modes.assume_hide, untouched));
                if let Some(x) = found {
                    return refused("W9", thread.at, &[p.names[thread.name], p.names[p.threads[u].name], self.name(x)]);
                }
            }
        }
        Ok(())
    }
}
