//! What a base and a context fix: each role's weight for each permission.

use model::Context;

use crate::base::Base;
use crate::operators::is_met;
use crate::resolution::{Rules, NONE};

/// Each role's weight.
pub type Weights = [u8; 8];

/// The context numbers that hold, as a set, each role's juniors, and the date.
pub struct Setting {
    contexts: u32,
    pub juniors: [u8; 8],
    pub date: u32,
}

impl Setting {
    #[inline(always)]
    fn is_active(&self, context: u8) -> bool {
        context == 255 || self.contexts >> (context & 31) & 1 == 1
    }
}

pub fn setting(base: &Base, at: Context) -> Setting {
    Setting {
        contexts: holding(base.contexts, at),
        juniors: juniors(base.hierarchy),
        date: at.date,
    }
}

/// The date is no parameter of conditions.
fn holding(clauses: &[[u8; 16]], at: Context) -> u32 {
    let values = [at.minute, at.day, at.zone];
    let holding = clauses.iter().filter(|clause| clause_holds(clause, values));
    holding.fold(0, |set, clause| set | 1 << (clause[0] & 31))
}

fn clause_holds(clause: &[u8; 16], values: [u32; 3]) -> bool {
    let conditions = clause[2..14].as_chunks::<4>().0;
    let count = usize::from(clause[1]);
    let mut counted = conditions.iter().take(count);
    counted.all(|&[parameter, operator, low, high]| {
        let value = u16::from_le_bytes([low, high]).into();
        is_met(operator, values[usize::from(parameter)], value)
    })
}

/// First those that a record names; then theirs, from the highest role on: a
/// senior's number is smaller.
pub fn juniors(hierarchy: &[[u8; 2]]) -> [u8; 8] {
    let mut known = [0_u8; 8];
    for &[senior, junior] in hierarchy {
        known[usize::from(senior & 7)] |= 1 << (junior & 7);
    }
    for senior in (0..7).rev() {
        let mut rest = known[senior];
        while rest != 0 {
            known[senior] |= known[rest.trailing_zeros() as usize & 7];
            rest &= rest - 1;
        }
    }
    known
}

/// The weights of all roles for a permission.
#[inline(never)]
pub fn role_weights(base: &Base, setting: &Setting, permission: u8) -> Weights {
    let (mut own, mut inh) = ([0; 8], [0; 8]);
    for &[role, of, weight, kind, context, ..] in base.policies {
        if of != permission || !setting.is_active(context) {
            continue;
        }
        let role = usize::from(role & 7);
        keep_first(&mut own[role], weight);
        if kind == 1 {
            keep_first(&mut inh[role], weight);
        }
    }
    std::array::from_fn(|role| own[role] + handed_on(inh, setting.juniors[role]))
}

/// The same by a list of rules.
#[inline(never)]
pub fn role_weights_by(base: &Base, setting: &Setting, permission: u8, rules: &Rules) -> Weights {
    let (mut own, mut inh) = (Chosen::none(), Chosen::none());
    for policy in base.policies {
        let &[role, of, weight, kind, context, ..] = policy;
        if of != permission || !setting.is_active(context) {
            continue;
        }
        let (role, key) = (usize::from(role & 7), rules.key(policy));
        own.keep_before(role, key, weight);
        if kind == 1 {
            inh.keep_before(role, key, weight);
        }
    }
    let inh = inh.weights;
    std::array::from_fn(|role| own.weights[role] + handed_on(inh, setting.juniors[role]))
}

/// Each role's chosen policy so far, by a list of rules: its key and its
/// weight.
#[derive(Clone, Copy)]
struct Chosen {
    keys: [u32; 8],
    weights: Weights,
}

impl Chosen {
    fn none() -> Chosen {
        Chosen {
            keys: [NONE; 8],
            weights: [0; 8],
        }
    }

    /// Keeps the one that goes before; of equal keys the earlier one.
    #[inline(always)]
    fn keep_before(&mut self, role: usize, key: u32, weight: u8) {
        if key < self.keys[role] {
            self.keys[role] = key;
            self.weights[role] = weight;
        }
    }
}

fn keep_first(kept: &mut u8, weight: u8) {
    if *kept == 0 {
        *kept = weight;
    }
}

fn handed_on(inh: [u8; 8], juniors: u8) -> u8 {
    let of = |(role, weight): (usize, u8)| (juniors >> role & 1) * weight;
    inh.into_iter().enumerate().map(of).sum()
}

/// The weights of all roles for all permissions, in one pass over the policies.
pub fn all_weights(base: &Base, setting: &Setting) -> [Weights; 16] {
    let (mut own, mut inh) = ([[0; 8]; 16], [[0; 8]; 16]);
    for &[role, permission, weight, kind, context, ..] in base.policies {
        if !setting.is_active(context) {
            continue;
        }
        let (p, r) = (usize::from(permission & 15), usize::from(role & 7));
        keep_first(&mut own[p][r], weight);
        if kind == 1 {
            keep_first(&mut inh[p][r], weight);
        }
    }
    let mut w = own;
    for (w, inh) in w.iter_mut().zip(&inh).take(base.permissions.len()) {
        hand_on(w, inh, &setting.juniors);
    }
    w
}

/// The same by a list of rules.
pub fn all_weights_by(base: &Base, setting: &Setting, rules: &Rules) -> [Weights; 16] {
    let (mut own, mut inh) = ([Chosen::none(); 16], [Chosen::none(); 16]);
    for policy in base.policies {
        let &[role, permission, weight, kind, context, ..] = policy;
        if !setting.is_active(context) {
            continue;
        }
        let (p, r) = (usize::from(permission & 15), usize::from(role & 7));
        let key = rules.key(policy);
        own[p].keep_before(r, key, weight);
        if kind == 1 {
            inh[p].keep_before(r, key, weight);
        }
    }
    let mut w = own.map(|own| own.weights);
    for (w, inh) in w.iter_mut().zip(&inh).take(base.permissions.len()) {
        hand_on(w, &inh.weights, &setting.juniors);
    }
    w
}

/// Adds to each role's weight what its juniors hand on.
fn hand_on(w: &mut Weights, inh: &[u8; 8], juniors: &[u8; 8]) {
    for (junior, inh) in inh.iter().enumerate().filter(|(_, inh)| **inh > 0) {
        for (w, juniors) in w.iter_mut().zip(juniors) {
            *w += (juniors >> junior & 1) * inh;
        }
    }
}

/// What a permission's roles weigh: the least and the largest weight, the
/// roles with weight as a set, and one past the last of them.
#[derive(Clone, Copy)]
pub struct Weighed {
    pub light: usize,
    pub heavy: usize,
    pub roles: u8,
    pub end: usize,
}

pub fn weighed(w: &Weights) -> Weighed {
    let mut weighed = Weighed {
        light: 255,
        heavy: 0,
        roles: 0,
        end: 0,
    };
    for (r, &x) in w.iter().enumerate() {
        let x = usize::from(x);
        if x > 0 {
            weighed.light = weighed.light.min(x);
            weighed.heavy = weighed.heavy.max(x);
            weighed.roles |= 1 << r;
            weighed.end = r + 1;
        }
    }
    weighed
}
