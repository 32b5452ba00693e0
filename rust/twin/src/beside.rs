//! The search beside a requester, who stands first in each group. First without
//! regard of who vouches: only where some multiset of roles, one of them a role of
//! the requester's, meets a clause is it asked in which multisets of one role less
//! users who vouch act.

use crate::allowed::Allowed;
use crate::back::group;
use crate::base::Base;
use crate::ends::{next_ends_of, roles_on, NextEnds, NOBODY};
use crate::masks::{mark, role_nums, Masks, Rows};
use crate::multisets::{Places, BYTES, FEW_BYTES, FEW_UPS, MANY, STARTS, UPS};
use crate::search::{add, meeting};
use crate::weights::{weighed, Setting, Weighed, Weights};
use crate::{MOST, RECORD};

/// In place of a sum: none is so large.
const NO_SUM: u8 = 255;

/// What is the same for all permissions.
pub struct Search<'a> {
    base: &'a Base<'a>,
    requester: u8,
    /// The roles that each user may act in on the date, as sets.
    users: [u8; 24],
    /// The number of roles of each set.
    role_nums: [u8; 256],
}

/// A permission's weights, those of the requester's roles that have weight, the users
/// who vouch, and the clauses.
struct Permission<'a> {
    w: &'a Weights,
    weighed: Weighed,
    roles: u8,
    users: u32,
    rows: Rows,
    masks: (&'a Masks, &'a Masks),
}

impl Search<'_> {
    pub fn new<'a>(base: &'a Base<'a>, setting: &Setting, requester: u8) -> Search<'a> {
        let mut users = [0; 24];
        for (roles, user) in users.iter_mut().zip(base.users) {
            *roles = roles_on(user, &setting.juniors, setting.date);
        }
        Search {
            base,
            requester,
            users,
            role_nums: role_nums(),
        }
    }

    /// Writes the records, by each permission's weights and the users who vouch for
    /// it; the number of permissions that have a group.
    pub fn fill(&self, w: &[Weights; 16], users: &[u32; 16], records: &mut [[u8; RECORD]]) -> u32 {
        match self.base.roles {
            ..=5 => self.fill_in::<FEW_BYTES, FEW_UPS>(w, users, records),
            _ => self.fill_in::<BYTES, UPS>(w, users, records),
        }
    }

    #[inline(never)]
    fn fill_in<const BYTES: usize, const UPS: usize>(
        &self,
        w: &[Weights; 16],
        users: &[u32; 16],
        records: &mut [[u8; RECORD]],
    ) -> u32 {
        let (mut sets, mut ends) = ([0; BYTES], [0; BYTES]);
        let (mut ups, mut sums) = ([[0; 8]; UPS], [0; BYTES]);
        let allowed = Allowed::new(self.base.roles.into(), &mut [], &mut ends, &mut ups);
        let mut others = Others::new(allowed, &mut sums, &mut sets);
        let (mut sum_masks, mut set_masks) = ([0; 256], [0; 256]);
        let mut count = 0;
        for (permission, (w, record)) in w.iter().zip(records).enumerate() {
            *record = [255; RECORD];
            record[0] = 0;
            let masks = (&mut sum_masks, &mut set_masks);
            let permission = self.permission(permission, w, users[permission], masks);
            if let Some(permission) = permission {
                count += self.smallest(&permission, &mut others, record);
            }
        }
        count
    }

    /// The permission of this number, unless no role of the requester's has weight. The
    /// masks are written anew.
    #[inline(always)]
    fn permission<'a>(
        &self,
        number: usize,
        w: &'a Weights,
        users: u32,
        (sums, sets): (&'a mut Masks, &'a mut Masks),
    ) -> Option<Permission<'a>> {
        let weighed = weighed(w);
        let roles = self.users[usize::from(self.requester % 24)] & weighed.roles;
        if roles == 0 {
            return None;
        }
        sums[..MOST * weighed.heavy + 1].fill(0);
        sets.fill(0);
        let clauses = self.base.clauses;
        let rows = mark(clauses, number, weighed, &self.role_nums, sums, sets);
        leave_out(weighed.roles & !roles, sets);
        Some(Permission {
            w,
            weighed,
            roles,
            users: users & !(1 << (self.requester & 31)),
            rows,
            masks: (sums, sets),
        })
    }

    /// Writes a smallest group, if there is one: 1 then, else 0.
    fn smallest(
        &self,
        permission: &Permission,
        others: &mut Others,
        record: &mut [u8; RECORD],
    ) -> u32 {
        let users = &self.users[..self.base.users.len()];
        for n in 1..=permission.rows.last() {
            others.lay(permission, n);
            if !others.can_meet(permission, n) {
                continue;
            }
            if !others.reach(permission, n - 1, users) {
                return 0;
            }
            if let Some((role, rank)) = others.meeting(permission, n - 1) {
                record[..3].copy_from_slice(&[n as u8, self.requester, role]);
                let group = group(&others.allowed, &others.next_ends, n - 1, rank);
                record[3..].copy_from_slice(&group[..2 * MOST - 2]);
                return 1;
            }
        }
        0
    }
}

/// Leaves no clause to the sets of other roles alone.
fn leave_out(others: u8, masks: &mut Masks) {
    let mut set = others;
    while set != 0 {
        masks[usize::from(set)] = 0;
        set = (set - 1) & others;
    }
}

/// The multisets of roles, and which of them the users who vouch act in, as far as
/// some permission permission.
struct Others<'a> {
    allowed: Allowed<'a>,
    /// For whom the least ends are, if any are made.
    users: Option<u32>,
    next_ends: NextEnds,
    /// The sums of the permission's weights.
    sums: &'a mut [u8],
    /// The sets of roles, whoever acts in them, and up to how many roles.
    sets: &'a mut [u8],
    joined: usize,
    /// The sums and the sets of a level beside an entry.
    sums_beside: [u8; MANY],
    sets_beside: [u8; MANY],
}

impl Others<'_> {
    #[inline(always)]
    fn new<'a>(allowed: Allowed<'a>, sums: &'a mut [u8], sets: &'a mut [u8]) -> Others<'a> {
        Others {
            allowed,
            users: None,
            next_ends: [[NOBODY; 8]; 1 + NOBODY as usize],
            sums,
            sets,
            joined: 0,
            sums_beside: [0; MANY],
            sets_beside: [0; MANY],
        }
    }

    /// The sums and the sets of the multisets of n roles, where those of fewer are
    /// there.
    fn lay(&mut self, permission: &Permission, n: usize) {
        let end = permission.weighed.end;
        add(permission.w, n, end, &self.allowed.places, self.sums);
        if self.joined < n {
            self.joined = n;
            join(n, self.allowed.roles, &self.allowed.places, self.sets);
        }
    }

    /// Some multiset of n roles meets a clause.
    fn can_meet(&self, permission: &Permission, n: usize) -> bool {
        let (end, row) = (permission.weighed.end, permission.rows.row(n));
        let sets = self.allowed.places.level(self.sets, n, end);
        let sums = self.allowed.places.level(self.sums, n, end);
        row != 0 && meeting(permission.masks, row, sets, sums).is_some()
    }

    /// The least ends of multisets of up to n roles for the users who vouch, by the
    /// roles of all; whether there is any of n roles.
    fn reach(&mut self, permission: &Permission, n: usize, roles: &[u8]) -> bool {
        let users = permission.users;
        if self.users != Some(users) {
            self.users = Some(users);
            let own = (0..roles.len()).map(|user| roles[user] * (users >> user & 1) as u8);
            self.next_ends = next_ends_of(own);
            self.allowed.renew(users.count_ones() as usize);
        }
        while self.allowed.known < n && n <= self.allowed.most {
            self.allowed.extend_ends(&self.next_ends);
        }
        n <= self.allowed.most
    }

    /// A role of the requester's, and the rank of n roles that users act in and that
    /// meet a clause beside it.
    fn meeting(&mut self, permission: &Permission, n: usize) -> Option<(u8, usize)> {
        let row = permission.rows.row(n + 1);
        let mut left = permission.roles;
        while left != 0 {
            let role = left.trailing_zeros() as u8;
            let (sums, sets) = self.beside(permission, n, role);
            if let Some(rank) = meeting(permission.masks, row, sets, sums) {
                return Some((role, rank));
            }
            left &= left - 1;
        }
        None
    }

    /// The sums and the sets of multisets of n roles beside an entry in the role; no
    /// sum where nobody acts in them.
    fn beside(&mut self, permission: &Permission, n: usize, role: u8) -> (&[u8], &[u8]) {
        let (places, end) = (&self.allowed.places, permission.weighed.end);
        let own = places.level(self.sets, n, end);
        let sets = &mut self.sets_beside[..own.len()];
        act(own, 1 << role, sets);
        let own = places.level(self.sums, n, end);
        let ends = places.level(self.allowed.ends, n, end);
        let sums = &mut self.sums_beside[..own.len()];
        weigh(own, ends, permission.w[usize::from(role)], sums);
        (sums, sets)
    }
}

/// The sets of the multisets of n roles below d from those of n - 1.
fn join(n: usize, d: usize, places: &Places, sets: &mut [u8]) {
    let (before, sets) = places.step(sets, n);
    for r in 0..d {
        let before = &before[..STARTS[n - 1][r + 1]];
        for (set, before) in sets[STARTS[n][r]..].iter_mut().zip(before) {
            *set = before | 1 << r;
        }
    }
}

/// The sets with a role more.
#[inline(never)]
fn act(sets: &[u8], role: u8, to: &mut [u8]) {
    for (to, set) in to.iter_mut().zip(sets) {
        *to = set | role;
    }
}

/// The sums with a weight more, where there is an end.
#[inline(never)]
fn weigh(sums: &[u8], ends: &[u8], weight: u8, to: &mut [u8]) {
    for ((to, sum), end) in to.iter_mut().zip(sums).zip(ends) {
        // Read in any case, so that many are made at a time.
        let (sum, end) = (sum.wrapping_add(weight), *end);
        *to = if end == NOBODY { NO_SUM } else { sum };
    }
}
