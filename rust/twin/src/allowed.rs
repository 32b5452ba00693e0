//! Which multisets of roles the users allow, by least ends: a multiset's is
//! the least "one past the last user" of the groups by rising user that act in
//! its roles. It is the same for every permission with the same users, and a level
//! is made when one first asks for it.

use crate::ends::{NextEnds, NOBODY};
use crate::multisets::{Places, STARTS};
use crate::MOST;

/// By role, how far the rank of a multiset with this role more lies behind its
/// own rank.
pub type Ups = [u16; 8];

/// What the users allow, for multisets of roles below `roles`.
pub struct Allowed<'a> {
    pub roles: usize,
    /// Up to how many roles the rest is known.
    pub known: usize,
    /// Up to how many roles the ranks are known, from users before.
    laid: usize,
    /// How many entries a group has at most, as far as known.
    pub most: usize,
    pub places: Places,
    /// The sets of roles; the empty set where no group acts in the roles.
    pub sets: &'a mut [u8],
    /// The least ends.
    pub ends: &'a mut [u8],
    /// The ranks with one role more, for multisets of up to four roles, and
    /// where those of two roles less than next and of one less start.
    ups: &'a mut [Ups],
    before: usize,
    here: usize,
}

impl Allowed<'_> {
    /// Multisets of no role; the bytes hold 0 throughout.
    pub fn new<'a>(
        roles: usize,
        sets: &'a mut [u8],
        ends: &'a mut [u8],
        ups: &'a mut [Ups],
    ) -> Allowed<'a> {
        Allowed {
            roles,
            known: 0,
            laid: 0,
            most: MOST,
            places: Places::new(roles),
            sets,
            ends,
            ups,
            before: 0,
            here: 0,
        }
    }

    /// The least end of a multiset of n roles.
    pub fn end(&self, n: usize, rank: usize) -> u8 {
        self.ends[self.places.place(n, rank)]
    }

    /// Goes on to multisets of one role more.
    #[inline(never)]
    pub fn extend(&mut self, next_ends: &NextEnds) {
        self.known += 1;
        let n = self.known;
        self.grow(n, next_ends);
        if self.tell(n) == 0 {
            self.most = self.most.min(n - 1);
        }
    }

    /// The same without sets.
    #[inline(never)]
    pub fn extend_ends(&mut self, next_ends: &NextEnds) {
        self.known += 1;
        let n = self.known;
        self.grow(n, next_ends);
        let (_, ends) = self.places.step(self.ends, n);
        let least = ends[..STARTS[n][self.roles]]
            .iter()
            .fold(NOBODY, |least, &end| least.min(end));
        if least == NOBODY {
            self.most = self.most.min(n - 1);
        }
    }

    /// For so many other users: the ranks stay.
    pub fn renew(&mut self, users: usize) {
        self.laid = self.laid.max(self.known);
        self.known = 0;
        self.most = users.min(MOST);
    }

    /// The least ends of multisets of n roles.
    fn grow(&mut self, n: usize, next_ends: &NextEnds) {
        let (ends, next) = self.places.step(self.ends, n);
        next.fill(NOBODY);
        if n == 1 {
            self.ups[0] = [0, 1, 2, 3, 4, 5, 6, 7];
            push(&next_ends[0], &self.ups[0], next);
            self.before = 0;
            self.here = 1;
            return;
        }
        let count = STARTS[n - 1][self.roles];
        if n <= self.laid {
            push_all(next_ends, &self.ups[self.here..][..count], ends, next);
            (self.before, self.here) = (self.here, self.here + count);
            return;
        }
        for r in 0..self.roles {
            let (fixed, kept) = steps(n, r);
            let start = STARTS[n - 1][r];
            for j in 0..STARTS[n - 2][r + 1] {
                let i = start + j;
                let less = &self.ups[self.before + j];
                let mut up = [0; 8];
                for q in 0..8 {
                    up[q] = fixed[q] + (less[q] & kept[q]);
                }
                if n <= 5 {
                    self.ups[self.here + i] = up;
                }
                if ends[i] != NOBODY {
                    push(&next_ends[usize::from(ends[i])], &up, &mut next[i..]);
                }
            }
        }
        (self.before, self.here) = (self.here, self.here + count);
    }

    /// The sets of multisets of n roles, and the roles in any of them.
    fn tell(&mut self, n: usize) -> u8 {
        let mut some = 0;
        let (sets, next_sets) = self.places.step(self.sets, n);
        let (_, ends) = self.places.step(self.ends, n);
        for r in 0..self.roles {
            let sets = &sets[..STARTS[n - 1][r + 1]];
            let here = STARTS[n][r]..STARTS[n][r] + sets.len();
            let told = next_sets[here.clone()].iter_mut().zip(&ends[here]);
            for ((next, end), set) in told.zip(sets) {
                *next = if *end == NOBODY { 0 } else { set | 1 << r };
                some |= *next;
            }
        }
        some
    }
}

/// One entry more in each role, for each multiset that some group acts in, by
/// ranks that are there.
#[inline(never)]
fn push_all(next_ends: &NextEnds, ups: &[Ups], ends: &[u8], next: &mut [u8]) {
    for (i, (up, &end)) in ups.iter().zip(ends).enumerate() {
        if end != NOBODY {
            push(&next_ends[usize::from(end)], up, &mut next[i..]);
        }
    }
}

/// For a multiset of n - 1 roles whose largest is r: a role more of r or above
/// becomes the largest; one below goes into what the multiset is without one
/// r, which lies as far behind as there and as the blocks of r do.
fn steps(n: usize, r: usize) -> (Ups, Ups) {
    let (mut fixed, mut kept) = ([0; 8], [0; 8]);
    for q in 0..8 {
        fixed[q] = if q < r {
            kept[q] = u16::MAX;
            (STARTS[n][r] - STARTS[n - 1][r]) as u16
        } else {
            STARTS[n][q] as u16
        };
    }
    (fixed, kept)
}

/// One entry more in each role, by the roles' next ends: keeps the smaller
/// ends.
#[inline(never)]
fn push(ends: &[u8; 8], up: &Ups, next: &mut [u8]) {
    for (&end, &up) in ends.iter().zip(up) {
        // Roles that aren't there may lead beyond; nobody acts in them.
        if let Some(here) = next.get_mut(usize::from(up)) {
            if end < *here {
                *here = end;
            }
        }
    }
}
