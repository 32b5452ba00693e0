//! Which role is senior to which.

use crate::base::Base;
use crate::records::Edge;
use crate::roles::{Role, MOST_ROLES};

const ROLES: usize = MOST_ROLES as usize;

/// For each two roles, whether a chain of one or more H records leads from the
/// first to the second.
pub struct Seniority([[bool; ROLES]; ROLES]);

impl Seniority {
    pub fn of(base: &Base) -> Seniority {
        let Seniority(mut leads) = Seniority::direct(base);
        close(&mut leads);
        Seniority(leads)
    }

    /// By chains of one record alone: what a wrong reading takes.
    pub fn direct(base: &Base) -> Seniority {
        let mut leads = [[false; ROLES]; ROLES];
        for edge in &base.hierarchy {
            leads[usize::from(edge.senior)][usize::from(edge.junior)] = true;
        }
        Seniority(leads)
    }

    /// No role that isn't there is senior or junior.
    pub fn is_senior(&self, senior: Role, junior: Role) -> bool {
        let below = self.0.get(usize::from(senior));
        below.is_some_and(|row| row.get(usize::from(junior)) == Some(&true))
    }
}

/// Joins chains at one role after the other (Warshall).
fn close(leads: &mut [[bool; ROLES]; ROLES]) {
    for joint in 0..ROLES {
        let below_joint = leads[joint];
        for from_senior in leads.iter_mut().filter(|row| row[joint]) {
            for (chain, further) in from_senior.iter_mut().zip(below_joint) {
                *chain |= further;
            }
        }
    }
}

/// How many chains lead from one role to another: what the wrong reading
/// counts.
pub fn chains(hierarchy: &[Edge], senior: Role, junior: Role) -> u32 {
    let steps = hierarchy.iter().filter(|edge| edge.senior == senior);
    steps
        .map(|edge| u32::from(edge.junior == junior) + chains(hierarchy, edge.junior, junior))
        .sum()
}

#[cfg(test)]
mod tests {
    use super::*;
    use crate::samples::{edge, empty_base, random_hierarchy, Draws};

    fn base(roles: u8, hierarchy: &[Edge]) -> Base {
        let mut base = empty_base(roles);
        base.hierarchy = hierarchy.to_vec();
        base
    }

    /// The pairs (senior, junior) of a base.
    fn pairs(base: &Base) -> Vec<(Role, Role)> {
        let seniority = Seniority::of(base);
        let all = (0..8).flat_map(|senior| (0..8).map(move |junior| (senior, junior)));
        all.filter(|&(senior, junior)| seniority.is_senior(senior, junior))
            .collect()
    }

    #[test]
    fn without_records_nobody_is_senior() {
        assert_eq!(pairs(&base(8, &[])), []);
    }

    #[test]
    fn a_role_that_is_not_there_is_neither_senior_nor_junior() {
        let records: Vec<Edge> = (0..7).map(|role| edge(role, role + 1)).collect();
        let seniority = Seniority::of(&base(8, &records));
        for (absent, role) in (8..=255).flat_map(|absent| [(absent, 0), (absent, 7)]) {
            assert!(!seniority.is_senior(absent, role) && !seniority.is_senior(role, absent));
            assert!(!seniority.is_senior(absent, absent));
        }
    }

    #[test]
    fn a_chain_counts_as_well_as_a_record() {
        let shop = base(3, &[edge(0, 1), edge(1, 2)]);
        assert_eq!(pairs(&shop), [(0, 1), (0, 2), (1, 2)]);
    }

    #[test]
    fn the_order_of_the_records_does_not_matter() {
        let down = [edge(0, 1), edge(1, 4), edge(4, 7)];
        let up = [edge(4, 7), edge(1, 4), edge(0, 1)];
        assert_eq!(pairs(&base(8, &down)), pairs(&base(8, &up)));
        assert_eq!(pairs(&base(8, &up)).len(), 6);
    }

    #[test]
    fn two_juniors_of_one_senior_are_not_related() {
        let fork = base(3, &[edge(0, 1), edge(0, 2)]);
        assert_eq!(pairs(&fork), [(0, 1), (0, 2)]);
    }

    #[test]
    fn a_chain_of_eight_roles_orders_them_all() {
        let records: Vec<Edge> = (0..7).map(|role| edge(role, role + 1)).collect();
        assert_eq!(pairs(&base(8, &records)).len(), 28);
    }

    #[test]
    fn chains_are_counted_by_records() {
        let diamond = [edge(0, 1), edge(0, 2), edge(1, 3), edge(2, 3)];
        assert_eq!(chains(&diamond, 0, 3), 2);
        assert_eq!(chains(&diamond, 1, 3), 1);
        assert_eq!(chains(&diamond, 1, 2), 0);
        assert_eq!(chains(&[edge(0, 1), edge(0, 1)], 0, 1), 2);
    }

    #[test]
    fn a_role_is_senior_where_some_chain_leads() {
        let mut draws = Draws::new(1);
        for _ in 0..500 {
            let base = base(8, &random_hierarchy(&mut draws, 8));
            let seniority = Seniority::of(&base);
            for (senior, junior) in (0..64).map(|pair| (pair / 8, pair % 8)) {
                let some = chains(&base.hierarchy, senior, junior) > 0;
                assert_eq!(seniority.is_senior(senior, junior), some);
            }
        }
    }
}
