//! Roles, their identity codes and sets of roles.

/// A role's number, below R.
pub type Role = u8;

/// The identity codes of roles 0 to 7.
const CODES: [u32; 8] = [3, 5, 7, 11, 13, 17, 19, 23];

/// The largest R.
pub const MOST_ROLES: u8 = CODES.len() as u8;

/// A set of roles, bit r for role r.
#[derive(Clone, Copy, Debug, Default, PartialEq, Eq, Hash)]
pub struct RoleSet(u8);

impl RoleSet {
    /// The set with these bits, if none is at R or above.
    pub fn from_bits(bits: u8, roles: u8) -> Option<RoleSet> {
        let set = RoleSet(bits);
        let all_there = set.roles().all(|role| role < roles);
        all_there.then_some(set)
    }

    /// The set of roles below R with this role assignment parameter.
    pub fn from_parameter(parameter: u32, roles: u8) -> Option<RoleSet> {
        (0..=u8::MAX)
            .filter_map(|bits| RoleSet::from_bits(bits, roles))
            .find(|set| set.parameter() == parameter)
    }

    /// The role assignment parameter: the product of the roles' codes.
    pub fn parameter(self) -> u32 {
        self.roles().map(|role| CODES[usize::from(role)]).product()
    }

    pub fn has(self, role: Role) -> bool {
        role < MOST_ROLES && self.0 & (1 << role) != 0
    }

    pub fn contains(self, other: RoleSet) -> bool {
        other.roles().all(|role| self.has(role))
    }

    /// The set with this role in it.
    pub fn with(self, role: Role) -> RoleSet {
        RoleSet(self.0 | 1 << role)
    }

    /// The roles in the set, rising.
    pub fn roles(self) -> impl Iterator<Item = Role> {
        (0..MOST_ROLES).filter(move |&role| self.has(role))
    }
}

#[cfg(test)]
mod tests {
    use super::*;

    #[test]
    fn the_empty_set_has_parameter_1() {
        assert_eq!(RoleSet(0).parameter(), 1);
    }

    #[test]
    fn all_eight_roles_have_the_largest_parameter() {
        assert_eq!(RoleSet(255).parameter(), 111_546_435);
        assert_eq!(
            RoleSet::from_parameter(111_546_435, 8),
            Some(RoleSet(0b1111_1111))
        );
        assert_eq!(RoleSet::from_parameter(111_546_435, 7), None);
    }

    #[test]
    fn no_two_sets_share_a_parameter() {
        for bits in 0..=255 {
            let parameter = RoleSet(bits).parameter();
            assert_eq!(RoleSet::from_parameter(parameter, 8), Some(RoleSet(bits)));
        }
    }

    #[test]
    fn three_roles_have_eight_parameters() {
        let found: Vec<u32> = (0..2000)
            .filter(|&parameter| RoleSet::from_parameter(parameter, 3).is_some())
            .collect();
        assert_eq!(found, [1, 3, 5, 7, 15, 21, 35, 105]);
    }

    #[test]
    fn one_role_has_two_parameters() {
        let found: Vec<u32> = (0..2000)
            .filter(|&parameter| RoleSet::from_parameter(parameter, 1).is_some())
            .collect();
        assert_eq!(found, [1, 3]);
    }

    #[test]
    fn zero_and_the_largest_number_are_no_parameters() {
        assert_eq!(RoleSet::from_parameter(0, 8), None);
        assert_eq!(RoleSet::from_parameter(u32::MAX, 8), None);
    }

    #[test]
    fn a_set_has_no_bit_at_the_number_of_roles_or_above() {
        assert_eq!(RoleSet::from_bits(0b000, 3), Some(RoleSet(0)));
        assert_eq!(RoleSet::from_bits(0b111, 3), Some(RoleSet(7)));
        assert_eq!(RoleSet::from_bits(0b1000, 3), None);
        assert_eq!(RoleSet::from_bits(0b1000_0000, 7), None);
        assert_eq!(RoleSet::from_bits(0b1000_0000, 8), Some(RoleSet(128)));
    }
    #[test]
    fn a_role_is_in_the_set_once() {
        let set = RoleSet::default().with(2).with(0).with(2);
        assert_eq!(set, RoleSet(0b101));
        assert_eq!(set.roles().count(), 2);
        assert!(set.has(2) && !set.has(1));
        assert!(!RoleSet(255).has(8) && !RoleSet(255).has(255));
    }

    #[test]
    fn a_set_contains_each_of_its_parts() {
        let set = RoleSet(0b101);
        let contained = [0b000, 0b001, 0b100, 0b101].map(RoleSet);
        assert!(contained.iter().all(|&part| set.contains(part)));
        assert!(!set.contains(RoleSet(0b010)) && !set.contains(RoleSet(0b111)));
        assert!(RoleSet(0).contains(RoleSet(0)));
    }
}
