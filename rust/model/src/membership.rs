//! Who holds a role.

use crate::base::Base;
use crate::roles::Role;

impl Base {
    /// Whether the role's code divides the user's parameter (004, definitions
    /// 18 and 19).
    pub fn holds(&self, user: u8, role: Role) -> bool {
        let user = self.users.get(usize::from(user));
        user.is_some_and(|user| user.roles.has(role))
    }
}

#[cfg(test)]
mod tests {
    use crate::roles::RoleSet;
    use crate::samples::small_shop;

    #[test]
    fn a_user_holds_the_roles_of_the_parameter() {
        let mut shop = small_shop();
        shop.users[0].roles = RoleSet::from_parameter(21, 3).unwrap();
        shop.users[1].roles = RoleSet::from_parameter(1, 3).unwrap();
        let held = |user| [0, 1, 2].map(|role| shop.holds(user, role));
        assert_eq!(held(0), [true, false, true]);
        assert_eq!(held(1), [false; 3]);
        assert_eq!(held(2), [false, false, true]);
    }

    #[test]
    fn nobody_beyond_the_table_holds_a_role() {
        assert!(!small_shop().holds(4, 0));
        assert!(!small_shop().holds(255, 2));
    }

    /// The manager is over the buyer, but doesn't hold that role.
    #[test]
    fn the_hierarchy_plays_no_part() {
        let held = |user| [0, 1, 2].map(|role| small_shop().holds(user, role));
        assert_eq!(held(0), [true, false, false]);
        assert_eq!(held(1), [false, true, false]);
    }
}
