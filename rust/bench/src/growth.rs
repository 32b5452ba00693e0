//! How a report's instructions grow: the base `by numbers` with fewer users,
//! roles, clauses a permission or permissions.

use compare::builder::*;

use crate::cases::Who;
use crate::counting::of_report;
use crate::worst::by_numbers;

pub fn print() {
    println!("{:<24}{:>12}{:>12}", "instructions", "library", "twin");
    for users in [0, 1, 2, 3, 4, 6, 9, 12, 18, 24] {
        let mut base = by_numbers();
        base.users.truncate(users);
        print_line(users, "users", &base);
    }
    for roles in 1..=8 {
        print_line(roles.into(), "roles", &with_roles(roles));
    }
    for clauses in 0..=4 {
        let mut base = by_numbers();
        base.group_clauses.truncate(16 * clauses);
        print_line(clauses, "clauses each", &base);
    }
    for permissions in [1, 2, 4, 8, 12, 16] {
        print_line(
            permissions.into(),
            "permissions",
            &with_permissions(permissions),
        );
    }
}

fn print_line(count: usize, what: &str, base: &BaseBuilder) {
    let base = base.bytes();
    assert_eq!(model::check(&base), 0);
    let [library, twin] = [Who::Library, Who::Twin].map(|who| of_report(&base, who));
    println!("{:<24}{library:>12}{twin:>12}", format!("{count} {what}"));
}

/// The policies of the last roles, for the first ones that there are.
fn with_roles(roles: u8) -> BaseBuilder {
    let mut base = by_numbers();
    let codes = &CODES[..usize::from(roles)];
    for user in &mut base.users {
        let held = codes.iter().filter(|code| user.parameter % **code == 0);
        user.parameter = held.product();
    }
    base.hierarchy.retain(|edge| edge.junior < roles);
    for policy in &mut base.policies {
        policy.role = policy.role.saturating_sub(8 - roles);
    }
    for clause in &mut base.group_clauses {
        clause.conditions[2].2 = 1 << (roles - 1);
    }
    base.exclusions.clear();
    BaseBuilder { roles, ..base }
}

fn with_permissions(permissions: u8) -> BaseBuilder {
    let mut base = by_numbers();
    base.permissions.truncate(permissions.into());
    base.group_clauses
        .retain(|clause| clause.permission < permissions);
    base.policies
        .retain(|policy| policy.permission < permissions);
    base.exclusions.clear();
    base
}

#[cfg(test)]
mod tests {
    use super::*;
    use compare::expect_report;
    use compare::questions::at_minute;

    /// The sum asked for is odd, and all weights are even.
    #[test]
    fn no_group_suffices() {
        for n in 1..=8 {
            expect_report(&with_roles(n).bytes(), at_minute(600), 208, &[0; 16]);
            let numbers = vec![0; n.into()];
            let base = with_permissions(n).bytes();
            expect_report(&base, at_minute(600), 208, &numbers);
        }
    }
}
