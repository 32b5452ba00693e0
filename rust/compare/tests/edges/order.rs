//! The order of refusals: each check runs over all records before the next,
//! so a bad last record of one table beats a bad first record of a later one.

use compare::builder::*;
use compare::expect_check;

/// A base with two sound records in each table.
fn sound() -> BaseBuilder {
    let edge = Edge {
        senior: 0,
        junior: 1,
    };
    let exclusion = Exclusion {
        kind: 0,
        a: 0,
        b: 1,
    };
    BaseBuilder {
        hierarchy: vec![edge; 2],
        users: vec![User::always(15); 2],
        group_clauses: vec![GroupClause::new(0, &[(0, 2, 2)]); 2],
        context_clauses: vec![ContextClause::new(0, &[(0, 2, 540)]); 2],
        policies: vec![Policy::new(0, 0, 1, 0, NO_CONTEXT); 2],
        exclusions: vec![exclusion; 2],
        ..BaseBuilder::new(3).with_permissions(2)
    }
}

#[test]
fn the_sound_base_passes() {
    expect_check(&sound().bytes(), 0);
}

#[test]
fn a_bad_trailer_beats_a_bad_first_edge() {
    let mut base = sound();
    base.hierarchy[0].junior = 3;
    expect_check(&base.bytes(), 4);
    expect_check(&base.bytes_with(|trailer| trailer.zeros[2] = 1), 3);
}

#[test]
fn bad_letters_beat_a_bad_first_edge() {
    let mut base = sound();
    base.hierarchy[0].junior = 3;
    expect_check(&base.bytes_with(|trailer| trailer.letters[3] = 0), 2);
}

#[test]
fn a_bad_last_edge_beats_a_bad_first_user() {
    let mut base = sound();
    base.users[0].parameter = 0;
    expect_check(&base.bytes(), 5);
    base.hierarchy[1].junior = 3;
    expect_check(&base.bytes(), 4);
}

#[test]
fn a_bad_last_user_beats_a_bad_first_group_clause() {
    let mut base = sound();
    base.group_clauses[0].count = 0;
    expect_check(&base.bytes(), 6);
    base.users[1].parameter = 9;
    expect_check(&base.bytes(), 5);
}

#[test]
fn a_bad_last_edge_beats_turned_days_of_the_first_user() {
    let mut base = sound();
    base.users[0].set_days(300, 299);
    expect_check(&base.bytes(), 5);
    base.hierarchy[1].junior = 3;
    expect_check(&base.bytes(), 4);
    expect_check(&base.bytes_with(|trailer| trailer.zeros[0] = 1), 3);
    expect_check(&base.bytes_with(|trailer| trailer.letters = OLD_LETTERS), 2);
}

#[test]
fn turned_days_of_the_last_user_beat_a_bad_first_group_clause() {
    let mut base = sound();
    base.group_clauses[0].count = 0;
    expect_check(&base.bytes(), 6);
    base.users[1].set_days(1, 0);
    expect_check(&base.bytes(), 5);
}

#[test]
fn a_bad_last_group_clause_beats_a_bad_first_context_clause() {
    let mut base = sound();
    base.context_clauses[0].context = 16;
    expect_check(&base.bytes(), 7);
    base.group_clauses[1].permission = 2;
    expect_check(&base.bytes(), 6);
}

#[test]
fn a_bad_last_context_clause_beats_a_bad_first_policy() {
    let mut base = sound();
    base.policies[0].weight = 0;
    expect_check(&base.bytes(), 8);
    base.context_clauses[1].zeros[1] = 1;
    expect_check(&base.bytes(), 7);
}

#[test]
fn a_bad_last_policy_beats_a_bad_first_exclusion() {
    let mut base = sound();
    base.exclusions[0].kind = 2;
    expect_check(&base.bytes(), 9);
    base.policies[1].context = 16;
    expect_check(&base.bytes(), 8);
}

#[test]
fn with_every_table_bad_the_hierarchy_is_named() {
    let mut base = sound();
    base.hierarchy[1].senior = 1;
    base.users[0].parameter = 0;
    base.group_clauses[0].count = 5;
    base.context_clauses[0].count = 4;
    base.policies[0].role = 3;
    base.exclusions[0].a = 1;
    expect_check(&base.bytes(), 4);
}

/// Nine roles would make the junior sound, but the trailer comes first.
#[test]
fn too_many_roles_beat_every_record() {
    let mut base = sound();
    base.roles = 9;
    base.hierarchy[0].junior = 8;
    expect_check(&base.bytes(), 3);
}

/// With one role left, each table that names roles is bad; H comes first.
#[test]
fn a_lower_number_of_roles_shows_in_the_hierarchy_first() {
    let mut base = sound();
    base.roles = 1;
    expect_check(&base.bytes(), 4);
    base.hierarchy.clear();
    expect_check(&base.bytes(), 5);
    base.users.clear();
    expect_check(&base.bytes(), 9);
}
