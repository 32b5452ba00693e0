//! How many entries a group needs, and who stands in them.

use crate::setups::*;
use compare::builder::*;

#[test]
fn every_number_of_entries() {
    for count in 1..=6 {
        expect_numbers(&alike(6, &[(0, 2, count)]), &[count]);
        expect_numbers(&alike(count.into(), &[(0, 4, count)]), &[count]);
        expect_numbers(&alike(usize::from(count) - 1, &[(0, 4, count)]), &[0]);
    }
}

#[test]
fn six_exactly() {
    let six: Vec<[u8; 2]> = (0..6).map(|user| [user, 0]).collect();
    expect_only_group(&alike(6, &[(0, 2, 6)]), &six);
    expect_only_group(&alike(6, &[(1, 4, 6)]), &six);
    expect_numbers(&alike(24, &[(1, 4, 6)]), &[6]);
    expect_numbers(&alike(24, &[(0, 0, 5), (1, 3, 6)]), &[6]);
}

#[test]
fn seven_are_no_group() {
    expect_numbers(&alike(24, &[(0, 0, 6)]), &[0]);
    expect_numbers(&alike(24, &[(0, 2, 7)]), &[0]);
    expect_numbers(&alike(24, &[(1, 4, 7)]), &[0]);
}

#[test]
fn nobody_is_no_group() {
    expect_numbers(&alike(0, &[(0, 2, 0)]), &[0]);
    expect_numbers(&alike(3, &[(0, 3, 0)]), &[0]);
    expect_numbers(&alike(3, &[(0, 1, 1)]), &[0]);
    expect_numbers(&alike(3, &[(0, 3, 1)]), &[1]);
}

#[test]
fn a_user_with_several_roles_stands_in_one_entry() {
    let two_roles: &[GroupCondition] = &[(2, 2, 2)];
    for (count, k) in [(1, 0), (2, 2), (3, 2)] {
        let base = base_of(&[1, 1, 1], vec![user(&[0, 1, 2]); count], &[two_roles]);
        expect_numbers(&base, &[k]);
    }
}

#[test]
fn six_roles_need_six_users() {
    let all = vec![user(&[0, 1, 2, 3, 4, 5, 6, 7]); 24];
    for different in 0..=6 {
        let base = base_of(&[1; 8], all.clone(), &[&[(2, 2, different)]]);
        expect_numbers(&base, &[different.max(1)]);
        let roles = ((1_u16 << different) - 1) as u8;
        let base = base_of(&[1; 8], all.clone(), &[&[(3, 6, roles)]]);
        expect_numbers(&base, &[different.max(1)]);
    }
    let base = base_of(&[1; 8], all.clone(), &[&[(2, 2, 7)]]);
    expect_numbers(&base, &[0]);
    let base = base_of(&[1; 8], all, &[&[(3, 6, 127)]]);
    expect_numbers(&base, &[0]);
}

/// Who holds both roles takes the one that the other doesn't hold.
#[test]
fn the_roles_have_to_be_shared_out() {
    let both: &[GroupCondition] = &[(3, 6, 0b11)];
    let base = |roles: &[&[u8]]| base_of(&[1, 1], users(roles), &[both]);
    expect_only_group(&base(&[&[0, 1], &[0]]), &[[0, 1], [1, 0]]);
    expect_only_group(&base(&[&[0, 1], &[1]]), &[[0, 0], [1, 1]]);
    expect_only_group(&base(&[&[0], &[0, 1]]), &[[0, 0], [1, 1]]);
    expect_only_group(&base(&[&[1], &[0, 1]]), &[[0, 1], [1, 0]]);
    expect_numbers(&base(&[&[0], &[0]]), &[0]);
    expect_numbers(&base(&[&[0, 1]]), &[0]);
}

#[test]
fn several_in_one_role() {
    let conditions: &[GroupCondition] = &[(0, 2, 3), (2, 4, 1)];
    let base = |roles: &[&[u8]]| base_of(&[2, 3], users(roles), &[conditions]);
    expect_numbers(&base(&[&[0], &[0], &[1], &[1]]), &[0]);
    expect_numbers(&base(&[&[0], &[0], &[1], &[1], &[0, 1]]), &[3]);
    expect_only_group(
        &base(&[&[0], &[1], &[0, 1], &[0]]),
        &[[0, 0], [2, 0], [3, 0]],
    );
}

/// The users of the only group aren't the first ones, in either order.
#[test]
fn later_users() {
    let needed: &[GroupCondition] = &[(3, 6, 0b110)];
    let mut roles: Vec<&[u8]> = vec![&[0]; 24];
    roles[17] = &[2];
    roles[23] = &[1];
    let base = base_of(&[5, 1, 1], users(&roles), &[needed]);
    expect_only_group(&base, &[[17, 2], [23, 1]]);
    roles.reverse();
    let base = base_of(&[5, 1, 1], users(&roles), &[needed]);
    expect_only_group(&base, &[[0, 1], [6, 2]]);
}

#[test]
fn without_users_or_without_their_roles_there_is_no_group() {
    let any: &[GroupCondition] = &[(0, 2, 1)];
    expect_numbers(&base_of(&[1, 1], vec![], &[any]), &[0]);
    expect_numbers(&base_of(&[1, 1], vec![user(&[]); 24], &[any]), &[0]);
    let mut late = vec![user(&[]); 24];
    late[23] = user(&[1]);
    expect_only_group(&base_of(&[1, 1], late, &[any]), &[[23, 1]]);
}
