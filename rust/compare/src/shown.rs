//! The records of a report, and what has to hold of them.

use model::{Context, Reading};

use crate::calls::Report;
use crate::questions::Asked;

/// Bytes of a permission's record: k and six entries.
pub const RECORD: usize = 13;

/// In bytes of a record that are left.
const LEFT: u8 = 255;

/// The number k of each record.
pub fn numbers(records: &[u8]) -> Vec<u8> {
    let records = records.chunks_exact(RECORD);
    records.map(|record| record[0]).collect()
}

/// What is wrong with the first of these records, in the order of permissions,
/// that has a fault. `smallest` has each permission's smallest number.
pub fn fault(
    base: &[u8],
    at: Context,
    report: Report,
    records: &[u8],
    smallest: &[u8],
) -> Option<String> {
    let records = records.chunks_exact(RECORD).zip(smallest);
    let mut faults = (0..).zip(records).filter_map(|(permission, (record, k))| {
        let fault = record_fault(base, at, report, permission, record, *k)?;
        Some(format!("permission {permission}, {record:?}: {fault}"))
    });
    faults.next()
}

/// Which smallest group is shown is free. It has to be granted by the report's
/// decision, and stands by rising user, behind the requester if there is one.
fn record_fault(
    base: &[u8],
    at: Context,
    report: Report,
    permission: u32,
    record: &[u8],
    smallest: u8,
) -> Option<&'static str> {
    if record[0] != smallest {
        return Some("k isn't the smallest number");
    }
    let (group, left) = record[1..].split_at(2 * usize::from(smallest));
    if left.iter().any(|byte| *byte != LEFT) {
        return Some("a byte that is left isn't 255");
    }
    if !report.is_in_order(group) {
        return Some("the users don't stand in order");
    }
    let asked = Asked {
        permission,
        at,
        group: group.to_vec(),
    };
    let decision = report.decision();
    if smallest > 0 && decision.by_model(Reading::Paper, base, &asked) != 0 {
        return Some("the model doesn't grant the group");
    }
    if smallest > 0 && decision.by_library(base, &asked) != 0 {
        return Some("the library doesn't grant the group");
    }
    None
}

#[cfg(test)]
mod tests {
    use super::*;
    use crate::questions::at_minute;
    use crate::shop::small_shop;

    /// The fault of a record of the small shop's permission, whose smallest
    /// number is 2. By day the roles weigh 5, 2 and 1.
    fn fault_of(start: &[u8], left: u8) -> Option<&'static str> {
        let mut record = [left; RECORD];
        record[..start.len()].copy_from_slice(start);
        let (base, at) = (small_shop().bytes(), at_minute(600));
        record_fault(&base, at, Report::By(None), 0, &record, 2)
    }

    #[test]
    fn every_smallest_group_by_rising_user_will_do() {
        for group in [[0, 0, 1, 1], [0, 0, 1, 2], [0, 0, 2, 2], [0, 0, 3, 2]] {
            let start = [&[2], &group[..]].concat();
            assert_eq!(fault_of(&start, 255), None);
        }
    }

    #[test]
    fn another_number_is_a_fault() {
        for start in [&[0][..], &[1, 0, 0], &[3, 0, 0, 2, 2, 3, 2]] {
            assert_eq!(fault_of(start, 255), Some("k isn't the smallest number"));
        }
    }

    #[test]
    fn users_that_do_not_rise_are_a_fault() {
        for start in [[2, 2, 2, 0, 0], [2, 0, 0, 0, 0]] {
            assert_eq!(
                fault_of(&start, 255),
                Some("the users don't stand in order")
            );
        }
    }

    #[test]
    fn a_group_that_is_not_granted_is_a_fault() {
        for start in [[2, 1, 1, 2, 2], [2, 0, 0, 2, 1], [2, 0, 0, 4, 2]] {
            let fault = fault_of(&start, 255);
            assert_eq!(fault, Some("the model doesn't grant the group"));
        }
    }

    /// The buyer's policy made a second one of the manager, from a later day on:
    /// by rule 0 the manager weighs 2, the other roles 1.
    #[test]
    fn a_group_that_is_not_granted_by_the_list_is_a_fault() {
        let mut shop = small_shop();
        (shop.policies[1].role, shop.policies[1].issue_day) = (0, 1);
        let mut record = [255; RECORD];
        record[..5].copy_from_slice(&[2, 0, 0, 2, 2]);
        let base = shop.bytes();
        let fault_by = |list| record_fault(&base, at_minute(600), Report::By(list), 0, &record, 2);
        assert_eq!([None, Some(&[1][..])].map(fault_by), [None; 2]);
        let refused = Some("the model doesn't grant the group");
        assert_eq!(fault_by(Some(&[0])), refused);
        assert_eq!(fault_by(Some(&[])), refused);
    }

    #[test]
    fn a_byte_left_that_is_not_255_is_a_fault() {
        let start = [2, 0, 0, 2, 2];
        for left in [0, 254] {
            let fault = fault_of(&start, left);
            assert_eq!(fault, Some("a byte that is left isn't 255"));
        }
        let almost = [2, 0, 0, 2, 2, 255, 255, 255, 255, 255, 255, 255, 3];
        assert!(fault_of(&almost, 255).is_some());
    }

    #[test]
    fn the_first_record_with_a_fault_is_named() {
        let records = [[0; RECORD], [255; RECORD]].concat();
        let base = small_shop().bytes();
        let fault = fault(&base, at_minute(600), Report::By(None), &records, &[0, 0]);
        let fault = fault.expect("a fault");
        assert!(fault.starts_with("permission 0, [0, 0,"), "{fault}");
        assert_eq!(numbers(&records), [0, 255]);
    }
}
