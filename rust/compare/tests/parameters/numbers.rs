//! Every number up to 100,000 for every number of roles.

use crate::setups::all_products;
use compare::parameters::Checked;
use model::Reading;

const LAST: u32 = 100_000;

/// How many numbers pass where there are so many roles.
fn passed(roles: u32) -> usize {
    let numbers = (0..=LAST).filter(|&parameter| {
        let checked = Checked { parameter, roles };
        let by_model = checked.by_model(Reading::Paper);
        assert_eq!(checked.by_library(), by_model, "{checked:?}");
        assert_eq!(checked.by_twin(), by_model, "{checked:?}");
        by_model.0 == 0
    });
    numbers.count()
}

/// Of R roles there are 2 to the power of R products.
#[test]
fn every_number_is_checked_alike() {
    for roles in 0..=8 {
        let products = all_products().take(1 << roles);
        let expected = products.filter(|product| *product <= LAST).count();
        assert_eq!(passed(roles), expected, "{roles}");
    }
}

/// By the library alone: the parameter lies at the start of a base of one user.
#[test]
fn the_base_check_refuses_the_same_numbers() {
    for roles in 1..=8 {
        let checked = |parameter| Checked { parameter, roles };
        let mut base = checked(0).base_of_one().expect("a base has 1 to 8 roles");
        for parameter in 0..=LAST {
            base[..4].copy_from_slice(&parameter.to_le_bytes());
            let (refusal, _) = checked(parameter).by_library();
            assert_eq!(release::answers::check(&base), refusal, "{parameter}");
        }
    }
}
