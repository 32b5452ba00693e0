//! What a list of signings and withdrawals on a new sheet comes to, in the
//! requests' words and apart from how calls change a sheet.

use crate::base::Base;
use crate::group::Entry;

/// A signing against a base, or against none if the base doesn't pass.
#[derive(Clone, Copy)]
pub struct Signing<'a> {
    pub base: Option<&'a Base>,
    pub user: u32,
    pub role: u32,
}

impl Signing<'_> {
    /// The entry, if it is accepted behind these: the base passes, the user
    /// and the role are there, the user isn't among these and may act in the
    /// role, and these are fewer than six.
    fn behind(&self, standing: &[Entry]) -> Option<Entry> {
        let base = self.base?;
        let user = (0..base.users.len() as u8).find(|user| u32::from(*user) == self.user)?;
        let role = (0..base.roles).find(|role| u32::from(*role) == self.role)?;
        let is_new = standing.iter().all(|entry| entry.user != user);
        let room = standing.len() < 6;
        (is_new && base.may_act(user, role) && room).then_some(Entry { user, role })
    }
}

/// The accepted ones of a list of signings on a new sheet, in order, where
/// nobody withdraws.
pub fn accepted(signings: &[Signing]) -> Vec<Entry> {
    let mut accepted = Vec::new();
    for signing in signings {
        accepted.extend(signing.behind(&accepted));
    }
    accepted
}

/// What may happen to a sheet between its opening and the next.
#[derive(Clone, Copy)]
pub enum Event<'a> {
    Sign(Signing<'a>),
    /// The user with this number takes a signature back.
    Withdraw(u32),
}

/// An accepted signature, and its place in the list of events.
struct Accepted {
    place: usize,
    entry: Entry,
}

impl Accepted {
    /// Whether its user withdraws at a later place.
    fn withdrawn_since(&self, events: &[Event]) -> bool {
        events[self.place + 1..].iter().any(|event| match event {
            Event::Withdraw(user) => *user == u32::from(self.entry.user),
            Event::Sign(_) => false,
        })
    }
}

/// Each accepted signature not withdrawn since, after a list of events on a new
/// sheet, in order of acceptance. A signing is judged by those standing then.
pub fn standing(events: &[Event]) -> Vec<Entry> {
    let mut accepted = Vec::new();
    for (place, event) in events.iter().enumerate() {
        if let Event::Sign(signing) = event {
            let before = not_withdrawn(&accepted, &events[..place]);
            let entry = signing.behind(&before);
            accepted.extend(entry.map(|entry| Accepted { place, entry }));
        }
    }
    not_withdrawn(&accepted, events)
}

/// Those of the signatures accepted in these events that aren't withdrawn since.
fn not_withdrawn(accepted: &[Accepted], events: &[Event]) -> Vec<Entry> {
    let standing = accepted.iter();
    let standing = standing.filter(|signature| !signature.withdrawn_since(events));
    standing.map(|signature| signature.entry).collect()
}

#[cfg(test)]
mod tests {
    use super::*;
    use crate::reading::Reading;
    use crate::samples::{eight_ranked_users, eight_users, small_shop, Draws};
    use crate::sheet::{sheet_holding, sheet_sign_as, sheet_withdraw_as, Sheet};

    fn signing(base: Option<&Base>, user: u32, role: u32) -> Signing<'_> {
        Signing { base, user, role }
    }

    fn bytes(entries: &[Entry]) -> Vec<[u8; 2]> {
        entries.iter().map(|entry| entry.bytes()).collect()
    }

    #[test]
    fn signings_are_accepted_in_order() {
        let shop = small_shop();
        let list = [(3, 2), (0, 0), (2, 2)];
        let list = list.map(|(user, role)| signing(Some(&shop), user, role));
        assert_eq!(bytes(&accepted(&list)), [[3, 2], [0, 0], [2, 2]]);
        assert_eq!(accepted(&[]), []);
    }

    #[test]
    fn a_signing_needs_all_that_the_request_names() {
        let shop = small_shop();
        let first = signing(Some(&shop), 0, 0);
        let behind_it = |signing| bytes(&accepted(&[first, signing])).len() - 1;
        assert_eq!(behind_it(signing(Some(&shop), 2, 2)), 1);
        assert_eq!(behind_it(signing(None, 2, 2)), 0);
        for (user, role) in [(4, 2), (256, 0), (258, 2), (2, 3), (2, 258), (u32::MAX, 2)] {
            assert_eq!(behind_it(signing(Some(&shop), user, role)), 0);
        }
        for (user, role) in [(0, 0), (0, 2), (2, 1)] {
            assert_eq!(behind_it(signing(Some(&shop), user, role)), 0);
        }
    }

    #[test]
    fn six_are_accepted_and_no_more() {
        let base = Base::read(&eight_users([3; 8])).expect("the base passes");
        let list: Vec<Signing> = (0..8).map(|user| signing(Some(&base), user, 0)).collect();
        let users: Vec<u8> = accepted(&list).iter().map(|entry| entry.user).collect();
        assert_eq!(users, [0, 1, 2, 3, 4, 5]);
    }

    /// A refused signing stands in nobody's way.
    #[test]
    fn a_user_who_was_refused_may_sign_again() {
        let shop = small_shop();
        let list = [(2, 1), (2, 2), (2, 2)];
        let list = list.map(|(user, role)| signing(Some(&shop), user, role));
        assert_eq!(bytes(&accepted(&list)), [[2, 2]]);
    }

    #[test]
    fn a_signing_in_a_junior_role_is_accepted() {
        let shop = small_shop();
        let list = [(1, 2), (1, 1), (2, 1), (0, 1), (0, 0)];
        let list = list.map(|(user, role)| signing(Some(&shop), user, role));
        assert_eq!(bytes(&accepted(&list)), [[1, 2], [0, 1]]);
    }

    fn sign(base: &Base, user: u32, role: u32) -> Event<'_> {
        Event::Sign(signing(Some(base), user, role))
    }

    #[test]
    fn a_signature_withdrawn_since_does_not_stand() {
        let shop = small_shop();
        let list = [
            sign(&shop, 3, 2),
            sign(&shop, 0, 0),
            sign(&shop, 2, 2),
            Event::Withdraw(0),
        ];
        assert_eq!(bytes(&standing(&list[..3])), [[3, 2], [0, 0], [2, 2]]);
        assert_eq!(bytes(&standing(&list)), [[3, 2], [2, 2]]);
    }

    #[test]
    fn a_withdrawal_takes_back_nothing_that_is_signed_later() {
        let shop = small_shop();
        let early = [Event::Withdraw(2), sign(&shop, 2, 2)];
        assert_eq!(bytes(&standing(&early)), [[2, 2]]);
        assert_eq!(standing(&early[..1]), []);
    }

    #[test]
    fn a_withdrawal_is_of_its_user_alone() {
        let shop = small_shop();
        for user in [1, 2, 4, 255, 256, 65_536, u32::MAX] {
            let list = [sign(&shop, 0, 2), Event::Withdraw(user)];
            assert_eq!(bytes(&standing(&list)), [[0, 2]]);
        }
    }

    #[test]
    fn who_signs_again_stands_last_and_in_the_new_role() {
        let shop = small_shop();
        let list = [
            sign(&shop, 0, 0),
            sign(&shop, 2, 2),
            Event::Withdraw(0),
            sign(&shop, 0, 1),
            Event::Withdraw(2),
            Event::Withdraw(0),
        ];
        assert_eq!(bytes(&standing(&list[..4])), [[2, 2], [0, 1]]);
        assert_eq!(bytes(&standing(&list[..5])), [[0, 1]]);
        assert_eq!(standing(&list), []);
    }

    /// The second was refused, as the user had signed, and stays so.
    #[test]
    fn a_refused_signing_does_not_come_to_stand() {
        let shop = small_shop();
        let list = [sign(&shop, 0, 0), sign(&shop, 0, 1), Event::Withdraw(0)];
        assert_eq!(bytes(&standing(&list[..2])), [[0, 0]]);
        assert_eq!(standing(&list), []);
    }

    /// User 6 is refused by a full sheet, and accepted when one has withdrawn.
    #[test]
    fn a_withdrawal_makes_room() {
        let base = Base::read(&eight_users([3; 8])).expect("the base passes");
        let mut list: Vec<Event> = (0..7).map(|user| sign(&base, user, 0)).collect();
        list.extend([Event::Withdraw(3), sign(&base, 6, 0), sign(&base, 7, 0)]);
        let users: Vec<u8> = standing(&list).iter().map(|entry| entry.user).collect();
        assert_eq!(users, [0, 1, 2, 4, 5, 6]);
    }

    /// A base of eight users with any roles and any H records, at times one
    /// that doesn't pass.
    fn any_base(draws: &mut Draws) -> Vec<u8> {
        let parameters = [1, 3, 5, 7, 15, 21, 35, 105, 105, 105];
        let parameters = [0; 8].map(|_: u32| parameters[draws.below(10)]);
        let first = draws.below(4);
        let records = &[[0, 2], [0, 1], [1, 2]][first..];
        let mut base = eight_ranked_users(records, parameters);
        if draws.below(10) == 0 {
            base.pop();
        }
        base
    }

    /// A signing against a base, or a withdrawal, each by any user.
    fn any_event<'a>(draws: &mut Draws, base: Option<&'a Base>, withdrawals: bool) -> Event<'a> {
        let user = draws.below(9) as u32 + [0, 0, 0, 256][draws.below(4)];
        let role = draws.below(4) as u32;
        if withdrawals && draws.below(3) == 0 {
            Event::Withdraw(user)
        } else {
            Event::Sign(signing(base, user, role))
        }
    }

    /// Makes the event a call on a sheet, by a reading.
    fn call(reading: Reading, base: &[u8], event: Event, sheet: &mut Sheet) -> u8 {
        match event {
            Event::Sign(Signing { user, role, .. }) => {
                sheet_sign_as(reading, base, user, role, sheet)
            }
            Event::Withdraw(user) => sheet_withdraw_as(reading, user, sheet),
        }
    }

    /// Makes lists of events calls on sheets, by a reading, and hands on each
    /// list so far, its last answer, and whether the sheet is that of the
    /// signatures standing.
    fn try_lists(reading: Reading, withdrawals: bool, mut attempt: impl FnMut(&[Event], u8, bool)) {
        let mut draws = Draws::new(8);
        for _ in 0..300 {
            let permission = draws.byte(0, 1);
            let mut sheet = sheet_holding(permission, &[]);
            let bases = [(); 3].map(|_| any_base(&mut draws));
            let read = bases.each_ref().map(|base| Base::read(base).ok());
            let mut list = Vec::new();
            for _ in 0..30 {
                let base = draws.below(3);
                let event = any_event(&mut draws, read[base].as_ref(), withdrawals);
                let answer = call(reading, &bases[base], event, &mut sheet);
                list.push(event);
                let expected = sheet_holding(permission, &standing(&list));
                attempt(&list, answer, sheet == expected);
            }
        }
    }

    /// How many lists leave another sheet than that of the signatures standing.
    fn disagreements(reading: Reading, withdrawals: bool) -> usize {
        let mut found = 0;
        try_lists(reading, withdrawals, |_, _, agrees| {
            found += usize::from(!agrees);
        });
        found
    }

    #[test]
    fn a_sheet_holds_exactly_the_accepted_ones_after_every_list() {
        let mut full = 0;
        try_lists(Reading::Paper, false, |list, _, agrees| {
            assert!(agrees);
            full += usize::from(standing(list).len() == 6);
        });
        assert!(full > 200, "{full} lists fill a sheet");
    }

    #[test]
    fn a_sheet_holds_exactly_those_not_withdrawn_since_after_every_list() {
        let (mut full, mut withdrawn, mut refused) = (0, 0, 0);
        try_lists(Reading::Paper, true, |list, answer, agrees| {
            assert!(agrees);
            full += usize::from(standing(list).len() == 6);
            if let Some(Event::Withdraw(_)) = list.last() {
                withdrawn += usize::from(answer == 0);
                refused += usize::from(answer == 23);
            }
        });
        let found = [full, withdrawn, refused];
        assert!(found.iter().all(|&times| times > 100), "{found:?}");
    }

    #[test]
    fn where_nobody_withdraws_the_accepted_ones_stand() {
        let mut most = 0;
        try_lists(Reading::Paper, false, |list, _, _| {
            let signings = list.iter().filter_map(|event| match event {
                Event::Sign(signing) => Some(*signing),
                Event::Withdraw(_) => None,
            });
            let accepted = accepted(&signings.collect::<Vec<_>>());
            assert_eq!(standing(list), accepted);
            most = most.max(accepted.len());
        });
        assert_eq!(most, 6);
    }

    #[test]
    fn wrong_readings_of_signing_hold_others() {
        let of_sheets = [Reading::AnotherRole, Reading::PermissionAtSigning];
        let of_acting = [
            Reading::HeldAlone,
            Reading::DirectJuniors,
            Reading::SeniorsToo,
        ];
        for reading in of_sheets.into_iter().chain(of_acting) {
            let found = disagreements(reading, false);
            assert!(found > 100, "{reading:?}: {found} lists");
        }
    }

    /// One of them shows only where a user stands twice, and no call makes such
    /// a sheet.
    #[test]
    fn wrong_readings_of_withdrawal_hold_others() {
        for reading in Reading::WRONG_OF_WITHDRAWAL {
            let found = disagreements(reading, true);
            match reading {
                Reading::FirstEntryAlone => assert_eq!(found, 0),
                _ => assert!(found > 100, "{reading:?}: {found} lists"),
            }
        }
    }
}
