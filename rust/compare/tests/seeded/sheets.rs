//! Sheets: mornings that start with an opening, and sheets of any bytes.

use compare::acting::{most_records_down, records_down};
use compare::damage::random_bytes;
use compare::lent::Lent;
use compare::library_context;
use compare::lively::lively_base;
use compare::mornings::{any_signing, any_withdrawal, loose_sheets, morning, Morning};
use compare::questions::at_minute;
use compare::random::Random;
use compare::sheets::{agreed_call, SheetCall};
use model::{Base, Context, Entry, Event, Sheet, Signing};

use crate::seen::{Call, Seen};

/// Bytes of a sheet.
const SHEET: usize = 14;

pub fn compare(seen: &mut Seen) {
    mornings(12_000, |random, morning| {
        compare_morning(seen, random, morning)
    });
    any_sheets(9_000, |random, base, call, sheet| {
        compare_sheet(seen, random, base, call, sheet);
    });
    every_claim(seen);
    every_place(seen);
    loose_bases(seen);
}

/// The first mornings of the comparison.
pub fn mornings(count: usize, mut attempt: impl FnMut(&mut Random, &Morning)) {
    let mut drawn = Random::new(101);
    let mut random = Random::new(102);
    for _ in 0..count {
        attempt(&mut random, &morning(&mut drawn));
    }
}

/// The first sheets of any bytes, fifteen for each base.
pub fn any_sheets(bases: usize, attempt: impl FnMut(&mut Random, &[u8], SheetCall, Sheet)) {
    loose_sheets(103, bases, attempt);
}

fn compare_call(seen: &mut Seen, base: &[u8], call: SheetCall, lent: &mut Lent) -> u8 {
    let before = *lent.sheet();
    let answer = agreed_call(base, call, lent);
    let kinds = [Call::Open, Call::Sign, Call::Withdraw, Call::Ask];
    seen.answer(kinds[call.kind()], answer);
    if let SheetCall::Withdraw { user } = call {
        seen.withdrawn.note(user, &before, answer);
    }
    answer
}

fn compare_sheet(seen: &mut Seen, random: &mut Random, base: &[u8], call: SheetCall, sheet: Sheet) {
    let mut lent = Lent::noisy(random, SHEET);
    *lent.sheet() = sheet;
    compare_call(seen, base, call, &mut lent);
}

/// The base that a call is handed: its bytes, and what they say if they pass.
#[derive(Clone, Copy)]
struct Handed<'a> {
    bytes: &'a [u8],
    base: Option<&'a Base>,
}

/// A sheet on a morning, and what happened to it since it was opened.
struct Course<'a> {
    lent: Lent,
    permission: u8,
    events: Vec<Event<'a>>,
    /// Users whose signatures were taken back.
    withdrawn: Vec<u32>,
}

fn compare_morning(seen: &mut Seen, random: &mut Random, morning: &Morning) {
    let passed = morning.bases.iter().map(|base| Base::read(base).ok());
    let passed: Vec<Option<Base>> = passed.collect();
    let mut course = Course {
        lent: Lent::noisy(random, SHEET),
        permission: 255,
        events: vec![],
        withdrawn: vec![],
    };
    for &(place, call) in &morning.calls {
        let bytes = &morning.bases[place];
        let base = passed[place].as_ref();
        course.compare(seen, Handed { bytes, base }, call);
    }
}

impl<'a> Course<'a> {
    /// After every call the sheet holds exactly the signatures accepted and not
    /// withdrawn since.
    fn compare(&mut self, seen: &mut Seen, handed: Handed<'a>, call: SheetCall) {
        let mut before = self.lent.clone();
        let stood = model::standing(&self.events).len();
        let answer = compare_call(seen, handed.bytes, call, &mut self.lent);
        self.add(handed.base, call);
        let standing = model::standing(&self.events);
        let expected = model::sheet_holding(self.permission, &standing);
        assert_eq!(*self.lent.sheet(), expected, "{call:?}");
        let change = usize::from(answer == 0);
        match call {
            SheetCall::Open { .. } => assert_eq!(answer == 0, self.permission != 255),
            SheetCall::Sign { user, .. } => {
                assert_eq!(standing.len(), stood + change);
                if answer == 0 {
                    self.compare_signed(seen, handed, user, &standing);
                    self.take_back(seen, user, stood, &before);
                }
            }
            SheetCall::Withdraw { user } => {
                assert_eq!(standing.len(), stood - change);
                if answer == 0 {
                    seen.withdrawn.made(user, before.sheet());
                    self.withdrawn.push(user);
                } else if self.withdrawn.contains(&user) {
                    seen.withdrawn.refused_again();
                }
            }
            SheetCall::Ask { at } => self.compare_asked(seen, handed, at, &standing, answer),
        }
    }

    /// Adds the call to what happened since the opening.
    fn add(&mut self, base: Option<&'a Base>, call: SheetCall) {
        match call {
            SheetCall::Open { permission } => {
                self.permission = opened_for(base, permission);
                self.events.clear();
                self.withdrawn.clear();
            }
            SheetCall::Sign { user, role } => {
                self.events.push(Event::Sign(Signing { base, user, role }));
            }
            SheetCall::Withdraw { user } => self.events.push(Event::Withdraw(user)),
            SheetCall::Ask { .. } => (),
        }
    }

    /// The signature accepted stands last.
    fn compare_signed(&self, seen: &mut Seen, handed: Handed, user: u32, standing: &[Entry]) {
        let last = standing.last().expect("a signature was accepted");
        assert_eq!(u32::from(last.user), user);
        let base = handed.base.expect("a refused base takes no signature");
        let records = records_down(base, last.bytes());
        seen.signed(records.expect("whoever signs may act"));
        let user_signed = &base.users[usize::from(last.user)];
        let all_days = [0, 65_535].iter().all(|day| user_signed.comes_on(*day));
        seen.dated.signed_with_days(!all_days);
        if self.withdrawn.contains(&user) {
            seen.withdrawn.signed_again();
        }
    }

    /// The signing is taken back at once, on a copy: every byte is as it was
    /// before it.
    fn take_back(&self, seen: &mut Seen, user: u32, stood: usize, before: &Lent) {
        let mut lent = self.lent.clone();
        assert_eq!(agreed_call(&[], SheetCall::Withdraw { user }, &mut lent), 0);
        assert_eq!(lent.first_difference(before), None);
        seen.withdrawn.taken_back(stood);
    }

    /// The answer is the decision for the signatures standing.
    fn compare_asked(
        &self,
        seen: &mut Seen,
        handed: Handed,
        at: Context,
        standing: &[Entry],
        answer: u8,
    ) {
        let group: Vec<u8> = standing.iter().copied().flat_map(Entry::bytes).collect();
        let (bytes, permission) = (handed.bytes, self.permission.into());
        let decided = release::answers::decide(bytes, permission, library_context(at), &group);
        assert_eq!(u32::from(answer), decided, "{group:?}");
        seen.made(answer, standing.len());
        seen.dated.asked(bytes, at.date, &group, answer);
        if answer == 0 {
            let base = handed.base.expect("a refused base grants nothing");
            let records = most_records_down(base, &group);
            seen.asked(records.expect("whoever is granted may act"));
        }
    }
}

/// The permission asked for, if the base passes and it is there.
fn opened_for(base: Option<&Base>, asked: u32) -> u8 {
    let permissions = base.map_or(0, |base| base.permissions.len() as u32);
    if asked < permissions {
        asked as u8
    } else {
        255
    }
}

/// Sheets with each number of entries that a byte can claim.
fn every_claim(seen: &mut Seen) {
    let mut random = Random::new(105);
    for count in 0..=255 {
        for _ in 0..20 {
            let bytes = lively_base(&mut random, 24).bytes();
            let base = Base::read(&bytes).expect("a lively base passes");
            let last = random.pick(&[3, 8, 24, 255]);
            let mut sheet: Sheet = [0; SHEET].map(|_: u8| random.between(0, last));
            sheet[1] = count;
            let permission = random.below(base.permissions.len()) as u32;
            let calls = [
                SheetCall::Open { permission },
                any_signing(&mut random, &base),
                any_withdrawal(&mut random, &sheet),
                any_withdrawal(&mut random, &sheet),
                SheetCall::Ask { at: at_minute(600) },
            ];
            for call in calls {
                compare_sheet(seen, &mut random, &bytes, call, sheet);
            }
        }
    }
}

/// Withdrawals with each number of entries that a byte can claim, and each way
/// in which a user can stand in some of six.
fn every_place(seen: &mut Seen) {
    let mut random = Random::new(107);
    for count in 0..=255 {
        for places in 0..64_u8 {
            let mut sheet: Sheet = [0; SHEET].map(|_: u8| random.byte());
            let [user, other] = [random.between(0, 127), random.between(128, 255)];
            sheet[1] = count;
            for place in 0..6 {
                let stands = places >> place & 1 == 1;
                sheet[2 + 2 * place] = if stands { user } else { other };
            }
            for user in [user, other, random.byte()] {
                let user = user.into();
                let call = SheetCall::Withdraw { user };
                compare_sheet(seen, &mut random, &[], call, sheet);
            }
        }
    }
}

/// Any bytes for a base.
fn loose_bases(seen: &mut Seen) {
    let mut random = Random::new(106);
    for _ in 0..4_000 {
        let base = random_bytes(&mut random);
        let sheet = [0; SHEET].map(|_: u8| random.byte());
        let number = random.pick(&[0, 1, 255, 256, u32::MAX]);
        let calls = [
            SheetCall::Open { permission: number },
            SheetCall::Sign {
                user: number,
                role: 0,
            },
            SheetCall::Ask { at: at_minute(0) },
        ];
        for call in calls {
            compare_sheet(seen, &mut random, &base, call, sheet);
        }
    }
}
