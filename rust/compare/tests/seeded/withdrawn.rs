//! Where users stood who withdrew, why others were refused, and who signed again
//! or took a signing back at once.

use compare::tally::Tally;
use compare::withdrawn::{claim, place, Absence, Claim, Place};
use model::Sheet;

const PLACES: [(Place, &str); 5] = [
    (Place::Only, "the only entry"),
    (Place::First, "the first entry"),
    (Place::Middle, "one in the middle"),
    (Place::Last, "the last entry"),
    (Place::Several, "two entries or more"),
];

const CLAIMS: [(Claim, &str); 3] = [
    (Claim::BelowSix, "below six claimed"),
    (Claim::Six, "six claimed"),
    (Claim::OverSix, "over six claimed"),
];

const ABSENCES: [(Absence, &str); 4] = [
    (Absence::AboveBytes, "a number above 255"),
    (Absence::Behind, "behind those held"),
    (Absence::RoleAlone, "the number of a role"),
    (Absence::Nowhere, "nowhere"),
];

/// Numbers of signatures on a sheet that one more was taken back from.
const SIGNATURES: &[u8] = &[0, 1, 2, 3, 4, 5];

/// Where users stood, by what the sheet claims.
#[derive(Default)]
struct Places([Tally<5>; 3]);

impl Places {
    fn add(&mut self, place: Place, claim: Claim) {
        self.0[claim as usize].add(place as u8);
    }

    /// A line for each that came up.
    fn lines(&self, sheets: &str) -> Vec<String> {
        let mut lines = Vec::new();
        for (claim, of) in CLAIMS {
            for (place, name) in PLACES {
                let seen = self.0[claim as usize].seen(place as u8);
                if seen > 0 {
                    lines.push(format!("withdrawn, {sheets}, {of}: {name} {seen} times"));
                }
            }
        }
        lines
    }

    /// Asserts that these places came up with each claim, and no others.
    fn expect_exactly(&self, sheets: &str, places: [&[Place]; 3]) {
        for ((tally, places), (_, of)) in self.0.iter().zip(places).zip(CLAIMS) {
            let places: Vec<u8> = places.iter().map(|place| *place as u8).collect();
            tally.expect_exactly(&format!("withdrawn, {sheets}, {of}: place"), &places);
        }
    }
}

#[derive(Default)]
pub struct Withdrawn {
    places: Places,
    places_on_made: Places,
    absences: Tally<4>,
    refused_again: usize,
    signed_again: usize,
    taken_back: Tally<6>,
}

impl Withdrawn {
    /// Notes a withdrawal, by the sheet before it: 0 where the user stands, else
    /// 23.
    pub fn note(&mut self, user: u32, sheet: &Sheet, answer: u8) {
        let expected = match place(user, sheet) {
            Ok(place) => {
                self.places.add(place, claim(sheet));
                0
            }
            Err(absence) => {
                self.absences.add(absence as u8);
                23
            }
        };
        assert_eq!(answer, expected, "user {user}, {sheet:?}");
    }

    /// Notes an accepted one, by the sheet before it, which calls made.
    pub fn made(&mut self, user: u32, sheet: &Sheet) {
        let place = place(user, sheet).expect("who withdraws stands on the sheet");
        self.places_on_made.add(place, claim(sheet));
    }

    /// Notes a refused withdrawal of a user who has withdrawn since the opening.
    pub fn refused_again(&mut self) {
        self.refused_again += 1;
    }

    /// Notes an accepted signing of a user who has withdrawn since the opening.
    pub fn signed_again(&mut self) {
        self.signed_again += 1;
    }

    /// Notes that a signing on a sheet of so many signatures was taken back.
    pub fn taken_back(&mut self, signatures: usize) {
        self.taken_back.add(signatures as u8);
    }

    pub fn lines(&self) -> Vec<String> {
        let absences = ABSENCES.map(|(absence, name)| {
            let seen = self.absences.seen(absence as u8);
            format!("no entry, {name}: {seen} times")
        });
        let again = [
            format!("withdrawn again, refused: {} times", self.refused_again),
            format!("signed again: {} times", self.signed_again),
        ];
        let taken_back = SIGNATURES.iter().map(|number| {
            let seen = self.taken_back.seen(*number);
            format!("taken back at once, signatures before {number}: {seen} times")
        });
        let places = self.places.lines("any sheet").into_iter();
        let places = places.chain(self.places_on_made.lines("a made sheet"));
        let refused = absences.into_iter().chain(again);
        places.chain(refused).chain(taken_back).collect()
    }

    /// A made sheet claims six at most and names nobody twice.
    pub fn expect_all(&self) {
        use Place::*;
        let of_many: &[Place] = &[First, Middle, Last, Several];
        let any = [&[Only, First, Middle, Last, Several], of_many, of_many];
        self.places.expect_exactly("any sheet", any);
        let made: [&[Place]; 3] = [&[Only, First, Middle, Last], &[First, Middle, Last], &[]];
        self.places_on_made.expect_exactly("a made sheet", made);
        let absences = ABSENCES.map(|(absence, _)| absence as u8);
        self.absences.expect_exactly("no entry,", &absences);
        assert!(self.refused_again > 1_000, "{}", self.refused_again);
        assert!(self.signed_again > 1_000, "{}", self.signed_again);
        self.taken_back.expect_exactly("taken back,", SIGNATURES);
    }
}
