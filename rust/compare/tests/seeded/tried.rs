//! How many codes were tried, by the number of roles and by whether the
//! parameter passed.

use compare::tally::Tally;

/// Numbers tried.
const TRIED: [u8; 9] = [0, 1, 2, 3, 4, 5, 6, 7, 8];

/// 0 to 8 roles each, and all above 8.
const ROLES: usize = 10;

#[derive(Default)]
pub struct Tried {
    passed: [Tally<9>; ROLES],
    refused: [Tally<9>; ROLES],
}

impl Tried {
    /// Notes the answer to a parameter where there are so many roles.
    pub fn note(&mut self, roles: u32, refusal: u8, tried: u32) {
        let tallies = match refusal {
            0 => &mut self.passed,
            _ => &mut self.refused,
        };
        tallies[roles.min(9) as usize].add(tried as u8);
    }

    /// What was tried for so many roles, with the numbers that can be: none to all
    /// of the codes if the parameter passes, else all.
    fn of(&self, roles: usize) -> [(String, &Tally<9>, &'static [u8]); 2] {
        let name = match roles {
            9 => "R above 8".to_string(),
            _ => format!("R = {roles}"),
        };
        let most = roles.min(8);
        let (passed, refused) = (&self.passed[roles], &self.refused[roles]);
        [
            (format!("{name}, passed: tried"), passed, &TRIED[..=most]),
            (
                format!("{name}, refused: tried"),
                refused,
                &TRIED[most..=most],
            ),
        ]
    }

    pub fn lines(&self) -> Vec<String> {
        let all = (0..ROLES).flat_map(|roles| self.of(roles));
        let lines = all.flat_map(|(name, tally, numbers)| {
            let line = move |tried| format!("{name} {tried}: {} times", tally.seen(tried));
            numbers.iter().copied().map(line)
        });
        lines.collect()
    }

    pub fn expect_all(&self) {
        for (name, tally, numbers) in (0..ROLES).flat_map(|roles| self.of(roles)) {
            tally.expect_exactly(&name, numbers);
        }
    }
}
