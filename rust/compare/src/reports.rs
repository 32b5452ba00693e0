//! The comparison of reports: by a resolution list or without one, and for a
//! requester by a register.

use model::{Answer, Context, Reading};

use crate::calls::Report;
use crate::lent::Lent;
use crate::lists::List;
use crate::random::Random;
use crate::shown::{self, RECORD};
use crate::trust::Trust;
use crate::{hex, permission_count};

/// The library's answer to a call for the report, by a list or without one.
pub fn library_report(
    base: &[u8],
    at: Context,
    list: List,
    out: &mut [u8],
) -> release::answers::Answer {
    Report::By(list).by_library(base, at, out)
}

/// The answer to a call for the report that the library, the twin and the model
/// agree on. They also agree on each byte that the buffer and its guards hold
/// afterwards, but for the groups shown: those of the library and the twin are
/// as small as the model's, and library and model grant them.
pub fn agreed_report(base: &[u8], at: Context, lent: &mut Lent) -> Answer {
    agreed(base, at, Report::By(None), lent)
}

/// The same by a list; the groups shown are granted by the same list.
pub fn agreed_report_by(base: &[u8], at: Context, list: &[u8], lent: &mut Lent) -> Answer {
    agreed(base, at, Report::By(Some(list)), lent)
}

/// The same for a requester, who stands first in the groups shown.
pub fn agreed_report_vouched(
    base: &[u8],
    at: Context,
    trust: &Trust,
    requester: u32,
    lent: &mut Lent,
) -> Answer {
    agreed(base, at, Report::For { requester, trust }, lent)
}

fn agreed(base: &[u8], at: Context, report: Report, lent: &mut Lent) -> Answer {
    let (mut models, mut twins) = (lent.clone(), lent.clone());
    let by_model = report.by_model(Reading::Paper, base, at, models.buffer());
    let by_twin = report.by_twin(base, at, twins.buffer());
    let base_before = base.to_vec();
    let lent_before = report.lent().to_vec();
    let by_library = report.by_library(base, at, lent.buffer());
    let case = Case {
        base: &base_before,
        at,
        report,
        length: lent.length(),
    };
    let library = ("library", (by_library.refusal, by_library.count), lent);
    let answer = (by_twin.refusal.into(), by_twin.count);
    let twin = ("twin", answer, &mut twins);
    for (name, answer, reported) in [library, twin] {
        assert!(
            answer == (by_model.refusal.into(), by_model.count),
            "model {by_model:?}, {name} {answer:?}, {}",
            case.described()
        );
        if let Some(fault) = case.fault(by_model, &models, reported) {
            panic!("{by_model:?}, {name}: {fault}, {}", case.described());
        }
    }
    let kept = base == base_before && report.lent() == lent_before;
    assert!(
        kept,
        "base, list or register was written, {}",
        case.described()
    );
    by_model
}

/// What a call for the report is handed.
struct Case<'a> {
    base: &'a [u8],
    at: Context,
    report: Report<'a>,
    /// Bytes of the buffer.
    length: usize,
}

impl Case<'_> {
    /// What is wrong with a report beside the model's, which has this answer.
    fn fault(&self, answer: Answer, models: &Lent, reported: &mut Lent) -> Option<String> {
        let written = match answer.refusal {
            0 => RECORD * permission_count(self.base),
            _ => 0,
        };
        let mut expected = models.clone();
        let records = &mut expected.buffer()[..written];
        let shown = &reported.buffer()[..written];
        let smallest = shown::numbers(records);
        if let Some(fault) = shown::fault(self.base, self.at, self.report, shown, &smallest) {
            return Some(fault);
        }
        records.copy_from_slice(shown);
        let place = reported.first_difference(&expected)?;
        Some(format!("byte {place} of the buffer differs"))
    }

    fn described(&self) -> String {
        let Case {
            base,
            at,
            report,
            length,
        } = self;
        let base = hex(base);
        format!("{length} bytes lent, {at:?}, {report:?}, base {base}")
    }
}

/// Asserts that the library, the twin and the model give these smallest numbers
/// in a buffer of this length, whatever it held before.
pub fn expect_report(base: &[u8], at: Context, length: usize, numbers: &[u8]) {
    expect(base, at, Report::By(None), length, done(numbers), numbers);
}

/// The same by a list.
pub fn expect_report_by(base: &[u8], at: Context, list: &[u8], length: usize, numbers: &[u8]) {
    expect(
        base,
        at,
        Report::By(Some(list)),
        length,
        done(numbers),
        numbers,
    );
}

/// Asserts that the library, the twin and the model refuse to report.
pub fn expect_report_refused(base: &[u8], at: Context, length: usize, refusal: u8) {
    expect(base, at, Report::By(None), length, (refusal, 0), &[]);
}

/// The same by a list.
pub fn expect_report_by_refused(base: &[u8], at: Context, list: &[u8], length: usize, refusal: u8) {
    expect(base, at, Report::By(Some(list)), length, (refusal, 0), &[]);
}

/// The same for a requester.
pub fn expect_report_vouched(
    base: &[u8],
    at: Context,
    trust: &Trust,
    requester: u32,
    length: usize,
    numbers: &[u8],
) {
    let report = Report::For { requester, trust };
    expect(base, at, report, length, done(numbers), numbers);
}

/// Asserts that they refuse to report for a requester.
pub fn expect_report_vouched_refused(
    base: &[u8],
    at: Context,
    trust: &Trust,
    requester: u32,
    length: usize,
    refusal: u8,
) {
    let report = Report::For { requester, trust };
    expect(base, at, report, length, (refusal, 0), &[]);
}

/// The answer that carries how many of the numbers are above 0.
fn done(numbers: &[u8]) -> (u8, u32) {
    let releasable = numbers.iter().filter(|k| **k > 0);
    (0, releasable.count() as u32)
}

fn expect(
    base: &[u8],
    at: Context,
    report: Report,
    length: usize,
    answer: (u8, u32),
    numbers: &[u8],
) {
    let noise = Lent::noisy(&mut Random::new(length as u64), length);
    let case = Case {
        base,
        at,
        report,
        length,
    };
    for mut lent in [noise.inverted(), noise] {
        let agreed = agreed(base, at, report, &mut lent);
        assert!(
            (agreed.refusal, agreed.count) == answer,
            "expected {answer:?}, all gave {agreed:?}, {}",
            case.described()
        );
        let written = &lent.buffer()[..RECORD * numbers.len()];
        let found = shown::numbers(written);
        assert!(
            found == numbers,
            "expected {numbers:?}, all gave {found:?}, {}",
            case.described()
        );
    }
}
