//! The wrong readings planted in the model: the first bases of the comparison
//! show each of them, in every call whose answer it can change.

use compare::batches::Batch;
use compare::bounds::Changed;
use compare::calls::{Decision, Report};
use compare::changes::random_change;
use compare::lent::Lent;
use compare::lists::{illegal_list, LEGAL};
use compare::queries::batch_for;
use compare::questions::{context_in_range, random_question, Asked};
use compare::random::Random;
use compare::sheets::SheetCall;
use compare::shown::{numbers, RECORD};
use compare::vouchers::{any_requester, trust_for, trust_in};
use model::{Context, Reading, Sheet};

use crate::forms::{self, Misshapen};
use crate::{batched, bounds, conflicts, decisions, lists, parameters, reports, sheets, vouched};

/// How many of the misshapen bases each call is tried on, four ways each.
const MISSHAPEN: usize = 20;

/// In how many cases the library's check isn't the model's by a reading.
fn checks_that_differ(reading: Reading) -> usize {
    let mut found = 0;
    let mut compare = |base: &[u8]| {
        let by_model = model::check_as(reading, base);
        found += usize::from(release::answers::check(base) != u32::from(by_model));
    };
    conflicts::sound_bases(200, |_, base| compare(base));
    forms::bases(MISSHAPEN, |_, misshapen| compare(misshapen.bytes));
    found
}

/// Whether the library's decision isn't the model's by a reading.
fn decision_differs(reading: Reading, base: &[u8], decision: Decision, asked: &Asked) -> bool {
    let by_model = decision.by_model(reading, base, asked);
    decision.by_library(base, asked) != u32::from(by_model)
}

/// Whether the library's answer or numbers of approvers aren't the model's by a
/// reading, for so many permissions.
fn report_differs(
    reading: Reading,
    base: &[u8],
    at: Context,
    report: Report,
    permissions: usize,
) -> bool {
    let mut by_library = vec![0; RECORD * permissions];
    let mut by_model = by_library.clone();
    let library = report.by_library(base, at, &mut by_library);
    let model = report.by_model(reading, base, at, &mut by_model);
    library.refusal != u32::from(model.refusal) || numbers(&by_library) != numbers(&by_model)
}

/// In how many cases the library's decision isn't the model's by a reading.
fn decisions_that_differ(reading: Reading) -> usize {
    let mut found = 0;
    let mut compare = |base: &[u8], asked: &Asked| {
        found += usize::from(decision_differs(reading, base, Decision::By(None), asked));
    };
    decisions::sound_bases(500, &mut compare);
    forms::bases(MISSHAPEN, |random, misshapen| {
        compare(misshapen.bytes, &question(random, &misshapen));
    });
    found
}

fn question(random: &mut Random, misshapen: &Misshapen) -> Asked {
    random_question(random, misshapen.records, misshapen.base)
}

/// The same by lists: all legal ones, and two others.
fn decisions_by_that_differ(reading: Reading) -> usize {
    let mut found = 0;
    lists::rival_questions(400, |random, base, asked| {
        let others = [illegal_list(random), illegal_list(random)];
        let others = others.iter().map(Vec::as_slice);
        for list in LEGAL.into_iter().chain(others) {
            let by = Decision::By(Some(list));
            found += usize::from(decision_differs(reading, base, by, asked));
        }
    });
    forms::bases(MISSHAPEN, |random, misshapen| {
        let asked = question(random, &misshapen);
        let by = Decision::By(Some(random.pick(&LEGAL)));
        found += usize::from(decision_differs(reading, misshapen.bytes, by, &asked));
    });
    found
}

/// How many bases have other numbers of approvers by the library than by the
/// model's reading.
fn reports_that_differ(reading: Reading) -> usize {
    let mut found = 0;
    reports::sound_bases(600, |random, records| {
        let at = context_in_range(random, records);
        let (base, permissions) = (records.bytes(), records.permissions.len());
        let by = Report::By(None);
        found += usize::from(report_differs(reading, &base, at, by, permissions));
    });
    forms::bases(MISSHAPEN, |random, misshapen| {
        let by = Report::By(None);
        found += usize::from(misshapen_report_differs(reading, random, by, &misshapen));
    });
    found
}

fn misshapen_report_differs(
    reading: Reading,
    random: &mut Random,
    report: Report,
    misshapen: &Misshapen,
) -> bool {
    let at = context_in_range(random, misshapen.records);
    let permissions = misshapen.records.permissions.len();
    report_differs(reading, misshapen.bytes, at, report, permissions)
}

/// The same by lists: all legal ones, and two others.
fn reports_by_that_differ(reading: Reading) -> usize {
    let mut found = 0;
    lists::rival_reports(120, |random, records| {
        let at = context_in_range(random, records);
        let (base, permissions) = (records.bytes(), records.permissions.len());
        let others = [illegal_list(random), illegal_list(random)];
        let others = others.iter().map(Vec::as_slice);
        for list in LEGAL.into_iter().chain(others) {
            let by = Report::By(Some(list));
            found += usize::from(report_differs(reading, &base, at, by, permissions));
        }
    });
    forms::bases(MISSHAPEN, |random, misshapen| {
        let by = Report::By(Some(random.pick(&LEGAL)));
        found += usize::from(misshapen_report_differs(reading, random, by, &misshapen));
    });
    found
}

/// In how many cases the library's decision for a requester isn't the model's by a
/// reading.
fn decisions_vouched_that_differ(reading: Reading) -> usize {
    let mut found = 0;
    vouched::questions(500, |base, trust, asked| {
        let vouched = Decision::Vouched(trust);
        found += usize::from(decision_differs(reading, base, vouched, asked));
    });
    forms::bases(MISSHAPEN, |random, misshapen| {
        let asked = question(random, &misshapen);
        let trust = trust_for(random, misshapen.base, &asked);
        let vouched = Decision::Vouched(&trust);
        found += usize::from(decision_differs(reading, misshapen.bytes, vouched, &asked));
    });
    found
}

/// The same of reports for a requester.
fn reports_vouched_that_differ(reading: Reading) -> usize {
    let mut found = 0;
    vouched::any_reports(1_200, |base, at, trust, requester| {
        let report = Report::For { requester, trust };
        let permissions = compare::permission_count(base);
        found += usize::from(report_differs(reading, base, at, report, permissions));
    });
    forms::bases(MISSHAPEN, |random, misshapen| {
        let requester = any_requester(random, misshapen.base);
        let trust = &trust_in(random, misshapen.base, 300, requester);
        let report = Report::For { requester, trust };
        found += usize::from(misshapen_report_differs(
            reading, random, report, &misshapen,
        ));
    });
    found
}

/// How many bases have another list by the library than by the model's
/// reading.
fn conflicts_that_differ(reading: Reading) -> usize {
    let mut found = 0;
    let mut compare = |random: &mut Random, base: &[u8]| {
        let mut by_library = Lent::noisy(random, 8_400);
        let mut by_model = by_library.clone();
        let library = release::answers::conflicts(base, by_library.buffer());
        let model = model::conflicts_as(reading, base, by_model.buffer());
        let differs = by_library.first_difference(&by_model).is_some();
        found += usize::from(library.refusal != u32::from(model.refusal) || differs);
    };
    conflicts::sound_bases(600, &mut compare);
    forms::bases(MISSHAPEN, |random, misshapen| {
        compare(random, misshapen.bytes);
    });
    found
}

/// How many openings, signings, withdrawals and askings of a sheet have another
/// answer, or leave another sheet, by the library than by the model's reading.
fn sheets_that_differ(reading: Reading) -> [usize; 4] {
    let mut found = [0; 4];
    let mut compare = |base: &[u8], call: SheetCall, sheet: &mut Sheet| {
        let mut by_model = *sheet;
        let answer = call.by_model(reading, base, &mut by_model);
        let by_library = call.by_library(base, sheet);
        let differs = by_library != u32::from(answer) || *sheet != by_model;
        found[call.kind()] += usize::from(differs);
    };
    sheets::mornings(500, |_, morning| {
        let mut sheet = [7; 14];
        for (place, call) in &morning.calls {
            compare(&morning.bases[*place], *call, &mut sheet);
        }
    });
    sheets::any_sheets(300, |_, base, call, mut sheet| {
        compare(base, call, &mut sheet);
    });
    forms::bases(MISSHAPEN, |random, misshapen| {
        for call in forms::sheet_calls(random, &misshapen) {
            compare(misshapen.bytes, call, &mut [0; 14]);
        }
    });
    found
}

/// In how many cases the library's bound isn't the model's by a reading.
fn bounds_that_differ(reading: Reading) -> usize {
    let mut found = 0;
    let mut compare = |base: &[u8], changed: &Changed| {
        let by_model = changed.by_model(reading, base);
        found += usize::from(changed.by_library(base) != by_model);
    };
    bounds::sound_bases(500, &mut compare);
    forms::bases(MISSHAPEN, |random, misshapen| {
        compare(misshapen.bytes, &random_change(random, misshapen.base));
    });
    found
}

/// In how many cases the library's check of a parameter isn't the model's by a
/// reading.
fn parameters_that_differ(reading: Reading) -> usize {
    let mut found = 0;
    parameters::parameters(2_000, |checked| {
        let by_model = checked.by_model(reading);
        found += usize::from(checked.by_library() != by_model);
    });
    found
}

/// How many batches have another answer, or leave another buffer, by the library than
/// by the model's reading.
fn batches_that_differ(reading: Reading) -> usize {
    let mut found = 0;
    let mut compare = |base: &[u8], batch: &Batch, mut lent: Lent| {
        let mut by_model = lent.clone();
        let model = batch.by_model(reading, base, by_model.buffer());
        let library = batch.by_library(base, lent.buffer());
        let differs = lent.first_difference(&by_model).is_some();
        found += usize::from(library != u32::from(model) || differs);
    };
    batched::sound_bases(150, &mut compare);
    forms::bases(MISSHAPEN, |random, misshapen| {
        let asked = question(random, &misshapen);
        let batch = batch_for(random, misshapen.base, &asked);
        let lent = Lent::noisy(random, 30);
        compare(misshapen.bytes, &batch, lent);
    });
    found
}

/// Those of the decision, whose answers reports, an asking and a batch go by.
const OF_DECISIONS: &[&str] = &[
    "decisions",
    "reports",
    "askings",
    "decisions by lists",
    "reports by lists",
    "decisions vouched",
    "reports vouched",
    "batches",
];

/// Those and the conflict list.
const OF_CONTEXTS: &[&str] = &[
    "decisions",
    "reports",
    "conflicts",
    "askings",
    "decisions by lists",
    "reports by lists",
    "decisions vouched",
    "reports vouched",
    "batches",
];

/// Those that look at who may act.
const OF_ACTING: &[&str] = &[
    "decisions",
    "reports",
    "conflicts",
    "signings",
    "askings",
    "bounds",
    "decisions by lists",
    "reports by lists",
    "decisions vouched",
    "reports vouched",
    "batches",
];

/// Those that check a base.
const OF_BASES: &[&str] = &[
    "checks",
    "decisions",
    "reports",
    "conflicts",
    "openings",
    "signings",
    "askings",
    "bounds",
    "decisions by lists",
    "reports by lists",
    "decisions vouched",
    "reports vouched",
    "batches",
];

/// The calls in which a reading shows.
fn shows(reading: Reading) -> &'static [&'static str] {
    match reading {
        Reading::Paper => &[],
        Reading::HeaviestUsers => &["reports", "reports by lists"],
        Reading::MixedContextClauses => OF_CONTEXTS,
        Reading::PermissionKept => &["openings"],
        Reading::OverSixAsNone => &["signings", "withdrawals", "askings"],
        Reading::HeldAlone | Reading::DirectJuniors | Reading::SeniorsToo => OF_ACTING,
        Reading::ListAfterPermission => &["decisions by lists"],
        Reading::ListIgnored => &["reports by lists"],
        Reading::DaysBeforeMembership | Reading::DaysAfterWeight => &[
            "decisions",
            "askings",
            "decisions by lists",
            "decisions vouched",
            "batches",
        ],
        Reading::DaysForgotten => &["reports", "reports by lists", "reports vouched"],
        Reading::DaysAtSigning => &["signings"],
        Reading::DaysTurned | Reading::OldLetters => OF_BASES,
        Reading::LastEntryRequests | Reading::VouchingBeforeDays | Reading::VouchingAfterWeight => {
            &["decisions vouched"]
        }
        Reading::RequesterFirst | Reading::RequesterAgain | Reading::FirstReport => {
            &["reports vouched"]
        }
        _ if Reading::WRONG_IN_LISTS.contains(&reading) => &["conflicts"],
        _ if Reading::WRONG_ON_SHEETS.contains(&reading) => &["signings"],
        _ if Reading::WRONG_OF_WITHDRAWAL.contains(&reading) => &["withdrawals"],
        _ if Reading::WRONG_OF_BOUNDS.contains(&reading) => &["bounds"],
        _ if Reading::WRONG_OF_PARAMETERS.contains(&reading) => &["parameters"],
        _ if Reading::WRONG_OF_RESOLUTION.contains(&reading) => {
            &["decisions by lists", "reports by lists"]
        }
        _ if Reading::WRONG_OF_VOUCHING.contains(&reading) => {
            &["decisions vouched", "reports vouched"]
        }
        _ if Reading::WRONG_OF_BATCHES.contains(&reading) => &["batches"],
        _ => OF_DECISIONS,
    }
}

fn expect(reading: Reading) {
    let [openings, signings, withdrawals, askings] = sheets_that_differ(reading);
    let found = [
        ("checks", checks_that_differ(reading)),
        ("decisions", decisions_that_differ(reading)),
        ("reports", reports_that_differ(reading)),
        ("conflicts", conflicts_that_differ(reading)),
        ("openings", openings),
        ("signings", signings),
        ("withdrawals", withdrawals),
        ("askings", askings),
        ("bounds", bounds_that_differ(reading)),
        ("decisions by lists", decisions_by_that_differ(reading)),
        ("reports by lists", reports_by_that_differ(reading)),
        ("parameters", parameters_that_differ(reading)),
        ("decisions vouched", decisions_vouched_that_differ(reading)),
        ("reports vouched", reports_vouched_that_differ(reading)),
        ("batches", batches_that_differ(reading)),
    ];
    println!("{reading:?}: {found:?}");
    let found = found.iter().filter(|(_, count)| *count > 0);
    let found: Vec<&str> = found.map(|(name, _)| *name).collect();
    assert_eq!(found, shows(reading), "{reading:?}");
}

#[test]
fn the_papers_reading_has_no_disagreement() {
    expect(Reading::Paper);
}

#[test]
fn every_wrong_reading_that_the_paper_names_is_noticed() {
    Reading::WRONG.into_iter().for_each(expect);
}

#[test]
fn every_wrong_reading_of_lists_is_noticed() {
    Reading::WRONG_IN_LISTS.into_iter().for_each(expect);
}

#[test]
fn every_wrong_reading_of_sheets_is_noticed() {
    Reading::WRONG_ON_SHEETS.into_iter().for_each(expect);
    Reading::WRONG_OF_WITHDRAWAL.into_iter().for_each(expect);
}

#[test]
fn every_wrong_reading_of_acting_is_noticed() {
    Reading::WRONG_OF_ACTING.into_iter().for_each(expect);
}

#[test]
fn every_wrong_reading_of_bounds_is_noticed() {
    Reading::WRONG_OF_BOUNDS.into_iter().for_each(expect);
}

#[test]
fn every_wrong_reading_of_resolution_is_noticed() {
    Reading::WRONG_OF_RESOLUTION.into_iter().for_each(expect);
}

#[test]
fn every_wrong_reading_of_parameters_is_noticed() {
    Reading::WRONG_OF_PARAMETERS.into_iter().for_each(expect);
}

#[test]
fn every_wrong_reading_of_dates_is_noticed() {
    Reading::WRONG_OF_DATES.into_iter().for_each(expect);
}

#[test]
fn every_wrong_reading_of_vouching_is_noticed() {
    Reading::WRONG_OF_VOUCHING.into_iter().for_each(expect);
}

#[test]
fn every_wrong_reading_of_batches_is_noticed() {
    Reading::WRONG_OF_BATCHES.into_iter().for_each(expect);
}
