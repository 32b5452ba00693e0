//! What is measured: a call on a base, by the library, the twin or the model.

use compare::batches::{query, Query};
use compare::questions::at_minute;
use compare::shop::small_shop;
use compare::trust::Trust;
use model::{Context, Sheet};

use crate::bases::*;
use crate::batches::queries;
use crate::registers::{trust, REQUESTER};
use crate::worst;

#[derive(Clone, Copy, PartialEq, Eq)]
pub enum Call {
    Check,
    Decide,
    Report,
    Conflicts,
    Open,
    /// By a user in a role.
    Sign(u32, u32),
    /// Of a user, without a base.
    Withdraw(u32),
    Ask,
    /// For a policy and its new weight.
    Bound(u32, u32),
    /// By [`LIST`].
    DecideBy,
    ReportBy,
    /// By the case's trust; the report is for [`REQUESTER`].
    DecideVouched,
    ReportVouched,
    /// Of a parameter, with so many roles.
    Parameter(u32, u32),
    /// Of the case's queries.
    Batch,
    /// A decision for each of them.
    Singles,
}

/// The resolution list of decisions and reports by one: all rules.
const LIST: [u8; 3] = [0, 1, 2];

/// Who answers.
#[derive(Clone, Copy, Debug, PartialEq, Eq)]
pub enum Who {
    Library,
    Twin,
    Model,
}

pub const ALL: [Who; 3] = [Who::Library, Who::Twin, Who::Model];

impl Who {
    pub fn name(self) -> &'static str {
        match self {
            Who::Library => "library",
            Who::Twin => "twin",
            Who::Model => "model",
        }
    }
}

/// A call and what it is handed.
pub struct Case {
    pub name: String,
    pub call: Call,
    pub base: Vec<u8>,
    pub at: Context,
    pub trust: Trust,
    /// Asked of permission 0, or bounded.
    pub group: Vec<u8>,
    /// For permission 0, holding the group.
    pub sheet: Sheet,
    pub queries: Vec<Query>,
}

/// A buffer that suffices for every call.
pub type Buffer = [u8; 3 * 2_784];

impl Case {
    /// What program `release_list` reads: the context and the base.
    pub fn input(&self) -> Vec<u8> {
        let minute = (self.at.minute as u16).to_le_bytes();
        let date = (self.at.date as u16).to_le_bytes();
        [&minute, &[0, 0], &date, &self.base[..]].concat()
    }

    /// The answer: the refusal, and 256 times the count.
    pub fn answer(&self, who: Who, out: &mut Buffer) -> u64 {
        match who {
            Who::Library => self.by_library(out),
            Who::Twin => self.by_twin(out),
            Who::Model => self.by_model(out),
        }
    }

    /// A copy in the buffer, so that each call starts from the same sheet.
    fn lent_sheet<'a>(&self, out: &'a mut Buffer) -> &'a mut Sheet {
        let sheet = out.first_chunk_mut().expect("a sheet fits");
        *sheet = self.sheet;
        sheet
    }

    fn lent_trust(&self) -> (&[u8], u32) {
        (&self.trust.register, self.trust.threshold)
    }

    /// Writes an answer to each query, as a batch does. Inlined, it would add 20
    /// instructions to every other call.
    #[inline(never)]
    fn singly(&self, out: &mut Buffer, decide: impl Fn(u32, &[u8]) -> u8) -> u64 {
        for ([permission, count, entries @ ..], answer) in self.queries.iter().zip(out) {
            let group = entries.get(..2 * usize::from(*count)).unwrap_or_default();
            *answer = decide((*permission).into(), group);
        }
        0
    }

    fn by_library(&self, out: &mut Buffer) -> u64 {
        let at = compare::library_context(self.at);
        let number = |answer: release::answers::Answer| {
            u64::from(answer.refusal) + 256 * u64::from(answer.count)
        };
        match self.call {
            Call::Check => release::answers::check(&self.base).into(),
            Call::Decide => release::answers::decide(&self.base, 0, at, &self.group).into(),
            Call::Report => number(release::answers::report(&self.base, at, out)),
            Call::Conflicts => number(release::answers::conflicts(&self.base, out)),
            Call::Open => release::answers::sheet_open(&self.base, 0, self.lent_sheet(out)).into(),
            Call::Sign(user, role) => {
                release::answers::sheet_sign(&self.base, user, role, self.lent_sheet(out)).into()
            }
            Call::Withdraw(user) => {
                release::answers::sheet_withdraw(user, self.lent_sheet(out)).into()
            }
            Call::Ask => release::answers::sheet_ask(&self.base, at, &self.sheet).into(),
            Call::Bound(policy, weight) => {
                let group = &self.group;
                number(release::answers::bound(&self.base, policy, weight, group))
            }
            Call::DecideBy => {
                release::answers::decide_by(&self.base, 0, at, &LIST, &self.group).into()
            }
            Call::ReportBy => number(release::answers::report_by(&self.base, at, &LIST, out)),
            Call::DecideVouched => {
                let decide = release::answers::decide_vouched;
                let (register, threshold) = self.lent_trust();
                decide(&self.base, 0, at, register, threshold, &self.group).into()
            }
            Call::ReportVouched => {
                let report = release::answers::report_vouched;
                let (register, threshold) = self.lent_trust();
                number(report(&self.base, at, register, threshold, REQUESTER, out))
            }
            Call::Parameter(parameter, roles) => {
                number(release::answers::parameter(parameter, roles))
            }
            Call::Batch => {
                let queries = self.queries.as_flattened();
                release::answers::batch(&self.base, at, queries, out).into()
            }
            Call::Singles => {
                let decide = release::answers::decide;
                self.singly(out, |p, group| decide(&self.base, p, at, group) as u8)
            }
        }
    }

    fn by_twin(&self, out: &mut Buffer) -> u64 {
        match self.call {
            Call::Check => twin::check(&self.base).into(),
            Call::Decide => twin::decide(&self.base, 0, self.at, &self.group).into(),
            Call::Report => number(twin::report(&self.base, self.at, out)),
            Call::Conflicts => number(twin::conflicts(&self.base, out)),
            Call::Open => twin::sheet_open(&self.base, 0, self.lent_sheet(out)).into(),
            Call::Sign(user, role) => {
                twin::sheet_sign(&self.base, user, role, self.lent_sheet(out)).into()
            }
            Call::Withdraw(user) => twin::sheet_withdraw(user, self.lent_sheet(out)).into(),
            Call::Ask => twin::sheet_ask(&self.base, self.at, &self.sheet).into(),
            Call::Bound(policy, weight) => {
                number(twin::bound(&self.base, policy, weight, &self.group))
            }
            Call::DecideBy => twin::decide_by(&self.base, 0, self.at, &LIST, &self.group).into(),
            Call::ReportBy => number(twin::report_by(&self.base, self.at, &LIST, out)),
            Call::DecideVouched => {
                let decide = twin::decide_vouched;
                let (register, threshold) = self.lent_trust();
                decide(&self.base, 0, self.at, register, threshold, &self.group).into()
            }
            Call::ReportVouched => {
                let report = twin::report_vouched;
                let (register, threshold) = self.lent_trust();
                number(report(
                    &self.base, self.at, register, threshold, REQUESTER, out,
                ))
            }
            Call::Parameter(parameter, roles) => number(twin::parameter(parameter, roles)),
            Call::Batch => {
                twin::batch(&self.base, self.at, self.queries.as_flattened(), out).into()
            }
            Call::Singles => self.singly(out, |permission, group| {
                twin::decide(&self.base, permission, self.at, group)
            }),
        }
    }

    fn by_model(&self, out: &mut Buffer) -> u64 {
        match self.call {
            Call::Check => model::check(&self.base).into(),
            Call::Decide => model::decide(&self.base, 0, self.at, &self.group).into(),
            Call::Report => number(model::report(&self.base, self.at, out)),
            Call::Conflicts => number(model::conflicts(&self.base, out)),
            Call::Open => model::sheet_open(&self.base, 0, self.lent_sheet(out)).into(),
            Call::Sign(user, role) => {
                model::sheet_sign(&self.base, user, role, self.lent_sheet(out)).into()
            }
            Call::Withdraw(user) => model::sheet_withdraw(user, self.lent_sheet(out)).into(),
            Call::Ask => model::sheet_ask(&self.base, self.at, &self.sheet).into(),
            Call::Bound(policy, weight) => {
                number(model::bound(&self.base, policy, weight, &self.group))
            }
            Call::DecideBy => model::decide_by(&self.base, 0, self.at, &LIST, &self.group).into(),
            Call::ReportBy => number(model::report_by(&self.base, self.at, &LIST, out)),
            Call::DecideVouched => {
                let decide = model::decide_vouched;
                let (register, threshold) = self.lent_trust();
                decide(&self.base, 0, self.at, register, threshold, &self.group).into()
            }
            Call::ReportVouched => {
                let report = model::report_vouched;
                let (register, threshold) = self.lent_trust();
                number(report(
                    &self.base, self.at, register, threshold, REQUESTER, out,
                ))
            }
            Call::Parameter(parameter, roles) => number(model::parameter(parameter, roles)),
            Call::Batch => {
                model::batch(&self.base, self.at, self.queries.as_flattened(), out).into()
            }
            Call::Singles => self.singly(out, |permission, group| {
                model::decide(&self.base, permission, self.at, group)
            }),
        }
    }
}

fn number(answer: model::Answer) -> u64 {
    u64::from(answer.refusal) + 256 * u64::from(answer.count)
}

/// All cases but those of [`batches`].
pub fn cases() -> Vec<Case> {
    let small = small_shop().bytes();
    let typical = typical_shop().bytes();
    let full = full_base().bytes();
    let above = from_above().bytes();
    let six: Vec<u8> = (0..6).flat_map(|i| [i, i]).collect();
    let six_below: Vec<u8> = (0..6).flat_map(|i| [i, i + 2]).collect();
    let mut cases = vec![
        case("check small shop", Call::Check, &small, &[]),
        case("check typical shop", Call::Check, &typical, &[]),
        case("check longest base", Call::Check, &full, &[]),
        case("check from above", Call::Check, &above, &[]),
        case("decide small shop", Call::Decide, &small, &[0, 0, 2, 2]),
        case("decide typical shop", Call::Decide, &typical, &[0, 0, 6, 3]),
        case("decide full base", Call::Decide, &full, &six),
        case("decide from above", Call::Decide, &above, &six_below),
        case("open small shop", Call::Open, &small, &[]),
        case("open typical shop", Call::Open, &typical, &[]),
        case("sign small shop", Call::Sign(2, 2), &small, &[0, 0]),
        case("sign typical shop", Call::Sign(6, 3), &typical, &[0, 0]),
        case("sign full base", Call::Sign(5, 5), &full, &six[..10]),
        case(
            "sign from above",
            Call::Sign(5, 7),
            &above,
            &six_below[..10],
        ),
        case("withdraw first of six", Call::Withdraw(0), &[], &six),
        case("withdraw nobody", Call::Withdraw(6), &[], &six),
        case("ask small shop", Call::Ask, &small, &[0, 0, 2, 2]),
        case("ask typical shop", Call::Ask, &typical, &[0, 0, 6, 3]),
        case("ask full base", Call::Ask, &full, &six),
        case("bound small shop", Call::Bound(2, 5), &small, &[0, 0, 2, 2]),
        case(
            "bound typical shop",
            Call::Bound(19, 5),
            &typical,
            &[0, 0, 6, 3],
        ),
        case("bound full base", Call::Bound(63, 5), &full, &six),
        case("bound from above", Call::Bound(63, 5), &above, &six_below),
        report("report small shop", &small),
        report("report typical shop", &typical),
        report("report full base", &full),
        report("report from above", &above),
    ];
    cases.extend(of_dates());
    cases.extend(of_users());
    cases.extend(by_list());
    cases.extend(by_register());
    let plans = twin::worst::all().map(|(name, plan)| (name, plan.bytes()));
    let made = worst::all().map(|(name, base)| (name, base.bytes()));
    let reports = plans.into_iter().chain(made);
    cases.extend(reports.map(|(name, base)| report(&format!("report {name}"), &base)));
    let conflicts = [
        ("small shop", small),
        ("typical shop", typical),
        ("most records", most_conflicts().bytes()),
        ("from above", conflicts_from_above().bytes()),
        ("contexts", many_contexts().bytes()),
    ];
    cases.extend(conflicts.map(|(name, base)| {
        let name = format!("conflicts {name}");
        case(&name, Call::Conflicts, &base, &[])
    }));
    cases
}

/// A group of six whose last user alone is out of date, on the full base, and a
/// report where every other user is.
fn of_dates() -> [Case; 2] {
    let six: Vec<u8> = (0..6).flat_map(|i| [i, i]).collect();
    let last_out = out_of_date(full_base(), 6).bytes();
    let half_out = out_of_date(worst::by_numbers(), 2).bytes();
    [
        case("decide out of date", Call::Decide, &last_out, &six),
        report("report half out of date", &half_out),
    ]
}

/// Checks of bases that have users alone, and of single parameters.
fn of_users() -> Vec<Case> {
    let checks = [
        ("no role", users_alone([0; 24])),
        ("low roles", users_alone(low_roles())),
        ("last role", users_alone([1 << 7; 24])),
        ("all roles", users_alone([255; 24])),
        ("refused first", refused(users_alone(low_roles()), 0)),
        ("refused last", refused(users_alone(low_roles()), 23)),
        ("refused behind all", refused(users_alone([255; 24]), 23)),
        ("refused by days", refused_by_days(users_alone(low_roles()))),
    ];
    let checks = checks
        .iter()
        .map(|(name, base)| case(&format!("check {name}"), Call::Check, &base.bytes(), &[]));
    let parameters = [("1", 1), ("3", 3), ("of all roles", 111_546_435), ("0", 0)];
    let parameters = parameters.iter().map(|(name, parameter)| {
        let call = Call::Parameter(*parameter, 8);
        case(&format!("parameter {name}"), call, &[], &[])
    });
    checks.chain(parameters).collect()
}

/// Decisions and reports by a list, on the bases of those without one, on bases
/// whose policies rival and on the dearest ones.
fn by_list() -> Vec<Case> {
    let six: Vec<u8> = (0..6).flat_map(|i| [i, i]).collect();
    let six_below: Vec<u8> = (0..6).flat_map(|i| [i, i + 2]).collect();
    let bases = [
        ("small shop", small_shop(), vec![0, 0, 2, 2]),
        ("typical shop", typical_shop(), vec![0, 0, 6, 3]),
        ("full base", full_base(), six.clone()),
        ("from above", from_above(), six_below),
        ("rivals", rivals(), six.clone()),
        ("overrides", overrides(), six),
    ];
    let bases = bases.map(|(name, base, group)| (name, base.bytes(), group));
    let decisions = bases
        .iter()
        .map(|(name, base, group)| case(&format!("decide_by {name}"), Call::DecideBy, base, group));
    let dearest = [
        ("by numbers", worst::by_numbers().bytes()),
        ("no takers", worst::no_takers().bytes()),
    ];
    let some = bases.iter().map(|(name, base, _)| (*name, base));
    let reports = some.chain(dearest.iter().map(|(name, base)| (*name, base)));
    let reports =
        reports.map(|(name, base)| case(&format!("report_by {name}"), Call::ReportBy, base, &[]));
    decisions.chain(reports).collect()
}

/// Decisions and reports by a register, on the bases of the first report that are
/// usual or cost most, and on those that cost most with a register.
fn by_register() -> Vec<Case> {
    let six: Vec<u8> = (0..6).flat_map(|i| [i, i]).collect();
    let shops = [
        ("small shop", small_shop(), vec![0, 0, 2, 2]),
        ("typical shop", typical_shop(), vec![0, 0, 6, 3]),
        ("full base", full_base(), six),
    ];
    let decisions = shops.clone().map(|(name, base, group)| {
        let base = base.bytes();
        Case {
            trust: trust(&base),
            ..case(
                &format!("vouch_decide {name}"),
                Call::DecideVouched,
                &base,
                &group,
            )
        }
    });
    let shops = shops.map(|(name, base, _)| (name, base));
    let bases = shops.into_iter().chain(worst::all());
    let reports = bases.map(|(name, base)| {
        let base = base.bytes();
        report_vouched(&format!("vouch_report {name}"), &base, trust(&base))
    });
    let vouched = worst::all_vouched().into_iter();
    let vouched = vouched.map(|(name, base, trust)| {
        report_vouched(&format!("vouch_report {name}"), &base.bytes(), trust)
    });
    decisions
        .into_iter()
        .chain(reports)
        .chain(vouched)
        .collect()
}

/// 1,024 queries at once and one by one, about one permission or about all; and one
/// query. To draw them takes a while.
pub fn batches() -> Vec<Case> {
    let six: Vec<[u8; 2]> = (0..6).map(|i| [i, i]).collect();
    let bases = [
        ("small shop", small_shop(), 1, vec![[0, 0], [2, 2]]),
        ("typical shop", typical_shop(), 8, vec![[0, 0], [6, 3]]),
        ("full base", full_base(), 1, six.clone()),
        ("mixed base", mixed_base(), 16, six),
    ];
    let cases = bases.map(|(name, base, permissions, group)| {
        let base = base.bytes();
        let many = queries(&base, at(), permissions);
        let one = vec![query(0, &group, 0)];
        let of = |kind: &str, call: Call, queries: &[Query]| Case {
            queries: queries.to_vec(),
            ..case(&format!("{kind} {name}"), call, &base, &[])
        };
        [
            of("batch", Call::Batch, &many),
            of("batch singles", Call::Singles, &many),
            of("batch of one", Call::Batch, &one),
            of("batch single", Call::Singles, &one),
        ]
    });
    cases.into_iter().flatten().collect()
}

/// A report on a base by a register.
pub fn report_vouched(name: &str, base: &[u8], trust: Trust) -> Case {
    Case {
        trust,
        ..case(name, Call::ReportVouched, base, &[])
    }
}

/// A report on a base.
pub fn report(name: &str, base: &[u8]) -> Case {
    case(name, Call::Report, base, &[])
}

fn case(name: &str, call: Call, base: &[u8], group: &[u8]) -> Case {
    Case {
        name: name.to_string(),
        call,
        base: base.to_vec(),
        at: at(),
        trust: Trust::new(1, &[]),
        group: group.to_vec(),
        sheet: holding(group),
        queries: Vec::new(),
    }
}

/// The context of all cases.
fn at() -> Context {
    Context {
        date: DATE.into(),
        ..at_minute(600)
    }
}

fn holding(group: &[u8]) -> Sheet {
    let mut sheet = [0; 14];
    sheet[1] = group.len() as u8 / 2;
    sheet[2..][..group.len()].copy_from_slice(group);
    sheet
}

#[cfg(test)]
mod tests {
    use super::*;

    /// Most calls are done. Full bases grant nothing.
    fn refusal(case: &Case) -> u64 {
        let shop = case.name.ends_with("shop");
        match case.call {
            Call::Decide if case.name.ends_with("out of date") => 24,
            Call::Decide | Call::DecideBy | Call::DecideVouched | Call::Ask if !shop => 17,
            Call::Withdraw(6) => 23,
            Call::Parameter(0, _) => 5,
            Call::Check if case.name.contains("refused") => 5,
            _ => 0,
        }
    }

    #[test]
    fn all_give_the_same_answer_and_refuse_what_they_should() {
        for case in cases() {
            let answers = ALL.map(|who| case.answer(who, &mut [0; 3 * 2_784]));
            assert!(answers.iter().all(|answer| *answer == answers[0]));
            assert_eq!(answers[0] % 256, refusal(&case), "{}", case.name);
        }
    }

    /// A batch, and single calls about the same queries.
    #[test]
    fn a_batch_writes_what_single_calls_do() {
        let cases = batches();
        for pair in cases.chunks(2) {
            let [batch, singles] = pair else {
                panic!("they come in pairs");
            };
            assert_eq!(batch.queries, singles.queries);
            let mut written = [0; 3 * 2_784];
            assert_eq!(batch.answer(Who::Library, &mut written), 0);
            for (case, who) in pair.iter().flat_map(|case| ALL.map(|who| (case, who))) {
                let mut out = [0; 3 * 2_784];
                assert_eq!(case.answer(who, &mut out), 0);
                assert!(out == written, "{} by {who:?}", case.name);
            }
        }
    }

    /// Of full bases, six times a difference of 3.
    #[test]
    fn the_bounds_are_above_0() {
        let all = cases().into_iter();
        let bounds = all.filter(|case| matches!(case.call, Call::Bound(..)));
        let bounds = bounds.map(|case| case.answer(Who::Model, &mut [0; 3 * 2_784]) / 256);
        assert_eq!(bounds.collect::<Vec<_>>(), [8, 2, 18, 18]);
    }
}
