//! The calls that decide and report: by a resolution list or without one, and for a
//! requester by a register.

use model::{Answer, Context, Reading};
use release::answers;

use crate::library_context;
use crate::lists::List;
use crate::questions::Asked;
use crate::trust::Trust;

/// A decision. For a requester it is the user of the group's first entry.
#[derive(Clone, Copy, Debug)]
pub enum Decision<'a> {
    By(List<'a>),
    Vouched(&'a Trust),
}

impl Decision<'_> {
    pub fn by_model(self, reading: Reading, base: &[u8], asked: &Asked) -> u8 {
        let Asked {
            permission,
            at,
            group,
        } = asked;
        match self {
            Decision::By(list) => model::decide_as(reading, base, *permission, *at, list, group),
            Decision::Vouched(Trust {
                register,
                threshold,
            }) => model::decide_vouched_as(
                reading,
                base,
                *permission,
                *at,
                register,
                *threshold,
                group,
            ),
        }
    }

    pub fn by_library(self, base: &[u8], asked: &Asked) -> u32 {
        let Asked {
            permission, group, ..
        } = asked;
        let at = library_context(asked.at);
        match self {
            Decision::By(None) => answers::decide(base, *permission, at, group),
            Decision::By(Some(list)) => answers::decide_by(base, *permission, at, list, group),
            Decision::Vouched(Trust {
                register,
                threshold,
            }) => answers::decide_vouched(base, *permission, at, register, *threshold, group),
        }
    }

    pub fn by_twin(self, base: &[u8], asked: &Asked) -> u8 {
        let Asked {
            permission,
            at,
            group,
        } = asked;
        match self {
            Decision::By(None) => twin::decide(base, *permission, *at, group),
            Decision::By(Some(list)) => twin::decide_by(base, *permission, *at, list, group),
            Decision::Vouched(Trust {
                register,
                threshold,
            }) => twin::decide_vouched(base, *permission, *at, register, *threshold, group),
        }
    }
}

/// A report, on all groups that a decision grants or, for a requester, on those
/// with the requester first.
#[derive(Clone, Copy, Debug)]
pub enum Report<'a> {
    By(List<'a>),
    For { requester: u32, trust: &'a Trust },
}

impl<'a> Report<'a> {
    pub fn by_model(self, reading: Reading, base: &[u8], at: Context, out: &mut [u8]) -> Answer {
        match self {
            Report::By(list) => model::report_as(reading, base, at, list, out),
            Report::For { requester, trust } => {
                let Trust {
                    register,
                    threshold,
                } = trust;
                model::report_vouched_as(reading, base, at, register, *threshold, requester, out)
            }
        }
    }

    pub fn by_library(self, base: &[u8], at: Context, out: &mut [u8]) -> answers::Answer {
        let at = library_context(at);
        match self {
            Report::By(None) => answers::report(base, at, out),
            Report::By(Some(list)) => answers::report_by(base, at, list, out),
            Report::For { requester, trust } => {
                let Trust {
                    register,
                    threshold,
                } = trust;
                answers::report_vouched(base, at, register, *threshold, requester, out)
            }
        }
    }

    pub fn by_twin(self, base: &[u8], at: Context, out: &mut [u8]) -> Answer {
        match self {
            Report::By(None) => twin::report(base, at, out),
            Report::By(Some(list)) => twin::report_by(base, at, list, out),
            Report::For { requester, trust } => {
                let Trust {
                    register,
                    threshold,
                } = trust;
                twin::report_vouched(base, at, register, *threshold, requester, out)
            }
        }
    }

    /// The bytes lent beside the base: the list or the register.
    pub fn lent(self) -> &'a [u8] {
        match self {
            Report::By(list) => list.unwrap_or_default(),
            Report::For { trust, .. } => &trust.register,
        }
    }

    /// The decision that grants the groups shown.
    pub fn decision(self) -> Decision<'a> {
        match self {
            Report::By(list) => Decision::By(list),
            Report::For { trust, .. } => Decision::Vouched(trust),
        }
    }

    /// Whether a group shown stands by rising user, behind the requester if there is
    /// one.
    pub fn is_in_order(self, group: &[u8]) -> bool {
        let users: Vec<u32> = group.iter().step_by(2).map(|user| (*user).into()).collect();
        let rises = |users: &[u32]| users.windows(2).all(|pair| pair[0] < pair[1]);
        match (self, &users[..]) {
            (Report::By(_), users) => rises(users),
            (Report::For { .. }, []) => true,
            (Report::For { requester, .. }, [first, others @ ..]) => {
                *first == requester && rises(others)
            }
        }
    }
}
