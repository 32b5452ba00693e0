//! Refusals, numbered as in the paper's list.

/// Why a call is refused.
#[derive(Clone, Copy, Debug, PartialEq, Eq)]
pub enum Refusal {
    Length = 1,
    Letters = 2,
    Trailer = 3,
    Hierarchy = 4,
    Users = 5,
    GroupClauses = 6,
    ContextClauses = 7,
    Policies = 8,
    Exclusions = 9,
    NoPermission = 10,
    Context = 11,
    GroupLength = 12,
    NoUserOrRole = 13,
    UserTwice = 14,
    Membership = 15,
    NoWeight = 16,
    Condition = 17,
    ConflictBuffer = 18,
    ReportBuffer = 19,
    SheetFull = 20,
    NoPolicyOrWeight = 21,
    Resolution = 22,
    NoSignature = 23,
    OutOfDate = 24,
    Register = 25,
    NotVouched = 26,
    Threshold = 27,
    Queries = 28,
}

impl Refusal {
    /// The refusal's number.
    pub fn number(self) -> u8 {
        self as u8
    }
}

/// The number to answer: the refusal's, or 0 for granted or done.
pub fn number<T>(result: Result<T, Refusal>) -> u8 {
    result.err().map_or(0, Refusal::number)
}

/// Ends with a refusal if it applies.
pub fn refuse_if(applies: bool, refusal: Refusal) -> Result<(), Refusal> {
    if applies {
        Err(refusal)
    } else {
        Ok(())
    }
}
