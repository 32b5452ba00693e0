//! How the rules are read.

/// The paper's reading with the requests', or a wrong one, which a test can take to
/// show that the comparison notices it.
#[derive(Clone, Copy, Debug, Default, PartialEq, Eq)]
pub enum Reading {
    #[default]
    Paper,
    /// A junior counts once for each chain that leads to it.
    JuniorPerChain,
    /// A role's own policy of type 1 counts as inherited too.
    OwnTwice,
    /// role_num is the number of entries.
    EntriesAsRoles,
    /// The search for a smallest group ends on the heaviest users.
    HeaviestUsers,
    /// Conditions met in different K clauses make one clause hold.
    MixedGroupClauses,
    /// Conditions met in different C clauses make one clause hold, and
    /// parameters that fit in different clauses make two contexts related.
    MixedContextClauses,
    /// A conflict of kind 1 needs different weight and different type.
    WeightAndType,
    /// A context number is related to itself though none of its clauses can
    /// hold.
    RelatedToItself,
    /// A policy of type 0 covers the seniors of its role too.
    SeniorsCovered,
    /// A conflict of kind 3 needs the exclusion's first role held; the user may
    /// act in the second.
    FirstHeld,
    /// A conflict of kind 3 needs the exclusion's second role held; the user may
    /// act in the first.
    SecondHeld,
    /// A conflict of kind 3 needs one of the two roles held, whichever; the user
    /// may act in the other.
    OneHeld,
    /// A conflict of kind 3 needs one role held through which the user may act in
    /// both.
    OneRoleForBoth,
    /// A refused opening gives a sheet for the permission asked for.
    PermissionKept,
    /// Signing checks that the sheet's permission is there.
    PermissionAtSigning,
    /// A full sheet refuses before the new entry is looked at.
    FullFirst,
    /// A user may sign again in another role.
    AnotherRole,
    /// A sheet that claims over six entries holds none.
    OverSixAsNone,
    /// A user acts in the roles held alone.
    HeldAlone,
    /// A user acts in the juniors that an H record names, not in those behind
    /// them.
    DirectJuniors,
    /// A user acts in roles that are senior to one held too.
    SeniorsToo,
    /// The set of roles has the role held, through which the user acts, too.
    SeniorInSet,
    /// An entry weighs what the role held, through which the user acts, weighs.
    SeniorsWeight,
    /// A changed weight reaches the juniors of the policy's role, in place of
    /// its seniors.
    JuniorsReached,
    /// A changed weight reaches the seniors, but not the policy's role.
    SeniorsAlone,
    /// A changed weight reaches the seniors that an H record names, not those
    /// behind them.
    DirectSeniors,
    /// A senior counts once for each chain that leads from it.
    SeniorPerChain,
    /// A changed weight reaches the seniors only if the policy is of type 1.
    TypeRegarded,
    /// A changed weight reaches nobody if an earlier policy is of the same role
    /// and permission.
    FirstAlone,
    /// A bound is the difference of the weights, for however many entries.
    EntriesForgotten,
    /// A bound is refused by 21 before the group is looked at.
    ChangeFirst,
    /// By rule 0 the earlier issue day goes first.
    EarlierDay,
    /// By rule 1 the smaller rank number goes first.
    SmallerRank,
    /// By rule 2 the larger weight goes first.
    LargerWeight,
    /// A list's last rule decides first.
    LastRuleFirst,
    /// Only a list's first rule decides.
    FirstRuleAlone,
    /// Where no rule of a list tells policies apart, the last one counts.
    LastOfEqual,
    /// By a list, inh is the weight of the policy chosen in own, and 0 where
    /// that is of type 0.
    InhOfOwn,
    /// A list's rules choose among inactive policies too; where they choose one,
    /// the weight is 0.
    InactiveToo,
    /// A decision is refused by 22 after 10.
    ListAfterPermission,
    /// A report goes by table order, whatever the list.
    ListIgnored,
    /// An empty list is no list.
    EmptyAsNone,
    /// Of a list only the first three bytes are looked at.
    FirstThreeBytes,
    /// A list may have a rule twice.
    RepeatsAllowed,
    /// Another byte in a list tells no policies apart.
    OtherBytesAllowed,
    /// The last entry takes the place of the one withdrawn.
    LastIntoGap,
    /// The entry withdrawn becomes zero bytes and still counts.
    ClearedInPlace,
    /// The entries behind the one withdrawn go too.
    LaterDropped,
    /// A withdrawal looks for its number among the roles acted in.
    RoleWithdrawn,
    /// Of a user who stands twice, only the first entry goes.
    FirstEntryAlone,
    /// The bytes behind the entries that stay aren't cleared.
    BehindUncleared,
    /// One code is tried for parameter 1.
    TryForNone,
    /// As many codes are tried as roles are held.
    RolesCounted,
    /// The number tried is the highest role's, without the plus one.
    HighestItself,
    /// For a parameter that gets 5 the end of the codes counts as tried too.
    EndCounted,
    /// A user's days start behind the first day.
    FirstDayExcluded,
    /// A user's days end before the last day.
    LastDayExcluded,
    /// A decision is refused by 24 before 15.
    DaysBeforeMembership,
    /// A decision is refused by 24 after 16.
    DaysAfterWeight,
    /// A report considers users whatever their days.
    DaysForgotten,
    /// A signing is refused by 24 unless the user's days include date 0.
    DaysAtSigning,
    /// A user's first day may be above the last.
    DaysTurned,
    /// A base may end in the letters that it had before users had days.
    OldLetters,
    /// A statement's trust has to be above the threshold.
    TrustAbove,
    /// A statement's days start behind its first day.
    FirstDayOfStatement,
    /// A statement's days end before its last day.
    LastDayOfStatement,
    /// A statement counts in either direction.
    EitherDirection,
    /// A statement counts for every permission.
    EveryPermission,
    /// The trust of one statement counts on the days of another.
    StatementsJoined,
    /// The last entry of a group is the requester.
    LastEntryRequests,
    /// The requester needs a statement too, one to the requester alone.
    RequesterVouched,
    /// A decision is refused by 26 before 24.
    VouchingBeforeDays,
    /// A decision is refused by 26 after 16.
    VouchingAfterWeight,
    /// A call is refused by 27 before 25.
    ThresholdFirst,
    /// A report is refused by 13 before 11.
    RequesterFirst,
    /// In a report the requester may stand among the others again, by a statement
    /// to the requester alone.
    RequesterAgain,
    /// A report for a requester has the numbers of the first report.
    FirstReport,
    /// A query is answered 12 before 10.
    CountBeforePermission,
    /// All six entries of a query are its group, however many count.
    UnusedRead,
    /// A query that counts more than six entries has six.
    CountCut,
    /// A batch is refused by 28 before 11.
    QueriesBeforeContext,
    /// The bytes behind a batch's answers become 0.
    LaterCleared,
}

impl Reading {
    /// The readings that the paper warns of.
    pub const WRONG: [Reading; 6] = [
        Reading::JuniorPerChain,
        Reading::OwnTwice,
        Reading::EntriesAsRoles,
        Reading::HeaviestUsers,
        Reading::MixedGroupClauses,
        Reading::MixedContextClauses,
    ];

    /// Wrong readings that only the conflict list shows.
    pub const WRONG_IN_LISTS: [Reading; 7] = [
        Reading::WeightAndType,
        Reading::RelatedToItself,
        Reading::SeniorsCovered,
        Reading::FirstHeld,
        Reading::SecondHeld,
        Reading::OneHeld,
        Reading::OneRoleForBoth,
    ];

    /// Wrong readings that only sheets show.
    pub const WRONG_ON_SHEETS: [Reading; 5] = [
        Reading::PermissionKept,
        Reading::PermissionAtSigning,
        Reading::FullFirst,
        Reading::AnotherRole,
        Reading::OverSixAsNone,
    ];

    /// Wrong readings of who may act, and as what.
    pub const WRONG_OF_ACTING: [Reading; 5] = [
        Reading::HeldAlone,
        Reading::DirectJuniors,
        Reading::SeniorsToo,
        Reading::SeniorInSet,
        Reading::SeniorsWeight,
    ];

    /// Wrong readings that only the bound shows.
    pub const WRONG_OF_BOUNDS: [Reading; 8] = [
        Reading::JuniorsReached,
        Reading::SeniorsAlone,
        Reading::DirectSeniors,
        Reading::SeniorPerChain,
        Reading::TypeRegarded,
        Reading::FirstAlone,
        Reading::EntriesForgotten,
        Reading::ChangeFirst,
    ];

    /// Wrong readings that only a resolution list shows.
    pub const WRONG_OF_RESOLUTION: [Reading; 14] = [
        Reading::EarlierDay,
        Reading::SmallerRank,
        Reading::LargerWeight,
        Reading::LastRuleFirst,
        Reading::FirstRuleAlone,
        Reading::LastOfEqual,
        Reading::InhOfOwn,
        Reading::InactiveToo,
        Reading::ListAfterPermission,
        Reading::ListIgnored,
        Reading::EmptyAsNone,
        Reading::FirstThreeBytes,
        Reading::RepeatsAllowed,
        Reading::OtherBytesAllowed,
    ];

    /// Wrong readings that only a withdrawal shows.
    pub const WRONG_OF_WITHDRAWAL: [Reading; 6] = [
        Reading::LastIntoGap,
        Reading::ClearedInPlace,
        Reading::LaterDropped,
        Reading::RoleWithdrawn,
        Reading::FirstEntryAlone,
        Reading::BehindUncleared,
    ];

    /// Wrong readings that only the check of one parameter shows.
    pub const WRONG_OF_PARAMETERS: [Reading; 4] = [
        Reading::TryForNone,
        Reading::RolesCounted,
        Reading::HighestItself,
        Reading::EndCounted,
    ];

    /// Wrong readings of users' days and of the form that a base has with them.
    pub const WRONG_OF_DATES: [Reading; 8] = [
        Reading::FirstDayExcluded,
        Reading::LastDayExcluded,
        Reading::DaysBeforeMembership,
        Reading::DaysAfterWeight,
        Reading::DaysForgotten,
        Reading::DaysAtSigning,
        Reading::DaysTurned,
        Reading::OldLetters,
    ];

    /// Wrong readings that only a register shows.
    pub const WRONG_OF_VOUCHING: [Reading; 14] = [
        Reading::TrustAbove,
        Reading::FirstDayOfStatement,
        Reading::LastDayOfStatement,
        Reading::EitherDirection,
        Reading::EveryPermission,
        Reading::StatementsJoined,
        Reading::LastEntryRequests,
        Reading::RequesterVouched,
        Reading::VouchingBeforeDays,
        Reading::VouchingAfterWeight,
        Reading::ThresholdFirst,
        Reading::RequesterFirst,
        Reading::RequesterAgain,
        Reading::FirstReport,
    ];

    /// Wrong readings that only a batch of queries shows.
    pub const WRONG_OF_BATCHES: [Reading; 5] = [
        Reading::CountBeforePermission,
        Reading::UnusedRead,
        Reading::CountCut,
        Reading::QueriesBeforeContext,
        Reading::LaterCleared,
    ];
}

/// Whether a clause holds when conditions met in earlier clauses count as its
/// own. Each clause is given as its conditions' truth.
pub fn mixed(clauses: impl Iterator<Item = Vec<bool>>) -> bool {
    let mut met = 0;
    for clause in clauses {
        met += clause.iter().filter(|holds| **holds).count();
        if met >= clause.len() {
            return true;
        }
    }
    false
}
