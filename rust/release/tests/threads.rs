//! The calls in other threads: in little stack, and many at once.

use std::thread::{self, Builder};

use release::example::SMALL_SHOP;
use release::{
    batch_into, bound_bytes, check, check_parameter, conflicts_into, decide_by_bytes, decide_bytes,
    decide_vouched_bytes, report, report_by, report_vouched, Context, Entry, Refusal, Register,
    Resolution, Rule, Sheet, Statement, Tried, MOST_QUERIES, QUERY_BYTES,
};

const EARLY: Context = Context {
    minute: 480,
    day: 0,
    zone: 0,
    date: 900,
};

/// Runs a call in a thread with so many bytes of stack.
fn within<T: Send + 'static>(stack: usize, call: impl FnOnce() -> T + Send + 'static) -> T {
    let thread = Builder::new().stack_size(stack).spawn(call);
    thread.expect("a thread starts").join().expect("it ends")
}

/// The small shop with a sum that nobody reaches: groups of every number are
/// looked for, which takes most.
fn out_of_reach() -> [u8; 130] {
    let mut shop = SMALL_SHOP;
    shop[45] = 255;
    shop
}

/// A sheet for permission 0 that the manager and the buyer have signed.
fn signed_sheet(base: &[u8]) -> Result<Sheet, Refusal> {
    let mut sheet = Sheet::open(base, 0)?;
    sheet.sign(base, Entry::new(0, 0))?;
    sheet.sign(base, Entry::new(1, 1))?;
    Ok(sheet)
}

/// How many permissions can be released early.
fn releasable(base: &[u8]) -> Result<usize, Refusal> {
    report(base, EARLY).map(|report| report.count())
}

/// The same by the list of all rules.
fn releasable_by(base: &[u8]) -> Result<usize, Refusal> {
    let list = Resolution::new(&Rule::ALL).expect("three rules");
    report_by(base, EARLY, list).map(|report| report.count())
}

/// The same for user 0 as requester, whom the first 16 users trust for each
/// permission, in a register of 256 statements.
fn releasable_vouched(base: &[u8]) -> Result<usize, Refusal> {
    let count = |place| base[base.len() - 36 + place];
    let (users, permissions) = (count(6).min(16), count(10));
    let of_permission = |permission| {
        let issuers = 0..users;
        issuers.map(move |issuer| Statement::new(issuer, 0, permission, 3))
    };
    let statements = (0..permissions).flat_map(of_permission).cycle();
    let register: Register = statements.take(256).collect();
    report_vouched(base, EARLY, &register, 3, 0).map(|report| report.count())
}

#[test]
fn a_report_in_64_kib() {
    const LITTLE: usize = 1 << 16;
    for releasable in [releasable, releasable_by] {
        assert_eq!(within(LITTLE, move || releasable(&out_of_reach())), Ok(0));
        assert_eq!(within(LITTLE, move || releasable(&SMALL_SHOP)), Ok(1));
        for (name, plan) in twin::worst::all() {
            let base = plan.bytes();
            let count = if name == "sixes" { 16 } else { 0 };
            assert_eq!(within(LITTLE, move || releasable(&base)), Ok(count));
        }
    }
}

#[test]
fn a_report_for_a_requester_in_64_kib() {
    const LITTLE: usize = 1 << 16;
    for (base, count) in [(SMALL_SHOP, 1), (out_of_reach(), 0)] {
        let reported = within(LITTLE, move || releasable_vouched(&base));
        assert_eq!(reported, Ok(count));
    }
    for (name, plan) in twin::worst::all() {
        let base = plan.bytes();
        let reported = within(LITTLE, move || releasable_vouched(&base));
        assert!(reported.is_ok(), "{name}: {reported:?}");
    }
}

#[test]
fn every_other_call_in_32_kib() {
    const LITTLE: usize = 1 << 15;
    assert_eq!(within(LITTLE, || check(&SMALL_SHOP)), Ok(()));
    let decided = within(LITTLE, || {
        decide_bytes(&out_of_reach(), 0, EARLY, &[0, 0, 1, 1])
    });
    assert_eq!(decided, Err(Refusal::Condition));
    let decided = within(LITTLE, || {
        decide_by_bytes(&out_of_reach(), 0, EARLY, &[0, 1, 2], &[0, 0, 1, 1])
    });
    assert_eq!(decided, Err(Refusal::Condition));
    let decided = within(LITTLE, || {
        let register = [1, 0, 0, 3, 0, 0, 255, 255].repeat(256);
        decide_vouched_bytes(&out_of_reach(), 0, EARLY, &register, 3, &[0, 0, 1, 1])
    });
    assert_eq!(decided, Err(Refusal::Condition));
    let listed = within(LITTLE, || conflicts_into(&SMALL_SHOP, &mut [0; 9]));
    assert_eq!(listed, Ok(0));
    let shifted = within(LITTLE, || bound_bytes(&SMALL_SHOP, 2, 5, &[0, 0, 1, 1]));
    assert_eq!(shifted, Ok(8));
    let tried = within(LITTLE, || check_parameter(111_546_434, 8));
    let result = Err(Refusal::Users);
    assert_eq!(tried, Tried { result, tried: 8 });
    let sheet = within(LITTLE, || signed_sheet(&out_of_reach())).expect("it is signed");
    let mut withdrawn = sheet.clone();
    let asked = within(LITTLE, move || sheet.ask(&out_of_reach(), EARLY));
    assert_eq!(asked, Err(Refusal::Condition));
    let users = within(LITTLE, move || {
        let answers = [withdrawn.withdraw(0), withdrawn.withdraw(0)];
        (answers, withdrawn.entries().collect::<Vec<_>>())
    });
    let answers = [Ok(()), Err(Refusal::NoSignature)];
    assert_eq!(users, (answers, vec![Entry::new(1, 1)]));
}

/// As many queries as can be, each with six entries, about so many permissions in
/// turn.
fn most_queries(permissions: usize) -> Vec<u8> {
    let query = |place: usize| {
        let mut query = [0, 6, 0, 0, 1, 0, 2, 0, 3, 0, 4, 0, 5, 0];
        query[0] = (place % permissions) as u8;
        query[3] = (place % 8) as u8;
        query
    };
    let queries: Vec<[u8; QUERY_BYTES]> = (0..MOST_QUERIES).map(query).collect();
    queries.concat()
}

/// Early, on full bases too.
#[test]
fn a_batch_in_32_kib() {
    const LITTLE: usize = 1 << 15;
    let plans = twin::worst::all().into_iter();
    let full = plans.map(|(_, plan)| plan.bytes());
    for base in full.chain([SMALL_SHOP.to_vec(), out_of_reach().to_vec()]) {
        for permissions in [1, 2, 16] {
            let queries = most_queries(permissions);
            let expected = queries.chunks_exact(QUERY_BYTES).map(|query| {
                let decided = decide_bytes(&base, query[0].into(), EARLY, &query[2..]);
                decided.err().map_or(0, |refusal| refusal.number() as u8)
            });
            let expected: Vec<u8> = expected.collect();
            let base = base.clone();
            let batched = within(LITTLE, move || {
                let mut answers = [77; MOST_QUERIES + 1];
                let done = batch_into(&base, EARLY, &queries, &mut answers);
                (done, answers)
            });
            assert_eq!(batched.0, Ok(()));
            let (answers, behind) = batched.1.split_at(MOST_QUERIES);
            assert_eq!((answers, behind), (&expected[..], &[77][..]));
        }
    }
}

/// Each about the same queries, by one of two bases and with answers of its own.
#[test]
fn many_batches_at_once() {
    let queries = [
        [0, 2, 0, 0, 1, 1, 0, 0, 0, 0, 0, 0, 0, 0],
        [0, 1, 0, 0, 1, 1, 0, 0, 0, 0, 0, 0, 0, 0],
        [1, 2, 0, 0, 1, 1, 0, 0, 0, 0, 0, 0, 0, 0],
    ];
    thread::scope(|scope| {
        for turn in 0..8 {
            scope.spawn(move || {
                let (base, granted) = [(SMALL_SHOP, 0), (out_of_reach(), 17)][turn % 2];
                for _ in 0..200 {
                    let mut answers = [77; 4];
                    let done = batch_into(&base, EARLY, queries.as_flattened(), &mut answers);
                    assert_eq!((done, answers), (Ok(()), [granted, 17, 10, 77]));
                }
            });
        }
    });
}

#[test]
fn many_at_once() {
    thread::scope(|scope| {
        for turn in 0..8 {
            scope.spawn(move || {
                let (base, count) = [(SMALL_SHOP, 1), (out_of_reach(), 0)][turn % 2];
                for _ in 0..200 {
                    assert_eq!(releasable(&base), Ok(count));
                    assert_eq!(releasable_by(&base), Ok(count));
                    assert_eq!(releasable_vouched(&base), Ok(count));
                }
            });
        }
    });
}

#[test]
fn many_bounds_at_once() {
    thread::scope(|scope| {
        for policy in [0, 1, 2, 3, 0, 1, 2, 3] {
            scope.spawn(move || {
                let expected = [Ok(2), Ok(8), Ok(12), Err(Refusal::NoPolicyOrWeight)];
                for _ in 0..200 {
                    let found = bound_bytes(&SMALL_SHOP, policy, 5, &[0, 0, 1, 1, 2, 2]);
                    assert_eq!(found, expected[policy as usize]);
                }
            });
        }
    });
}

/// Each asks the same sheet, signs one of its own and withdraws from it.
#[test]
fn many_sheets_at_once() {
    let shared = signed_sheet(&SMALL_SHOP).expect("it is signed");
    thread::scope(|scope| {
        for _ in 0..8 {
            scope.spawn(|| {
                for _ in 0..200 {
                    assert_eq!(shared.ask(&SMALL_SHOP, EARLY), Ok(()));
                    let mut own = signed_sheet(&SMALL_SHOP).expect("it is signed");
                    assert_eq!(own, shared);
                    assert_eq!(own.withdraw(0), Ok(()));
                    assert!(own.entries().eq([Entry::new(1, 1)]));
                }
            });
        }
    });
}
