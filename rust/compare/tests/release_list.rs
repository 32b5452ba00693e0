//! Runs program `release_list` on many inputs. It has to print the lines that
//! the model makes of the library's own report, and the model's numbers.

use std::io::{ErrorKind, Write};
use std::path::Path;
use std::process::{Command, Stdio};
use std::time::Duration;

use compare::builder::{BaseBuilder, OLD_LETTERS};
use compare::damage::*;
use compare::days::{end_days, losses, Loss};
use compare::lent::Lent;
use compare::lively::{full_base, heavy_base, lively_base};
use compare::questions::{at_minute, context_in_range};
use compare::random::Random;
use compare::shop::small_shop;
use compare::shown::{numbers, RECORD};
use compare::sparse::sparse_base;
use compare::tally::Tally;
use compare::valid::{random_base, Size};
use compare::{agreed_report, permission_count};
use model::{Answer, Context};

/// Where `tools/build` puts the program.
const PROGRAM: &str = concat!(env!("CARGO_MANIFEST_DIR"), "/../../target/bin/release_list");

/// What the program prints if it gets its input in pieces of this length.
fn printed_in_pieces(input: &[u8], length: usize, pause: Duration) -> String {
    assert!(Path::new(PROGRAM).exists(), "{PROGRAM} isn't built");
    let mut program = Command::new(PROGRAM)
        .stdin(Stdio::piped())
        .stdout(Stdio::piped())
        .spawn()
        .expect("the program starts");
    let mut stdin = program.stdin.take().expect("its input is piped");
    for piece in input.chunks(length) {
        match stdin.write_all(piece) {
            Err(error) if error.kind() == ErrorKind::BrokenPipe => break,
            result => result.expect("the program takes its input"),
        }
        std::thread::sleep(pause);
    }
    drop(stdin);
    let output = program.wait_with_output().expect("the program ends");
    assert!(output.status.success(), "{:?}", output.status);
    String::from_utf8(output.stdout).expect("it prints text")
}

fn printed(input: &[u8]) -> String {
    printed_in_pieces(input, input.len().max(1), Duration::ZERO)
}

/// The report's answer and records for an input, on which the library and the
/// model agree.
fn reported(input: &[u8]) -> (Answer, Vec<u8>) {
    let Some((at, base)) = input.split_first_chunk::<6>() else {
        let (refusal, count) = (1, 0);
        return (Answer { refusal, count }, Vec::new());
    };
    let at = Context {
        minute: u16::from_le_bytes([at[0], at[1]]).into(),
        day: at[2].into(),
        zone: at[3].into(),
        date: u16::from_le_bytes([at[4], at[5]]).into(),
    };
    let length = RECORD * permission_count(base);
    let mut lent = Lent::noisy(&mut Random::new(1), length);
    let answer = agreed_report(base, at, &mut lent);
    (answer, lent.buffer().to_vec())
}

/// Each line up to the group: all of it that isn't free.
fn heads(text: &str) -> Vec<Vec<&str>> {
    let lines = text.lines();
    lines
        .map(|line| line.split(' ').take(3).collect())
        .collect()
}

/// Asserts that the program prints what it has to, and tells the answer.
fn expect_lines(input: &[u8]) -> (Answer, Vec<u8>) {
    let text = printed(input);
    let (answer, records) = reported(input);
    assert_eq!(text, model::lines(answer, &records), "input {input:?}");
    assert_eq!(
        heads(&text),
        heads(&model::render(input)),
        "input {input:?}"
    );
    (answer, records)
}

/// An input: minute, day, zone and date, cut to 2 bytes, 1, 1 and 2, and a base.
fn input(at: Context, base: &[u8]) -> Vec<u8> {
    let [minute, date] = [at.minute, at.date].map(|number| (number as u16).to_le_bytes());
    let day_and_zone = [at.day as u8, at.zone as u8];
    [&minute[..], &day_and_zone, &date, base].concat()
}

#[test]
fn the_papers_example() {
    let input = input(at_minute(480), &small_shop().bytes());
    assert_eq!(printed(&input), "permission 0: 2 0/0 1/1\nreleasable 1\n");
}

#[test]
fn no_permission() {
    let base = BaseBuilder::new(1).bytes();
    assert_eq!(printed(&input(at_minute(0), &base)), "releasable 0\n");
    assert_eq!(printed(&input(at_minute(1440), &base)), "refused 11\n");
}

#[test]
fn a_permission_that_nobody_can_release_has_no_blank_after_0() {
    let base = BaseBuilder::new(1).with_permissions(11).bytes();
    let text = printed(&input(at_minute(0), &base));
    assert!(
        text.starts_with("permission 0: 0\npermission 1: 0\n"),
        "{text}"
    );
    assert!(text.ends_with("permission 10: 0\nreleasable 0\n"), "{text}");
}

#[test]
fn short_inputs_are_refused() {
    for length in 0..=42 {
        for byte in [0, 1, b'L', 255] {
            let text = printed(&vec![byte; length]);
            let refusal = if length < 42 { 1 } else { 2 };
            assert_eq!(text, format!("refused {refusal}\n"), "{length} bytes");
        }
    }
    let shortest = input(at_minute(0), &BaseBuilder::new(1).bytes());
    assert_eq!(shortest.len(), 42);
    for length in 0..42 {
        assert_eq!(printed(&shortest[..length]), "refused 1\n");
        assert_eq!(expect_lines(&shortest[..length]).0.refusal, 1);
    }
}

/// The longest base, and longer inputs that start or end with it.
#[test]
fn long_inputs() {
    let base = full_base(&mut Random::new(71)).bytes();
    assert_eq!(base.len(), 2_460);
    let sound = input(at_minute(600), &base);
    assert_eq!(expect_lines(&sound).0.refusal, 0);
    for more in [
        1, 2, 6, 36, 1_630, 1_631, 2_460, 4_096, 63_070, 70_000, 1_000_000,
    ] {
        let behind = [&sound[..], &vec![0; more]].concat();
        assert_eq!(printed(&behind), "refused 1\n", "{more} bytes more");
        let before = [&[0; 6], &vec![0; more][..], &base].concat();
        assert_eq!(printed(&before), "refused 1\n", "{more} bytes more");
    }
    let twice = [&sound[..], &base].concat();
    assert_eq!(printed(&twice), "refused 1\n");
    for letter in [b"q", b"P"] {
        let other_letters = [&sound[..sound.len() - 1], letter].concat();
        assert_eq!(printed(&other_letters), "refused 2\n");
    }
}

/// A shorter base with bytes behind it is no base, nor one with bytes before.
#[test]
fn bytes_more_than_the_base() {
    let shop = small_shop().bytes();
    let behind = [&shop[..], &[0]].concat();
    assert_eq!(printed(&input(at_minute(480), &behind)), "refused 2\n");
    let before = [&[0], &shop[..]].concat();
    assert_eq!(printed(&input(at_minute(480), &before)), "refused 3\n");
}

#[test]
fn the_context_in_six_bytes() {
    let shop = small_shop().bytes();
    let first = |at: [u8; 6]| printed(&[&at, &shop[..]].concat());
    for at in [
        [0xa0, 0x05, 0, 0, 0, 0],
        [0, 0, 7, 0, 0, 0],
        [255, 255, 255, 255, 255, 255],
    ] {
        assert_eq!(first(at), "refused 11\n");
    }
    for at in [[0x9f, 0x05, 6, 255, 255, 255], [0, 0, 0, 0, 0, 0]] {
        assert!(first(at).ends_with("releasable 1\n"));
    }
}

/// The buyer's days are 0x0102 to 0x0301. Early only manager and buyer have
/// weight, and both are needed.
#[test]
fn the_date_in_two_bytes_behind_the_zone() {
    let mut shop = small_shop();
    shop.users[1].set_days(0x0102, 0x0301);
    for (date, text) in [
        ([0x01, 0x01], "permission 0: 0\nreleasable 0\n"),
        ([0x02, 0x01], "permission 0: 2 0/0 1/1\nreleasable 1\n"),
        ([0x01, 0x02], "permission 0: 2 0/0 1/1\nreleasable 1\n"),
        ([0x01, 0x03], "permission 0: 2 0/0 1/1\nreleasable 1\n"),
        ([0x02, 0x03], "permission 0: 0\nreleasable 0\n"),
        ([0x03, 0x01], "permission 0: 2 0/0 1/1\nreleasable 1\n"),
        ([0x03, 0x03], "permission 0: 0\nreleasable 0\n"),
        ([0xff, 0xff], "permission 0: 0\nreleasable 0\n"),
    ] {
        let input = [&[0xe0, 0x01, 0, 0], &date[..], &shop.bytes()].concat();
        assert_eq!(printed(&input), text, "{date:?}");
        expect_lines(&input);
    }
}

/// The input that was whole before contexts had a date: two bytes of the base
/// are read as the date, and the base is two bytes short.
#[test]
fn an_input_without_a_date_is_refused() {
    let shop = small_shop().bytes();
    let without_date = [&[0xe0, 0x01, 0, 0], &shop[..]].concat();
    assert_eq!(printed(&without_date), "refused 3\n");
    let old = small_shop().old_bytes(OLD_LETTERS);
    let whole_before = [&[0xe0, 0x01, 0, 0], &old[..]].concat();
    assert_eq!(printed(&whole_before), "refused 2\n");
    assert_eq!(printed(&input(at_minute(480), &old)), "refused 2\n");
}

#[test]
fn input_in_pieces_is_the_same_input() {
    let base = full_base(&mut Random::new(72)).bytes();
    for input in [
        input(at_minute(480), &small_shop().bytes()),
        input(at_minute(600), &base),
        input(at_minute(600), &base[1..]),
        vec![0; 5_000],
    ] {
        let whole = printed(&input);
        for (length, pause) in [(1, 0), (3, 0), (500, 2), (1_000, 5), (2_465, 5)] {
            let pause = Duration::from_millis(pause);
            assert_eq!(printed_in_pieces(&input, length, pause), whole);
        }
    }
}

/// How often each answer and each number of approvers was seen, and how many
/// numbers users' days made higher or 0.
struct Seen {
    answers: Tally<12>,
    numbers: Tally<7>,
    lost: usize,
}

impl Seen {
    fn run(&mut self, at: Context, base: &[u8]) {
        let (answer, records) = expect_lines(&input(at, base));
        self.answers.add(answer.refusal);
        if answer.refusal == 0 {
            let numbers = numbers(&records);
            numbers.iter().for_each(|k| self.numbers.add(*k));
            let losses = losses(base, at, None, &numbers).into_iter();
            self.lost += losses.filter(|loss| *loss != Loss::Nothing).count();
        }
    }
}

fn sound_base(random: &mut Random) -> BaseBuilder {
    match random.below(10) {
        0 => random_base(random, Size::Empty),
        1 => random_base(random, Size::Small),
        2 => random_base(random, Size::Any),
        3 => full_base(random),
        4 => heavy_base(random),
        5..=7 => sparse_base(random, 24),
        _ => lively_base(random, 24),
    }
}

/// The base, where one in three users is out of date on a context's date.
fn with_some_gone(random: &mut Random, records: &BaseBuilder, at: Context) -> BaseBuilder {
    let mut records = records.clone();
    for user in &mut records.users {
        if random.chance(3) {
            end_days(random, user, at.date as u16);
        }
    }
    records
}

#[test]
fn seeded_comparison() {
    let mut seen = Seen {
        answers: Tally::new(),
        numbers: Tally::new(),
        lost: 0,
    };
    let mut random = Random::new(73);
    for _ in 0..500 {
        let records = sound_base(&mut random);
        let image = records.image();
        let at = context_in_range(&mut random, &records);
        seen.run(at, &image.bytes);
        seen.run(at, &with_some_gone(&mut random, &records, at).bytes());
        let late = Context {
            minute: random.pick(&[at.minute, 1440, 1441, 1696, 65_535]),
            day: random.pick(&[at.day, 7, 255]),
            ..at
        };
        seen.run(late, &image.bytes);
        for _ in 0..2 {
            seen.run(late, &any_damage(&mut random, &image));
        }
        seen.run(at, &random_bytes(&mut random));
    }
    seen.answers
        .expect_exactly("answer", &[0, 1, 2, 3, 4, 5, 6, 7, 8, 9, 11]);
    seen.numbers.expect_exactly("k", &[0, 1, 2, 3, 4, 5, 6]);
    assert!(seen.lost >= 20, "{} numbers by users' days", seen.lost);
}
