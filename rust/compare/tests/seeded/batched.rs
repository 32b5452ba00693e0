//! Batches of queries, on bases of all kinds: sound, damaged and of any bytes.

use compare::batches::{agreed_batch, Batch};
use compare::cases;
use compare::lent::Lent;
use compare::queries::{any_room, batch_for, loose_batch};
use compare::questions::Asked;
use compare::random::Random;
use model::Base;

use crate::seen::{Call, Seen};

pub fn compare(seen: &mut Seen) {
    let mut compare = |base: &[u8], batch: &Batch, lent: Lent| {
        compare_batch(seen, base, batch, lent);
    };
    sound_bases(1_200, &mut compare);
    let mut random = Random::new(363);
    let mut compare = |base: &[u8], asked: &Asked| {
        let (batch, lent) = any_batch(&mut random, base, asked);
        compare(base, &batch, lent);
    };
    cases::full_bases(364, 100, &mut compare);
    cases::heavy_bases(365, 100, &mut compare);
    cases::valid_bases(366, 300, &mut compare);
    cases::every_short_group(367, 10, &mut compare);
    cases::damaged_bases(368, 600, &mut compare);
    cases::single_fields(369, 1, &mut compare);
    cases::loose_bytes(370, 4_000, &mut compare);
}

/// The first batches of the comparison.
pub fn sound_bases(bases: usize, mut attempt: impl FnMut(&[u8], &Batch, Lent)) {
    let mut random = Random::new(361);
    cases::lively_bases(362, bases, |base, asked| {
        let (batch, lent) = any_batch(&mut random, base, asked);
        attempt(base, &batch, lent);
    });
}

/// A batch for the question, or any bytes where the base is refused, and a buffer,
/// mostly with room for the answers.
fn any_batch(random: &mut Random, base: &[u8], asked: &Asked) -> (Batch, Lent) {
    let batch = match Base::read(base) {
        Ok(base) if !random.chance(20) => batch_for(random, &base, asked),
        _ => loose_batch(random, asked.at),
    };
    let room = any_room(random, &batch);
    let lent = Lent::noisy(random, room);
    (batch, lent)
}

fn compare_batch(seen: &mut Seen, base: &[u8], batch: &Batch, mut lent: Lent) {
    let answer = agreed_batch(base, batch, &mut lent);
    seen.answer(Call::Batch, answer);
    match answer {
        0 => seen.queried.answered(base, batch, lent.buffer()),
        28 => seen.queried.unfit(batch, lent.length()),
        _ => (),
    }
}
