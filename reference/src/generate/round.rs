//! Replies to a round.

use super::{labels_of, test_label, Rng};
use crate::round::Reply;

/// Replies to a round of `crew` workers on a table: for all its labels, some or
/// none of them, some more than once, and for others from 1 to `most` or test
/// numbers. Some are for label 0, or by a worker that there isn't, or both.
pub fn replies(rng: &mut Rng, table: &[u64], crew: usize, most: usize) -> Vec<Reply> {
    let mut labels = labels_of(table);
    rng.shuffle(&mut labels);
    match rng.below(8) {
        0 => labels.clear(),
        1 | 2 => {}
        _ => labels.truncate(rng.below(labels.len() + 1)),
    }
    if !labels.is_empty() {
        for _ in 0..rng.pick(&[0, 0, 1, 2, 5]) {
            labels.push(rng.pick(&labels));
        }
    }
    for _ in 0..rng.pick(&[0, 0, 1, 2, 5]) {
        labels.push(match rng.once_in(6) {
            true => test_label(rng),
            false => rng.within(1, most) as u32,
        });
    }
    rng.shuffle(&mut labels);
    let faults = rng.pick(&[4, 16, 1_000_000]);
    let reply = |label| {
        let mut reply = Reply {
            worker: rng.below(crew) as u32,
            label,
        };
        let reasons = match rng.once_in(faults) {
            true => rng.within(1, 3),
            false => 0,
        };
        if reasons & 1 != 0 {
            reply.label = 0;
        }
        if reasons & 2 != 0 {
            reply.worker = rng.pick(&[crew as u32, crew as u32 + 1, 1 << 31, u32::MAX]);
        }
        reply
    };
    labels.into_iter().map(reply).collect()
}
