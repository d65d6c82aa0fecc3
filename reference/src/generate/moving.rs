//! New tables to move to.

use super::{labels_of, Rng};
use crate::layout::{content, EMPTY, MAX_PRICE};

/// A length for a new table, at most `most`: just enough for the labels of the
/// old one or some more, as long as that one or longer.
pub fn cells(rng: &mut Rng, old: &[u64], most: usize) -> usize {
    let least = 2.max(labels_of(old).len() + 1);
    let cells = match rng.below(4) {
        0 => least,
        1 => old.len(),
        2 => rng.within(least, 2 * least),
        _ => rng.within(old.len(), 3 * old.len()),
    };
    cells.min(most)
}

/// A new table that no opening takes: one of its cells isn't empty, or it has no
/// more cells than there are labels.
pub fn unfit(rng: &mut Rng, old: &[u64], new: &mut Vec<u64>) {
    let labels = labels_of(old).len();
    if labels >= 2 && rng.once_in(2) {
        new.truncate(rng.within(2, labels));
        new.fill(EMPTY);
        return;
    }
    let at = rng.below(new.len());
    let any = rng.within(1, u32::MAX as usize) as u32;
    let label = rng.pick(&[0, 0, 1, any, u32::MAX]);
    let price = rng.pick(&[1, 1, MAX_PRICE, 1 << 31, u32::MAX]);
    new[at] = content(label, price);
}
