//! Tables that are nearly full, and labels to add to them.

use std::collections::BTreeSet;

use super::{is_shop_label, label_with, labels_of, price, Rng};
use crate::layout::{layout, Homes, Prices, EMPTY};
use crate::phase::FIRST_TEST_LABEL;

/// So many of these cells, to be left empty: side by side, also across the wrap,
/// as far apart as can be, or any.
pub fn gaps(rng: &mut Rng, cells: usize, count: usize) -> BTreeSet<usize> {
    let first = match rng.once_in(4) {
        true => cells - 1,
        false => rng.below(cells),
    };
    let step = match rng.below(3) {
        0 => 1,
        1 => cells / count,
        _ => 0,
    };
    let mut gaps: BTreeSet<usize> = (0..count).map(|i| (first + i * step) % cells).collect();
    while gaps.len() < count {
        gaps.insert(rng.below(cells));
    }
    gaps
}

/// Some label at home in this cell of so many that is wanted; there have to be
/// many.
fn label_at(
    rng: &mut Rng,
    homes: Homes,
    cells: usize,
    home: usize,
    wanted: impl Fn(u32) -> bool,
) -> u32 {
    loop {
        let turns = rng.below((u32::MAX as usize - home) / cells);
        let label = label_with(homes, (home + turns * cells) as u32);
        if label > 0 && wanted(label) {
            return label;
        }
    }
}

/// A sound table with exactly these cells empty, at least one. Its labels are at
/// home where they stand, or up to a few cells before or anywhere behind the
/// last gap; now and then many of them are test numbers. The a is odd.
pub fn table(rng: &mut Rng, homes: Homes, cells: usize, gaps: &BTreeSet<usize>) -> Vec<u64> {
    let most = rng.pick(&[0, 3, 20, cells]);
    let tests = rng.pick(&[2, 20, 1_000_000]);
    let start = *gaps.first().expect("an empty cell");
    let mut prices = Prices::new();
    let mut behind = 0;
    for at in (start..cells).chain(0..start) {
        if gaps.contains(&at) {
            behind = 0;
            continue;
        }
        let back = rng.below(behind.min(most) + 1);
        let home = (at + cells - back) % cells;
        let least = match rng.once_in(tests) {
            true => FIRST_TEST_LABEL,
            false => 1,
        };
        let new = |label| label >= least && !prices.contains_key(&label);
        let label = label_at(rng, homes, cells, home, new);
        prices.insert(label, price(rng));
        behind += 1;
    }
    let table = layout(homes, cells, &prices);
    assert!((0..cells).all(|at| gaps.contains(&at) == (table[at] == EMPTY)));
    table
}

/// A home for a label to add: just behind an empty cell, so that it reaches far,
/// an empty cell, one of the last cells, or any.
pub fn home(rng: &mut Rng, table: &[u64]) -> usize {
    let cells = table.len();
    let empty: Vec<usize> = (0..cells).filter(|&at| table[at] == EMPTY).collect();
    match rng.below(8) {
        0..=2 => (rng.pick(&empty) + 1) % cells,
        3 => rng.pick(&empty),
        4 | 5 => cells - 1 - rng.below(cells.min(4)),
        _ => rng.below(cells),
    }
}

/// A label that a shop may add and the table hasn't, at home in this cell: a
/// small one, a great one or one between.
pub fn label_to_add(rng: &mut Rng, homes: Homes, table: &[u64], home: usize) -> u32 {
    let standing: BTreeSet<u32> = labels_of(table).into_iter().collect();
    let new = |label: u32| is_shop_label(label) && !standing.contains(&label);
    let mut labels = [(); 9].map(|()| label_at(rng, homes, table.len(), home, new));
    labels.sort_unstable();
    rng.pick(&[labels[0], labels[4], labels[8]])
}
