//! How far one label reaches: the cells that it may change, and what may change
//! in them.

use crate::layout::{Homes, EMPTY};

/// The number of empty cells.
pub fn empty_cells(table: &[u64]) -> usize {
    table.iter().filter(|&&cell| cell == EMPTY).count()
}

/// The first empty cell from cell `from` on, wrapping after the last; there has
/// to be one.
pub fn first_empty(table: &[u64], from: usize) -> usize {
    (from..table.len())
        .chain(0..from)
        .find(|&at| table[at] == EMPTY)
        .expect("an empty cell")
}

/// The cells from the home of `label` to the first empty one, that one
/// included, in this order.
pub fn reach(homes: Homes, table: &[u64], label: u32) -> Vec<usize> {
    let home = homes.home(label, table.len());
    let last = first_empty(table, home);
    if home <= last {
        (home..=last).collect()
    } else {
        (home..table.len()).chain(0..=last).collect()
    }
}

/// Are the tables equal outside these cells?
pub fn equal_outside(cells: &[usize], without: &[u64], with: &[u64]) -> bool {
    let (mut one, mut other) = (without.to_vec(), with.to_vec());
    for &cell in cells {
        (one[cell], other[cell]) = (EMPTY, EMPTY);
    }
    one == other
}

/// Does every label in one of these cells, one after the other, keep its cell or
/// move forward to a later one of them, with its price?
pub fn kept_or_moved_forward(cells: &[usize], without: &[u64], with: &[u64]) -> bool {
    cells.iter().enumerate().all(|(steps, &cell)| {
        let entry = without[cell];
        entry == EMPTY || cells[steps..].iter().any(|&at| with[at] == entry)
    })
}
