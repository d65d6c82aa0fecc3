//! Contents of cells, homes, ways, soundness and the layout of a set.

use std::collections::BTreeMap;

use crate::refusal;

/// The content of an empty cell.
pub const EMPTY: u64 = 0;

/// The prices, in cents, that a label may have.
pub const MIN_PRICE: u32 = 1;
pub const MAX_PRICE: u32 = 9_999_999;

/// A content is a label times this, plus the price.
const PRICES: u64 = 4_294_967_296;

/// The content that holds a label and its price.
pub fn content(label: u32, price: u32) -> u64 {
    u64::from(label) * PRICES + u64::from(price)
}

/// The label of a content; 0 if it has none.
pub fn label_of(content: u64) -> u32 {
    (content / PRICES) as u32
}

/// The price beside the label.
pub fn price_of(content: u64) -> u32 {
    (content % PRICES) as u32
}

/// May a label have this price?
pub fn is_price(price: u32) -> bool {
    (MIN_PRICE..=MAX_PRICE).contains(&price)
}

/// The two numbers that a label's home is computed from.
#[derive(Clone, Copy, Debug, PartialEq, Eq, Hash)]
pub struct Homes {
    pub a: u32,
    pub b: u32,
}

/// A home is a value below this, modulo the length.
const VALUES: u64 = 4_294_967_296;

impl Homes {
    /// The homes of document 01: a label's value is the label.
    pub const PLAIN: Homes = Homes { a: 1, b: 0 };

    /// a times the label plus b, modulo 4,294,967,296.
    fn value(self, label: u32) -> u64 {
        (u64::from(self.a) * u64::from(label) + u64::from(self.b)) % VALUES
    }

    /// The cell where a label's search starts in a table of `n` cells.
    pub fn home(self, label: u32, n: usize) -> usize {
        (self.value(label) % n as u64) as usize
    }

    /// May a shift be opened with them? An even a may not.
    pub fn check(self) -> Result<(), u8> {
        if self.a.is_multiple_of(2) {
            return Err(refusal::EVEN);
        }
        Ok(())
    }
}

/// The cell after `cell`, wrapping after the last.
pub fn next(cell: usize, n: usize) -> usize {
    if cell + 1 == n {
        0
    } else {
        cell + 1
    }
}

/// The cell before `cell`, wrapping before the first.
pub fn before(cell: usize, n: usize) -> usize {
    if cell == 0 {
        n - 1
    } else {
        cell - 1
    }
}

/// Steps forward from cell `a` to cell `b`.
fn distance(a: usize, b: usize, n: usize) -> usize {
    if a <= b {
        b - a
    } else {
        b + n - a
    }
}

/// The number of cells on the way of `label` in cell `at`.
pub fn way_length(homes: Homes, label: u32, at: usize, n: usize) -> usize {
    distance(homes.home(label, n), at, n)
}

/// Does the way of `label` in cell `at` pass cell `k`?
pub fn way_passes(homes: Homes, label: u32, at: usize, k: usize, n: usize) -> bool {
    distance(homes.home(label, n), k, n) < way_length(homes, label, at, n)
}

/// Does the way of `label` in cell `at` hold only greater labels?
pub fn way_is_greater(homes: Homes, table: &[u64], label: u32, at: usize) -> bool {
    let home = homes.home(label, table.len());
    let greater = |&other: &u64| label_of(other) > label;
    if home <= at {
        table[home..at].iter().all(greater)
    } else {
        table[home..].iter().all(greater) && table[..at].iter().all(greater)
    }
}

/// The first content from the home of `label` on that isn't greater; there has
/// to be one.
fn first_not_greater(homes: Homes, table: &[u64], label: u32) -> u64 {
    let mut cell = homes.home(label, table.len());
    while label_of(table[cell]) > label {
        cell = next(cell, table.len());
    }
    table[cell]
}

/// May a cell hold this: nothing, or a label with a price that it may have?
fn is_content(cell: u64) -> bool {
    cell == EMPTY || label_of(cell) != 0 && is_price(price_of(cell))
}

/// Is a cell empty, is every other one a label with a price that it may have,
/// and does every label's way hold only greater labels? If not, the refusal:
/// `UNSOUND` for a cell wrong by itself or for want of an empty one. Otherwise
/// the lowest-numbered cell whose label breaks the way rule decides, by the
/// first content on its way that isn't greater: `GAP` if that is 0, `DISORDER`
/// if it is a label.
pub fn soundness(homes: Homes, table: &[u64]) -> Result<(), u8> {
    if !table.contains(&EMPTY) {
        return Err(refusal::UNSOUND);
    }
    for (at, &cell) in table.iter().enumerate() {
        if cell == EMPTY {
            continue;
        }
        if !is_content(cell) {
            return Err(refusal::UNSOUND);
        }
        if !way_is_greater(homes, table, label_of(cell), at) {
            // A cell wrong by itself goes before, also one further on.
            if !table[at..].iter().all(|&cell| is_content(cell)) {
                return Err(refusal::UNSOUND);
            }
            return Err(match first_not_greater(homes, table, label_of(cell)) {
                EMPTY => refusal::GAP,
                _ => refusal::DISORDER,
            });
        }
    }
    Ok(())
}

/// Is the table sound?
pub fn is_sound(homes: Homes, table: &[u64]) -> bool {
    soundness(homes, table).is_ok()
}

/// For each label its least price.
pub type Prices = BTreeMap<u32, u32>;

/// The labels of some contents, each with its least price there.
pub fn least_prices(contents: impl IntoIterator<Item = u64>) -> Prices {
    let mut prices = Prices::new();
    for cell in contents {
        if label_of(cell) != 0 {
            let least = prices.entry(label_of(cell)).or_insert(price_of(cell));
            *least = price_of(cell).min(*least);
        }
    }
    prices
}

/// The layout of a set of labels in `n` cells: from the greatest to the
/// smallest, each in the first empty cell from its home, with its price.
///
/// Panics if the set holds 0 or hasn't fewer labels than cells.
pub fn layout(homes: Homes, n: usize, prices: &Prices) -> Vec<u64> {
    assert!(prices.len() < n, "a layout needs an empty cell");
    assert!(!prices.contains_key(&0), "0 is no label");
    let mut table = vec![EMPTY; n];
    for (&label, &price) in prices.iter().rev() {
        let mut cell = homes.home(label, n);
        while table[cell] != EMPTY {
            cell = next(cell, n);
        }
        table[cell] = content(label, price);
    }
    table
}
