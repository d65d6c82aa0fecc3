//! Check, count and list; they need no shift.

use crate::layout::{label_of, soundness, Homes};
use crate::model::Model;
use crate::refusal;

/// Cells of a group.
pub const GROUP: usize = 64;

/// Is the table sound?
pub fn check(model: Model, homes: Homes, table: &[u64]) -> Result<(), u8> {
    if !model.is_length(table.len()) {
        return Err(refusal::SIZE);
    }
    homes.check()?;
    soundness(homes, table)
}

/// The cells that hold a label, whole and in cell order.
fn labelled(table: &[u64]) -> impl Iterator<Item = u64> + '_ {
    table.iter().copied().filter(|&cell| label_of(cell) != 0)
}

/// The number of labels.
pub fn count(model: Model, homes: Homes, table: &[u64]) -> Result<usize, u8> {
    check(model, homes, table)?;
    Ok(labelled(table).count())
}

/// Lists the cells with a label, in cell order, into the front of the lent
/// list.
pub fn list(model: Model, homes: Homes, table: &[u64], lent: &mut [u64]) -> Result<usize, u8> {
    let count = count(model, homes, table)?;
    if lent.len() < count {
        return Err(refusal::SHORT_LIST);
    }
    for (place, cell) in lent.iter_mut().zip(labelled(table)) {
        *place = cell;
    }
    Ok(count)
}

/// Lists and hands back the filled front part, empty where refused.
pub fn list_front<'a>(
    model: Model,
    homes: Homes,
    table: &[u64],
    lent: &'a mut [u64],
) -> &'a mut [u64] {
    let count = list(model, homes, table, lent).unwrap_or(0);
    &mut lent[..count]
}

/// The taken word of group `group`: bit b is 1 if its cell b holds a label.
pub fn taken_word(table: &[u64], group: usize) -> u64 {
    table
        .iter()
        .skip(group * GROUP)
        .take(GROUP)
        .enumerate()
        .filter(|&(_, &cell)| label_of(cell) != 0)
        .fold(0, |word, (bit, _)| word | 1 << bit)
}
