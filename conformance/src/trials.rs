//! What the comparisons share: lengths and worker counts to try, places that are not lent, and how often each answer came up.

use std::collections::BTreeMap;

use reference::generate::Rng;
use reference::layout::content;
use reference::model::Model;

/// Worker counts that get 2 in both models.
pub const NO_COUNTS: [u64; 6] = [0, 17, 1 << 32, (1 << 32) + 1, (1 << 63) + 3, u64::MAX];

/// Places behind what is lent, which are not lent.
pub const GUARD: usize = 2;

/// Contents of these labels at price 1; 0 is an empty cell.
pub fn cells<const N: usize>(labels: [u32; N]) -> [u64; N] {
    labels.map(|label| content(label, label.min(1)))
}

/// These numbers, and behind them some that are not lent.
pub fn guarded<T: Clone>(lent: &[T], random: impl FnMut() -> T) -> Vec<T> {
    lent.iter().cloned().chain(std::iter::repeat_with(random).take(GUARD)).collect()
}

/// A number of cells: few, some around the kiosk's most, or now and then the model's most and around it.
pub fn some_cells(random: &mut Rng, model: Model) -> usize {
    match random.below(1000) {
        0 => model.max_cells - 1 + random.below(3),
        1..=20 => random.within(250, 260),
        _ => random.within(2, 20),
    }
}

/// How often each answer was given: a refusal's number, or 0.
#[derive(Default)]
pub struct Tally(BTreeMap<u8, usize>);

impl Tally {
    pub fn take<T>(&mut self, answer: &Result<T, u8>) {
        let number = answer.as_ref().err().copied().unwrap_or(0);
        *self.0.entry(number).or_default() += 1;
    }

    /// These came up, each at least so often, and nothing else.
    pub fn each(self, numbers: &[u8], least: usize) {
        let seen: Vec<u8> = self.0.keys().copied().collect();
        assert_eq!(seen, numbers, "{:?}", self.0);
        assert!(self.0.values().all(|&often| often >= least), "{:?}", self.0);
    }
}
