//! The models: the same table and the same calls, within other limits.

/// The limits of a model. Every call is made for one; a shift record doesn't
/// say for which.
#[derive(Clone, Copy, Debug, PartialEq, Eq)]
pub struct Model {
    pub min_cells: usize,
    pub max_cells: usize,
    pub min_workers: usize,
    pub max_workers: usize,
}

/// The model of document 01.
pub const GATEWAY: Model = Model {
    min_cells: 2,
    max_cells: 8192,
    min_workers: 1,
    max_workers: 16,
};

/// The smaller one, for kiosks.
pub const KIOSK: Model = Model {
    min_cells: 2,
    max_cells: 256,
    min_workers: 1,
    max_workers: 4,
};

impl Model {
    /// May a table have so many cells?
    pub fn is_length(self, cells: usize) -> bool {
        (self.min_cells..=self.max_cells).contains(&cells)
    }

    /// May a shift have so many workers?
    pub fn is_crew(self, count: u64) -> bool {
        (self.min_workers as u64..=self.max_workers as u64).contains(&count)
    }
}
