//! Reference implementation of the label table in both models, written from
//! documents 01 and 02 alone. It shares no code with the product.
#![forbid(unsafe_code)]

pub mod generate;
pub mod layout;
pub mod listing;
pub mod model;
pub mod moving;
pub mod phase;
pub mod reach;
pub mod round;
pub mod sheet;
pub mod till;

/// The refusal numbers of documents 01 and 02.
pub mod refusal {
    pub const SIZE: u8 = 1;
    pub const CREW: u8 = 2;
    pub const KIND: u8 = 3;
    /// No cell is empty, or a cell is wrong by itself.
    pub const UNSOUND: u8 = 4;
    pub const OTHER_TABLE: u8 = 5;
    pub const NO_WORKER: u8 = 6;
    pub const BLANK: u8 = 7;
    pub const BUSY: u8 = 8;
    pub const FULL: u8 = 9;
    pub const WORKING: u8 = 10;
    pub const SHUT: u8 = 11;
    pub const SHORT_LIST: u8 = 12;
    pub const SPOILT: u8 = 13;
    pub const PRICE: u8 = 14;
    pub const NO_LINE: u8 = 15;
    pub const LONG_LIST: u8 = 16;
    /// What decides on the way of a label is an empty cell.
    pub const GAP: u8 = 17;
    /// What decides on the way of a label is a label.
    pub const DISORDER: u8 = 18;
    /// A record breaks the grammar or hasn't two fields.
    pub const BAD_RECORD: u8 = 19;
    /// A field isn't a number.
    pub const BAD_FIELD: u8 = 20;
    /// The a of the homes is even.
    pub const EVEN: u8 = 21;
    /// A reply's label isn't in the table.
    pub const ABSENT: u8 = 22;
    /// The new table isn't all empty, or has no more cells than there are labels.
    pub const UNFIT: u8 = 23;
    /// A put-in line's or a sent line's label is for factory tests.
    pub const TEST_NUMBER: u8 = 24;
}
