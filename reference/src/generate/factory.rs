//! The label factory's case: labels in steps of 100 in 1,025 cells, with homes
//! that crowd and with homes that spread.

use std::collections::BTreeSet;

use crate::layout::{label_of, layout, way_length, Homes, Prices, EMPTY};
use crate::model::GATEWAY;
use crate::phase::{Activity, Order, Phase, LOOK_UP, PUT_IN, TAKE_OUT};

pub const CELLS: usize = 1025;

pub const WORKERS: usize = 16;

/// a is 4,294,967,296 divided by the golden ratio, rounded down, the usual
/// number for labels of which nothing is known: it was chosen without a look at
/// the 100 or the 1,025.
pub const GOLDEN: Homes = Homes {
    a: 2_654_435_769,
    b: 0,
};

/// a is a prime close to that number, just as usual. With these labels it crowds.
pub const PRIME: Homes = Homes {
    a: 2_654_435_761,
    b: 0,
};

/// a is the inverse of 25, which 100 and 1,025 have in common: 100 times k has
/// the value 4 times k, and no two homes are the same. But the labels stand in
/// long runs, and a take-out walks to the end of its run.
pub const FITTED: Homes = Homes {
    a: 3_264_175_145,
    b: 0,
};

/// Labels dealt to the workers in turn: 100, 200, 300 and so on, but for so many
/// that were numbered before. Each has a price of its own.
pub fn later_orders(before: usize, count: usize) -> Vec<Order> {
    (0..count as u32)
        .map(|i| Order {
            worker: i % WORKERS as u32,
            label: 100 * (before as u32 + i + 1),
            price: 1 + i,
        })
        .collect()
}

/// The first labels.
pub fn orders(count: usize) -> Vec<Order> {
    later_orders(0, count)
}

/// The table that has these orders' labels.
pub fn table_of(homes: Homes, orders: &[Order]) -> Vec<u64> {
    let prices: Prices = orders.iter().map(|o| (o.label, o.price)).collect();
    layout(homes, CELLS, &prices)
}

/// The table that has the first labels.
pub fn table(homes: Homes, count: usize) -> Vec<u64> {
    table_of(homes, &orders(count))
}

/// What is done in a shift.
#[derive(Clone, Copy, Debug, PartialEq, Eq)]
pub enum Step {
    /// The order of a line is given.
    Order(usize),
    /// A worker with an unfinished order has a turn.
    Turn(usize),
}

/// A whole shift: each worker gets an order, then they have turns round and
/// round until all are idle, then each gets the next. Gives what was done.
pub fn shift(kind: u32, homes: Homes, table: &mut [u64], orders: &[Order]) -> Vec<Step> {
    let mut phase = Phase::open(GATEWAY, kind.into(), WORKERS as u64, homes, table, orders)
        .expect("a sound table with room");
    let mut steps = Vec::new();
    for (round, given) in orders.chunks(WORKERS).enumerate() {
        for (i, order) in given.iter().enumerate() {
            let line = round * WORKERS + i;
            phase
                .order(
                    GATEWAY,
                    orders,
                    line as u64,
                    order.worker.into(),
                    order.label,
                )
                .expect("an idle worker");
            steps.push(Step::Order(line));
        }
        while !phase.all_idle() {
            assert!(steps.len() < 10_000_000, "the shift doesn't end");
            for worker in 0..WORKERS {
                if phase.workers[worker] != Activity::Idle {
                    phase.turn(GATEWAY, table, worker as u64).expect("a turn");
                    steps.push(Step::Turn(worker));
                }
            }
        }
    }
    phase.close(GATEWAY).expect("nobody works");
    steps
}

/// How a table of the factory's labels is crowded, and what that costs.
#[derive(Clone, Copy, Debug, PartialEq, Eq)]
pub struct Crowding {
    pub labels: usize,
    /// Cells that are some label's home.
    pub homes: usize,
    /// The lengths of all ways, added up.
    pub ways: usize,
    pub longest_way: usize,
    /// Turns of whole shifts that put in, look up and take out all labels.
    pub put_in: usize,
    pub look_up: usize,
    pub take_out: usize,
}

pub fn crowding(homes: Homes, count: usize) -> Crowding {
    let orders = orders(count);
    let mut cells = vec![EMPTY; CELLS];
    let mut turns = |kind| {
        let steps = shift(kind, homes, &mut cells, &orders);
        let turns = steps.iter().filter(|step| matches!(step, Step::Turn(_)));
        turns.count()
    };
    let (put_in, look_up, take_out) = (turns(PUT_IN), turns(LOOK_UP), turns(TAKE_OUT));
    let own: BTreeSet<usize> = orders.iter().map(|o| homes.home(o.label, CELLS)).collect();
    let ways = ways(homes, &table(homes, count));
    Crowding {
        labels: count,
        homes: own.len(),
        ways: ways.iter().flatten().sum(),
        longest_way: ways.into_iter().flatten().max().unwrap_or(0),
        put_in,
        look_up,
        take_out,
    }
}

/// For each cell the length of its label's way, none for an empty one.
pub fn ways(homes: Homes, table: &[u64]) -> Vec<Option<usize>> {
    let way = |(at, &cell): (usize, &u64)| {
        (cell != EMPTY).then(|| way_length(homes, label_of(cell), at, table.len()))
    };
    table.iter().enumerate().map(way).collect()
}

/// A picture of a table, `width` cells to a row: `·` is an empty cell, a label
/// is drawn as the length of its way, 0 to 9, then a to z, and + above.
pub fn picture(homes: Homes, table: &[u64], width: usize) -> String {
    let drawn = |way: &Option<usize>| match *way {
        None => '·',
        Some(way @ 0..36) => char::from_digit(way as u32, 36).expect("a digit"),
        Some(_) => '+',
    };
    let ways = ways(homes, table);
    let row = |row: &[Option<usize>]| row.iter().map(drawn).chain(['\n']).collect::<String>();
    ways.chunks(width).map(row).collect()
}
