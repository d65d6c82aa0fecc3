//! Whole shifts and moves: the calls from an opening to its close, and the table that a shift closes on.

use reference::generate::factory::Step;
use reference::generate::Rng;
use reference::layout::{label_of, layout, price_of, Homes, Prices};
use reference::model::Model;
use reference::moving::{Move, Task};
use reference::phase::{Activity, Order, Phase, PUT_IN, TAKE_OUT};

use crate::{close, order, order_line, turn, Call};

/// A label and its price, as an order has them.
pub type Entry = (u32, u32);

/// The layout that a shift closes on: the set, and for each label the least price among that at opening and those ordered.
pub fn closed(kind: u32, homes: Homes, table: &[u64], ordered: &[Entry]) -> Vec<u64> {
    let mut set: Prices = table.iter().filter(|&&c| c != 0).map(|&c| (label_of(c), price_of(c))).collect();
    for &(label, price) in ordered {
        match kind {
            PUT_IN => {
                let least = set.get(&label).map_or(price, |&now| now.min(price));
                set.insert(label, least);
            }
            TAKE_OUT => drop(set.remove(&label)),
            _ => (),
        }
    }
    layout(homes, table.len(), &set)
}

/// The calls of a shift with these orders, each for its worker, from the opening to the close: in put-in shifts by line, some twice.
pub fn dealt(random: &mut Rng, model: Model, kind: u32, crew: u32, homes: Homes, table: &[u64], orders: &[Order]) -> Vec<Call> {
    let mut phase = Phase::open(model, kind.into(), crew.into(), homes, table, orders).expect("a sound table with room");
    let mut table = table.to_vec();
    let mut given = 0;
    let mut calls = Vec::new();
    while given < orders.len() || !phase.all_idle() {
        let next = if given > 0 && given < orders.len() && random.once_in(8) { random.below(given) } else { given };
        match orders.get(next) {
            Some(o) if phase.workers[o.worker as usize] == Activity::Idle && random.once_in(2) => {
                let call = if kind == PUT_IN { order_line(next as u32) } else { order(o.worker, o.label) };
                phase.order(model, orders, call.line.into(), call.worker.into(), call.key).expect("an idle worker");
                calls.push(call);
                given += usize::from(next == given);
            }
            _ => {
                let worker = random.below(crew as usize) as u32;
                phase.turn(model, &mut table, worker.into()).expect("a turn");
                calls.push(turn(worker));
            }
        }
    }
    calls.push(close());
    calls
}

/// The calls of a move from a table to so many empty cells, from the opening to the close: each for the worker that is picked next, an order if it is
/// idle and an old cell is left.
pub fn dealt_move(model: Model, crew: u32, homes: Homes, old: &[u64], cells: usize, mut pick: impl FnMut() -> u32) -> Vec<Call> {
    let mut new = vec![0; cells];
    let mut record = Move::open(model, crew.into(), homes, old, &new).expect("a sound table and room for its labels");
    let mut calls = Vec::new();
    while record.next < old.len() || !record.all_idle() {
        let worker = pick();
        if record.workers[worker as usize] == Task::IDLE && record.next < old.len() {
            record.order(model, worker.into()).expect("an idle worker");
            calls.push(order(worker, 0));
        } else {
            record.turn(model, old, &mut new, worker.into()).expect("a turn");
            calls.push(turn(worker));
        }
    }
    calls.push(close());
    calls
}

/// The calls of a shift whose steps are known, and its close.
pub fn calls_of(kind: u32, orders: &[Order], steps: &[Step]) -> Vec<Call> {
    let call = |step: &Step| match *step {
        Step::Order(line) if kind == PUT_IN => order_line(line as u32),
        Step::Order(line) => order(orders[line].worker, orders[line].label),
        Step::Turn(worker) => turn(worker as u32),
    };
    steps.iter().map(call).chain([close()]).collect()
}
