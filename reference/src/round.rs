//! Reply rounds: a list is sent, and those that no reply came for are listed.

use std::collections::VecDeque;

use crate::layout::{Homes, EMPTY};
use crate::listing;
use crate::model::Model;
use crate::phase::{Activity, Answer, Order, Phase, LOOK_UP, PUT_IN, TAKE_OUT};
use crate::refusal;

/// A reply for a label, to be looked up and taken out by a worker.
#[derive(Clone, Copy, Debug, PartialEq, Eq, Hash)]
pub struct Reply {
    pub worker: u32,
    pub label: u32,
}

impl Reply {
    /// What a closing with `count` workers checks of a reply before it is looked
    /// up.
    fn check(&self, count: u64) -> Result<(), u8> {
        if self.label == 0 {
            return Err(refusal::BLANK);
        }
        if u64::from(self.worker) >= count {
            return Err(refusal::NO_WORKER);
        }
        Ok(())
    }

    /// The order of a look-up or a take-out, which has no price.
    fn order(self) -> Order {
        Order {
            worker: self.worker,
            label: self.label,
            price: 0,
        }
    }
}

/// Opens a round with the list sent, which is checked as by a put-in opening on
/// an empty table: empties the lent table and fills it by one shift.
pub fn open(
    model: Model,
    count: u64,
    homes: Homes,
    table: &mut [u64],
    sent: &[Order],
) -> Result<(), u8> {
    let mut fresh = vec![EMPTY; table.len()];
    shift(model, PUT_IN, count, homes, &mut fresh, sent)?;
    table.copy_from_slice(&fresh);
    Ok(())
}

/// Closes a round: looks up the replies in one shift, takes out those found in
/// the next, and lists what is left. Gives its number; each reply has its answer
/// in its own place.
pub fn close(
    model: Model,
    count: u64,
    homes: Homes,
    table: &mut [u64],
    replies: &[Reply],
    answers: &mut [u32],
    lent: &mut [u64],
) -> Result<usize, u8> {
    if !model.is_length(table.len()) {
        return Err(refusal::SIZE);
    }
    if !model.is_crew(count) {
        return Err(refusal::CREW);
    }
    let labels = listing::count(model, homes, table)?;
    if lent.len() < labels || answers.len() < replies.len() {
        return Err(refusal::SHORT_LIST);
    }
    let mut asked = Vec::new();
    let mut places = Vec::new();
    for (reply, place) in replies.iter().zip(answers) {
        match reply.check(count) {
            Ok(()) => {
                asked.push(reply.order());
                places.push(place);
            }
            Err(number) => *place = number.into(),
        }
    }
    let mut found = Vec::new();
    let looked_up = shift(model, LOOK_UP, count, homes, table, &asked)?;
    for ((&order, place), answer) in asked.iter().zip(places).zip(looked_up) {
        if answer == Answer::No {
            *place = refusal::ABSENT.into();
        } else {
            *place = 0;
            found.push(order);
        }
    }
    shift(model, TAKE_OUT, count, homes, table, &found)?;
    listing::list(model, homes, table, lent)
}

/// A whole shift: every worker has turns round and round, and gets the next of
/// its orders when it is idle. Gives the answer that each order finished with;
/// refused only by its opening.
fn shift(
    model: Model,
    kind: u32,
    count: u64,
    homes: Homes,
    table: &mut [u64],
    orders: &[Order],
) -> Result<Vec<Answer>, u8> {
    let mut phase = Phase::open(model, kind.into(), count, homes, table, orders)?;
    // The lines that each worker has still to finish.
    let mut lines = vec![VecDeque::new(); phase.count];
    for (line, order) in orders.iter().enumerate() {
        lines[order.worker as usize].push_back(line);
    }
    let mut finished = vec![Answer::Idle; orders.len()];
    let mut left = orders.len();
    while left > 0 {
        for (worker, lines) in (0..).zip(&mut lines) {
            let Some(&line) = lines.front() else {
                continue;
            };
            if phase.workers[worker as usize] == Activity::Idle {
                phase
                    .order(model, orders, line as u64, worker, orders[line].label)
                    .expect("an idle worker");
            }
            let answer = phase.turn(model, table, worker).expect("a turn");
            if answer != Answer::WentOn {
                finished[line] = answer;
                lines.pop_front();
                left -= 1;
            }
        }
    }
    phase.close(model).expect("nobody works");
    Ok(finished)
}
