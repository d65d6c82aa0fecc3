//! A shift (phase): its record, and the calls open, order, turn and close.

use crate::layout::{
    before, content, is_price, label_of, next, price_of, soundness, way_passes, Homes, EMPTY,
};
use crate::model::{Model, GATEWAY};
use crate::refusal;

pub const PUT_IN: u32 = 1;
pub const TAKE_OUT: u32 = 2;
pub const LOOK_UP: u32 = 3;

/// What a worker is doing. An `entry` is a content; the worker works for its
/// label.
#[derive(Clone, Copy, Debug, PartialEq, Eq, Hash)]
pub enum Activity {
    Idle,
    /// Walking on from the home; `cell` is read next.
    ReadingOn {
        entry: u64,
        cell: usize,
    },
    /// About to replace the content of `cell`.
    /// Put in: `found` was seen in `cell` itself (`from` is `cell`) and is to
    /// be replaced by `entry`.
    /// Take out: `entry` was seen in `cell`, `found` in `from`, and `entry` is
    /// to be replaced by `found`.
    Replacing {
        entry: u64,
        cell: usize,
        found: u64,
        from: usize,
    },
    /// Walking back towards the home; `cell` is read next.
    WalkingBack {
        entry: u64,
        cell: usize,
    },
    /// Seeking what is to replace `entry`, seen in cell `hole`; `cell` is read
    /// next. Forward while nothing is taken, then back. `taken` is a content
    /// and the cell where it was seen.
    Seeking {
        entry: u64,
        hole: usize,
        cell: usize,
        taken: Option<(u64, usize)>,
    },
}

use Activity::{Idle, ReadingOn, Replacing, Seeking, WalkingBack};

/// The answer of a turn.
#[derive(Clone, Copy, Debug, PartialEq, Eq, Hash)]
pub enum Answer {
    WentOn,
    Finished,
    /// A look-up found its label at this price.
    Price(u32),
    No,
    Idle,
}

/// Labels from here up are for factory tests: they may stand in a table, but a
/// shop adds none.
pub const FIRST_TEST_LABEL: u32 = 4_000_000_000;

/// A line of the list that a put-in shift is opened with.
#[derive(Clone, Copy, Debug, PartialEq, Eq, Hash)]
pub struct Order {
    pub worker: u32,
    pub label: u32,
    pub price: u32,
}

/// The shift record, with room for the greatest crew of any model. The fields
/// are open so that tests can forge records.
#[derive(Clone, Debug, PartialEq, Eq, Hash)]
pub struct Phase {
    pub kind: u32,
    pub length: usize,
    pub count: usize,
    pub open: bool,
    pub homes: Homes,
    pub workers: [Activity; Phase::WORKERS],
}

impl Phase {
    /// The places for workers.
    pub const WORKERS: usize = GATEWAY.max_workers;
    pub const MAX_ORDERS: usize = 65_536;

    /// The shut record that stands for a refused opening.
    pub fn shut() -> Phase {
        Phase {
            kind: LOOK_UP,
            length: 2,
            count: 1,
            open: false,
            homes: Homes::PLAIN,
            workers: [Idle; Phase::WORKERS],
        }
    }

    /// Opens a shift on the table. A put-in shift is lent the list of orders;
    /// the other kinds don't read it.
    pub fn open(
        model: Model,
        kind: u64,
        count: u64,
        homes: Homes,
        table: &[u64],
        orders: &[Order],
    ) -> Result<Phase, u8> {
        if !model.is_length(table.len()) {
            return Err(refusal::SIZE);
        }
        if !model.is_crew(count) {
            return Err(refusal::CREW);
        }
        if !(1..=3).contains(&kind) {
            return Err(refusal::KIND);
        }
        homes.check()?;
        let kind = kind as u32;
        if kind == PUT_IN && orders.len() > Phase::MAX_ORDERS {
            return Err(refusal::LONG_LIST);
        }
        soundness(homes, table)?;
        if kind == PUT_IN {
            for order in orders {
                order.check(count)?;
            }
            if labels_together(table, orders) >= table.len() {
                return Err(refusal::FULL);
            }
        }
        Ok(Phase {
            kind,
            length: table.len(),
            count: count as usize,
            open: true,
            homes,
            workers: [Idle; Phase::WORKERS],
        })
    }

    /// Gives an idle worker an order. In a put-in shift this is line `line` of
    /// the lent list, in the others `label` for `worker`; neither reads what is
    /// meant for the other.
    pub fn order(
        &mut self,
        model: Model,
        orders: &[Order],
        line: u64,
        worker: u64,
        label: u32,
    ) -> Result<(), u8> {
        if self.is_spoilt(model) {
            return Err(refusal::SPOILT);
        }
        if !self.open {
            return Err(refusal::SHUT);
        }
        let (worker, label, price) = if self.kind == PUT_IN {
            if line >= orders.len() as u64 {
                return Err(refusal::NO_LINE);
            }
            let order = orders[line as usize];
            (order.worker.into(), order.label, order.price)
        } else {
            (worker, label, 0)
        };
        if worker >= self.count as u64 {
            return Err(refusal::NO_WORKER);
        }
        let activity = &mut self.workers[worker as usize];
        if *activity != Idle {
            return Err(refusal::BUSY);
        }
        if self.kind == PUT_IN {
            check_entry(label, price)?;
        } else if label == 0 {
            return Err(refusal::BLANK);
        }
        *activity = ReadingOn {
            entry: content(label, price),
            cell: self.homes.home(label, self.length),
        };
        Ok(())
    }

    /// Moves one worker by one turn.
    pub fn turn(&mut self, model: Model, table: &mut [u64], worker: u64) -> Result<Answer, u8> {
        if self.is_spoilt(model) {
            return Err(refusal::SPOILT);
        }
        if !self.open {
            return Err(refusal::SHUT);
        }
        if table.len() != self.length {
            return Err(refusal::OTHER_TABLE);
        }
        if worker >= self.count as u64 {
            return Err(refusal::NO_WORKER);
        }
        let activity = &mut self.workers[worker as usize];
        Ok(match self.kind {
            PUT_IN => put_in(activity, table),
            TAKE_OUT => take_out(activity, self.homes, table),
            _ => look_up(activity, table),
        })
    }

    /// Ends the shift.
    pub fn close(&mut self, model: Model) -> Result<(), u8> {
        if self.is_spoilt(model) {
            return Err(refusal::SPOILT);
        }
        if !self.open {
            return Err(refusal::SHUT);
        }
        if !self.all_idle() {
            return Err(refusal::WORKING);
        }
        self.open = false;
        Ok(())
    }

    /// Does the record break a bound of the model?
    pub fn is_spoilt(&self, model: Model) -> bool {
        if !(PUT_IN..=LOOK_UP).contains(&self.kind)
            || !model.is_length(self.length)
            || !model.is_crew(self.count as u64)
        {
            return true;
        }
        let (crew, rest) = self.workers.split_at(self.count);
        crew.iter()
            .any(|activity| activity.breaks_bound(self.kind, self.length))
            || rest.iter().any(|activity| *activity != Idle)
    }

    /// The workers of the shift.
    pub fn crew(&self) -> &[Activity] {
        &self.workers[..self.count]
    }

    /// Has no worker an unfinished order?
    pub fn all_idle(&self) -> bool {
        self.crew().iter().all(|activity| *activity == Idle)
    }
}

impl Order {
    /// What the opening of a shift with `count` workers checks of a line.
    fn check(&self, count: u64) -> Result<(), u8> {
        check_entry(self.label, self.price)?;
        if u64::from(self.worker) >= count {
            return Err(refusal::NO_WORKER);
        }
        Ok(())
    }
}

/// What opening and order of a put-in shift check of a label and its price.
fn check_entry(label: u32, price: u32) -> Result<(), u8> {
    if label == 0 {
        return Err(refusal::BLANK);
    }
    if label >= FIRST_TEST_LABEL {
        return Err(refusal::TEST_NUMBER);
    }
    if !is_price(price) {
        return Err(refusal::PRICE);
    }
    Ok(())
}

/// The number of labels of table and list together, each counted once.
fn labels_together(table: &[u64], orders: &[Order]) -> usize {
    let standing = table.iter().map(|&cell| label_of(cell));
    let ordered = orders.iter().map(|order| order.label);
    let mut labels: Vec<u32> = standing.filter(|&l| l != 0).chain(ordered).collect();
    labels.sort_unstable();
    labels.dedup();
    labels.len()
}

impl Activity {
    /// Has the activity a number out of bounds, or does the kind lack it?
    pub(crate) fn breaks_bound(&self, kind: u32, length: usize) -> bool {
        let blank = |entry| label_of(entry) == 0;
        match *self {
            Idle => false,
            ReadingOn { entry, cell } => blank(entry) || cell >= length,
            Replacing {
                entry, cell, from, ..
            } => kind == LOOK_UP || blank(entry) || cell >= length || from >= length,
            WalkingBack { entry, cell } => kind != TAKE_OUT || blank(entry) || cell >= length,
            Seeking {
                entry,
                hole,
                cell,
                taken,
            } => {
                kind != TAKE_OUT
                    || blank(entry)
                    || hole >= length
                    || cell >= length
                    || taken.is_some_and(|(_, from)| from >= length)
            }
        }
    }
}

pub(crate) fn put_in(activity: &mut Activity, table: &mut [u64]) -> Answer {
    let n = table.len();
    match *activity {
        Idle => return Answer::Idle,
        ReadingOn { entry, cell } => {
            let found = table[cell];
            if label_of(found) > label_of(entry) {
                *activity = ReadingOn {
                    entry,
                    cell: next(cell, n),
                };
            } else if label_of(found) == label_of(entry) && price_of(found) <= price_of(entry) {
                // Its label stands, at no higher price.
                *activity = Idle;
                return Answer::Finished;
            } else {
                // Its label at a higher price, a smaller one, or none.
                *activity = Replacing {
                    entry,
                    cell,
                    found,
                    from: cell,
                };
            }
        }
        Replacing {
            entry, cell, found, ..
        } => {
            if table[cell] != found {
                // Failed: the same cell again.
                *activity = ReadingOn { entry, cell };
            } else {
                table[cell] = entry;
                let own_dearer =
                    label_of(found) == label_of(entry) && price_of(found) > price_of(entry);
                if label_of(found) == 0 || own_dearer {
                    *activity = Idle;
                    return Answer::Finished;
                }
                // Carry any other label on, with its price.
                *activity = ReadingOn {
                    entry: found,
                    cell: next(cell, n),
                };
            }
        }
        WalkingBack { .. } | Seeking { .. } => unreachable!("the record is spoilt"),
    }
    Answer::WentOn
}

fn look_up(activity: &mut Activity, table: &[u64]) -> Answer {
    match *activity {
        Idle => Answer::Idle,
        ReadingOn { entry, cell } => {
            let found = table[cell];
            if label_of(found) > label_of(entry) {
                *activity = ReadingOn {
                    entry,
                    cell: next(cell, table.len()),
                };
                return Answer::WentOn;
            }
            *activity = Idle;
            if label_of(found) == label_of(entry) {
                Answer::Price(price_of(found))
            } else {
                Answer::No
            }
        }
        Replacing { .. } | WalkingBack { .. } | Seeking { .. } => {
            unreachable!("the record is spoilt")
        }
    }
}

fn take_out(activity: &mut Activity, homes: Homes, table: &mut [u64]) -> Answer {
    let n = table.len();
    match *activity {
        Idle => return Answer::Idle,
        ReadingOn { entry, cell } => {
            *activity = if label_of(table[cell]) > label_of(entry) {
                ReadingOn {
                    entry,
                    cell: next(cell, n),
                }
            } else {
                // That cell first, and read anew.
                WalkingBack { entry, cell }
            };
        }
        WalkingBack { entry, cell } => {
            let content = table[cell];
            if label_of(content) == label_of(entry) {
                // From here on its content is known whole.
                *activity = Seeking {
                    entry: content,
                    hole: cell,
                    cell: next(cell, n),
                    taken: None,
                };
            } else if cell == homes.home(label_of(entry), n) {
                *activity = Idle;
                return Answer::Finished;
            } else {
                *activity = WalkingBack {
                    entry,
                    cell: before(cell, n),
                };
            }
        }
        Seeking {
            entry,
            hole,
            cell,
            taken,
        } => {
            let content = table[cell];
            let label = label_of(content);
            let fits = label == 0 || way_passes(homes, label, cell, hole, n);
            let taken = if fits { Some((content, cell)) } else { taken };
            *activity = match taken {
                None => Seeking {
                    entry,
                    hole,
                    cell: next(cell, n),
                    taken,
                },
                // Back at the cell after the hole: nothing lies between.
                Some((found, from)) if cell == next(hole, n) => Replacing {
                    entry,
                    cell: hole,
                    found,
                    from,
                },
                Some(_) => Seeking {
                    entry,
                    hole,
                    cell: before(cell, n),
                    taken,
                },
            };
        }
        Replacing {
            entry,
            cell,
            found,
            from,
        } => {
            if table[cell] != entry {
                // Failed: look at the same cell again.
                *activity = WalkingBack { entry, cell };
            } else if label_of(found) == 0 {
                // Whatever stood beside no label, the copy is 0.
                table[cell] = EMPTY;
                *activity = Idle;
                return Answer::Finished;
            } else {
                table[cell] = found;
                // Now take out the copy that was left behind.
                *activity = WalkingBack {
                    entry: found,
                    cell: from,
                };
            }
        }
    }
    Answer::WentOn
}
