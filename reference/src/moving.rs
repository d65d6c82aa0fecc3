//! A move to another table: a shift with calls of its own, lent the old table and
//! a new one.

use crate::layout::{label_of, soundness, Homes, EMPTY};
use crate::model::Model;
use crate::phase::{put_in, Activity, Answer, Phase, PUT_IN};
use crate::refusal;

pub const MOVE: u32 = 4;

/// What a worker of a move is doing.
#[derive(Clone, Copy, Debug, PartialEq, Eq, Hash)]
pub enum Task {
    /// Yet to read this cell of the old table.
    Fetching { cell: usize },
    /// Idle, or what a worker of a put-in shift does, in the new table.
    Working(Activity),
}

use Task::{Fetching, Working};

impl Task {
    pub const IDLE: Task = Working(Activity::Idle);
}

/// The record of a move. The fields are open so that tests can forge records.
#[derive(Clone, Debug, PartialEq, Eq, Hash)]
pub struct Move {
    pub kind: u32,
    pub old_length: usize,
    pub new_length: usize,
    pub count: usize,
    pub open: bool,
    pub homes: Homes,
    /// The next old cell to hand out.
    pub next: usize,
    pub workers: [Task; Phase::WORKERS],
}

impl Move {
    /// The shut record that stands for a refused opening.
    pub fn shut() -> Move {
        Move {
            kind: MOVE,
            old_length: 2,
            new_length: 2,
            count: 1,
            open: false,
            homes: Homes::PLAIN,
            next: 0,
            workers: [Task::IDLE; Phase::WORKERS],
        }
    }

    /// Opens a move from the old table to the new one.
    pub fn open(
        model: Model,
        count: u64,
        homes: Homes,
        old: &[u64],
        new: &[u64],
    ) -> Result<Move, u8> {
        if !model.is_length(old.len()) || !model.is_length(new.len()) {
            return Err(refusal::SIZE);
        }
        if !model.is_crew(count) {
            return Err(refusal::CREW);
        }
        homes.check()?;
        soundness(homes, old)?;
        let labels = old.iter().filter(|&&cell| cell != EMPTY).count();
        if new.iter().any(|&cell| cell != EMPTY) || new.len() <= labels {
            return Err(refusal::UNFIT);
        }
        Ok(Move {
            old_length: old.len(),
            new_length: new.len(),
            count: count as usize,
            open: true,
            homes,
            ..Move::shut()
        })
    }

    /// Gives an idle worker the next old cell.
    pub fn order(&mut self, model: Model, worker: u64) -> Result<(), u8> {
        if self.is_spoilt(model) {
            return Err(refusal::SPOILT);
        }
        if !self.open {
            return Err(refusal::SHUT);
        }
        if worker >= self.count as u64 {
            return Err(refusal::NO_WORKER);
        }
        let task = &mut self.workers[worker as usize];
        if *task != Task::IDLE {
            return Err(refusal::BUSY);
        }
        if self.next == self.old_length {
            return Err(refusal::FULL);
        }
        *task = Fetching { cell: self.next };
        self.next += 1;
        Ok(())
    }

    /// Moves one worker by one turn.
    pub fn turn(
        &mut self,
        model: Model,
        old: &[u64],
        new: &mut [u64],
        worker: u64,
    ) -> Result<Answer, u8> {
        if self.is_spoilt(model) {
            return Err(refusal::SPOILT);
        }
        if !self.open {
            return Err(refusal::SHUT);
        }
        if old.len() != self.old_length || new.len() != self.new_length {
            return Err(refusal::OTHER_TABLE);
        }
        if worker >= self.count as u64 {
            return Err(refusal::NO_WORKER);
        }
        let task = &mut self.workers[worker as usize];
        Ok(match task {
            Fetching { cell } => {
                let entry = old[*cell];
                if label_of(entry) == 0 {
                    *task = Task::IDLE;
                    Answer::Finished
                } else {
                    *task = Working(Activity::ReadingOn {
                        entry,
                        cell: self.homes.home(label_of(entry), self.new_length),
                    });
                    Answer::WentOn
                }
            }
            Working(activity) => put_in(activity, new),
        })
    }

    /// Ends the move.
    pub fn close(&mut self, model: Model) -> Result<(), u8> {
        if self.is_spoilt(model) {
            return Err(refusal::SPOILT);
        }
        if !self.open {
            return Err(refusal::SHUT);
        }
        if !self.all_idle() || self.next < self.old_length {
            return Err(refusal::WORKING);
        }
        self.open = false;
        Ok(())
    }

    /// Does the record break a bound of the model?
    pub fn is_spoilt(&self, model: Model) -> bool {
        if self.kind != MOVE
            || !model.is_length(self.old_length)
            || !model.is_length(self.new_length)
            || !model.is_crew(self.count as u64)
            || self.next > self.old_length
        {
            return true;
        }
        let (crew, rest) = self.workers.split_at(self.count);
        crew.iter().any(|task| match task {
            Fetching { cell } => *cell >= self.old_length,
            // It does what a worker of a put-in shift does.
            Working(activity) => activity.breaks_bound(PUT_IN, self.new_length),
        }) || rest.iter().any(|task| *task != Task::IDLE)
    }

    /// The workers of the move.
    pub fn crew(&self) -> &[Task] {
        &self.workers[..self.count]
    }

    /// Has no worker an unfinished order?
    pub fn all_idle(&self) -> bool {
        self.crew().iter().all(|task| *task == Task::IDLE)
    }
}
