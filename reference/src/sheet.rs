//! The replay of a shift sheet, which is the gateway's.

use std::io::{self, BufRead, Write};

use crate::layout::{label_of, price_of, Homes};
use crate::listing;
use crate::model::GATEWAY;
use crate::phase::{Activity, Answer, Order, Phase, PUT_IN};
use crate::refusal;

/// The greatest length `cells` takes.
const MAX_SHEET_CELLS: u32 = 4096;

/// The most `item` lines of a list.
const MAX_ITEMS: usize = 1024;

/// A readable line.
#[derive(Clone, Copy, Debug, PartialEq, Eq)]
enum Line {
    Cells(u32),
    Item(Order),
    /// Kind, worker count, a and b.
    Open(u32, u32, Homes),
    /// A place in the list, in a put-in shift.
    OrderItem(u32),
    /// Worker and label, in the others.
    Order(u32, u32),
    Turn(u32),
    Run,
    Close,
    List,
}

/// A number without leading zeros, at most 4294967295.
pub(crate) fn read_number(field: &[u8]) -> Option<u32> {
    let (&first, rest) = field.split_first()?;
    if first == b'0' && !rest.is_empty() {
        return None;
    }
    field.iter().try_fold(0u32, |number, &byte| {
        let digit = byte.is_ascii_digit().then(|| u32::from(byte - b'0'))?;
        number.checked_mul(10)?.checked_add(digit)
    })
}

/// The fields of a line.
fn fields(line: &[u8]) -> impl Iterator<Item = &[u8]> {
    line.split(|&byte| byte == b'\t')
}

/// Reads a line (without its newline); None if unreadable. An `order` has one
/// number in a put-in shift and two in others.
fn read_line(line: &[u8], kind: u32) -> Option<Line> {
    let mut fields = fields(line);
    let word = fields.next()?;
    let mut numbers = [0; 4];
    let mut count = 0;
    for field in fields {
        *numbers.get_mut(count)? = read_number(field)?;
        count += 1;
    }
    let [first, second, third, fourth] = numbers;
    match (word, count) {
        (b"cells", 1) => Some(Line::Cells(first)),
        (b"item", 3) => Some(Line::Item(Order {
            worker: first,
            label: second,
            price: third,
        })),
        (b"open", 4) => {
            let homes = Homes {
                a: third,
                b: fourth,
            };
            Some(Line::Open(first, second, homes))
        }
        (b"order", 1) if kind == PUT_IN => Some(Line::OrderItem(first)),
        (b"order", 2) if kind != PUT_IN => Some(Line::Order(first, second)),
        (b"turn", 1) => Some(Line::Turn(first)),
        (b"run", 0) => Some(Line::Run),
        (b"close", 0) => Some(Line::Close),
        (b"list", 0) => Some(Line::List),
        _ => None,
    }
}

/// What a line answers.
enum Reply<'a> {
    Ok,
    Turned(Answer),
    Refused(u8),
    /// One field per worker, None for those idle before.
    Finishes(&'a [Option<Answer>]),
    /// Cells, each with a label.
    Listed(&'a [u64]),
}

/// The state of a replay.
struct Replay {
    table: Vec<u64>,
    phase: Phase,
    /// Those of the last accepted opening.
    homes: Homes,
    /// The list of the put-in shift that is open, or of the next.
    items: Vec<Order>,
    finishes: Vec<Option<Answer>>,
    listed: Vec<u64>,
}

impl Replay {
    fn new() -> Replay {
        Replay {
            table: Vec::new(),
            phase: Phase::shut(),
            homes: Homes::PLAIN,
            items: Vec::new(),
            finishes: Vec::new(),
            listed: Vec::new(),
        }
    }

    /// The reply to a line; None is `bad`.
    fn line(&mut self, line: &[u8]) -> Option<Reply<'_>> {
        if !self.phase.open && fields(line).next() == Some(b"order") {
            return Some(Reply::Refused(refusal::SHUT));
        }
        let reply = match read_line(line, self.phase.kind)? {
            Line::Cells(_) | Line::Item(_) | Line::Open(..) if self.phase.open => return None,
            Line::Item(_) if self.items.len() == MAX_ITEMS => return None,
            Line::Item(order) => {
                self.items.push(order);
                Ok(Reply::Ok)
            }
            Line::Cells(length) => self.cells(length).map(|()| Reply::Ok),
            Line::Open(kind, count, homes) => self.open(kind, count, homes).map(|()| Reply::Ok),
            Line::OrderItem(place) => self
                .phase
                .order(GATEWAY, &self.items, place.into(), 0, 0)
                .map(|()| Reply::Ok),
            Line::Order(worker, label) => self
                .phase
                .order(GATEWAY, &[], 0, worker.into(), label)
                .map(|()| Reply::Ok),
            Line::Turn(worker) => self
                .phase
                .turn(GATEWAY, &mut self.table, worker.into())
                .map(Reply::Turned),
            Line::Run => self.run().map(|()| Reply::Finishes(&self.finishes)),
            Line::Close => self.close().map(|()| Reply::Ok),
            Line::List => {
                self.listed.resize(self.table.len(), 0);
                listing::list(GATEWAY, self.homes, &self.table, &mut self.listed)
                    .map(|count| Reply::Listed(&self.listed[..count]))
            }
        };
        Some(reply.unwrap_or_else(Reply::Refused))
    }

    fn cells(&mut self, length: u32) -> Result<(), u8> {
        if !(GATEWAY.min_cells as u32..=MAX_SHEET_CELLS).contains(&length) {
            return Err(refusal::SIZE);
        }
        self.table.clear();
        self.table.resize(length as usize, 0);
        Ok(())
    }

    fn open(&mut self, kind: u32, count: u32, homes: Homes) -> Result<(), u8> {
        self.phase = Phase::open(
            GATEWAY,
            kind.into(),
            count.into(),
            homes,
            &self.table,
            &self.items,
        )?;
        self.homes = homes;
        Ok(())
    }

    /// The close of a put-in shift ends its list.
    fn close(&mut self) -> Result<(), u8> {
        self.phase.close(GATEWAY)?;
        if self.phase.kind == PUT_IN {
            self.items.clear();
        }
        Ok(())
    }

    /// Deals turns round and round until all are idle.
    fn run(&mut self) -> Result<(), u8> {
        if !self.phase.open {
            return Err(refusal::SHUT);
        }
        self.finishes.clear();
        self.finishes.resize(self.phase.count, None);
        while !self.phase.all_idle() {
            for worker in 0..self.phase.count {
                if self.phase.workers[worker] == Activity::Idle {
                    continue; // its turn would change nothing
                }
                let answer = self.phase.turn(GATEWAY, &mut self.table, worker as u64)?;
                if answer != Answer::WentOn {
                    self.finishes[worker] = Some(answer);
                }
            }
        }
        Ok(())
    }
}

/// Writes the answer of a turn as a field.
fn write_answer(output: &mut impl Write, answer: Answer) -> io::Result<()> {
    match answer {
        Answer::WentOn => output.write_all(b"\ton"),
        Answer::Finished => output.write_all(b"\tdone"),
        Answer::Price(price) => write!(output, "\t{price}"),
        Answer::No => output.write_all(b"\tno"),
        Answer::Idle => output.write_all(b"\tidle"),
    }
}

/// Replays a sheet; every line read is answered by one line.
pub fn replay(mut input: impl BufRead, mut output: impl Write) -> io::Result<()> {
    let mut replay = Replay::new();
    let mut line = Vec::new();
    let mut number = 0u64;
    while input.read_until(b'\n', &mut line)? > 0 {
        if line.last() == Some(&b'\n') {
            line.pop();
        }
        number += 1;
        write!(output, "{number}")?;
        let Some(reply) = replay.line(&line) else {
            output.write_all(b"\tbad\n")?;
            break;
        };
        match reply {
            Reply::Ok => output.write_all(b"\tok")?,
            Reply::Turned(answer) => write_answer(&mut output, answer)?,
            Reply::Refused(refusal) => write!(output, "\trefused\t{refusal}")?,
            Reply::Finishes(finishes) => {
                for finish in finishes {
                    match *finish {
                        None => output.write_all(b"\t-")?,
                        Some(answer) => write_answer(&mut output, answer)?,
                    }
                }
            }
            Reply::Listed(cells) => {
                write!(output, "\t{}", cells.len())?;
                for &cell in cells {
                    write!(output, "\t{}\t{}", label_of(cell), price_of(cell))?;
                }
            }
        }
        output.write_all(b"\n")?;
        line.clear();
    }
    output.flush()
}

/// The replay of a sheet held in memory.
pub fn replay_bytes(sheet: &[u8]) -> Vec<u8> {
    let mut output = Vec::new();
    replay(sheet, &mut output).expect("memory takes every write");
    output
}
