//! Safe wrappers of the exported functions of crates `gateway` and `kiosk`, and their answers in the reference's terms.

use reference::layout::Homes;
use reference::model::{Model, GATEWAY, KIOSK};
use reference::moving::Move;
use reference::phase::{Answer, Order, Phase};
use reference::round::{self, Reply};
use reference::till;

pub mod shifts;
pub mod trials;

mod raw {
    /// A line of the list of orders, as C lays it out.
    #[repr(C)]
    pub struct Order {
        pub key: u32,
        pub price: u32,
        pub worker: u32,
    }

    /// Functions with the same parameters, and their type.
    macro_rules! functions {
        ($type:ident $parameters:tt: $($name:ident)*) => {
            pub type $type = unsafe extern "C" fn $parameters -> u64;
            #[allow(clippy::too_many_arguments)]
            extern "C" {
                $(fn $name $parameters -> u64;)*
            }
        };
    }

    functions!(AtRest(a: u32, b: u32, cells: *const u64, length: usize):
        vulzegan_check vulzegan_count vulzegan_kiosk_check vulzegan_kiosk_count);

    functions!(List(a: u32, b: u32, cells: *const u64, length: usize, out: *mut u64, room: usize):
        vulzegan_list vulzegan_kiosk_list);

    functions!(Open(
        kind: u64,
        count: u64,
        a: u32,
        b: u32,
        cells: *const u64,
        length: usize,
        orders: *const Order,
        orders_length: usize,
    ): vulzegan_open vulzegan_kiosk_open);

    functions!(RunCalls(
        kind: u64,
        count: u64,
        a: u32,
        b: u32,
        cells: *mut u64,
        length: usize,
        order_keys: *const u32,
        order_keys_length: usize,
        order_prices: *const u32,
        order_prices_length: usize,
        order_workers: *const u32,
        order_workers_length: usize,
        ops: *const u32,
        ops_length: usize,
        lines: *const u32,
        lines_length: usize,
        workers: *const u32,
        workers_length: usize,
        keys: *const u32,
        keys_length: usize,
        answers: *mut u64,
        answers_length: usize,
    ): vulzegan_run_calls vulzegan_run_calls_singly vulzegan_kiosk_run_calls vulzegan_kiosk_run_calls_singly);

    functions!(ReadTill(
        text: *const u8,
        text_length: usize,
        count: u64,
        keys: *mut u32,
        keys_length: usize,
        prices: *mut u32,
        prices_length: usize,
        workers: *mut u32,
        workers_length: usize,
    ): vulzegan_read_till vulzegan_kiosk_read_till);

    functions!(RoundOpen(
        count: u64,
        a: u32,
        b: u32,
        cells: *mut u64,
        length: usize,
        keys: *const u32,
        keys_length: usize,
        prices: *const u32,
        prices_length: usize,
        workers: *const u32,
        workers_length: usize,
    ): vulzegan_round_open vulzegan_kiosk_round_open);

    functions!(RoundClose(
        count: u64,
        a: u32,
        b: u32,
        cells: *mut u64,
        length: usize,
        keys: *const u32,
        keys_length: usize,
        workers: *const u32,
        workers_length: usize,
        answers: *mut u32,
        answers_length: usize,
        out: *mut u64,
        room: usize,
    ): vulzegan_round_close vulzegan_kiosk_round_close);

    functions!(RunMoves(
        count: u64,
        a: u32,
        b: u32,
        old: *const u64,
        old_length: usize,
        cells: *mut u64,
        length: usize,
        ops: *const u32,
        ops_length: usize,
        workers: *const u32,
        workers_length: usize,
        answers: *mut u64,
        answers_length: usize,
    ): vulzegan_run_moves vulzegan_kiosk_run_moves);

    /// The functions of a model.
    pub struct Functions {
        pub check: AtRest,
        pub count: AtRest,
        pub list: List,
        pub open: Open,
        pub run_calls: RunCalls,
        pub run_calls_singly: RunCalls,
        pub read_till: ReadTill,
        pub round_open: RoundOpen,
        pub round_close: RoundClose,
        pub run_moves: RunMoves,
    }

    pub static GATEWAY: Functions = Functions {
        check: vulzegan_check,
        count: vulzegan_count,
        list: vulzegan_list,
        open: vulzegan_open,
        run_calls: vulzegan_run_calls,
        run_calls_singly: vulzegan_run_calls_singly,
        read_till: vulzegan_read_till,
        round_open: vulzegan_round_open,
        round_close: vulzegan_round_close,
        run_moves: vulzegan_run_moves,
    };

    pub static KIOSK: Functions = Functions {
        check: vulzegan_kiosk_check,
        count: vulzegan_kiosk_count,
        list: vulzegan_kiosk_list,
        open: vulzegan_kiosk_open,
        run_calls: vulzegan_kiosk_run_calls,
        run_calls_singly: vulzegan_kiosk_run_calls_singly,
        read_till: vulzegan_kiosk_read_till,
        round_open: vulzegan_kiosk_round_open,
        round_close: vulzegan_kiosk_round_close,
        run_moves: vulzegan_kiosk_run_moves,
    };
}

/// Both models.
pub const MODELS: [Model; 2] = [GATEWAY, KIOSK];

/// A test for each model of each of these functions, which take the model.
#[macro_export]
macro_rules! for_both_models {
    ($($test:ident,)*) => {
        mod gateway {
            $(#[test] fn $test() { super::$test(reference::model::GATEWAY) })*
        }
        mod kiosk {
            $(#[test] fn $test() { super::$test(reference::model::KIOSK) })*
        }
    };
}

/// The library's functions for a model.
fn library(model: Model) -> &'static raw::Functions {
    match model {
        GATEWAY => &raw::GATEWAY,
        KIOSK => &raw::KIOSK,
        _ => panic!("the library has no functions for {model:?}"),
    }
}

/// Every answer is one number: below this it is a value (a count or a price), from here up to `WORDS` a refusal, its number past this.
pub const REFUSED: u64 = 1 << 32;

/// From here on an answer is a word.
pub const WORDS: u64 = 1 << 33;

/// A value, or the number of the refusal.
fn value(answer: u64) -> Result<usize, u8> {
    match answer.checked_sub(REFUSED) {
        None => Ok(answer as usize),
        Some(number) => Err(u8::try_from(number).expect("the number of a refusal")),
    }
}

/// Nothing, or the number of the refusal.
fn accepted(answer: u64) -> Result<(), u8> {
    value(answer).map(|accepted| assert_eq!(accepted, 0))
}

pub fn check(model: Model, Homes { a, b }: Homes, cells: &[u64]) -> Result<(), u8> {
    accepted(unsafe { (library(model).check)(a, b, cells.as_ptr(), cells.len()) })
}

pub fn count(model: Model, Homes { a, b }: Homes, cells: &[u64]) -> Result<usize, u8> {
    value(unsafe { (library(model).count)(a, b, cells.as_ptr(), cells.len()) })
}

pub fn list(model: Model, Homes { a, b }: Homes, cells: &[u64], out: &mut [u64]) -> Result<usize, u8> {
    value(unsafe { (library(model).list)(a, b, cells.as_ptr(), cells.len(), out.as_mut_ptr(), out.len()) })
}

/// The lines of three lists of keys, prices and workers: as many as the shortest of them has.
pub fn lines_of([keys, prices, workers]: [&[u32]; 3]) -> Vec<Order> {
    let lines = keys.iter().zip(prices).zip(workers);
    lines.map(|((&label, &price), &worker)| Order { worker, label, price }).collect()
}

/// Reads a till's list for so many workers into three lists, of keys, prices and workers; the number of records. Lists shorter than 2 to the power 32
/// are lent, so that no count passes for a refusal.
pub fn read_till(model: Model, text: &[u8], count: u64, [keys, prices, workers]: [&mut [u32]; 3]) -> Result<usize, u8> {
    value(unsafe {
        (library(model).read_till)(
            text.as_ptr(),
            text.len(),
            count,
            keys.as_mut_ptr(),
            keys.len(),
            prices.as_mut_ptr(),
            prices.len(),
            workers.as_mut_ptr(),
            workers.len(),
        )
    })
}

/// The same by the reference: its list has as many places as the shortest of the three.
pub fn reference_read_till(model: Model, text: &[u8], count: u64, [keys, prices, workers]: [&mut [u32]; 3]) -> Result<usize, u8> {
    let mut orders = lines_of([keys, prices, workers]);
    let answer = till::read(model, text, count, &mut orders);
    for (i, order) in orders.into_iter().enumerate() {
        (keys[i], prices[i], workers[i]) = (order.label, order.price, order.worker);
    }
    answer
}

/// Opens a round with the list sent, lent as three lists of keys, prices and workers.
pub fn round_open(model: Model, count: u64, Homes { a, b }: Homes, cells: &mut [u64], [keys, prices, workers]: [&[u32]; 3]) -> Result<(), u8> {
    accepted(unsafe {
        (library(model).round_open)(
            count,
            a,
            b,
            cells.as_mut_ptr(),
            cells.len(),
            keys.as_ptr(),
            keys.len(),
            prices.as_ptr(),
            prices.len(),
            workers.as_ptr(),
            workers.len(),
        )
    })
}

/// The same by the reference.
pub fn reference_round_open(model: Model, count: u64, homes: Homes, cells: &mut [u64], sent: [&[u32]; 3]) -> Result<(), u8> {
    round::open(model, count, homes, cells, &lines_of(sent))
}

/// Closes a round with the replies, lent as two lists of keys and workers: how many keys are left and listed.
pub fn round_close(
    model: Model,
    count: u64,
    Homes { a, b }: Homes,
    cells: &mut [u64],
    [keys, workers]: [&[u32]; 2],
    answers: &mut [u32],
    out: &mut [u64],
) -> Result<usize, u8> {
    value(unsafe {
        (library(model).round_close)(
            count,
            a,
            b,
            cells.as_mut_ptr(),
            cells.len(),
            keys.as_ptr(),
            keys.len(),
            workers.as_ptr(),
            workers.len(),
            answers.as_mut_ptr(),
            answers.len(),
            out.as_mut_ptr(),
            out.len(),
        )
    })
}

/// The same by the reference: as many replies as the shorter of the two lists has.
pub fn reference_round_close(
    model: Model,
    count: u64,
    homes: Homes,
    cells: &mut [u64],
    [keys, workers]: [&[u32]; 2],
    answers: &mut [u32],
    out: &mut [u64],
) -> Result<usize, u8> {
    let replies: Vec<Reply> = keys.iter().zip(workers).map(|(&label, &worker)| Reply { worker, label }).collect();
    round::close(model, count, homes, cells, &replies, answers, out)
}

/// A list of orders in the two forms that the library takes: three lists, as many lines as the shortest of them has, and one of structs.
pub struct Orders {
    pub keys: Vec<u32>,
    pub prices: Vec<u32>,
    pub workers: Vec<u32>,
    structs: Vec<raw::Order>,
}

impl Orders {
    pub fn of(orders: &[Order]) -> Orders {
        Orders {
            keys: orders.iter().map(|o| o.label).collect(),
            prices: orders.iter().map(|o| o.price).collect(),
            workers: orders.iter().map(|o| o.worker).collect(),
            structs: orders.iter().map(|o| raw::Order { key: o.label, price: o.price, worker: o.worker }).collect(),
        }
    }

    /// The three lists.
    pub fn lists(&self) -> [&[u32]; 3] {
        [&self.keys, &self.prices, &self.workers]
    }

    /// The answer of the opening with the list of structs.
    pub fn open(&self, model: Model, kind: u64, count: u64, Homes { a, b }: Homes, cells: &[u64]) -> u64 {
        unsafe { (library(model).open)(kind, count, a, b, cells.as_ptr(), cells.len(), self.structs.as_ptr(), self.structs.len()) }
    }
}

/// The replies of a round as the library takes them: as many as the shorter of these has.
pub struct Replies {
    pub keys: Vec<u32>,
    pub workers: Vec<u32>,
}

impl Replies {
    pub fn of(replies: &[Reply]) -> Replies {
        Replies { keys: replies.iter().map(|r| r.label).collect(), workers: replies.iter().map(|r| r.worker).collect() }
    }

    /// The two lists.
    pub fn lists(&self) -> [&[u32]; 2] {
        [&self.keys, &self.workers]
    }
}

/// One call of a list, as four numbers: 1 order, 2 turn, anything else close.
#[derive(Clone, Copy, Debug, PartialEq, Eq)]
pub struct Call {
    pub op: u32,
    pub line: u32,
    pub worker: u32,
    pub key: u32,
}

/// An order of a put-in shift.
pub fn order_line(line: u32) -> Call {
    Call { op: 1, line, worker: 0, key: 0 }
}

/// An order of the other shifts.
pub fn order(worker: u32, key: u32) -> Call {
    Call { op: 1, line: 0, worker, key }
}

pub fn turn(worker: u32) -> Call {
    Call { op: 2, line: 0, worker, key: 0 }
}

pub fn close() -> Call {
    Call { op: 3, line: 0, worker: 0, key: 0 }
}

/// A list of calls as the library takes it: as many calls as the shortest of these has.
#[derive(Default)]
pub struct Calls {
    pub ops: Vec<u32>,
    pub lines: Vec<u32>,
    pub workers: Vec<u32>,
    pub keys: Vec<u32>,
}

impl Calls {
    pub fn of(calls: &[Call]) -> Calls {
        Calls {
            ops: calls.iter().map(|c| c.op).collect(),
            lines: calls.iter().map(|c| c.line).collect(),
            workers: calls.iter().map(|c| c.worker).collect(),
            keys: calls.iter().map(|c| c.key).collect(),
        }
    }

    #[allow(clippy::too_many_arguments)]
    fn run_by(&self, run: raw::RunCalls, kind: u64, count: u64, homes: Homes, cells: &mut [u64], orders: &Orders, answers: &mut [u64]) -> u64 {
        unsafe {
            run(
                kind,
                count,
                homes.a,
                homes.b,
                cells.as_mut_ptr(),
                cells.len(),
                orders.keys.as_ptr(),
                orders.keys.len(),
                orders.prices.as_ptr(),
                orders.prices.len(),
                orders.workers.as_ptr(),
                orders.workers.len(),
                self.ops.as_ptr(),
                self.ops.len(),
                self.lines.as_ptr(),
                self.lines.len(),
                self.workers.as_ptr(),
                self.workers.len(),
                self.keys.as_ptr(),
                self.keys.len(),
                answers.as_mut_ptr(),
                answers.len(),
            )
        }
    }

    /// Opens a phase with the list of orders and applies the calls; the opening's answer.
    #[allow(clippy::too_many_arguments)]
    pub fn run(&self, model: Model, kind: u64, count: u64, homes: Homes, cells: &mut [u64], orders: &Orders, answers: &mut [u64]) -> u64 {
        self.run_by(library(model).run_calls, kind, count, homes, cells, orders, answers)
    }

    /// The same, each call by value with the record tested at each.
    #[allow(clippy::too_many_arguments)]
    pub fn run_singly(&self, model: Model, kind: u64, count: u64, homes: Homes, cells: &mut [u64], orders: &Orders, answers: &mut [u64]) -> u64 {
        self.run_by(library(model).run_calls_singly, kind, count, homes, cells, orders, answers)
    }

    /// Opens a move from the old table to cells and applies the calls, of which lines and keys are not read.
    pub fn run_moves(&self, model: Model, count: u64, Homes { a, b }: Homes, old: &[u64], cells: &mut [u64], answers: &mut [u64]) -> Result<(), u8> {
        accepted(unsafe {
            (library(model).run_moves)(
                count,
                a,
                b,
                old.as_ptr(),
                old.len(),
                cells.as_mut_ptr(),
                cells.len(),
                self.ops.as_ptr(),
                self.ops.len(),
                self.workers.as_ptr(),
                self.workers.len(),
                answers.as_mut_ptr(),
                answers.len(),
            )
        })
    }
}

/// The answer for a refusal, by the papers' number, which the reference gives.
fn refused(number: u8) -> u64 {
    REFUSED + u64::from(number)
}

/// The number of the answer of a turn that is not refused: a price is a value, the others are words.
fn told(answer: Answer) -> u64 {
    match answer {
        Answer::WentOn => WORDS + 1,
        Answer::Finished => WORDS + 2,
        Answer::Price(price) => u64::from(price),
        Answer::No => WORDS + 4,
        Answer::Idle => WORDS + 5,
    }
}

/// The opening's answer by the reference.
pub fn reference_open(model: Model, kind: u64, count: u64, homes: Homes, cells: &[u64], orders: &[Order]) -> u64 {
    Phase::open(model, kind, count, homes, cells, orders).map_or_else(refused, |_| 0)
}

/// The opening and the calls by the reference.
#[allow(clippy::too_many_arguments)]
pub fn reference_run(
    model: Model,
    kind: u64,
    count: u64,
    homes: Homes,
    cells: &mut [u64],
    orders: &[Order],
    calls: &[Call],
    answers: &mut [u64],
) -> u64 {
    let mut phase = match Phase::open(model, kind, count, homes, cells, orders) {
        Err(number) => return refused(number),
        Ok(phase) => phase,
    };
    for (call, place) in calls.iter().zip(answers) {
        *place = match call.op {
            1 => phase.order(model, orders, call.line.into(), call.worker.into(), call.key).map_or_else(refused, |()| 0),
            2 => phase.turn(model, cells, call.worker.into()).map_or_else(refused, told),
            _ => phase.close(model).map_or_else(refused, |()| 0),
        };
    }
    0
}

/// The answer of a call of a move by the reference.
pub fn reference_move_call(model: Model, record: &mut Move, old: &[u64], cells: &mut [u64], call: Call) -> u64 {
    match call.op {
        1 => record.order(model, call.worker.into()).map_or_else(refused, |()| 0),
        2 => record.turn(model, old, cells, call.worker.into()).map_or_else(refused, told),
        _ => record.close(model).map_or_else(refused, |()| 0),
    }
}

/// The opening of a move and the calls by the reference.
pub fn reference_run_moves(
    model: Model,
    count: u64,
    homes: Homes,
    old: &[u64],
    cells: &mut [u64],
    calls: &[Call],
    answers: &mut [u64],
) -> Result<(), u8> {
    let mut record = Move::open(model, count, homes, old, cells)?;
    for (&call, place) in calls.iter().zip(answers) {
        *place = reference_move_call(model, &mut record, old, cells, call);
    }
    Ok(())
}
