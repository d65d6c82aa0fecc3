//! Random shift sheets, lists of orders and tables, each reproducible from one
//! seed.
//!
//! A sheet is a few chapters. A chapter sets up a fresh table and works
//! several shifts on it, each ended by `run` and `close`, so an undamaged sheet
//! is never `bad`. Some sheets are damaged afterwards. While writing, the
//! generator replays the shift, to know who is busy and what the table holds;
//! this only steers its choices. A put-in shift comes behind its items; where
//! they don't open it, a shift of another kind takes its place and they stay.
//! A chapter has an a and b of its own; now and then a shift is tried with
//! others, and goes on with them if they open it.

pub mod factory;
pub mod moving;
pub mod reach;
pub mod round;
pub mod till;

use std::collections::BTreeSet;

use crate::layout::{content, label_of, layout, least_prices, Homes, Prices, EMPTY, MAX_PRICE};
use crate::model::GATEWAY;
use crate::phase::{Activity, Order, Phase, FIRST_TEST_LABEL, PUT_IN};
use crate::refusal;

/// A seeded xorshift generator.
pub struct Rng(u64);

impl Rng {
    pub fn new(seed: u64) -> Rng {
        // One splitmix step, so that near seeds differ; never 0.
        let mut z = seed.wrapping_add(0x9e37_79b9_7f4a_7c15);
        z = (z ^ (z >> 30)).wrapping_mul(0xbf58_476d_1ce4_e5b9);
        z = (z ^ (z >> 27)).wrapping_mul(0x94d0_49bb_1331_11eb);
        Rng((z ^ (z >> 31)).max(1))
    }

    pub fn draw(&mut self) -> u64 {
        self.0 ^= self.0 << 13;
        self.0 ^= self.0 >> 7;
        self.0 ^= self.0 << 17;
        self.0.wrapping_mul(0x2545_f491_4f6c_dd1d)
    }

    /// A number below `bound`, which isn't 0.
    pub fn below(&mut self, bound: usize) -> usize {
        ((self.draw() >> 32) as usize) % bound
    }

    /// A number from `low` to `high`.
    pub fn within(&mut self, low: usize, high: usize) -> usize {
        low + self.below(high - low + 1)
    }

    /// True once in `many`.
    pub fn once_in(&mut self, many: usize) -> bool {
        self.below(many) == 0
    }

    pub fn pick<T: Copy>(&mut self, from: &[T]) -> T {
        from[self.below(from.len())]
    }

    pub fn shuffle<T>(&mut self, all: &mut [T]) {
        for i in 1..all.len() {
            all.swap(i, self.below(i + 1));
        }
    }
}

/// A price, often one of few, so that prices tie, fall and rise.
pub fn price(rng: &mut Rng) -> u32 {
    match rng.below(8) {
        0 => rng.within(1, MAX_PRICE as usize) as u32,
        1 => rng.pick(&[1, MAX_PRICE - 1, MAX_PRICE]),
        _ => rng.within(1, 4) as u32,
    }
}

/// Any label that a shop may add.
pub fn shop_label(rng: &mut Rng) -> u32 {
    rng.within(1, FIRST_TEST_LABEL as usize - 1) as u32
}

/// A label that is for factory tests: one of the least, of the greatest, or any.
pub fn test_label(rng: &mut Rng) -> u32 {
    match rng.below(4) {
        0 | 1 => FIRST_TEST_LABEL + rng.below(2) as u32,
        2 => u32::MAX - rng.below(2) as u32,
        _ => rng.within(FIRST_TEST_LABEL as usize, u32::MAX as usize) as u32,
    }
}

/// May a shop add this label?
pub fn is_shop_label(label: u32) -> bool {
    (1..FIRST_TEST_LABEL).contains(&label)
}

/// Prices that no label may have.
pub const WRONG_PRICES: [u32; 7] = [
    0,
    MAX_PRICE + 1,
    MAX_PRICE + 2,
    (1 << 24) + 1,
    (1 << 31) + 1,
    u32::MAX - 1,
    u32::MAX,
];

/// Homes with an odd a: often document 01's, else numbers at the borders of
/// the 32 bits, or any.
pub fn homes(rng: &mut Rng) -> Homes {
    const ODD: [u32; 8] = [
        3,
        5,
        101,
        (1 << 31) - 1,
        (1 << 31) + 1,
        2_654_435_769,
        u32::MAX - 2,
        u32::MAX,
    ];
    let a = match rng.below(4) {
        0 => 1,
        1 => rng.pick(&ODD),
        _ => (rng.draw() >> 32) as u32 | 1,
    };
    Homes {
        a,
        b: number_to_add(rng),
    }
}

/// Homes that no opening takes.
pub fn even_homes(rng: &mut Rng) -> Homes {
    let a = match rng.below(3) {
        0 => (rng.draw() >> 32) as u32 & !1,
        _ => rng.pick(&[0, 2, 4, 100, 1 << 31, 2_654_435_768, u32::MAX - 1]),
    };
    Homes {
        a,
        b: number_to_add(rng),
    }
}

/// The b of some homes.
fn number_to_add(rng: &mut Rng) -> u32 {
    match rng.below(4) {
        0 | 1 => 0,
        2 => rng.pick(&[1, 2, 1 << 31, u32::MAX - 1, u32::MAX]),
        _ => (rng.draw() >> 32) as u32,
    }
}

/// Other homes than these for a table of so many cells: any, or some that
/// differ only in multiples of the length, so that most labels keep their
/// homes, or only by a step of one cell.
pub fn other_homes(rng: &mut Rng, homes: Homes, cells: usize) -> Homes {
    let Homes { a, b } = homes;
    let cells = cells as u32;
    let other = match rng.below(8) {
        0 | 1 => Homes {
            a,
            b: b.wrapping_add(cells * rng.within(1, 9) as u32),
        },
        2 | 3 => Homes {
            a: a.wrapping_add(2 * cells * rng.within(1, 9) as u32),
            b,
        },
        4 => Homes {
            a,
            b: b.wrapping_add(1),
        },
        5 => Homes::PLAIN,
        _ => self::homes(rng),
    };
    if other == homes {
        return Homes { a, b: !b };
    }
    other
}

/// The one label, or 0, for which a times it plus b is this value modulo
/// 4,294,967,296; a is odd. Those of values that are equal modulo the length
/// share a home.
pub fn label_with(Homes { a, b }: Homes, value: u32) -> u32 {
    assert!(a % 2 == 1, "an even a has no inverse");
    // Each step doubles the number of low bits in which this is the inverse.
    let mut inverse = 1u32;
    for _ in 0..5 {
        inverse = inverse.wrapping_mul(2u32.wrapping_sub(a.wrapping_mul(inverse)));
    }
    inverse.wrapping_mul(value.wrapping_sub(b))
}

/// A label that a shop may add, at home where this value is in so many cells: that
/// of the value itself, or of one some way on if that is a test number or 0.
pub fn shop_label_with(homes: Homes, cells: usize, value: u32) -> u32 {
    let step = u32::MAX as usize / cells / 4099 * cells;
    let mut labels = (value..=u32::MAX)
        .step_by(step)
        .map(|value| label_with(homes, value));
    labels
        .find(|&label| is_shop_label(label))
        .expect("one of some thousand labels")
}

/// The labels of a table.
pub fn labels_of(table: &[u64]) -> Vec<u32> {
    let labels = table.iter().map(|&cell| label_of(cell));
    labels.filter(|&label| label > 0).collect()
}

/// A list of orders for a put-in shift of `crew` workers on a table: its whole
/// assortment but for the test numbers, some of it, or new labels from 1 to
/// `most`, or as many of the greatest that a shop adds, in any order and with
/// repeats. New ones fill the table often, and now and then overfill it.
pub fn orders(rng: &mut Rng, table: &[u64], crew: usize, most: usize) -> Vec<Order> {
    let mut labels = labels_of(table);
    let room = (table.len() - labels.len()).saturating_sub(1);
    labels.retain(|&label| is_shop_label(label));
    if rng.once_in(4) {
        labels.truncate(rng.below(labels.len() + 1));
    }
    let new = match rng.below(8) {
        0 | 1 => 0,
        2 | 3 => room,
        4 => room + 1,
        _ => rng.below(room + 2),
    };
    let great = rng.once_in(8);
    labels.extend((0..new).map(|_| match rng.within(1, most) as u32 {
        less if great => FIRST_TEST_LABEL - less,
        label => label,
    }));
    if !labels.is_empty() {
        for _ in 0..rng.pick(&[0, 0, 1, 2, 5]) {
            labels.push(rng.pick(&labels));
        }
    }
    rng.shuffle(&mut labels);
    let order = |label| Order {
        worker: rng.below(crew) as u32,
        label,
        price: price(rng),
    };
    labels.into_iter().map(order).collect()
}

/// Makes a line one that no opening with `crew` workers takes, for one reason
/// or for several.
pub fn spoil(rng: &mut Rng, order: &mut Order, crew: usize) {
    let reasons = rng.within(1, 7);
    if reasons & 1 != 0 {
        order.label = match rng.once_in(2) {
            true => 0,
            false => test_label(rng),
        };
    }
    if reasons & 2 != 0 {
        order.price = rng.pick(&WRONG_PRICES);
    }
    if reasons & 4 != 0 {
        order.worker = rng.pick(&[crew as u32, crew as u32 + 1, u32::MAX]);
    }
}

/// Every list of so many of these.
pub fn all_lists<T: Copy>(length: usize, of: &[T]) -> impl Iterator<Item = Vec<T>> + '_ {
    let count = of.len();
    (0..count.pow(length as u32)).map(move |mut number| {
        let digit = |_| {
            let digit = number % count;
            number /= count;
            of[digit]
        };
        (0..length).map(digit).collect()
    })
}

/// A sound table, often with one empty cell: the labels are spread, or in steps
/// of 100, or the greatest, or around the least test number, or all at home in a
/// few cells side by side. The a is odd.
pub fn table(rng: &mut Rng, homes: Homes, cells: usize) -> Vec<u64> {
    let labels = match rng.once_in(3) {
        true => cells - 1,
        false => rng.below(cells),
    };
    let style = rng.below(5);
    let (first, side_by_side) = (rng.below(cells), rng.within(1, 8));
    let mut prices = Prices::new();
    while prices.len() < labels {
        let label = match style {
            0 => rng.below(u32::MAX as usize) + 1,
            1 => 100 * rng.within(1, 1 << 25),
            2 => u32::MAX as usize - rng.below(4 * cells),
            3 => FIRST_TEST_LABEL as usize - 2 * cells + rng.below(4 * cells),
            _ => {
                let value = cells * rng.within(1, 4 * cells);
                let home = (first + rng.below(side_by_side)) % cells;
                label_with(homes, (value + home) as u32) as usize
            }
        };
        let price = price(rng);
        if label > 0 {
            prices.insert(label as u32, price);
        }
    }
    layout(homes, cells, &prices)
}

/// The sound table after some more shifts: labels less and labels more, a few
/// of them or many.
pub fn later(rng: &mut Rng, homes: Homes, table: &[u64]) -> Vec<u64> {
    let mut prices = least_prices(table.iter().copied());
    let mut labels = labels_of(table);
    rng.shuffle(&mut labels);
    let changes = rng.pick(&[4, 4 + table.len() / 2]);
    for label in labels.into_iter().take(rng.below(changes)) {
        prices.remove(&label);
    }
    for _ in 0..rng.below(changes) {
        if prices.len() + 1 < table.len() {
            prices.insert(rng.within(1, 3 * table.len()) as u32, price(rng));
        }
    }
    layout(homes, table.len(), &prices)
}

/// A torn image: the front of one table, and from cell `cut` on the rest of
/// another of the same length.
pub fn torn(front: &[u64], rest: &[u64], cut: usize) -> Vec<u64> {
    [&front[..cut], &rest[cut..]].concat()
}

/// Puts a label into every empty cell: one that is at home there, so that the
/// way rule holds as before, or any.
pub fn fill(rng: &mut Rng, homes: Homes, table: &mut [u64]) {
    let cells = table.len();
    let anywhere = rng.once_in(2);
    for (at, cell) in table.iter_mut().enumerate() {
        if *cell == EMPTY {
            let label = match anywhere {
                true => rng.within(1, 3 * cells) as u32,
                false => label_with(homes, (cells * rng.within(1, 1000) + at) as u32).max(1),
            };
            *cell = content(label, price(rng));
        }
    }
}

/// Writes over one cell: 0, another label, one with a price that none may have,
/// or a price without a label.
pub fn overwrite(rng: &mut Rng, table: &mut [u64]) {
    let (at, cells) = (rng.below(table.len()), table.len());
    let label = match label_of(table[rng.below(cells)]) {
        0 => rng.within(1, 3 * cells) as u32,
        standing => standing,
    };
    table[at] = match rng.below(8) {
        0..=2 => EMPTY,
        3..=5 => content(label, price(rng)),
        6 => content(label, rng.pick(&WRONG_PRICES)),
        _ => content(0, rng.pick(&[1, MAX_PRICE, u32::MAX])),
    };
}

/// A table that comes back to the repair bench: sound, torn, full or with some
/// cells written over, or several of these.
pub fn returned(rng: &mut Rng, homes: Homes, cells: usize) -> Vec<u64> {
    let mut image = table(rng, homes, cells);
    let what = rng.below(8);
    if matches!(what, 1..=3 | 7) {
        let other = match rng.once_in(2) {
            true => later(rng, homes, &image),
            false => table(rng, homes, cells),
        };
        image = torn(&image, &other, rng.below(cells + 1));
    }
    if matches!(what, 4..=5 | 7) {
        for _ in 0..rng.pick(&[1, 1, 2, 5]) {
            overwrite(rng, &mut image);
        }
    }
    if what == 6 || what == 7 && rng.once_in(4) {
        fill(rng, homes, &mut image);
    }
    image
}

/// The styles of chapters.
#[derive(Clone, Copy, Debug, PartialEq, Eq)]
pub enum Style {
    /// Few cells, nearly all taken.
    Crowded,
    /// All labels at home in the last cells.
    Wrap,
    /// All labels at home in one cell.
    OneHome,
    /// Labels in steps of 100.
    Hundreds,
    /// The greatest labels that a shop adds.
    Greatest,
    /// 16 workers on a middling table.
    Sixteen,
    /// Up to 4,096 cells.
    Large,
}

const STYLES: [Style; 13] = [
    Style::Crowded,
    Style::Crowded,
    Style::Crowded,
    Style::Wrap,
    Style::Wrap,
    Style::OneHome,
    Style::OneHome,
    Style::Hundreds,
    Style::Hundreds,
    Style::Greatest,
    Style::Greatest,
    Style::Sixteen,
    Style::Sixteen,
];

/// A random sheet.
pub fn sheet(seed: u64) -> Vec<u8> {
    let mut rng = Rng::new(seed);
    let rng = &mut rng;
    match rng.below(100) {
        0 => Vec::new(),
        1 | 2 => noise(rng),
        3 | 4 => loose(rng),
        _ => {
            let mut text = sound_sheet(rng);
            if rng.once_in(3) {
                damage(rng, &mut text);
            }
            if rng.once_in(4) && text.last() == Some(&b'\n') {
                text.pop();
            }
            text
        }
    }
}

/// A random sheet without any `bad` line.
pub fn undamaged(seed: u64) -> Vec<u8> {
    sound_sheet(&mut Rng::new(seed))
}

/// One undamaged chapter of the given style.
pub fn styled(style: Style, seed: u64) -> Vec<u8> {
    let mut sheet = Sheet::new();
    chapter(&mut Rng::new(seed), style, &mut sheet);
    sheet.text
}

/// Random bytes, mostly those of sheets.
fn noise(rng: &mut Rng) -> Vec<u8> {
    let length = rng.below(60);
    let common = b"\t\n0123456789clodrunistem\0\r ";
    (0..length)
        .map(|_| match rng.once_in(8) {
            true => rng.draw() as u8,
            false => rng.pick(common),
        })
        .collect()
}

/// Readable lines in no order at all.
fn loose(rng: &mut Rng) -> Vec<u8> {
    let lines: Vec<String> = (0..rng.within(1, 60))
        .map(|_| match rng.below(14) {
            0 => format!("cells\t{}\n", rng.below(9)),
            1 | 2 => {
                let (kind, count) = (rng.below(5), rng.below(4));
                let (a, b) = (rng.pick(&[0, 1, 1, 1, 2, 3, u32::MAX]), rng.below(4));
                format!("open\t{kind}\t{count}\t{a}\t{b}\n")
            }
            3 => format!("order\t{}\t{}\n", rng.below(4), rng.below(12)),
            4 => format!("order\t{}\n", rng.below(4)),
            5 | 6 => {
                let (worker, label) = (rng.below(3), rng.below(12));
                format!("item\t{worker}\t{label}\t{}\n", rng.below(9))
            }
            7..=9 => format!("turn\t{}\n", rng.below(4)),
            10 | 11 => "run\n".to_string(),
            12 => "close\n".to_string(),
            _ => "list\n".to_string(),
        })
        .collect();
    lines.concat().into_bytes()
}

/// A sheet being written, with the shift as it stands after the last line.
struct Sheet {
    text: Vec<u8>,
    table: Vec<u64>,
    phase: Phase,
    /// Those of the last accepted opening.
    homes: Homes,
    items: Vec<Order>,
}

impl Sheet {
    fn new() -> Sheet {
        Sheet {
            text: Vec::new(),
            table: Vec::new(),
            phase: Phase::shut(),
            homes: Homes::PLAIN,
            items: Vec::new(),
        }
    }

    /// Writes a line that changes nothing.
    fn line(&mut self, line: &str) {
        self.text.extend_from_slice(line.as_bytes());
        self.text.push(b'\n');
    }

    fn cells(&mut self, n: usize) {
        self.line(&format!("cells\t{n}"));
        self.table = vec![0; n];
    }

    /// Writes an item, unless it would be one too many.
    fn item(&mut self, item: Order) {
        if self.items.len() < 1024 {
            let Order {
                worker,
                label,
                price,
            } = item;
            self.line(&format!("item\t{worker}\t{label}\t{price}"));
            self.items.push(item);
        }
    }

    fn open(&mut self, kind: u32, workers: usize, homes: Homes) -> Result<(), u8> {
        let Homes { a, b } = homes;
        self.line(&format!("open\t{kind}\t{workers}\t{a}\t{b}"));
        let (table, items) = (&self.table, &self.items);
        self.phase = Phase::open(GATEWAY, kind.into(), workers as u64, homes, table, items)?;
        self.homes = homes;
        Ok(())
    }

    /// An order of a put-in shift.
    fn place(&mut self, place: usize) {
        self.line(&format!("order\t{place}"));
        let _ = self.phase.order(GATEWAY, &self.items, place as u64, 0, 0);
    }

    /// An order of the other shifts.
    fn order(&mut self, worker: usize, label: u32) {
        self.line(&format!("order\t{worker}\t{label}"));
        let _ = self.phase.order(GATEWAY, &[], 0, worker as u64, label);
    }

    /// An order for that worker, of that label if it can be had.
    fn give(&mut self, worker: usize, label: u32, rng: &mut Rng) {
        if self.phase.kind != PUT_IN {
            return self.order(worker, label);
        }
        let own = |fits: &dyn Fn(&Order) -> bool| -> Vec<usize> {
            let own = |place: &usize| self.items[*place].worker == worker as u32;
            let places = (0..self.items.len()).filter(own);
            places.filter(|&place| fits(&self.items[place])).collect()
        };
        let mut places = own(&|item| item.label == label);
        if places.is_empty() {
            places = own(&|_| true);
        }
        if !places.is_empty() {
            self.place(rng.pick(&places));
        }
    }

    fn turn(&mut self, worker: usize) {
        self.line(&format!("turn\t{worker}"));
        let _ = self.phase.turn(GATEWAY, &mut self.table, worker as u64);
    }

    fn run(&mut self) {
        self.line("run");
        while !self.phase.all_idle() {
            for worker in 0..self.phase.count {
                let _ = self.phase.turn(GATEWAY, &mut self.table, worker as u64);
            }
        }
    }

    fn close(&mut self) {
        self.line("close");
        if self.phase.close(GATEWAY).is_ok() && self.phase.kind == PUT_IN {
            self.items.clear();
        }
    }

    /// The workers with unfinished orders.
    fn busy(&self) -> Vec<usize> {
        (0..self.phase.count)
            .filter(|&worker| self.phase.workers[worker] != Activity::Idle)
            .collect()
    }
}

fn sound_sheet(rng: &mut Rng) -> Vec<u8> {
    let mut sheet = Sheet::new();
    if rng.once_in(4) {
        for _ in 0..rng.within(1, 4) {
            shut_mistake(rng, &mut sheet);
        }
    }
    for _ in 0..rng.within(1, 4) {
        let style = if rng.once_in(40) {
            Style::Large
        } else {
            rng.pick(&STYLES)
        };
        chapter(rng, style, &mut sheet);
    }
    sheet.text
}

/// The facts a chapter is written from.
struct Chapter {
    homes: Homes,
    /// Labels to order.
    pool: Vec<u32>,
    cells: usize,
    most_workers: usize,
    /// Rounds of orders in a put-in shift.
    most_rounds: usize,
}

fn plan(rng: &mut Rng, style: Style) -> Chapter {
    let homes = match rng.once_in(3) {
        true => Homes::PLAIN,
        false => homes(rng),
    };
    let (cells, most_workers) = match style {
        Style::Crowded => (rng.within(2, 9), 4),
        Style::Wrap => (rng.within(3, 12), 4),
        Style::OneHome => (rng.within(3, 14), 5),
        Style::Hundreds => (
            rng.pick(&[7, 10, 12, 20, 25, 50, 64, 65, 99, 100, 101, 128]),
            6,
        ),
        Style::Greatest => (rng.within(2, 20), 5),
        Style::Sixteen => (rng.within(17, 80), 16),
        Style::Large => (rng.pick(&[512, 1000, 2048, 3001, 4095, 4096]), 16),
    };
    let n = cells as u32;
    let with = |value: u32| shop_label_with(homes, cells, value);
    let mut pool: Vec<u32> = match style {
        Style::Crowded => (1..=3 * n).collect(),
        Style::Wrap => (1..=n)
            .flat_map(|turn| [turn * n - 1, turn * n - 2])
            .map(with)
            .collect(),
        Style::OneHome => {
            let home = rng.below(cells) as u32;
            let values = (1..=2 * n).map(|turn| turn * n + home);
            values.map(with).collect()
        }
        Style::Hundreds => (1..=2 * n).map(|step| step * 100).collect(),
        Style::Greatest => (1..=2 * n)
            .map(|less| FIRST_TEST_LABEL - less)
            .chain(1..4)
            .collect(),
        Style::Sixteen if rng.once_in(2) => (1..=2 * n).collect(),
        Style::Sixteen | Style::Large => {
            let span = rng.pick(&[2 * n, 5 * n, 1_000_000, FIRST_TEST_LABEL - 1]);
            (0..2 * n)
                .map(|_| 1 + (rng.draw() % u64::from(span)) as u32)
                .collect()
        }
    };
    // Not many more labels than cells, so that take-outs and look-ups hit.
    let keep = rng.within(cells, 2 * cells).min(pool.len());
    for i in 0..keep {
        let j = rng.within(i, pool.len() - 1);
        pool.swap(i, j);
    }
    pool.truncate(keep);
    let most_rounds = match style {
        Style::Large => 30,
        _ => 8,
    };
    Chapter {
        homes,
        pool,
        cells,
        most_workers,
        most_rounds,
    }
}

fn chapter(rng: &mut Rng, style: Style, sheet: &mut Sheet) {
    let plan = plan(rng, style);
    if rng.once_in(6) {
        items(rng, &plan, plan.most_workers, sheet);
    }
    sheet.cells(plan.cells);
    // Fill first, then anything.
    shift(rng, &plan, 1, sheet);
    for _ in 0..rng.within(1, 6) {
        let kind = rng.pick(&[1, 1, 2, 2, 2, 3]);
        shift(rng, &plan, kind, sheet);
    }
}

/// Writes items: labels of the pool, or those in the table, or so few that
/// several workers meet at one label, at several prices. Mostly the table has
/// room for them.
fn items(rng: &mut Rng, plan: &Chapter, workers: usize, sheet: &mut Sheet) {
    let present = labels_of(&sheet.table);
    let labels = match rng.below(8) {
        0 | 1 => (0..rng.within(1, 3))
            .map(|_| rng.pick(&plan.pool))
            .collect(),
        2 | 3 if !present.is_empty() => present.clone(),
        _ => plan.pool.clone(),
    };
    let rounds = rng
        .within(1, plan.cells / workers + 1)
        .min(plan.most_rounds);
    let mut known: BTreeSet<u32> = present.into_iter().collect();
    known.extend(sheet.items.iter().map(|item| item.label));
    let most = match rng.once_in(15) {
        true => usize::MAX,
        false => plan.cells - 1,
    };
    // A line that no opening takes; then the list never ends.
    let bad = rng.once_in(60).then(|| rng.below(rounds * workers));
    for i in 0..rounds * workers {
        let mut label = rng.pick(&labels);
        if known.len() >= most && !known.contains(&label) {
            // No room for a new one: one that is there is sent again.
            match known.range(label..).next().or(known.first()) {
                Some(&other) => label = other,
                None => return,
            }
        }
        known.insert(label);
        let worker = match rng.once_in(8) {
            true => rng.below(workers),
            false => i % workers,
        };
        let mut item = Order {
            worker: worker as u32,
            label,
            price: price(rng),
        };
        if bad == Some(i) {
            spoil(rng, &mut item, workers);
        }
        sheet.item(item);
    }
}

/// Opens a put-in shift with its items, if they open one.
fn open_put_in(rng: &mut Rng, workers: usize, homes: Homes, sheet: &mut Sheet) -> bool {
    if rng.once_in(10) && sheet.open(PUT_IN, rng.within(1, workers), homes).is_ok() {
        return true;
    }
    match sheet.open(PUT_IN, workers, homes) {
        Err(refusal::NO_WORKER) => sheet.open(PUT_IN, 16, homes).is_ok(),
        answer => answer.is_ok(),
    }
}

/// Opens a shift of the kind, if it can be had, or of another, with the homes of
/// the table.
fn open_some(rng: &mut Rng, kind: u32, workers: usize, homes: Homes, sheet: &mut Sheet) {
    if kind == PUT_IN && open_put_in(rng, workers, homes, sheet) {
        return;
    }
    let kind = match kind {
        PUT_IN => rng.pick(&[2, 2, 3]),
        _ => kind,
    };
    sheet
        .open(kind, workers, homes)
        .expect("the shift is shut and its table sound");
}

/// A shift from its opening to its close, with mistakes that are refused.
fn shift(rng: &mut Rng, plan: &Chapter, kind: u32, sheet: &mut Sheet) {
    if rng.once_in(5) {
        shut_mistake(rng, sheet);
    }
    let workers = if plan.most_workers == 16 && rng.once_in(2) {
        16
    } else {
        rng.within(1, plan.most_workers)
    };
    // Items of a shift of another kind are kept.
    if kind == PUT_IN && !rng.once_in(10) || rng.once_in(10) {
        items(rng, plan, workers, sheet);
    }
    // The table is sound by the homes of its last shift, an empty one by all.
    let homes = match sheet.table.iter().all(|&cell| cell == EMPTY) {
        true => plan.homes,
        false => sheet.homes,
    };
    let refused = rng.once_in(10) && sheet.open(kind, workers, even_homes(rng)).is_err();
    let other = rng.once_in(6).then(|| other_homes(rng, homes, plan.cells));
    if other.is_none_or(|other| sheet.open(kind, workers, other).is_err()) {
        if (refused || other.is_some()) && rng.once_in(2) {
            sheet.line("list");
        }
        open_some(rng, kind, workers, homes, sheet);
    }
    if rng.once_in(12) {
        sheet.close();
        return;
    }
    let (kind, workers) = (sheet.phase.kind, sheet.phase.count);
    // The labels to order: those of the pool, or those in the table, or few.
    let present = labels_of(&sheet.table);
    let labels = match rng.below(8) {
        0 | 1 => (0..rng.within(1, 3))
            .map(|_| rng.pick(&plan.pool))
            .collect(),
        2..=6 if !present.is_empty() => present,
        _ => plan.pool.clone(),
    };
    // In a put-in shift all lines are given once, mostly, and some again.
    let mut places: Vec<usize> = (0..sheet.items.len()).collect();
    if rng.once_in(3) {
        rng.shuffle(&mut places);
    }
    let mut places = places.into_iter();
    let rounds = match kind {
        PUT_IN => places.len().div_ceil(workers).min(plan.most_rounds) + rng.below(2),
        _ => rng.within(1, 3),
    };
    for _ in 0..rounds {
        for worker in 0..workers {
            if rng.once_in(6) {
                continue;
            }
            if kind != PUT_IN {
                let label = match rng.once_in(30) {
                    true => test_label(rng),
                    false => rng.pick(&labels),
                };
                sheet.order(worker, label);
            } else if let Some(place) = places.next() {
                sheet.place(place);
            } else {
                sheet.give(worker, rng.pick(&labels), rng);
            }
        }
        match rng.below(4) {
            0 => {}
            1 => overtake(rng, &labels, sheet),
            _ => deal(rng, &labels, sheet),
        }
        if rng.once_in(8) {
            open_mistake(rng, sheet);
        }
        if !rng.once_in(5) {
            sheet.run();
        }
        if rng.once_in(6) {
            sheet.line("list");
        }
    }
    if rng.once_in(6) {
        sheet.close(); // refused if somebody works
    }
    sheet.run();
    sheet.close();
    if !rng.once_in(5) {
        sheet.line("list");
    }
}

/// Turns for workers at random, mostly busy ones.
fn deal(rng: &mut Rng, labels: &[u32], sheet: &mut Sheet) {
    let workers = sheet.phase.count;
    for _ in 0..rng.within(0, 12 * workers.min(8)) {
        let busy = sheet.busy();
        if busy.is_empty() {
            break;
        }
        if rng.once_in(12) {
            sheet.turn(rng.below(workers));
        } else {
            let worker = rng.pick(&busy);
            for _ in 0..rng.pick(&[1, 1, 1, 1, 2, 4]) {
                sheet.turn(worker);
            }
        }
        if rng.once_in(12) {
            sheet.line("list");
        }
        if rng.once_in(25) {
            open_mistake(rng, sheet);
        }
        if rng.once_in(15) {
            sheet.give(rng.below(workers), rng.pick(labels), rng);
        }
    }
}

/// One worker stands in the middle of its work while others do all of theirs,
/// often with labels close by.
fn overtake(rng: &mut Rng, labels: &[u32], sheet: &mut Sheet) {
    let workers = sheet.phase.count;
    let slow = rng.below(workers);
    let late = rng.once_in(2);
    for _ in 0..rng.within(1, 12) {
        match sheet.phase.workers[slow] {
            Activity::Idle => break,
            Activity::Seeking { taken: Some(_), .. } | Activity::Replacing { .. } if late => break,
            _ => sheet.turn(slow),
        }
    }
    for _ in 0..rng.within(1, 2 * workers) {
        let other = rng.below(workers);
        if other == slow {
            continue;
        }
        if sheet.phase.workers[other] == Activity::Idle {
            let label = match sheet.phase.workers[slow] {
                Activity::Seeking { hole, .. } if !rng.once_in(4) => {
                    label_of(sheet.table[(hole + rng.below(4)) % sheet.table.len()])
                }
                // The label that the slow one is about to write over.
                Activity::Replacing { found, .. } if label_of(found) > 0 && rng.once_in(2) => {
                    label_of(found)
                }
                _ => rng.pick(labels),
            };
            sheet.give(other, label, rng);
        }
        for _ in 0..rng.pick(&[3, 10, 40, 40, 40]) {
            if sheet.phase.workers[other] != Activity::Idle {
                sheet.turn(other);
            }
        }
    }
    for _ in 0..rng.within(1, 30) {
        if sheet.phase.workers[slow] != Activity::Idle {
            sheet.turn(slow);
        }
    }
    sheet.line("list");
}

/// A line that an open shift refuses.
fn open_mistake(rng: &mut Rng, sheet: &mut Sheet) {
    let workers = sheet.phase.count;
    let outside = rng.pick(&[workers, workers + 1, 16, 17, 4294967295]);
    let inside = rng.below(workers);
    let lines = sheet.items.len();
    match rng.below(8) {
        0 => sheet.turn(outside),
        1 if !sheet.phase.all_idle() => sheet.close(),
        2 | 3 if sheet.phase.kind == PUT_IN && lines > 0 => {
            // The second one finds the worker busy.
            let place = rng.below(lines);
            sheet.place(place);
            sheet.place(place);
        }
        _ if sheet.phase.kind == PUT_IN => {
            sheet.place(rng.pick(&[lines, lines + 1, 65_536, 4294967295]));
        }
        2 | 3 => {
            sheet.order(inside, rng.within(1, 9) as u32);
            sheet.order(inside, rng.below(9) as u32);
        }
        4 | 5 => sheet.order(inside, 0),
        _ => sheet.order(outside, rng.below(9) as u32),
    }
}

/// A line that a shut shift refuses.
fn shut_mistake(rng: &mut Rng, sheet: &mut Sheet) {
    let line = match rng.below(12) {
        0 => "run".to_string(),
        1 => "close".to_string(),
        2 => format!("turn\t{}", rng.pick(&[0, 1, 16, u32::MAX])),
        3 => format!("order\t{}", rng.below(20)),
        4 | 5 => {
            // Refused by its kind or its count, whatever a is.
            let (kind, count) = match rng.once_in(2) {
                true => (rng.pick(&[0, 4, 5, u32::MAX]), 1),
                false => (rng.below(5) as u32, rng.pick(&[0, 17, 18, u32::MAX])),
            };
            let Homes { a, b } = match rng.once_in(2) {
                true => even_homes(rng),
                false => homes(rng),
            };
            format!("open\t{kind}\t{count}\t{a}\t{b}")
        }
        6 | 7 => format!(
            "cells\t{}",
            rng.pick(&[0, 1, 4097, 8192, 8193, 65536, u32::MAX])
        ),
        8 if rng.once_in(6) => format!("order\t{}", "7".repeat(rng.within(1, 70_000))),
        // `order` first is refused here, readable or not.
        _ => rng
            .pick(&[
                "order",
                "order\t",
                "order\t\t",
                "order\t\t\t\t",
                "order\t0",
                "order\t0\t01",
                "order\t00\t1",
                "order\t0\t1",
                "order\t0\t1\t0",
                "order\t0\t1\t2\t3",
                "order\t0\t1\t01",
                "order\t0\t1\r",
                "order\t\0",
                "order\tx\ty",
                "order\t0\t4294967296",
                "order\t0\t99999999999999999999999999",
                "order\t-1\t+1",
                "order\t 0\t1",
            ])
            .to_string(),
    };
    sheet.line(&line);
}

/// Numbers that aren't readable.
const BAD_NUMBERS: [&str; 18] = [
    "",
    "00",
    "01",
    "007",
    "+1",
    "-1",
    " 1",
    "1 ",
    "0x1",
    "1e1",
    "1.0",
    "x",
    "4294967296",
    "4294967297",
    "42949672950",
    "18446744073709551616",
    "18446744073709551617",
    "340282366920938463463374607431768211457",
];

/// Damages a sheet in one place, mostly late.
fn damage(rng: &mut Rng, text: &mut Vec<u8>) {
    if rng.once_in(12) {
        // The whole sheet breaks off.
        text.truncate(rng.below(text.len() + 1));
        return;
    }
    let mut lines: Vec<Vec<u8>> = text
        .split_inclusive(|&byte| byte == b'\n')
        .map(|line| line.strip_suffix(b"\n").unwrap_or(line).to_vec())
        .collect();
    let count = lines.len();
    let at = if rng.once_in(3) {
        rng.below(count)
    } else {
        rng.within(count - 1 - count / 4, count - 1)
    };
    match rng.below(12) {
        0 => {
            let new = whole_line(rng);
            lines.insert(at, new);
        }
        1 => {
            let new = long_line(rng);
            lines.insert(at, new);
        }
        2 => {
            // Orders of one to three numbers: some are bad in each kind of shift.
            let new = rng.pick(&["order\t0", "order\t0\t1", "order\t0\t1\t1"]);
            lines.insert(at, new.into());
        }
        3 => {
            // In an open shift this ends the replay.
            let new = rng.pick(&[
                "cells\t5",
                "cells\t1",
                "open\t1\t1\t1\t0",
                "open\t1\t1\t2\t0",
                "open\t9\t99\t3\t7",
                "open\t1\t1",
                "cells",
                "item\t0\t1\t1",
                "item\t0\t0\t0",
            ]);
            lines.insert(at, new.into());
        }
        _ => {
            damage_line(rng, &mut lines[at]);
        }
    }
    text.clear();
    for line in lines {
        text.extend_from_slice(&line);
        text.push(b'\n');
    }
}

fn whole_line(rng: &mut Rng) -> Vec<u8> {
    rng.pick(&[
        "",
        "\t",
        "\t\t\t",
        " ",
        "\r",
        "\0",
        "ru",
        "runs",
        "Run",
        "RUN",
        "run\t",
        "run\t0",
        "run\r",
        " run",
        "run ",
        "\trun",
        "list\t",
        "list\t1",
        "listt",
        "close\t",
        "close\t0",
        "clos",
        "turn",
        "turn\t",
        "turn\t0\t",
        "turn\t0\t0",
        "turn 0",
        "cells",
        "cells\t",
        "cells\t5\t5",
        "open",
        "open\t1",
        "open\t1\t",
        "open\t1\t1",
        "open\t1\t1\t",
        "open\t1\t1\t1",
        "open\t1\t1\t1\t",
        "open\t1\t1\t\t0",
        "open\t1\t1\t1\t0\t",
        "open\t1\t1\t1\t0\t0",
        "open\t1\t1\t01\t0",
        "open\t1\t1\t1\t00",
        "open\t1\t1\t1\t4294967296",
        "open\t1\t1\t4294967297\t0",
        "open\t1\t1\t-1\t0",
        "open\t1\t1\t1\t0\r",
        "open 1 1 1 0",
        "item",
        "item\t",
        "item\t0\t1",
        "item\t0\t1\t",
        "item\t0\t1\t1\t",
        "item\t0\t1\t1\t1",
        "item\t0\t01\t1",
        "item\t0\t1\t01",
        "item\t0\t1\t4294967296",
        "item\t0\t1\t1\r",
        "items\t0\t1\t1",
        "Item\t0\t1\t1",
        "item 0 1 1",
        "order\0",
        "order ",
        "orders\t0\t1",
        "orders\t0",
        "Order\t0\t1",
        "Order\t0",
        "order 0 1",
        "order 0",
        "ok",
        "# note",
        "\u{e9}",
    ])
    .into()
}

fn long_line(rng: &mut Rng) -> Vec<u8> {
    let length = rng.pick(&[255, 256, 4095, 4096, 4097, 65_535, 65_536, 65_537, 100_000]);
    let front = rng.pick(&[
        "",
        "turn\t",
        "order\t0\t",
        "item\t0\t1\t",
        "item\t",
        "open\t1\t1\t1\t",
        "open\t",
        "order\t",
        "cells\t",
        "run",
        "list\t",
    ]);
    let fill = rng.pick(&[b'0', b'1', b'9', b'\t', b'a', b' ', 0]);
    let mut line = front.as_bytes().to_vec();
    line.resize(front.len() + length, fill);
    line
}

fn damage_line(rng: &mut Rng, line: &mut Vec<u8>) {
    let tabs: Vec<usize> = (0..line.len()).filter(|&i| line[i] == b'\t').collect();
    let place = rng.below(line.len() + 1);
    match rng.below(12) {
        0 => line.truncate(place),
        1 if !tabs.is_empty() => line.insert(rng.pick(&tabs), b'\t'),
        2 if !tabs.is_empty() => line.insert(rng.pick(&tabs) + 1, b'0'),
        3 if !tabs.is_empty() => {
            // Another number in the last field.
            line.truncate(tabs[tabs.len() - 1] + 1);
            line.extend_from_slice(rng.pick(&BAD_NUMBERS).as_bytes());
        }
        4 if !tabs.is_empty() => {
            // A blank for a tab.
            line[rng.pick(&tabs)] = b' ';
        }
        5 => line.insert(place, 0),
        6 => line.push(b'\r'),
        7 => line.insert(place, b'\r'),
        8 => line.extend_from_slice(rng.pick(&["\t", "\t0", "\t\t", " ", "\0"]).as_bytes()),
        9 => line.insert(0, rng.pick(b"\t 0\0")),
        // A field too few.
        10 if !tabs.is_empty() => line.truncate(tabs[tabs.len() - 1]),
        _ => {
            let byte = rng.draw() as u8;
            if place < line.len() {
                line[place] = byte;
            } else {
                line.push(byte);
            }
        }
    }
}
