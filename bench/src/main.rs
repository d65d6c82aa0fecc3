//! Prints a table of times: each line is one job on the same input, done by the proved code and by the reference in turn.
//! The sides alternate, results are compared every round, and the ratio is that of the medians.

use std::collections::HashSet;
use std::fs::{self, File};
use std::hint::black_box;
use std::path::Path;
use std::process::{Command, Stdio};
use std::time::Instant;

use conformance::shifts::{calls_of, dealt_move};
use conformance::{
    close, order, order_line, read_till, reference_open, reference_run, reference_run_moves, round_close, round_open, turn, Call, Calls, Orders,
    Replies, REFUSED,
};
use reference::generate::factory::{self, GOLDEN};
use reference::generate::till::{written, Quotes, Record};
use reference::generate::{is_shop_label, shop_label, Rng};
use reference::layout::{content, label_of, layout, way_is_greater, Homes, Prices, MAX_PRICE};
use reference::listing;
use reference::model::{Model, GATEWAY, KIOSK};
use reference::phase::{Activity, Order, Phase, LOOK_UP, PUT_IN, TAKE_OUT};
use reference::round::{self, Reply};
use reference::till;

/// Seconds of the median round of each side.
fn alternate(rounds: usize, mut ours: impl FnMut() -> f64, mut theirs: impl FnMut() -> f64) -> (f64, f64) {
    let (mut a, mut b) = (Vec::new(), Vec::new());
    for _ in 0..rounds {
        a.push(ours());
        b.push(theirs());
    }
    a.sort_by(f64::total_cmp);
    b.sort_by(f64::total_cmp);
    (a[rounds / 2], b[rounds / 2])
}

fn seconds(job: impl FnOnce()) -> f64 {
    let start = Instant::now();
    job();
    start.elapsed().as_secs_f64()
}

fn line(name: &str, unit: &str, per: f64, (ours, theirs): (f64, f64)) {
    println!("| {name} | {:.3} {unit} | {:.3} {unit} | {:.2} |", ours * per, theirs * per, ours / theirs);
}

/// A price for each label.
fn price(key: u32) -> u32 {
    1 + key % MAX_PRICE
}

const CELLS: usize = 8192;

/// The homes of all jobs but the label factory's.
const HOMES: Homes = Homes::PLAIN;

/// How many tables of a family are taken in turn: neither side learns one by heart, as the processor's branch prediction does.
const TABLES: u32 = 16;

/// How the labels of a table are chosen: from a number drawn at random, from how many there are already, and from the table's number.
#[derive(Clone, Copy)]
struct Family {
    name: &'static str,
    label: fn(u32, u32, u32) -> u32,
}

/// At random.
const TAME: Family = Family { name: "tame homes", label: |drawn, _, _| drawn + 1 };

/// All at one home in 128.
const CROWDED: Family = Family { name: "crowded homes", label: |drawn, _, _| drawn / 128 * 128 + 128 };

/// In steps of 100, as the factory numbers them: short ways at this length.
const HUNDREDS: Family = Family { name: "labels in steps of 100", label: |_, known, number| 100 * (known + 1 + 9973 * number) };

/// All at home in 41 cells side by side: ways of thousands of cells.
const SIDE_BY_SIDE: Family = Family { name: "41 homes side by side", label: |drawn, _, _| drawn / CELLS as u32 * CELLS as u32 + 4000 + drawn % 41 };

impl Family {
    /// A sound table with so many labels.
    fn table(self, cells: usize, labels: usize, number: u32) -> Vec<u64> {
        let mut random = Rng::new(7 + u64::from(number));
        let mut set = Prices::new();
        while set.len() < labels {
            let key = (self.label)(random.below(u32::MAX as usize) as u32, set.len() as u32, number);
            set.insert(key, price(key));
        }
        layout(HOMES, cells, &set)
    }

    /// The same by the share of the cells that are taken.
    fn share(self, cells: usize, share: f64, number: u32) -> Vec<u64> {
        self.table(cells, (share * cells as f64).round() as usize, number)
    }
}

/// So many rounds of a job of a model that is done so many times in each, on the tables in turn.
#[derive(Clone, Copy)]
struct Work {
    model: Model,
    rounds: usize,
    repeat: usize,
}

impl Work {
    /// Microseconds of the job once.
    fn line(self, name: &str, tables: &[Vec<u64>], mut ours: impl FnMut(&[u64]), mut theirs: impl FnMut(&[u64])) {
        let round = |job: &mut dyn FnMut(&[u64])| seconds(|| tables.iter().cycle().take(self.repeat).for_each(|table| job(black_box(table))));
        line(name, "µs", 1e6 / self.repeat as f64, alternate(self.rounds, || round(&mut ours), || round(&mut theirs)));
    }

    /// A check that answers this.
    fn check(self, name: &str, homes: Homes, tables: &[Vec<u64>], answer: Result<(), u8>) {
        self.line(
            &format!("check, {name}"),
            tables,
            |table| assert_eq!(conformance::check(self.model, homes, table), answer),
            |table| assert_eq!(listing::check(self.model, homes, table), answer),
        );
    }

    /// Check, count and list of sound tables with as many labels each.
    fn at_rest(self, name: &str, homes: Homes, tables: &[Vec<u64>]) {
        self.check(name, homes, tables, Ok(()));
        let labels = listing::count(self.model, homes, &tables[0]);
        self.line(
            &format!("count, {name}"),
            tables,
            |table| assert_eq!(conformance::count(self.model, homes, table), labels),
            |table| assert_eq!(listing::count(self.model, homes, table), labels),
        );
        let (mut ours, mut theirs) = (vec![0; tables[0].len()], vec![0; tables[0].len()]);
        self.line(
            &format!("list, {name}"),
            tables,
            |table| assert_eq!(conformance::list(self.model, homes, table, &mut ours), labels),
            |table| assert_eq!(listing::list(self.model, homes, table, &mut theirs), labels),
        );
        assert_eq!(ours, theirs);
    }
}

/// Check, count and list of a family's tables.
fn sound(family: Family, share: f64, work: Work) {
    let tables: Vec<_> = (0..TABLES).map(|number| family.share(CELLS, share, number)).collect();
    work.at_rest(&format!("{:.1} % full, {}", share * 100.0, family.name), HOMES, &tables);
}

/// The lowest-numbered cell whose label breaks the way rule.
fn lowest_broken(table: &[u64]) -> Option<usize> {
    (0..table.len()).find(|&at| table[at] != 0 && !way_is_greater(HOMES, table, label_of(table[at]), at))
}

/// The table with a change near its end that leaves the ways of all labels in the first nine tenths of the cells as they are and breaks one behind, so that it is
/// refused with this number; if there is such a change.
fn broken_late(table: &[u64], number: u8, change: impl Fn(&mut [u64], usize)) -> Option<Vec<u64>> {
    let changed = |at| {
        let mut table = table.to_vec();
        change(&mut table, at);
        table
    };
    let late = |table: &Vec<u64>| lowest_broken(table).is_some_and(|at| at >= CELLS / 10 * 9) && listing::check(GATEWAY, HOMES, table) == Err(number);
    (1..CELLS).rev().map(changed).find(late)
}

/// A table with one cell or two changed, by the table's number.
type Spoil = fn(u32) -> Option<Vec<u64>>;

/// A price that no label has, in the last cell that is taken.
fn wrong_price(number: u32) -> Option<Vec<u64>> {
    let mut table = TAME.share(CELLS, 0.95, number);
    let last = table.iter().rposition(|&cell| cell != 0).expect("a label");
    table[last] = content(label_of(table[last]), MAX_PRICE + 1);
    Some(table)
}

/// A label at home in the last empty cell.
fn full(number: u32) -> Option<Vec<u64>> {
    let mut table = TAME.table(CELLS, CELLS - 1, number);
    let empty = table.iter().position(|&cell| cell == 0).expect("an empty cell");
    table[empty] = content((CELLS + empty) as u32, 1);
    Some(table)
}

/// Checks of tables that are not sound; nearly all cells are read.
fn unsound() {
    let hole: Spoil = |number| broken_late(&TAME.share(CELLS, 0.95, number), 17, |table, at| table[at] = 0);
    let swapped: Spoil = |number| broken_late(&TAME.share(CELLS, 0.95, number), 18, |table, at| table.swap(at - 1, at));
    for (name, spoil, number) in [
        ("refused with 4 for the price in the last cell, 95.0 % full", wrong_price as Spoil, 4),
        ("refused with 4, all cells taken", full, 4),
        ("refused with 17 near the end, 95.0 % full", hole, 17),
        ("refused with 18 near the end, 95.0 % full", swapped, 18),
    ] {
        let tables: Vec<_> = (0..).filter_map(spoil).take(TABLES as usize).collect();
        Work { model: GATEWAY, rounds: 61, repeat: 32 }.check(name, HOMES, &tables, Err(number));
    }
}

fn at_rest() {
    for family in [TAME, CROWDED] {
        for share in [0.1, 0.5, 0.95, 0.999] {
            let long = family.name == CROWDED.name && share > 0.4;
            sound(family, share, Work { model: GATEWAY, rounds: 61, repeat: if long { 16 } else { 32 } });
        }
    }
    for share in [0.5, 0.95, 0.999] {
        sound(HUNDREDS, share, Work { model: GATEWAY, rounds: 61, repeat: 32 });
    }
    // the reference takes more than 10 ms each time
    sound(SIDE_BY_SIDE, 0.999, Work { model: GATEWAY, rounds: 11, repeat: 4 });
    unsound();
}

/// A shift of as many workers as the model has, on a table that is about 60 % full, recorded once: its list, and orders and turns as chance deals them.
/// A put-in shift sends its labels again when half of the cells' number are new.
fn recorded(model: Model, cells: usize, kind: u64) -> Shift {
    let mut random = Rng::new(kind);
    let mut set = Prices::new();
    let standing = if kind == 1 { 1200 } else { 2500 };
    while set.len() < cells * standing / 4096 {
        let key = random.below(u32::MAX as usize) as u32 + 1;
        set.insert(key, price(key));
    }
    let opening = layout(HOMES, cells, &set);
    let mut known: Vec<u32> = if kind == 1 { Vec::new() } else { set.into_keys().collect() };
    let mut table = opening.clone();
    // The list is made on the way, so that each line is for the worker whose turn it is; an opening with a list leaves the same record.
    let mut phase = Phase::open(model, kind, model.max_workers as u64, HOMES, &table, &[]).expect("a sound table");
    let mut list = Vec::new();
    let mut calls = Vec::new();
    while calls.len() < 60_000 {
        let worker = random.below(model.max_workers) as u32;
        if phase.workers[worker as usize] == Activity::Idle && list.len() < 2000 {
            if kind == 1 && known.len() < cells / 2 {
                known.push(shop_label(&mut random));
            }
            let key = if kind == 1 && list.len() < known.len() { known[list.len()] } else { known[random.below(known.len())] };
            let line = list.len() as u32;
            list.push(Order { worker, label: key, price: price(key) });
            phase.order(model, &list, line.into(), worker.into(), key).expect("an order");
            calls.push(if kind == 1 { order_line(line) } else { order(worker, key) });
        } else if list.len() == 2000 && phase.all_idle() {
            break;
        } else {
            phase.turn(model, &mut table, worker.into()).expect("a turn");
            calls.push(turn(worker));
        }
    }
    calls.push(close());
    Shift { model, kind, homes: HOMES, opening, orders: list, calls }
}

/// A shift of as many workers as the model has that is known call by call.
struct Shift {
    model: Model,
    kind: u64,
    homes: Homes,
    opening: Vec<u64>,
    orders: Vec<Order>,
    calls: Vec<Call>,
}

type Run = fn(&Calls, Model, u64, u64, Homes, &mut [u64], &Orders, &mut [u64]) -> u64;

impl Shift {
    /// Seconds of the whole shift.
    fn times(&self, run: Run) -> (f64, f64) {
        let Shift { model, kind, homes, ref opening, ref orders, ref calls } = *self;
        let crew = model.max_workers as u64;
        let (list, lent) = (Calls::of(calls), Orders::of(orders));
        let (mut ours, mut theirs) = (opening.clone(), opening.clone());
        let (mut said, mut expected) = (vec![0; calls.len()], vec![0; calls.len()]);
        let times = alternate(
            61,
            || {
                ours.copy_from_slice(opening);
                seconds(|| assert_eq!(run(&list, model, kind, crew, homes, &mut ours, &lent, &mut said), 0))
            },
            || {
                theirs.copy_from_slice(opening);
                seconds(|| assert_eq!(reference_run(model, kind, crew, homes, &mut theirs, orders, calls, &mut expected), 0))
            },
        );
        assert_eq!((ours, said), (theirs, expected));
        times
    }
}

/// Shifts of a model on a table of so many cells; the name of each says where.
fn turns(model: Model, cells: usize, place: &str) {
    for (kind, name) in [(1, "put in"), (2, "take out"), (3, "look up")] {
        let shift = recorded(model, cells, kind);
        for (run, how) in [(Calls::run_singly as Run, "one call by value"), (Calls::run, "batch of calls")] {
            let per = 1e9 / shift.calls.len() as f64;
            line(&format!("{how}, {place}{name}, {} calls", shift.calls.len()), "ns", per, shift.times(run));
        }
    }
}

/// The kiosk's longest table, at rest and with its greatest crew at work.
fn kiosks() {
    let cells = KIOSK.max_cells;
    let place = format!("kiosk with {cells} cells, ");
    let tables: Vec<_> = (0..TABLES).map(|number| TAME.share(cells, 0.95, number)).collect();
    Work { model: KIOSK, rounds: 61, repeat: 1024 }.at_rest(&format!("{place}95.0 % full, {}", TAME.name), HOMES, &tables);
    turns(KIOSK, cells, &place);
    moves(KIOSK, 200, cells, cells);
}

/// The label factory's case, with homes that crowd and homes that spread: whole shifts of sixteen workers as one batch, turns dealt round and round,
/// and tables at rest, those of sixteen stretches of labels in turn.
fn factory() {
    const LABELS: usize = 900;
    for homes in [Homes::PLAIN, GOLDEN] {
        let name = format!("{LABELS} labels in steps of 100 in 1,025 cells, a {}, b {}", homes.a, homes.b);
        let orders = factory::orders(LABELS);
        let (empty, full) = (vec![0; factory::CELLS], factory::table(homes, LABELS));
        for (kind, opening, what) in [(PUT_IN, &empty, "put-in"), (LOOK_UP, &full, "look-up"), (TAKE_OUT, &full, "take-out")] {
            let steps = factory::shift(kind, homes, &mut opening.clone(), &orders);
            let calls = calls_of(kind, &orders, &steps);
            let shift = Shift { model: GATEWAY, kind: kind.into(), homes, opening: opening.clone(), orders: orders.clone(), calls };
            line(&format!("whole {what} shift, {name}, {} calls", shift.calls.len()), "µs", 1e6, shift.times(Calls::run));
        }
        let tables: Vec<_> = (0..TABLES as usize).map(|number| factory::table_of(homes, &factory::later_orders(LABELS * number, LABELS))).collect();
        Work { model: GATEWAY, rounds: 61, repeat: 64 }.at_rest(&name, homes, &tables);
    }
}

/// Different labels that a shop may add: at random, in steps of 100, or with products by 2654435769 modulo 2 to the 32 that begin with the same 14 bits.
fn labels(family: &str, count: u32) -> Vec<u32> {
    const INVERSE: u32 = 340_573_321;
    assert_eq!(INVERSE.wrapping_mul(2_654_435_769), 1);
    match family {
        "in steps of 100" => (1..=count).map(|i| 100 * i).collect(),
        "against the multiplier" => {
            let drawn = (0x8000_0000..).map(|i: u32| i.wrapping_mul(INVERSE));
            drawn.filter(|&label| is_shop_label(label)).take(count as usize).collect()
        }
        _ => {
            let mut random = Rng::new(13);
            let mut known = HashSet::new();
            let drawn = std::iter::repeat_with(|| shop_label(&mut random));
            drawn.filter(|&label| known.insert(label)).take(count as usize).collect()
        }
    }
}

/// Whether the labels of table and list together are fewer than the cells, by the standard library's set.
fn room_by_set(table: &[u64], list: &[Order]) -> bool {
    let mut set: HashSet<u32> = table.iter().map(|&cell| label_of(cell)).filter(|&label| label != 0).collect();
    list.iter().all(|order| {
        set.insert(order.label);
        set.len() < table.len()
    })
}

/// An opening on 8,192 cells with a list of 65,536 lines, in both forms of the list: beside the reference's, and beside the count alone by a set.
fn opening(case: &str, kind: u64, standing: &[u32], sent: &[u32], opens: bool) {
    let set: Prices = standing.iter().map(|&label| (label, price(label))).collect();
    let mut table = layout(HOMES, 8192, &set);
    let listed = |(i, &label): (u32, &u32)| Order { worker: i % 16, label, price: price(label) };
    let list: Vec<Order> = (0..65_536).zip(sent.iter().cycle()).map(listed).collect();
    let (lent, none) = (Orders::of(&list), Calls::default());
    let answer = if opens { 0 } else { REFUSED + 9 };
    let reference = |table: &[u64]| seconds(|| assert_eq!(reference_open(GATEWAY, kind, 16, HOMES, black_box(table), black_box(&list)), answer));
    let structs = |table: &[u64]| seconds(|| assert_eq!(lent.open(GATEWAY, kind, 16, HOMES, black_box(table)), answer));
    let parallel = |table: &mut [u64]| seconds(|| assert_eq!(none.run(GATEWAY, kind, 16, HOMES, black_box(table), &lent, &mut []), answer));
    let set = |table: &[u64]| seconds(|| assert_eq!(room_by_set(black_box(table), black_box(&list)), opens));
    line(&format!("opening, {case}"), "µs", 1e6, alternate(31, || structs(&table), || reference(&table)));
    if kind == 1 {
        line(&format!("opening beside a set, {case}"), "µs", 1e6, alternate(31, || structs(&table), || set(&table)));
    }
    let copy = table.clone();
    line(&format!("opening with three lists, {case}"), "µs", 1e6, alternate(31, || parallel(&mut table), || reference(&copy)));
}

fn openings() {
    for family in ["at random", "in steps of 100", "against the multiplier"] {
        let all = labels(family, 65_536);
        let standing = &all[..8191];
        opening(&format!("assortment sent again, labels {family}"), 1, standing, standing, true);
        opening(&format!("all new, labels {family}"), 1, &[], &all, false);
    }
    let all = labels("at random", 65_536);
    opening("look up, the list is not read", 3, &all[..8191], &all, true);
}

/// A sheet of about a million turns, dealt by `turn` lines and by `run`.
fn sheet(by_run: bool) -> Vec<u8> {
    let mut random = Rng::new(11);
    let mut text = b"cells\t4096\n".to_vec();
    let mut known = Vec::new();
    // 3,520 labels in four shifts: a list takes 1,024 items
    for _ in 0..4 {
        let mut orders = Vec::new();
        for place in 0..880 {
            let key = shop_label(&mut random);
            known.push(key);
            text.extend(format!("item\t{}\t{key}\t{}\n", place % 16, price(key)).bytes());
            orders.extend(format!("order\t{place}\n").bytes());
            if place % 16 == 15 {
                orders.extend(b"run\n");
            }
        }
        text.extend(b"open\t1\t16\t1\t0\n");
        text.extend(orders);
        text.extend(b"close\n");
    }
    text.extend(b"open\t3\t16\t1\t0\n");
    let mut lines = text.iter().filter(|&&b| b == b'\n').count();
    while lines < 1_000_000 {
        for worker in 0..16 {
            text.extend(format!("order\t{worker}\t{}\n", known[random.below(known.len())]).bytes());
        }
        lines += 16;
        if by_run {
            text.extend(b"run\n");
            lines += 1;
        } else {
            for _ in 0..20 {
                text.extend(format!("turn\t{}\n", random.below(16)).bytes());
            }
            text.extend(b"run\n");
            lines += 21;
        }
    }
    text.extend(b"close\nlist\n");
    text
}

fn replays(target: &str) {
    let other = Path::new(target).join("reference_replay");
    let ours = Path::new(target).join("bin/replay");
    for by_run in [false, true] {
        let folder = std::env::temp_dir().join(format!("vulzegan-bench-{}", std::process::id()));
        fs::create_dir_all(&folder).expect("a folder for the sheet");
        let (input, output, expected) = (folder.join("sheet"), folder.join("ours"), folder.join("reference"));
        fs::write(&input, sheet(by_run)).expect("the sheet");
        let time = |program: &Path, to: &Path| {
            let from = File::open(&input).expect("the sheet");
            let to = File::create(to).expect("an output file");
            seconds(|| {
                let status = Command::new(program).stdin(from).stdout(Stdio::from(to)).status().expect("a replay program");
                assert!(status.success());
            })
        };
        let times = alternate(9, || time(&ours, &output), || time(&other, &expected));
        assert_eq!(fs::read(&output).expect("output"), fs::read(&expected).expect("output"));
        let name = if by_run { "turns dealt by run lines" } else { "turn lines among others" };
        line(&format!("replay of a million-line sheet, {name}"), "ms", 1e3, times);
        fs::remove_dir_all(&folder).expect("the folder removed");
    }
}

/// A till's list of a million records, read for sixteen workers into lists that are just long enough: labels at random, prices of one to seven
/// digits, each as often.
fn tills() {
    const RECORDS: usize = 1_000_000;
    let mut random = Rng::new(17);
    let mut record = || {
        let most = 10usize.pow(random.within(1, 7) as u32);
        (random.below(u32::MAX as usize) as u32 + 1, random.within(most / 10, most - 1) as u32)
    };
    let records: Vec<Record> = (0..RECORDS).map(|_| record()).collect();
    let expected: Vec<Order> = (0..).zip(&records).map(|(i, &(label, price))| Order { worker: i % 16, label, price }).collect();
    let columns = [|o: &Order| o.label, |o: &Order| o.price, |o: &Order| o.worker].map(|of| expected.iter().map(of).collect::<Vec<u32>>());
    for (name, quotes) in [("half of the fields in quotes", Quotes::Mixed), ("no field in quotes", Quotes::Never)] {
        let text = written(&mut random, &records, quotes, true);
        let mut ours = [(); 3].map(|()| vec![0; RECORDS]);
        let mut theirs = vec![Order { worker: 0, label: 0, price: 0 }; RECORDS];
        let times = alternate(
            31,
            || {
                ours.iter_mut().for_each(|list| list.fill(0));
                let [keys, prices, workers] = &mut ours;
                let time = seconds(|| assert_eq!(read_till(GATEWAY, black_box(&text), 16, [keys, prices, workers]), Ok(RECORDS)));
                assert!(ours == columns);
                time
            },
            || {
                theirs.fill(Order { worker: 0, label: 0, price: 0 });
                let time = seconds(|| assert_eq!(till::read(GATEWAY, black_box(&text), 16, &mut theirs), Ok(RECORDS)));
                assert!(theirs == expected);
                time
            },
        );
        let bytes = text.len() as f64 / RECORDS as f64;
        line(&format!("till list of a million records, {name}, {bytes:.0} bytes each"), "ms", 1e3, times);
    }
}

/// A reply round of sixteen workers in 8,192 cells, opened and closed: 4,000 labels sent, and 3,700 of them replied for in an order of their own.
fn rounds() {
    const REPLIES: usize = 3700;
    let mut known = labels("at random", 4000);
    let sent: Vec<Order> = (0..).zip(&known).map(|(i, &label)| Order { worker: i % 16, label, price: price(label) }).collect();
    Rng::new(19).shuffle(&mut known);
    let replies: Vec<Reply> = (0..).zip(&known[..REPLIES]).map(|(i, &label)| Reply { worker: i % 16, label }).collect();
    let (lent, replied) = (Orders::of(&sent), Replies::of(&replies));
    let (mut ours, mut theirs) = (vec![0; CELLS], vec![0; CELLS]);
    let times = alternate(
        61,
        || seconds(|| assert_eq!(round_open(GATEWAY, 16, HOMES, black_box(&mut ours), lent.lists()), Ok(()))),
        || seconds(|| assert_eq!(round::open(GATEWAY, 16, HOMES, black_box(&mut theirs), &sent), Ok(()))),
    );
    assert_eq!(ours, theirs);
    line(&format!("round opened, {} labels sent in {CELLS} cells", sent.len()), "µs", 1e6, times);
    let opening = ours.clone();
    let silent = sent.len() - REPLIES;
    let (mut answers, mut expected) = (vec![0; REPLIES], vec![0; REPLIES]);
    let (mut out, mut listed) = (vec![0; sent.len()], vec![0; sent.len()]);
    let times = alternate(
        61,
        || {
            ours.copy_from_slice(&opening);
            seconds(|| assert_eq!(round_close(GATEWAY, 16, HOMES, black_box(&mut ours), replied.lists(), &mut answers, &mut out), Ok(silent)))
        },
        || {
            theirs.copy_from_slice(&opening);
            seconds(|| assert_eq!(round::close(GATEWAY, 16, HOMES, black_box(&mut theirs), &replies, &mut expected, &mut listed), Ok(silent)))
        },
    );
    assert_eq!((ours, answers, out), (theirs, expected, listed));
    line(&format!("round closed, {REPLIES} replies to {} labels in {CELLS} cells", sent.len()), "µs", 1e6, times);
}

/// A move of so many labels from one table to another by as many workers as the model has, as one batch: each worker in turn gets the next old cell if
/// it is idle, else a turn.
fn moves(model: Model, labels: usize, from: usize, to: usize) {
    let old = TAME.table(from, labels, 0);
    let crew = model.max_workers as u32;
    let mut workers = (0..crew).cycle();
    let calls = dealt_move(model, crew, HOMES, &old, to, || workers.next().expect("a worker"));
    let list = Calls::of(&calls);
    let (mut ours, mut theirs) = (vec![0; to], vec![0; to]);
    let (mut said, mut expected) = (vec![0; calls.len()], vec![0; calls.len()]);
    let times = alternate(
        61,
        || {
            ours.fill(0);
            seconds(|| assert_eq!(list.run_moves(model, crew.into(), HOMES, black_box(&old), &mut ours, &mut said), Ok(())))
        },
        || {
            theirs.fill(0);
            seconds(|| assert_eq!(reference_run_moves(model, crew.into(), HOMES, black_box(&old), &mut theirs, &calls, &mut expected), Ok(())))
        },
    );
    assert_eq!((ours, said.last()), (theirs, Some(&0)));
    assert_eq!(said, expected);
    line(&format!("moving {labels} labels from {from} to {to} cells, {crew} workers, {} calls", calls.len()), "µs", 1e6, times);
}

fn main() {
    let target = std::env::var("VULZEGAN_TARGET").expect("VULZEGAN_TARGET names the folder that build.sh writes");
    println!("| job | proved | reference | ratio |\n|---|---|---|---|");
    replays(&target);
    turns(GATEWAY, 4096, "");
    tills();
    rounds();
    moves(GATEWAY, 4000, 4096, CELLS);
    openings();
    at_rest();
    factory();
    kiosks();
}
