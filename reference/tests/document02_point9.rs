//! Point 9 of document 02, sentence by sentence: moving to a larger table.

use std::collections::{BTreeMap, HashMap};

use reference::generate::moving::{cells as new_cells, unfit};
use reference::generate::{
    even_homes, homes, label_with, labels_of, other_homes, price, returned, table, Rng,
};
use reference::layout::{
    content, is_sound, label_of, layout, price_of, soundness, way_is_greater, Homes, Prices,
};
use reference::listing;
use reference::model::{Model, GATEWAY, KIOSK};
use reference::moving::{Move, Task, MOVE};
use reference::phase::{Activity, Answer, Order, Phase, PUT_IN};
use reference::refusal;
use reference::sheet::replay_bytes;

use Activity::{Idle, ReadingOn, Replacing, Seeking, WalkingBack};
use Task::{Fetching, Working};

const BOTH: [Model; 2] = [GATEWAY, KIOSK];

/// Both models, each with its most cells and workers.
const LIMITS: [(Model, usize, u64); 2] = [(GATEWAY, 8192, 16), (KIOSK, 256, 4)];

/// Contents of these labels at price 1; 0 is an empty cell.
fn cells<const N: usize>(labels: [u32; N]) -> [u64; N] {
    labels.map(|label| content(label, label.min(1)))
}

fn open(model: Model, count: u64, homes: Homes, old: &[u64], new: usize) -> Result<Move, u8> {
    Move::open(model, count, homes, old, &vec![0; new])
}

/// A call of a move.
#[derive(Clone, Copy, Debug)]
enum Call {
    Order(u64),
    Turn(u64),
    Close,
}

/// A call that is lent the record and both tables; a refusal keeps them.
fn apply(
    model: Model,
    record: &mut Move,
    old: &[u64],
    new: &mut [u64],
    call: Call,
) -> Result<Option<Answer>, u8> {
    let before = (record.clone(), new.to_vec());
    let answer = match call {
        Call::Order(worker) => record.order(model, worker).map(|()| None),
        Call::Turn(worker) => record.turn(model, old, new, worker).map(Some),
        Call::Close => record.close(model).map(|()| None),
    };
    if answer.is_err() {
        assert_eq!((&*record, &*new), (&before.0, &before.1[..]));
    }
    answer
}

/// Every call is refused with this, whatever worker and tables it gets.
fn refused_with(model: Model, record: &Move, number: u8) {
    let mut same = record.clone();
    for worker in [0, 1, 15, 16, 1 << 32, u64::MAX] {
        for (old, new) in [(record.old_length, record.new_length), (3, 2), (0, 9000)] {
            let [old, mut new] = [old, new].map(|length| vec![7; length.min(9000)]);
            for call in [Call::Order(worker), Call::Turn(worker), Call::Close] {
                let answer = apply(model, &mut same, &old, &mut new, call);
                assert_eq!(answer, Err(number), "{call:?} {record:?}");
            }
        }
    }
}

// ---- the paper's words, without a shift

/// The contents of a table, the greatest label first.
fn contents(table: impl IntoIterator<Item = u64>) -> Vec<u64> {
    let mut contents: Vec<u64> = table.into_iter().filter(|&cell| cell != 0).collect();
    contents.sort_unstable_by(|one, other| other.cmp(one));
    contents
}

/// The same labels and prices in so many cells, each label in the first empty
/// cell from its home.
fn placed(Homes { a, b }: Homes, n: usize, old: &[u64]) -> Vec<u64> {
    let mut table = vec![0; n];
    for cell in contents(old.iter().copied()) {
        let value = u128::from(a) * u128::from(cell >> 32) + u128::from(b);
        let home = (value % 4_294_967_296 % n as u128) as usize;
        let at = (home..n).chain(0..home).find(|&at| table[at] == 0);
        table[at.expect("an empty cell")] = cell;
    }
    table
}

/// The turns that count are fewer than this: the bound of a plain shift at the new
/// length, and for each order the turn that reads its old cell.
fn bound(new: usize, workers: usize, orders: usize) -> u128 {
    let [n, w, k] = [new, workers, orders].map(|number| number as u128);
    let power = (w + 1).pow(workers as u32);
    let replaces = (n + 1) * (w * power * (w + 1) + 1) + power;
    let each = (w * (5 * n + 2) + 1) * replaces + 5 * n + 2;
    k * each + 1 + k
}

/// The cell that a worker's next turn touches: one of the old table, or one of
/// the new.
fn touched(task: Task) -> (Option<usize>, Option<usize>) {
    match task {
        Fetching { cell } => (Some(cell), None),
        Working(Idle) => (None, None),
        Working(
            ReadingOn { cell, .. }
            | Replacing { cell, .. }
            | WalkingBack { cell, .. }
            | Seeking { cell, .. },
        ) => (None, Some(cell)),
    }
}

/// What holds between the calls of a move: the record isn't spoilt; what stands
/// in the new table, is carried, or is yet to be read is what the old table
/// holds, each content once; and the ways in the new table hold only greater
/// labels.
fn holds(model: Model, record: &Move, old: &[u64], new: &[u64]) {
    assert!(!record.is_spoilt(model));
    let carried = record.crew().iter().map(|task| match *task {
        Fetching { cell } => old[cell],
        Working(Idle) => 0,
        Working(ReadingOn { entry, .. } | Replacing { entry, .. }) => entry,
        Working(other) => panic!("{other:?} in a move"),
    });
    let unread = old[record.next..].iter().copied();
    let all = new.iter().copied().chain(carried).chain(unread);
    assert_eq!(contents(all), contents(old.iter().copied()));
    for (at, &cell) in new.iter().enumerate() {
        assert!(cell == 0 || way_is_greater(record.homes, new, label_of(cell), at));
    }
}

/// A turn that isn't refused: the answer fits the record, only that worker's part
/// of it changes, and at most the touched cell does.
fn checked_turn(record: &mut Move, old: &[u64], new: &mut [u64], worker: usize) -> Answer {
    let before = (record.clone(), new.to_vec());
    let answer = record.turn(GATEWAY, old, new, worker as u64);
    let answer = answer.expect("no refusal");
    let task = before.0.workers[worker];
    let idle_now = record.workers[worker] == Task::IDLE;
    match answer {
        Answer::Idle => assert!(task == Task::IDLE && idle_now),
        Answer::Finished => assert!(task != Task::IDLE && idle_now),
        _ => assert!(answer == Answer::WentOn && !idle_now),
    }
    let mut same = record.clone();
    same.workers[worker] = task;
    assert_eq!(same, before.0);
    let cell = touched(task).1;
    assert!((0..new.len()).all(|at| new[at] == before.1[at] || Some(at) == cell));
    answer
}

#[test]
fn the_numbers() {
    assert_eq!(refusal::UNFIT, 23);
    assert_eq!(MOVE, 4);
    // As computed for two workers with an order each in a plain shift.
    assert_eq!(bound(5, 2, 2) - 2, 37_345);
    assert_eq!(bound(5, 2, 0), 1);
}

/// Document 01's table at other prices, in seven cells, turn by turn.
#[test]
fn an_example() {
    for model in BOTH {
        let [four, three, thirteen, eight] =
            [(4, 5), (3, 9), (13, 1), (8, 7)].map(|(label, price)| content(label, price));
        let old = [four, three, 0, thirteen, eight];
        let mut new = [0; 7];
        let mut record = Move::open(model, 2, Homes::PLAIN, &old, &new).unwrap();
        for (call, answer) in [
            (Call::Order(0), None),
            (Call::Order(1), None),
            (Call::Turn(1), Some(Answer::WentOn)),
            (Call::Turn(1), Some(Answer::WentOn)),
            (Call::Turn(1), Some(Answer::Finished)),
            (Call::Turn(1), Some(Answer::Idle)),
            // The empty cell.
            (Call::Order(1), None),
            (Call::Turn(1), Some(Answer::Finished)),
            (Call::Order(1), None),
            (Call::Turn(0), Some(Answer::WentOn)),
            (Call::Turn(0), Some(Answer::WentOn)),
            (Call::Turn(0), Some(Answer::Finished)),
            (Call::Order(0), None),
            (Call::Turn(0), Some(Answer::WentOn)),
            (Call::Turn(1), Some(Answer::WentOn)),
            (Call::Turn(0), Some(Answer::WentOn)),
            (Call::Turn(1), Some(Answer::WentOn)),
            (Call::Turn(0), Some(Answer::Finished)),
            (Call::Turn(1), Some(Answer::Finished)),
            (Call::Close, None),
        ] {
            assert_eq!(apply(model, &mut record, &old, &mut new, call), Ok(answer));
        }
        assert_eq!(new, [0, eight, 0, three, four, 0, thirteen]);
        refused_with(model, &record, 11);
    }
}

// ---- "A move shift, kind 4 but not on the sheet"

#[test]
fn not_on_the_sheet() {
    let sheet = b"cells\t5\nopen\t4\t1\t1\t0\nturn\t0\n";
    let said = "1\tok\n2\trefused\t3\n3\trefused\t11\n";
    assert_eq!(replay_bytes(sheet), said.as_bytes());
}

// ---- "to the plain ones kind 4 is still 3 at opening and 13 in a record"

#[test]
fn plain_calls() {
    for model in BOTH {
        let list = [Order {
            worker: 0,
            label: 8,
            price: 1,
        }];
        for list in [&[][..], &list] {
            let answer = Phase::open(model, MOVE.into(), 1, Homes::PLAIN, &[0; 5], list);
            assert_eq!(answer, Err(3));
        }
        for kind in 1..=3 {
            let mut phase = Phase::open(model, kind, 1, Homes::PLAIN, &[0; 5], &list).unwrap();
            phase.kind = MOVE;
            for open in [true, false] {
                for activity in [
                    Idle,
                    ReadingOn {
                        entry: content(8, 1),
                        cell: 3,
                    },
                ] {
                    (phase.open, phase.workers[0]) = (open, activity);
                    let (mut same, mut table) = (phase.clone(), [0; 5]);
                    assert_eq!(same.order(model, &list, 0, 0, 8), Err(13));
                    assert_eq!(same.turn(model, &mut table, 0), Err(13));
                    assert_eq!(same.close(model), Err(13));
                    assert_eq!((same, table), (phase.clone(), [0; 5]));
                }
            }
        }
    }
}

// ---- "To the move calls every other kind is 13"

#[test]
fn other_kinds() {
    for model in BOTH {
        let mut record = open(model, 1, Homes::PLAIN, &[0; 5], 7).unwrap();
        for kind in (0..=10).chain([1 << 31, u32::MAX]) {
            for is_open in [true, false] {
                (record.kind, record.open) = (kind, is_open);
                assert_eq!(record.is_spoilt(model), kind != 4);
                if kind != 4 {
                    refused_with(model, &record, 13);
                }
            }
        }
    }
}

// ---- "a refused move opening hands back a shut record of kind 4, both lengths 2
// and one worker, all idle and no cell handed out"

#[test]
fn after_a_refused_opening() {
    let shut = Move::shut();
    assert_eq!((shut.kind, shut.open, shut.count), (4, false, 1));
    assert_eq!((shut.old_length, shut.new_length), (2, 2));
    assert_eq!((shut.homes, shut.next), (Homes { a: 1, b: 0 }, 0));
    assert!(shut.workers.iter().all(|task| *task == Task::IDLE));
    for model in BOTH {
        assert!(!shut.is_spoilt(model));
        refused_with(model, &shut, 11);
    }
}

#[test]
fn the_record_of_an_opening() {
    for (model, most_cells, most_workers) in LIMITS {
        for count in [1, most_workers] {
            for homes in [Homes::PLAIN, Homes { a: 3, b: u32::MAX }] {
                for (old, new) in [(2, 2), (2, most_cells), (most_cells, 2), (5, 7)] {
                    let record = open(model, count, homes, &vec![0; old], new).unwrap();
                    let expected = Move {
                        old_length: old,
                        new_length: new,
                        count: count as usize,
                        open: true,
                        homes,
                        ..Move::shut()
                    };
                    assert_eq!(record, expected);
                }
            }
        }
    }
}

// ---- "It refuses with 23 a new table that isn't all empty, or has no more cells
// than there are labels, after 4 on the old one; 1 and 5 cover both."

#[test]
fn openings_at_the_limits() {
    let lengths = [0, 1, 2, 255, 256, 257, 8191, 8192, 8193, 10_000];
    for (model, most_cells, most_workers) in LIMITS {
        for old in lengths {
            for new in lengths {
                for count in [0, 1, 3, 4, 5, 16, 17, 1 << 32, 1 << 32 | 1, u64::MAX] {
                    for a in [1, 2] {
                        let answer = open(model, count, Homes { a, b: 5 }, &vec![0; old], new);
                        let number = match a % 2 {
                            _ if old < 2 || old > most_cells => 1,
                            _ if new < 2 || new > most_cells => 1,
                            _ if count < 1 || count > most_workers => 2,
                            0 => 21,
                            _ => 0,
                        };
                        assert_eq!(answer.err().unwrap_or(0), number, "{old} {new} {count} {a}");
                    }
                }
            }
        }
    }
}

#[test]
fn openings_refuse_in_order() {
    for (model, most_cells, most_workers) in LIMITS {
        for (unsound, number) in [
            (vec![content(1, 1); 3], 4),
            (vec![0, 0, 1], 4),
            (vec![0, content(1, 0), 0], 4),
            (vec![0, content(1, 10_000_000), 0], 4),
            (cells([1, 0, 0]).to_vec(), 17),
            (cells([0, 1, 4]).to_vec(), 18),
        ] {
            let long: Vec<u64> = unsound
                .iter()
                .copied()
                .cycle()
                .take(most_cells + 1)
                .collect();
            // Too few cells, not all empty, both, and neither.
            for new in [vec![0; 2], vec![0, 0, 0, 1], vec![7; 2], vec![0; 4]] {
                let refused = |old: &[u64], new: &[u64], count, a| {
                    Move::open(model, count, Homes { a, b: 0 }, old, new).unwrap_err()
                };
                for a in [1, 2] {
                    for old in [&[][..], &unsound[..1], &long] {
                        assert_eq!(refused(old, &new, 0, a), 1);
                    }
                    for new in [&[][..], &new[..1], &vec![7; most_cells + 1]] {
                        assert_eq!(refused(&unsound, new, 0, a), 1);
                    }
                    assert_eq!(refused(&unsound, &new, 0, a), 2);
                    assert_eq!(refused(&unsound, &new, most_workers + 1, a), 2);
                }
                assert_eq!(refused(&unsound, &new, 1, 2), 21);
                assert_eq!(refused(&unsound, &new, 1, 1), number);
            }
        }
        for new in [vec![0; 2], vec![0, 0, 0, 1], vec![7; 2]] {
            let old = cells([0, 4, 1]);
            let answer = Move::open(model, 1, Homes::PLAIN, &old, &new);
            assert_eq!(answer, Err(23));
            let even = Homes { a: 2, b: 0 };
            assert_eq!(Move::open(model, 1, even, &old, &new), Err(21));
        }
    }
}

/// One cell anywhere, with a label, a price, or both; what stands there needn't be
/// sound.
#[test]
fn a_new_table_that_is_not_empty() {
    for model in BOTH {
        for n in [2, 3, 64, 65, 256] {
            for at in 0..n {
                for cell in [1, 9_999_999, content(1, 0), content(7, 1), u64::MAX] {
                    let mut new = vec![0; n];
                    new[at] = cell;
                    let answer = Move::open(model, 1, Homes::PLAIN, &[0; 2], &new);
                    assert_eq!(answer, Err(23), "{cell} in cell {at} of {n}");
                }
            }
        }
        // The layout itself is no new table.
        let old = cells([4, 3, 0, 13, 8]);
        assert_eq!(Move::open(model, 1, Homes::PLAIN, &old, &old), Err(23));
    }
}

/// By the labels, not by the old length.
#[test]
fn one_cell_more_than_labels() {
    for (model, most_cells, _) in LIMITS {
        for labels in [0, 1, 2, 3, 10, 255] {
            let set: Prices = (1..=labels).map(|label| (100 * label, label)).collect();
            for old in [256, most_cells] {
                let old = layout(Homes::PLAIN, old, &set);
                for new in 2..=256 {
                    let answer = open(model, 1, Homes::PLAIN, &old, new);
                    let expected = (new <= labels as usize).then_some(23);
                    assert_eq!(answer.err(), expected, "{labels} labels, {new} cells");
                }
            }
        }
    }
}

#[test]
fn random_openings() {
    let mut seen = BTreeMap::<u8, usize>::new();
    for seed in 0..40_000 {
        let rng = &mut Rng::new(seed);
        let (model, most_cells, most_workers) = rng.pick(&LIMITS);
        let n = match rng.below(500) {
            0 => most_cells - 1 + rng.below(3),
            1..=9 => rng.within(250, 260),
            _ => rng.within(2, 20),
        };
        let mut homes = homes(rng);
        let old = match rng.once_in(2) {
            true => table(rng, homes, n),
            false => returned(rng, homes, n),
        };
        let mut new = vec![0; new_cells(rng, &old, most_cells)];
        if rng.once_in(4) {
            unfit(rng, &old, &mut new);
        }
        if rng.once_in(10) {
            new.resize(rng.pick(&[0, 1, most_cells + 1]), 0);
        }
        if rng.once_in(10) {
            homes = match rng.once_in(2) {
                true => even_homes(rng),
                false => other_homes(rng, homes, n),
            };
        }
        let count = match rng.once_in(10) {
            true => rng.pick(&[0, most_workers + 1, 1 << 32 | 1]),
            false => rng.within(1, most_workers as usize) as u64,
        };
        let wrong = |length: usize| length < 2 || length > most_cells;
        let number = match soundness(homes, &old) {
            _ if wrong(old.len()) || wrong(new.len()) => 1,
            _ if count < 1 || count > most_workers => 2,
            _ if homes.a.is_multiple_of(2) => 21,
            Err(number) => number,
            Ok(()) if new.iter().any(|&cell| cell != 0) => 23,
            Ok(()) if new.len() <= labels_of(&old).len() => 23,
            Ok(()) => 0,
        };
        *seen.entry(number).or_default() += 1;
        let answer = Move::open(model, count, homes, &old, &new);
        assert_eq!(answer.err().unwrap_or(0), number, "seed {seed}");
    }
    let numbers: Vec<u8> = seen.keys().copied().collect();
    assert_eq!(numbers, [0, 1, 2, 4, 17, 18, 21, 23], "{seen:?}");
    assert!(seen.values().all(|&often| often > 500), "{seen:?}");
}

// ---- "Each order takes the next old cell, from cell 0 up, and names no label"

#[test]
fn orders_take_the_old_cells_in_turn() {
    for model in BOTH {
        let old = cells([4, 3, 0, 13, 8]);
        let mut record = open(model, 4, Homes::PLAIN, &old, 7).unwrap();
        let mut new = [0; 7];
        for (cell, worker) in [2, 0, 3, 1].into_iter().enumerate() {
            assert_eq!(record.next, cell);
            record.order(model, worker).unwrap();
            let mut expected = [Task::IDLE; 4];
            for (cell, &worker) in [2, 0, 3, 1].iter().enumerate().take(cell + 1) {
                expected[worker] = Fetching { cell };
            }
            assert_eq!(record.crew(), expected);
        }
        // A busy one doesn't take the next.
        assert_eq!(record.order(model, 2), Err(8));
        assert_eq!(record.next, 4);
        while record.workers[3] != Task::IDLE {
            record.turn(model, &old, &mut new, 3).unwrap();
        }
        record.order(model, 3).unwrap();
        assert_eq!((record.workers[3], record.next), (Fetching { cell: 4 }, 5));
    }
}

// ---- "An order after the last old cell answers 9, after 8."

#[test]
fn orders_refuse_in_order() {
    for model in BOTH {
        let mut record = open(model, 2, Homes::PLAIN, &[0; 2], 2).unwrap();
        record.order(model, 0).unwrap();
        record.order(model, 1).unwrap();
        let refused = |record: &Move, worker| {
            let mut same = record.clone();
            let answer = apply(model, &mut same, &[0; 2], &mut [0; 2], Call::Order(worker));
            answer.unwrap_err()
        };
        let all_busy = record.clone();
        for worker in [2, 3, 15, 16, 1 << 32, u64::MAX] {
            assert_eq!(refused(&record, worker), 6);
        }
        assert_eq!([0, 1].map(|worker| refused(&record, worker)), [8, 8]);
        record.turn(model, &[0; 2], &mut [0; 2], 1).unwrap();
        assert_eq!([0, 1, 2].map(|worker| refused(&record, worker)), [8, 9, 6]);
        for mut record in [record, all_busy] {
            record.open = false;
            assert_eq!([0, 1, 2].map(|worker| refused(&record, worker)), [11; 3]);
            record.next = 3;
            assert_eq!([0, 1, 2].map(|worker| refused(&record, worker)), [13; 3]);
        }
    }
}

// ---- "an empty cell is finished on its first turn"

#[test]
fn empty_cells() {
    for (model, most_cells, most_workers) in LIMITS {
        for (old, count) in [(2, 1), (3, 2), (most_cells, most_workers)] {
            let (old, mut new) = (vec![0; old], vec![0; 2]);
            let mut record = Move::open(model, count, Homes::PLAIN, &old, &new).unwrap();
            for cell in 0..old.len() as u64 {
                let worker = cell % count;
                record.order(model, worker).unwrap();
                let answer = record.turn(model, &old, &mut new, worker);
                assert_eq!(answer, Ok(Answer::Finished));
                assert!(record.all_idle());
            }
            assert_eq!(record.order(model, 0), Err(9));
            assert_eq!(record.close(model), Ok(()));
            assert_eq!(new, [0; 2]);
        }
    }
}

// ---- "A turn touches one cell of one of the two tables, and depends on both
// lengths."

/// The first turn reads the old cell whole, whatever stands there; in the new
/// table it starts at the home by a, b and the new length.
#[test]
fn a_worker_reads_its_old_cell() {
    for seed in 0..20_000 {
        let rng = &mut Rng::new(seed);
        let (old_length, new_length) = (rng.within(2, 9), rng.within(2, 9));
        let homes = match rng.once_in(4) {
            true => even_homes(rng),
            false => homes(rng),
        };
        let any = |rng: &mut Rng| content(rng.below(30) as u32, rng.pick(&[0, 1, 2, u32::MAX]));
        let old: Vec<u64> = (0..old_length).map(|_| any(rng)).collect();
        let mut new: Vec<u64> = (0..new_length).map(|_| any(rng)).collect();
        let cell = rng.below(old_length);
        let mut record = Move::shut();
        (record.old_length, record.new_length) = (old_length, new_length);
        (record.open, record.homes) = (true, homes);
        record.workers[0] = Fetching { cell };
        let same = new.clone();
        let answer = checked_turn(&mut record, &old, &mut new, 0);
        assert_eq!(new, same);
        let label = label_of(old[cell]);
        let expected = match label {
            0 => (Answer::Finished, Task::IDLE),
            _ => (
                Answer::WentOn,
                Working(ReadingOn {
                    entry: old[cell],
                    cell: homes.home(label, new_length),
                }),
            ),
        };
        assert_eq!((answer, record.workers[0]), expected);
    }
}

/// A worker with what it read moves as one of a put-in shift on the new table,
/// also by a forged record and in a table that no shift leaves.
#[test]
fn as_a_put_in_worker() {
    let mut seen = BTreeMap::<&str, usize>::new();
    for seed in 0..60_000 {
        let rng = &mut Rng::new(seed);
        let n = rng.within(2, 6);
        let any = |rng: &mut Rng| content(rng.below(8) as u32, rng.pick(&[0, 1, 2, u32::MAX]));
        let entry = content(rng.within(1, 8) as u32, rng.pick(&[0, 1, 2, u32::MAX]));
        let cell = rng.below(n);
        let mut new: Vec<u64> = (0..n).map(|_| any(rng)).collect();
        let activity = match rng.below(4) {
            0 => Idle,
            1 => ReadingOn { entry, cell },
            _ => Replacing {
                entry,
                cell,
                found: match rng.once_in(4) {
                    true => any(rng),
                    false => new[cell],
                },
                from: rng.below(n),
            },
        };
        let mut record = Move::shut();
        (record.open, record.new_length) = (true, n);
        record.workers[0] = Working(activity);
        let mut phase = Phase::shut();
        (phase.kind, phase.open, phase.length) = (PUT_IN, true, n);
        phase.workers[0] = activity;
        let mut table = new.clone();
        let answer = checked_turn(&mut record, &[5; 2], &mut new, 0);
        assert_eq!(phase.turn(GATEWAY, &mut table, 0), Ok(answer));
        assert_eq!(record.workers[0], Working(phase.workers[0]));
        assert_eq!(new, table);
        let what = match (answer, activity, phase.workers[0]) {
            (Answer::Idle, ..) => "idle",
            (Answer::Finished, ReadingOn { .. }, _) => "its label stands",
            (Answer::Finished, ..) => "set down",
            (_, ReadingOn { .. }, ReadingOn { .. }) => "sent on",
            (_, ReadingOn { .. }, _) => "about to replace",
            (_, _, ReadingOn { entry: now, .. }) if now == entry => "failed",
            _ => "carries another",
        };
        *seen.entry(what).or_default() += 1;
    }
    assert_eq!(seen.len(), 7, "{seen:?}");
    assert!(seen.values().all(|&often| often > 500), "{seen:?}");
}

/// Alike in a, b, both lengths, that worker's record and the cell that it
/// touches, turns are alike, whatever else stands in the tables and the record.
#[test]
fn turns_alike() {
    let (mut read, mut by_lengths) = (0, 0);
    for seed in 0..60_000 {
        let rng = &mut Rng::new(seed);
        let any = |rng: &mut Rng| content(rng.below(12) as u32, rng.pick(&[0, 1, 2]));
        let homes = homes(rng);
        let (old_length, new_length) = (rng.within(3, 6), rng.within(3, 6));
        let (entry, cell) = (content(rng.within(1, 12) as u32, 1), rng.below(3));
        let task = match rng.below(3) {
            0 => Fetching { cell },
            1 => Working(ReadingOn { entry, cell }),
            _ => Working(Replacing {
                entry,
                cell,
                found: any(rng),
                from: cell,
            }),
        };
        let here = any(rng);
        let mut turned = |old_length: usize, new_length: usize| {
            let mut record = Move::shut();
            (record.open, record.homes) = (true, homes);
            (record.old_length, record.new_length) = (old_length, new_length);
            record.count = rng.within(1, 16);
            record.next = rng.below(old_length + 1);
            for other in 0..record.count {
                record.workers[other] = match rng.below(3) {
                    0 => Task::IDLE,
                    1 => Fetching { cell: 2 },
                    _ => Working(ReadingOn {
                        entry: any(rng) | 1 << 32,
                        cell: 1,
                    }),
                };
            }
            let worker = rng.below(record.count);
            record.workers[worker] = task;
            let mut old: Vec<u64> = (0..old_length).map(|_| any(rng)).collect();
            let mut new: Vec<u64> = (0..new_length).map(|_| any(rng)).collect();
            match touched(task) {
                (Some(cell), _) => old[cell] = here,
                (_, Some(cell)) => new[cell] = here,
                _ => unreachable!("nobody is idle"),
            }
            let answer = checked_turn(&mut record, &old, &mut new, worker);
            let left = touched(task).1.map(|cell| new[cell]);
            (answer, record.workers[worker], left)
        };
        let one = turned(old_length, new_length);
        assert_eq!(one, turned(old_length, new_length), "seed {seed}");
        read += usize::from(matches!(task, Fetching { .. }));
        // The rule itself goes by the new length; the old one is in the checks.
        by_lengths += usize::from(one != turned(old_length, new_length + 1));
        assert_eq!(one, turned(old_length + 1, new_length), "seed {seed}");
    }
    assert!(read > 10_000 && by_lengths > 5000, "{read} {by_lengths}");
}

/// Either length alone, of the record or of what is lent.
#[test]
fn turns_refuse_in_order() {
    for model in BOTH {
        let task = Fetching { cell: 4 };
        let mut record = open(model, 2, Homes::PLAIN, &[0; 5], 7).unwrap();
        record.workers[0] = task;
        for is_open in [true, false] {
            record.open = is_open;
            for old in [0, 2, 4, 5, 6, 7, 8192, 8193] {
                for new in [0, 2, 5, 6, 7, 8, 8192, 8193] {
                    for worker in [0, 1, 2, 16, 1 << 32, u64::MAX] {
                        let (mut same, old, mut new) = (record.clone(), vec![0; old], vec![0; new]);
                        let call = Call::Turn(worker);
                        let answer = apply(model, &mut same, &old, &mut new, call);
                        let expected = match (old.len(), new.len(), worker) {
                            _ if !is_open => Err(11),
                            (5, 7, 0) => Ok(Some(Answer::Finished)),
                            (5, 7, 1) => Ok(Some(Answer::Idle)),
                            (5, 7, _) => Err(6),
                            _ => Err(5),
                        };
                        assert_eq!(answer, expected, "{} {}", old.len(), new.len());
                        // An old cell that the record's old length doesn't have.
                        same = record.clone();
                        same.old_length = 4;
                        let answer = apply(model, &mut same, &old, &mut new, call);
                        assert_eq!(answer, Err(13));
                    }
                }
            }
        }
    }
}

// ---- "13 holds a cell against its own table, tests no label of a worker yet to
// read its old cell, allows besides that only reading on and replacing, and wants
// the next old cell at most the old length."

/// Is a record of 5 old and 7 new cells with two workers spoilt by this change?
fn spoilt(model: Model, change: impl Fn(&mut Move)) -> bool {
    let mut record = open(model, 2, Homes::PLAIN, &[0; 5], 7).unwrap();
    change(&mut record);
    if record.is_spoilt(model) {
        for is_open in [true, false] {
            record.open = is_open;
            refused_with(model, &record, 13);
        }
        return true;
    }
    // Not spoilt, a closed one answers 11.
    record.open = false;
    refused_with(model, &record, 11);
    false
}

#[test]
fn spoilt_records() {
    for (model, most_cells, most_workers) in LIMITS {
        for length in [0, 1, 2, 4, most_cells, most_cells + 1, usize::MAX] {
            let wrong = length < 2 || length > most_cells;
            assert_eq!(spoilt(model, |r| r.old_length = length), wrong);
            assert_eq!(spoilt(model, |r| r.new_length = length), wrong);
        }
        for count in [0, 1, 2, 4, 5, 16, 17, usize::MAX] {
            let wrong = count < 1 || count > most_workers as usize;
            assert_eq!(spoilt(model, |r| r.count = count), wrong);
        }
        for (a, b) in [(0, 0), (2, 7), (u32::MAX, u32::MAX), (1 << 31, 1)] {
            assert!(!spoilt(model, |r| r.homes = Homes { a, b }));
        }
        for next in [0, 1, 4, 5, 6, 7, 8, usize::MAX] {
            assert_eq!(spoilt(model, |r| r.next = next), next > 5);
            let longer = |r: &mut Move| (r.old_length, r.next) = (7, next);
            assert_eq!(spoilt(model, longer), next > 7);
        }
    }
}

/// Each activity in each place: an old cell is held against the old length, the
/// others against the new one, with the old table the longer one and the shorter.
#[test]
fn spoilt_workers() {
    for model in BOTH {
        for (old_length, new_length) in [(5, 7), (7, 5), (5, 5)] {
            let with = |worker: usize, task: Task| {
                spoilt(model, |r| {
                    (r.old_length, r.new_length) = (old_length, new_length);
                    r.workers[worker] = task;
                })
            };
            for cell in [0, 4, 5, 6, 7, usize::MAX] {
                // An old cell that wasn't handed out yet is as good as any.
                assert_eq!(with(1, Fetching { cell }), cell >= old_length);
                for (label, price) in [(0, 0), (0, 1), (1, 0), (1, 1), (u32::MAX, u32::MAX)] {
                    let entry = content(label, price);
                    let wrong = label == 0 || cell >= new_length;
                    assert_eq!(with(0, Working(ReadingOn { entry, cell })), wrong);
                    for found in [0, 1, content(9, 0), u64::MAX] {
                        let replacing = |cell, from| {
                            Working(Replacing {
                                entry,
                                cell,
                                found,
                                from,
                            })
                        };
                        assert_eq!(with(1, replacing(cell, 4)), wrong);
                        assert_eq!(with(1, replacing(4, cell)), wrong);
                    }
                    assert!(with(0, Working(WalkingBack { entry, cell })));
                    for taken in [None, Some((0, 0)), Some((entry, 1))] {
                        let seeking = Seeking {
                            entry,
                            hole: 0,
                            cell,
                            taken,
                        };
                        assert!(with(0, Working(seeking)));
                    }
                }
            }
            // Past the count nobody works.
            let (entry, cell) = (content(1, 1), 0);
            for task in [Fetching { cell }, Working(ReadingOn { entry, cell })] {
                for worker in 0..16 {
                    assert_eq!(with(worker, task), worker >= 2);
                }
            }
        }
    }
}

/// Records of the gateway that are too great for a kiosk.
#[test]
fn records_of_the_gateway() {
    for (old, new, count, kiosks) in [
        (256, 256, 4, true),
        (257, 256, 4, false),
        (256, 257, 4, false),
        (256, 256, 5, false),
        (2, 8192, 1, false),
        (8192, 2, 16, false),
    ] {
        let (old, mut new) = (vec![0; old], vec![0; new]);
        let mut record = open(GATEWAY, count, Homes::PLAIN, &old, new.len()).unwrap();
        while record.close(GATEWAY).is_err() {
            assert_eq!(record.is_spoilt(KIOSK), !kiosks);
            assert!(kiosks || record.clone().close(KIOSK) == Err(13));
            if record.order(GATEWAY, 0).is_err() || record.next.is_multiple_of(2) {
                record.turn(GATEWAY, &old, &mut new, 0).unwrap();
            }
        }
        assert_eq!(record.is_spoilt(KIOSK), !kiosks);
    }
}

/// Any record, any tables and any call: 13 by the paper's words, or an answer
/// after which it isn't spoilt either; in both models the same, where both may
/// have the record.
#[test]
fn any_record() {
    let mut seen = BTreeMap::<u8, usize>::new();
    for seed in 0..200_000 {
        let rng = &mut Rng::new(seed);
        let lengths = [2, 3, 5, 256, 257];
        let past = |rng: &mut Rng| usize::from(rng.once_in(10));
        let mut record = Move::shut();
        record.kind = rng.pick(&[4, 4, 4, 4, 4, 4, 4, 1, 3, 5]);
        record.old_length = rng.pick(&lengths);
        record.new_length = rng.pick(&lengths);
        record.count = rng.within(1, 5) - past(rng);
        record.open = !rng.once_in(8);
        record.homes = match rng.once_in(4) {
            true => even_homes(rng),
            false => homes(rng),
        };
        let least = record.old_length - rng.below(2);
        record.next = rng.pick(&[0, least, record.old_length]) + past(rng);
        let (old_length, new_length) = (record.old_length, record.new_length);
        for worker in 0..rng.within(1, record.count.max(1)) + past(rng) {
            let entry = content(rng.within(1, 12) as u32 - past(rng) as u32, 1);
            let cell = rng.below(new_length) + past(rng);
            let from = rng.below(new_length);
            record.workers[worker] = match rng.below(16) {
                0..=5 => Task::IDLE,
                6..=8 => Fetching {
                    cell: rng.below(old_length) + past(rng),
                },
                9..=11 => Working(ReadingOn { entry, cell }),
                15 if rng.once_in(2) => Working(WalkingBack { entry, cell }),
                _ => Working(Replacing {
                    entry,
                    cell,
                    found: content(rng.below(12) as u32, 1),
                    from,
                }),
            };
        }
        let crew = record.count as u64;
        let table = |rng: &mut Rng, length: usize| -> Vec<u64> {
            let length = length + past(rng);
            let cell = |_| content(rng.below(12) as u32, rng.below(2) as u32);
            (0..length).map(cell).collect()
        };
        let (old, new) = (table(rng, old_length), table(rng, new_length));
        let worker = rng.below(record.count + 1) as u64;
        let call = match rng.below(4) {
            0 => Call::Order(worker),
            1 => Call::Close,
            _ => Call::Turn(worker),
        };
        let right = |at: usize, task: Task| match task {
            Working(Idle) => true,
            _ if at as u64 >= crew => false,
            Fetching { cell } => cell < old_length,
            Working(ReadingOn { entry, cell }) => label_of(entry) != 0 && cell < new_length,
            Working(Replacing {
                entry, cell, from, ..
            }) => label_of(entry) != 0 && cell.max(from) < new_length,
            Working(_) => false,
        };
        let all_right = (0..16).all(|at| right(at, record.workers[at]));
        let answers = LIMITS.map(|(model, most_cells, most_workers)| {
            let (mut record, mut new) = (record.clone(), new.clone());
            let unspoilt = record.kind == 4
                && old_length.max(new_length) <= most_cells
                && (1..=most_workers).contains(&crew)
                && record.next <= old_length
                && all_right;
            let answer = apply(model, &mut record, &old, &mut new, call);
            assert_eq!(answer == Err(13), !unspoilt, "seed {seed}: {record:?}");
            assert_eq!(record.is_spoilt(model), !unspoilt, "seed {seed}");
            *seen.entry(answer.err().unwrap_or(0)).or_default() += 1;
            (answer, record, new)
        });
        let [gateway, kiosk] = answers;
        if old_length.max(new_length) <= 256 && crew <= 4 {
            assert_eq!(gateway, kiosk, "seed {seed}");
        }
    }
    let numbers: Vec<u8> = seen.keys().copied().collect();
    assert_eq!(numbers, [0, 5, 6, 8, 9, 10, 11, 13], "{seen:?}");
    assert!(seen.values().all(|&often| often > 1000), "{seen:?}");
}

// ---- "Close answers 10 while old cells remain."

#[test]
fn closes_refuse_in_order() {
    for model in BOTH {
        let old = cells([0, 1, 2]);
        let (mut record, mut new) = (open(model, 2, Homes::PLAIN, &old, 3).unwrap(), [0; 3]);
        for handed_out in 0..3 {
            // All idle, and old cells remain.
            assert_eq!(record.next, handed_out);
            assert_eq!(record.clone().close(model), Err(10));
            record.order(model, 0).unwrap();
            while record.workers[0] != Task::IDLE {
                // Also when no old cell remains.
                let answer = apply(model, &mut record, &old, &mut new, Call::Close);
                assert_eq!(answer, Err(10));
                let mut forged = record.clone();
                forged.open = false;
                assert_eq!(forged.close(model), Err(11));
                forged.next = 4;
                assert_eq!(forged.close(model), Err(13));
                record.turn(model, &old, &mut new, 0).unwrap();
            }
        }
        assert_eq!(record.close(model), Ok(()));
        assert_eq!(record.close(model), Err(11));
        assert_eq!(new, old);
    }
}

// ---- "After it (..) the new table is the layout of the same labels and prices at
// the new length, and the old table is unchanged. Under the same loans, closed or
// not, demand 3's bound on turns holds"

/// The new table, the workers and the next old cell.
type State = (Vec<u64>, Vec<Task>, usize);

/// All lists of calls of one move.
struct Walk<'a> {
    old: &'a [u64],
    /// The states seen, and what follows, known once one is wholly explored.
    seen: HashMap<State, Option<Vec<usize>>>,
    closed: usize,
}

impl Walk<'_> {
    /// The most turns that count in any list of calls from here on, for each
    /// number of orders that it has accepted.
    fn explore(&mut self, record: &Move, new: &[u64]) -> Vec<usize> {
        let state = (new.to_vec(), record.crew().to_vec(), record.next);
        match self.seen.get(&state) {
            Some(Some(most)) => return most.clone(),
            Some(None) => panic!("turns can go round for ever: {state:?}"),
            None => self.seen.insert(state.clone(), None),
        };
        holds(GATEWAY, record, self.old, new);
        let left = self.old.len() - record.next;
        let mut most = vec![0; left + 1];
        for worker in 0..record.count {
            let idle = record.workers[worker] == Task::IDLE;
            let (mut after, mut cells) = (record.clone(), new.to_vec());
            let call = Call::Order(worker as u64);
            let answer = apply(GATEWAY, &mut after, self.old, &mut cells, call);
            if idle && left > 0 {
                assert_eq!(answer, Ok(None));
                let mut expected = record.clone();
                expected.workers[worker] = Fetching { cell: record.next };
                expected.next += 1;
                assert_eq!(after, expected);
                for (orders, turns) in self.explore(&after, new).into_iter().enumerate() {
                    most[orders + 1] = turns.max(most[orders + 1]);
                }
            } else {
                assert_eq!(answer, Err(if idle { 9 } else { 8 }));
            }
            let mut after = record.clone();
            let answer = checked_turn(&mut after, self.old, &mut cells, worker);
            assert_eq!(answer == Answer::Idle, idle);
            if !idle {
                for (orders, turns) in self.explore(&after, &cells).into_iter().enumerate() {
                    most[orders] = (turns + 1).max(most[orders]);
                }
            }
        }
        let (mut after, mut cells) = (record.clone(), new.to_vec());
        let answer = apply(GATEWAY, &mut after, self.old, &mut cells, Call::Close);
        if left == 0 && record.all_idle() {
            assert_eq!(answer, Ok(None));
            assert_eq!(new, placed(record.homes, new.len(), self.old));
            refused_with(GATEWAY, &after, 11);
            self.closed += 1;
        } else {
            assert_eq!(answer, Err(10));
        }
        self.seen.insert(state, Some(most.clone()));
        most
    }
}

/// All lists of calls of a move; how many states there are.
fn explore(workers: usize, homes: Homes, set: &Prices, old: usize, new: usize) -> usize {
    let old = layout(homes, old, set);
    let record = open(GATEWAY, workers as u64, homes, &old, new).unwrap();
    let mut walk = Walk {
        old: &old,
        seen: HashMap::new(),
        closed: 0,
    };
    let most = walk.explore(&record, &vec![0; new]);
    // One table, whatever the calls were.
    assert_eq!(walk.closed, 1);
    for (orders, turns) in most.into_iter().enumerate() {
        assert!((turns as u128) < bound(new, workers, orders));
        // Far fewer in fact.
        assert!(turns <= orders * (2 * workers * (new - 1) + 3));
    }
    walk.seen.len()
}

/// All sets of at most so many of the labels, with prices that differ.
fn sets(most: usize, labels: &[u32]) -> Vec<Prices> {
    let mut sets = vec![Prices::new()];
    for &label in labels {
        for i in 0..sets.len() {
            if sets[i].len() < most {
                let mut set = sets[i].clone();
                set.insert(label, 10 + label);
                sets.push(set);
            }
        }
    }
    sets
}

/// Every table of these labels in `old` cells to every length up to `most` that
/// has room.
fn explore_all(workers: usize, homes: Homes, labels: &[u32], old: usize, most: usize) -> usize {
    let mut states = 0;
    for set in sets(old - 1, labels) {
        for new in 2.max(set.len() + 1)..=most {
            states += explore(workers, homes, &set, old, new);
        }
    }
    states
}

#[test]
fn all_interleavings_of_two_workers() {
    let mut states = 0;
    for old in 2..=5 {
        let labels: Vec<u32> = (1..=2 * old as u32).collect();
        states += explore_all(2, Homes::PLAIN, &labels, old, 5);
    }
    assert!(states > 100_000, "{states}");
}

/// The same with homes in other cells, and of labels that share a home in the new
/// table, the last cell of it too.
#[test]
fn all_interleavings_with_other_homes() {
    for (a, b) in [(u32::MAX, 0), (2_654_435_769, 1), (3, 4)] {
        explore_all(2, Homes { a, b }, &[1, 2, 3, 4, 5, 6], 3, 4);
    }
    for home in [0, 3, 4] {
        let labels = [home + 5, home + 10, home + 15, home + 20];
        explore_all(2, Homes::PLAIN, &labels, 5, 5);
    }
}

#[test]
fn all_interleavings_of_three_workers() {
    let mut states = 0;
    for (labels, old, new) in [
        (vec![3, 4, 8, 13], 5, 6),
        (vec![4, 9, 14, 19], 5, 5),
        (vec![1, 2, 3, 4, 5, 6], 4, 5),
        (vec![3, 7, 11], 4, 5),
        (vec![5, 10], 3, 5),
        (vec![7], 2, 4),
    ] {
        states += explore_all(3, Homes::PLAIN, &labels, old, new);
    }
    assert!(states > 100_000, "{states}");
}

/// A whole move with any turns and calls that are refused among them; the table
/// that it closes on.
fn moved(
    rng: &mut Rng,
    model: Model,
    crew: usize,
    homes: Homes,
    old: &[u64],
    new: usize,
) -> Vec<u64> {
    let mut record = open(model, crew as u64, homes, old, new).unwrap();
    let mut new = vec![0; new];
    let (mut orders, mut turns) = (0, 0);
    // Some workers are slow, and now and then one has many turns in a row.
    let slow = rng.below(crew + 1);
    loop {
        let mut worker = rng.below(crew);
        if worker < slow && rng.once_in(2) {
            worker = rng.below(crew);
        }
        let idle = record.workers[worker] == Task::IDLE;
        match rng.below(8) {
            0 => {
                let done = record.all_idle() && record.next == old.len();
                let answer = apply(model, &mut record, old, &mut new, Call::Close);
                assert_eq!(answer, if done { Ok(None) } else { Err(10) });
                if done {
                    break;
                }
            }
            1 => {
                let call = rng.pick(&[Call::Order(crew as u64), Call::Turn(crew as u64)]);
                let answer = apply(model, &mut record, old, &mut new, call);
                assert_eq!(answer, Err(6));
            }
            2..=4 => {
                let expected = match idle {
                    true if record.next < old.len() => Ok(None),
                    true => Err(9),
                    false => Err(8),
                };
                let call = Call::Order(worker as u64);
                let answer = apply(model, &mut record, old, &mut new, call);
                assert_eq!(answer, expected);
                orders += usize::from(answer.is_ok());
            }
            _ => {
                for _ in 0..rng.pick(&[1, 1, 1, 2, 5, 20]) {
                    let answer = record.turn(model, old, &mut new, worker as u64);
                    turns += u128::from(answer.unwrap() != Answer::Idle);
                }
            }
        }
        assert!(turns < bound(new.len(), crew, orders));
        if old.len() + new.len() < 40 {
            holds(model, &record, old, &new);
        }
    }
    assert_eq!(orders, old.len());
    new
}

/// The layout of the same labels and prices, and a table for all other calls.
fn is_layout(model: Model, homes: Homes, old: &[u64], new: &[u64]) {
    assert_eq!(new, placed(homes, new.len(), old));
    assert!(is_sound(homes, new));
    assert_eq!(listing::check(model, homes, new), Ok(()));
    let labels = labels_of(old).len();
    let mut lent = vec![0; labels];
    assert_eq!(listing::list(model, homes, new, &mut lent), Ok(labels));
    assert_eq!(contents(lent), contents(old.iter().copied()));
}

#[test]
fn random_moves() {
    let (mut smaller, mut alone) = (0, 0);
    for seed in 0..6000 {
        let rng = &mut Rng::new(seed);
        let (model, most_cells, most_workers) = rng.pick(&LIMITS);
        let n = match rng.below(200) {
            0..=3 => rng.within(100, 256),
            4 => rng.within(250, most_cells.min(1000)),
            _ => rng.within(2, 20),
        };
        let homes = homes(rng);
        let old = table(rng, homes, n);
        let new = new_cells(rng, &old, most_cells);
        let crew = rng.within(1, most_workers as usize);
        let left = moved(rng, model, crew, homes, &old, new);
        is_layout(model, homes, &old, &left);
        smaller += usize::from(new < n);
        alone += usize::from(crew == 1);
    }
    assert!(smaller > 1000 && alone > 300, "{smaller} {alone}");
}

/// Other crews, other turns and the other model: the same table.
#[test]
fn moved_alike() {
    for seed in 0..1000 {
        let rng = &mut Rng::new(seed);
        let n = match rng.once_in(50) {
            true => rng.within(200, 256),
            false => rng.within(2, 20),
        };
        let homes = homes(rng);
        let old = table(rng, homes, n);
        let new = new_cells(rng, &old, 256);
        let [one, other] = LIMITS.map(|(model, _, most_workers)| {
            let crew = rng.within(1, most_workers as usize);
            moved(rng, model, crew, homes, &old, new)
        });
        assert_eq!(one, other, "seed {seed}");
    }
}

/// There and back again, by way of a smaller table too.
#[test]
fn moved_back() {
    for seed in 0..1000 {
        let rng = &mut Rng::new(seed);
        let n = rng.within(2, 20);
        let homes = homes(rng);
        let first = table(rng, homes, n);
        let mut old = first.clone();
        for _ in 0..3 {
            let new = new_cells(rng, &old, 256);
            old = moved(rng, KIOSK, 3, homes, &old, new);
        }
        assert_eq!(moved(rng, KIOSK, 4, homes, &old, n), first, "seed {seed}");
    }
}

/// Labels at home in the last cell of the new table, at any price.
#[test]
fn over_the_end() {
    for seed in 0..500 {
        let rng = &mut Rng::new(seed);
        let (old, new) = (rng.within(2, 12), rng.within(12, 16));
        let homes = homes(rng);
        let at_end = |turn: usize| label_with(homes, (turn * new + new - 1) as u32);
        let labels = (1..).map(at_end).filter(|&label| label > 0);
        let set: Prices = labels.take(old - 1).map(|l| (l, price(rng))).collect();
        let old = layout(homes, old, &set);
        let left = moved(rng, KIOSK, 4, homes, &old, new);
        is_layout(KIOSK, homes, &old, &left);
        let greatest = contents(old)[0];
        assert_eq!(left[new - 1], greatest);
        assert!((0..set.len() - 1).all(|at| left[at] != 0));
        assert!(left
            .iter()
            .all(|&cell| cell == 0 || set[&label_of(cell)] == price_of(cell)));
    }
}

/// As many cells, labels and workers as there may be: spread, and all at home in
/// few cells.
#[test]
fn the_greatest_moves() {
    for (model, most_cells, most_workers) in LIMITS {
        let rng = &mut Rng::new(most_cells as u64);
        let golden = Homes {
            a: 2_654_435_769,
            b: 7,
        };
        for homes in [Homes::PLAIN, golden] {
            let mut set = Prices::new();
            while set.len() < most_cells - 1 {
                set.insert(rng.within(1, u32::MAX as usize) as u32, price(rng));
            }
            let old = layout(homes, most_cells, &set);
            let left = moved(rng, model, most_workers as usize, homes, &old, most_cells);
            assert_eq!(left, old);
            is_layout(model, homes, &old, &left);
            // Half of the labels, from half of the cells and to half of them.
            let half: Prices = set.into_iter().take(most_cells / 2 - 1).collect();
            for (n, new) in [(most_cells / 2, most_cells), (most_cells, most_cells / 2)] {
                let old = layout(homes, n, &half);
                let left = moved(rng, model, most_workers as usize, homes, &old, new);
                is_layout(model, homes, &old, &left);
            }
        }
        // At home in cells side by side.
        let side_by_side = |i: usize| (i / 8 * most_cells + i % 8) as u32 + 8;
        let set: Prices = (0..1000.min(most_cells - 1))
            .map(|i| (side_by_side(i + 8), 1))
            .collect();
        let old = layout(Homes::PLAIN, most_cells, &set);
        let left = moved(
            rng,
            model,
            most_workers as usize,
            Homes::PLAIN,
            &old,
            most_cells,
        );
        is_layout(model, Homes::PLAIN, &old, &left);
    }
}

/// An all-empty table closes on an all-empty one.
#[test]
fn nothing_to_move() {
    let rng = &mut Rng::new(1);
    for (model, most_cells, most_workers) in LIMITS {
        for (old, new) in [(2, 2), (2, most_cells), (most_cells, 2)] {
            let left = moved(
                rng,
                model,
                most_workers as usize,
                Homes::PLAIN,
                &vec![0; old],
                new,
            );
            assert_eq!(left, vec![0; new]);
        }
    }
}
