//! Point 10 of document 02, sentence by sentence: test numbers stay in the
//! factory.

use std::collections::{BTreeMap, BTreeSet};

use reference::generate::round::replies;
use reference::generate::{
    homes, is_shop_label, label_with, labels_of, orders, price, shop_label, spoil, table,
    test_label, Rng, WRONG_PRICES,
};
use reference::layout::{content, is_sound, label_of, layout, least_prices, Homes, Prices};
use reference::listing::{check, count, list, list_front};
use reference::model::{Model, GATEWAY, KIOSK};
use reference::moving::{Move, Task};
use reference::phase::{
    Activity, Answer, Order, Phase, FIRST_TEST_LABEL, LOOK_UP, PUT_IN, TAKE_OUT,
};
use reference::refusal;
use reference::round::{self, Reply};
use reference::sheet::replay_bytes;
use reference::till;

const BOTH: [Model; 2] = [GATEWAY, KIOSK];

/// The greatest label that a shop adds.
const LAST: u32 = 3_999_999_999;

/// Test numbers: the least ones, some between, and the greatest.
const TESTS: [u32; 6] = [
    4_000_000_000,
    4_000_000_001,
    4_100_000_000,
    4_294_967_290,
    4_294_967_294,
    4_294_967_295,
];

fn line(worker: u32, label: u32, price: u32) -> Order {
    Order {
        worker,
        label,
        price,
    }
}

/// Contents of these labels at price 1; 0 is an empty cell.
fn cells<const N: usize>(labels: [u32; N]) -> [u64; N] {
    labels.map(|label| content(label, label.min(1)))
}

/// What a put-in opening under plain homes answers.
fn opens(model: Model, count: u64, table: &[u64], list: &[Order]) -> Result<(), u8> {
    Phase::open(model, 1, count, Homes::PLAIN, table, list).map(|_| ())
}

/// Gives the orders of a list, each to its worker, deals turns at random and
/// closes. The answers that the orders finish with.
fn work(
    rng: &mut Rng,
    model: Model,
    phase: &mut Phase,
    table: &mut [u64],
    list: &[Order],
) -> Vec<Answer> {
    let mut finished = vec![Answer::Idle; list.len()];
    let mut at_work = [None; Phase::WORKERS];
    let mut given = 0;
    while given < list.len() || !phase.all_idle() {
        let worker = rng.below(phase.count);
        match list.get(given) {
            Some(next) if at_work[next.worker as usize].is_none() && rng.once_in(2) => {
                let worker = next.worker.into();
                let answer = phase.order(model, list, given as u64, worker, next.label);
                assert_eq!(answer, Ok(()));
                at_work[next.worker as usize] = Some(given);
                given += 1;
            }
            _ => {
                let answer = phase.turn(model, table, worker as u64).unwrap();
                if !matches!(answer, Answer::WentOn | Answer::Idle) {
                    let line: Option<usize> = at_work[worker].take();
                    finished[line.expect("an order")] = answer;
                }
            }
        }
    }
    assert_eq!(phase.close(model), Ok(()));
    finished
}

/// A whole shift.
fn shift(
    rng: &mut Rng,
    model: Model,
    kind: u32,
    homes: Homes,
    table: &mut [u64],
    list: &[Order],
) -> Vec<Answer> {
    let crew = list.iter().map(|line| line.worker + 1).max().unwrap_or(1);
    let phase = Phase::open(model, kind.into(), crew.into(), homes, table, list);
    work(rng, model, &mut phase.unwrap(), table, list)
}

/// A sound table with test numbers among its labels, and room for so many more.
fn with_tests(rng: &mut Rng, homes: Homes, cells: usize, room: usize) -> Vec<u64> {
    let mut set = Prices::new();
    let labels = rng.within(1, cells - 1 - room);
    while set.len() < labels {
        let label = match rng.below(3) {
            0 => rng.within(1, 3 * cells) as u32,
            1 => shop_label(rng),
            _ => test_label(rng),
        };
        set.insert(label, price(rng));
    }
    layout(homes, cells, &set)
}

fn tests_of(table: &[u64]) -> BTreeMap<u32, u64> {
    let tests = table.iter().filter(|&&cell| label_of(cell) > LAST);
    tests.map(|&cell| (label_of(cell), cell)).collect()
}

#[test]
fn the_numbers() {
    assert_eq!(refusal::TEST_NUMBER, 24);
    assert_eq!(FIRST_TEST_LABEL, 4_000_000_000);
    assert!(is_shop_label(1) && is_shop_label(LAST));
    assert!(!is_shop_label(0) && !TESTS.into_iter().any(is_shop_label));
}

// ---- "Labels from 4,000,000,000 up are now for factory tests, and a shop must not
// add one."

#[test]
fn the_border() {
    for model in BOTH {
        for label in [1, 2_147_483_648, LAST - 1, LAST] {
            assert_eq!(opens(model, 1, &[0; 5], &[line(0, label, 1)]), Ok(()));
        }
        for label in TESTS {
            assert_eq!(opens(model, 1, &[0; 5], &[line(0, label, 1)]), Err(24));
        }
    }
}

/// The greatest label that a shop adds, put in, found and taken out.
#[test]
fn the_greatest_that_a_shop_adds() {
    let rng = &mut Rng::new(1);
    for model in BOTH {
        let mut table = [0; 5];
        let one = [line(0, LAST, 7)];
        shift(rng, model, PUT_IN, Homes::PLAIN, &mut table, &one);
        assert_eq!(table, [0, 0, 0, 0, content(LAST, 7)]);
        let found = shift(rng, model, LOOK_UP, Homes::PLAIN, &mut table, &one);
        assert_eq!(found, [Answer::Price(7)]);
        shift(rng, model, TAKE_OUT, Homes::PLAIN, &mut table, &one);
        assert_eq!(table, [0; 5]);
    }
}

/// Any shifts on any table, with any lists, altered between opening and order:
/// no test number stands in the table or is carried that wasn't there at the
/// opening.
#[test]
fn none_is_ever_added() {
    let (mut opened, mut refused) = (0, 0);
    for seed in 0..6000 {
        let rng = &mut Rng::new(seed);
        let model = rng.pick(&BOTH);
        let homes = homes(rng);
        let n = rng.within(2, 14);
        let mut table = match rng.once_in(2) {
            true => table(rng, homes, n),
            false => vec![0; n],
        };
        for _ in 0..4 {
            let before: BTreeSet<u32> = tests_of(&table).into_keys().collect();
            let kind = rng.pick(&[PUT_IN, PUT_IN, TAKE_OUT, LOOK_UP]);
            let crew = rng.within(1, 4);
            let mut list = orders(rng, &table, crew, 3 * n);
            if rng.once_in(8) && !list.is_empty() {
                let place = rng.below(list.len());
                list[place].label = test_label(rng);
            }
            let answer = Phase::open(model, kind.into(), crew as u64, homes, &table, &list);
            let Ok(mut phase) = answer else {
                assert!(matches!(answer, Err(9 | 24)), "seed {seed}");
                continue;
            };
            opened += usize::from(kind == PUT_IN);
            let mut calls = 0;
            while calls < 200 || !phase.all_idle() {
                calls += 1;
                let worker = rng.below(crew) as u64;
                if calls < 200 && rng.once_in(3) {
                    // Now and then a test number is written into the list.
                    let place = rng.below(list.len() + 1);
                    if let Some(line) = list.get_mut(place) {
                        if rng.once_in(4) {
                            line.label = test_label(rng);
                        }
                    }
                    let label = match rng.once_in(2) {
                        true => test_label(rng),
                        false => label_of(rng.pick(&table)),
                    };
                    let record = phase.clone();
                    let answer = phase.order(model, &list, place as u64, worker, label);
                    assert!(answer.is_ok() || phase == record);
                    if answer == Err(24) {
                        assert!(kind == PUT_IN && list[place].label > LAST);
                        refused += 1;
                    }
                } else {
                    phase.turn(model, &mut table, worker).unwrap();
                }
                let stand = tests_of(&table).into_keys();
                let carried = phase.crew().iter().filter_map(|activity| match *activity {
                    Activity::ReadingOn { entry, .. } | Activity::Replacing { entry, .. }
                        if kind == PUT_IN =>
                    {
                        Some(label_of(entry)).filter(|&label| label > LAST)
                    }
                    _ => None,
                });
                let mut all = stand.chain(carried);
                assert!(all.all(|label| before.contains(&label)), "seed {seed}");
                // More labels than there is room for: the layout isn't promised.
                if calls > 5000 {
                    break;
                }
            }
            if phase.close(model).is_err() || !is_sound(homes, &table) {
                break;
            }
            let now: BTreeSet<u32> = tests_of(&table).into_keys().collect();
            assert!(kind == TAKE_OUT || now == before, "seed {seed}");
        }
    }
    assert!(opened > 3000 && refused > 3000, "{opened} {refused}");
}

// ---- "Those already in a table are listed, looked up, taken out and moved as
// before."

#[test]
fn at_rest() {
    for model in BOTH {
        let [four, top] = [content(4_000_000_000, 9), content(4_294_967_295, 2)];
        // Both at home in cell 0.
        let table = [top, four, 0, content(3, 5), 0];
        assert_eq!(check(model, Homes::PLAIN, &table), Ok(()));
        assert_eq!(count(model, Homes::PLAIN, &table), Ok(3));
        let mut lent = [77; 4];
        assert_eq!(list(model, Homes::PLAIN, &table, &mut lent), Ok(3));
        assert_eq!(lent, [top, four, content(3, 5), 77]);
        let front = list_front(model, Homes::PLAIN, &table, &mut lent);
        assert_eq!(front, [top, four, content(3, 5)]);
        assert_eq!(list(model, Homes::PLAIN, &table, &mut lent[..2]), Err(12));
        let disorder = [four, top, 0, 0, 0];
        assert_eq!(check(model, Homes::PLAIN, &disorder), Err(18));
        let gap = [0, four, 0, 0, 0];
        assert_eq!(check(model, Homes::PLAIN, &gap), Err(17));
    }
}

/// Labels in a table and others, below the border and above: each is found at its
/// price or isn't, and taken out if it is there.
#[test]
fn looked_up_and_taken_out() {
    let mut found = 0;
    for seed in 0..3000 {
        let rng = &mut Rng::new(seed);
        let model = rng.pick(&BOTH);
        let (homes, n) = (homes(rng), rng.within(2, 20));
        let mut table = with_tests(rng, homes, n, 0);
        let mut left = least_prices(table.iter().copied());
        let standing = labels_of(&table);
        let crew = rng.within(1, 4);
        let list: Vec<Order> = (0..rng.within(1, 2 * n))
            .map(|_| {
                let label = match rng.below(4) {
                    0 => test_label(rng),
                    1 => rng.within(1, 3 * n) as u32,
                    _ => rng.pick(&standing),
                };
                line(rng.below(crew) as u32, label, 0)
            })
            .collect();
        let before = table.clone();
        let answers = shift(rng, model, LOOK_UP, homes, &mut table, &list);
        assert_eq!(table, before);
        for (line, answer) in list.iter().zip(answers) {
            let price = left.get(&line.label).copied();
            assert_eq!(answer, price.map_or(Answer::No, Answer::Price));
            found += usize::from(line.label > LAST && price.is_some());
        }
        shift(rng, model, TAKE_OUT, homes, &mut table, &list);
        for line in &list {
            left.remove(&line.label);
        }
        assert_eq!(table, layout(homes, n, &left), "seed {seed}");
    }
    assert!(found > 2000, "{found}");
}

/// The shop's labels are put in around them, pushed on by them and behind them;
/// they keep their prices, and the table closes on the layout.
#[test]
fn put_in_beside_them() {
    let rng = &mut Rng::new(2);
    for model in BOTH {
        // The new one is at home in cell 4, and both test numbers go before it.
        let mut table = cells([4_294_967_295, 5, 0, 0, 4_294_967_294]);
        let list = [line(0, LAST, 1), line(1, 5, 1)];
        shift(rng, model, PUT_IN, Homes::PLAIN, &mut table, &list);
        assert_eq!(table, cells([4_294_967_295, LAST, 5, 0, 4_294_967_294]));
    }
}

#[test]
fn random_put_ins_beside_them() {
    for seed in 0..3000 {
        let rng = &mut Rng::new(seed);
        let model = rng.pick(&BOTH);
        let (homes, n) = (homes(rng), rng.within(3, 20));
        let mut table = with_tests(rng, homes, n, 1);
        let crew = rng.within(1, 4);
        let mut list = orders(rng, &table, crew, 3 * n);
        let opening = least_prices(table.iter().copied());
        while Phase::open(model, 1, crew as u64, homes, &table, &list) == Err(9) {
            list.pop();
        }
        let before = tests_of(&table);
        let mut phase = Phase::open(model, 1, crew as u64, homes, &table, &list).unwrap();
        work(rng, model, &mut phase, &mut table, &list);
        assert_eq!(tests_of(&table), before, "seed {seed}");
        let mut set = opening;
        for line in &list {
            let least = set.entry(line.label).or_insert(line.price);
            *least = line.price.min(*least);
        }
        assert_eq!(table, layout(homes, n, &set), "seed {seed}");
    }
}

/// Sent again, at whatever price: such a label is in the list, and the shop's own
/// labels aren't put in either.
#[test]
fn one_that_stands_is_not_sent_again() {
    for model in BOTH {
        for label in TESTS {
            let mut table = vec![0; 7];
            table[label as usize % 7] = content(label, 5);
            for price in [1, 5, 9] {
                let again = [line(0, label, price)];
                assert_eq!(opens(model, 1, &table, &again), Err(24));
                let behind = [line(0, 3, 1), line(0, label, price)];
                assert_eq!(opens(model, 1, &table, &behind), Err(24));
            }
            assert_eq!(opens(model, 1, &table, &[]), Ok(()));
            assert_eq!(opens(model, 1, &table, &[line(0, 3, 1)]), Ok(()));
        }
    }
}

/// A move by two workers; it closes.
fn moved(rng: &mut Rng, model: Model, homes: Homes, old: &[u64], n: usize) -> Vec<u64> {
    let mut new = vec![0; n];
    let mut record = Move::open(model, 2, homes, old, &new).unwrap();
    while record.next < old.len() || !record.all_idle() {
        let worker = rng.below(2);
        if record.workers[worker] == Task::IDLE && record.next < old.len() {
            record.order(model, worker as u64).unwrap();
        } else {
            record.turn(model, old, &mut new, worker as u64).unwrap();
        }
    }
    assert_eq!(record.close(model), Ok(()));
    new
}

#[test]
fn moved_as_before() {
    let mut tests = 0;
    for seed in 0..2000 {
        let rng = &mut Rng::new(seed);
        let model = rng.pick(&BOTH);
        let (homes, n) = (homes(rng), rng.within(2, 20));
        let old = with_tests(rng, homes, n, 0);
        let labels = labels_of(&old).len();
        let new = rng.within(2.max(labels + 1), 2 * n);
        let left = moved(rng, model, homes, &old, new);
        let set = least_prices(old.iter().copied());
        assert_eq!(left, layout(homes, new, &set), "seed {seed}");
        assert_eq!(tests_of(&left), tests_of(&old));
        tests += tests_of(&old).len();
    }
    assert!(tests > 2000, "{tests}");
    // All of a table's labels, and one cell more than there are.
    for model in BOTH {
        let set: Prices = TESTS.into_iter().map(|label| (label, 9)).collect();
        let rng = &mut Rng::new(1);
        let left = moved(rng, model, Homes::PLAIN, &layout(Homes::PLAIN, 9, &set), 7);
        assert_eq!(left, layout(Homes::PLAIN, 7, &set));
    }
}

// ---- "The case of 01 with 4294967295 becomes a table met at opening, no longer a
// put-in."

#[test]
fn the_case_of_01() {
    let rng = &mut Rng::new(3);
    for model in BOTH {
        let met = cells([4_294_967_295, 0, 0, 0, 0]);
        let set = Prices::from([(4_294_967_295, 1)]);
        assert_eq!(layout(Homes::PLAIN, 5, &set), met);
        let one = [line(0, 4_294_967_295, 1)];
        for table in [met, [0; 5]] {
            assert_eq!(opens(model, 1, &table, &one), Err(24));
        }
        for kind in 1..=3 {
            assert!(Phase::open(model, kind, 1, Homes::PLAIN, &met, &[]).is_ok());
        }
        let mut table = met;
        let found = shift(rng, model, LOOK_UP, Homes::PLAIN, &mut table, &one);
        assert_eq!(found, [Answer::Price(1)]);
        let five = [line(0, 5, 1)];
        shift(rng, model, PUT_IN, Homes::PLAIN, &mut table, &five);
        assert_eq!(table, cells([4_294_967_295, 5, 0, 0, 0]));
        shift(rng, model, TAKE_OUT, Homes::PLAIN, &mut table, &one);
        assert_eq!(table, cells([5, 0, 0, 0, 0]));
    }
}

// ---- "It refuses with 24 such a label in a put-in list, between 7 and 14 at
// opening"

/// Each line for 7, 24, 14 and then 6, the earliest line deciding.
#[test]
fn the_earliest_bad_line_decides() {
    let bad = [
        (line(9, 0, 0), 7),
        (line(9, 4_000_000_000, 0), 24),
        (line(0, 4_294_967_295, 10_000_000), 24),
        (line(9, 4_000_000_000, 1), 24),
        (line(0, 4_000_000_001, 1), 24),
        (line(9, LAST, 0), 14),
        (line(0, 5, 10_000_000), 14),
        (line(9, LAST, 1), 6),
    ];
    for model in BOTH {
        for (first, number) in bad {
            for (second, _) in bad {
                let list = [line(1, 3, 2), first, line(0, 4, 2), second];
                assert_eq!(opens(model, 2, &[0; 9], &list), Err(number));
                // Also where the table is full without them.
                assert_eq!(opens(model, 2, &[0; 2], &list), Err(number));
            }
        }
    }
}

/// 1, 2, 3, 21, 16, 4, 17 and 18 come before, 9 comes behind.
#[test]
fn openings_refuse_in_order() {
    let test = [line(9, 4_000_000_000, 0)];
    let long = vec![test[0]; 65_537];
    let full = [line(0, 1, 1), line(0, LAST, 1), line(0, 3, 1)];
    for (model, most_cells, most_workers) in [(GATEWAY, 8192, 16), (KIOSK, 256, 4)] {
        let opened = |kind, count, a, table: &[u64], list: &[Order]| {
            Phase::open(model, kind, count, Homes { a, b: 0 }, table, list).map(|_| ())
        };
        let one = content(1, 1);
        for list in [&test[..], &long[1..], &long] {
            assert_eq!(opened(1, 1, 1, &[one], list), Err(1));
            assert_eq!(opened(1, 1, 1, &vec![0; most_cells + 1], list), Err(1));
            assert_eq!(opened(1, 0, 1, &[0; 3], list), Err(2));
            assert_eq!(opened(1, most_workers + 1, 1, &[0; 3], list), Err(2));
            assert_eq!(opened(0, 1, 1, &[0; 3], list), Err(3));
            assert_eq!(opened(4, 1, 1, &[0; 3], list), Err(3));
            assert_eq!(opened(1, 1, 2, &[0; 3], list), Err(21));
            for (table, number) in [
                ([one; 3], 4),
                ([0, content(1, 0), 0], 4),
                ([one, 0, 0], 17),
                (cells([0, 1, 4]), 18),
                ([0; 3], 24),
            ] {
                let number = if list.len() > 65_536 { 16 } else { number };
                assert_eq!(opened(1, 1, 1, &table, list), Err(number));
            }
            // The other kinds don't read the list.
            for kind in [2, 3] {
                assert_eq!(opened(kind, 1, 1, &[0; 3], list), Ok(()));
            }
        }
        for place in 0..=full.len() {
            let mut list = full.to_vec();
            list.insert(place, test[0]);
            assert_eq!(opened(1, 1, 1, &[0; 3], &list), Err(24));
        }
        assert_eq!(opened(1, 1, 1, &[0; 3], &full), Err(9));
        assert_eq!(opened(1, 1, 1, &[0; 4], &full), Ok(()));
    }
}

/// Any list on any table, by the paper's words.
#[test]
fn random_openings() {
    let mut seen = BTreeMap::<u8, usize>::new();
    for seed in 0..30_000 {
        let rng = &mut Rng::new(seed);
        let model = rng.pick(&BOTH);
        let (homes, n) = (homes(rng), rng.within(2, 12));
        let table = table(rng, homes, n);
        let crew = rng.within(1, 4);
        let mut list = orders(rng, &table, crew, 2 * n);
        while !list.is_empty() && rng.once_in(4) {
            let place = rng.below(list.len());
            match rng.once_in(2) {
                true => list[place].label = rng.pick(&[LAST, 4_000_000_000, u32::MAX]),
                false => spoil(rng, &mut list[place], crew),
            }
        }
        let fault = list.iter().find_map(|line| {
            [
                (line.label == 0, 7),
                (line.label >= 4_000_000_000, 24),
                (line.price == 0 || line.price > 9_999_999, 14),
                (line.worker as usize >= crew, 6),
            ]
            .into_iter()
            .find(|fault| fault.0)
        });
        let labels: BTreeSet<u32> = labels_of(&table)
            .into_iter()
            .chain(list.iter().map(|line| line.label))
            .collect();
        let expected = match fault {
            Some((_, number)) => Err(number),
            None if labels.len() >= n => Err(9),
            None => Ok(()),
        };
        let answer = Phase::open(model, 1, crew as u64, homes, &table, &list);
        assert_eq!(answer.map(|_| ()), expected, "seed {seed}");
        *seen.entry(expected.err().unwrap_or(0)).or_default() += 1;
    }
    let numbers: Vec<u8> = seen.keys().copied().collect();
    assert_eq!(numbers, [0, 6, 7, 9, 14, 24], "{seen:?}");
    assert!(seen.values().all(|&often| often > 200), "{seen:?}");
    assert!(seen[&0] > 12_000, "{seen:?}");
}

/// A test number as a worker or a price is nothing else than before.
#[test]
fn only_labels() {
    for model in BOTH {
        let opened = |list: &[Order]| opens(model, 2, &[0; 5], list);
        assert_eq!(opened(&[line(4_000_000_000, 5, 1)]), Err(6));
        assert_eq!(opened(&[line(0, 5, 4_000_000_000)]), Err(14));
        for price in WRONG_PRICES {
            assert_eq!(opened(&[line(0, LAST, price)]), Err(14));
            assert_eq!(opened(&[line(0, LAST + 1, price)]), Err(24));
        }
    }
}

/// By the label alone, whatever its home and whatever the table's length.
#[test]
fn under_any_homes() {
    let rng = &mut Rng::new(4);
    for _ in 0..2000 {
        let (homes, n) = (homes(rng), rng.within(2, 256));
        let model = rng.pick(&BOTH);
        let label = match rng.once_in(2) {
            true => label_with(homes, rng.within(1, 1 << 31) as u32).max(1),
            false => test_label(rng),
        };
        let list = [line(0, label, 1)];
        let answer = Phase::open(model, 1, 1, homes, &vec![0; n], &list);
        assert_eq!(answer.err(), (label > LAST).then_some(24));
    }
}

// ---- "and order"

/// 13, 11, 15, 6, 8, 7, 24 and 14, by a list altered after the opening; a refused
/// order changes nothing.
#[test]
fn orders_refuse_in_order() {
    for model in BOTH {
        let good = [line(0, 5, 1), line(1, 6, 1), line(0, 7, 1)];
        let mut phase = Phase::open(model, 1, 2, Homes::PLAIN, &[0; 5], &good).unwrap();
        let with = |line| {
            let mut list = good;
            list[2] = line;
            list
        };
        let refused = |phase: &mut Phase, place, line, number| {
            let before = phase.clone();
            let answer = phase.order(model, &with(line), place, 0, 5);
            assert_eq!(answer, Err(number), "{line:?}");
            assert_eq!(*phase, before);
        };
        for label in TESTS {
            for price in [0, 1, 10_000_000] {
                refused(&mut phase, 3, line(0, label, price), 15);
                refused(&mut phase, 2, line(2, label, price), 6);
                refused(&mut phase, 2, line(0, label, price), 24);
                refused(&mut phase, 2, line(1, label, price), 24);
            }
        }
        refused(&mut phase, 2, line(0, 0, 0), 7);
        refused(&mut phase, 2, line(0, LAST, 0), 14);
        // The worker is busy.
        phase.order(model, &good, 0, 0, 0).unwrap();
        refused(&mut phase, 2, line(0, 4_000_000_000, 0), 8);
        refused(&mut phase, 2, line(1, 4_000_000_000, 0), 24);
        let mut table = [0; 5];
        while !phase.all_idle() {
            phase.turn(model, &mut table, 0).unwrap();
        }
        assert_eq!(phase.order(model, &with(line(1, LAST, 1)), 2, 0, 0), Ok(()));
        while !phase.all_idle() {
            phase.turn(model, &mut table, 1).unwrap();
        }
        assert_eq!(table, cells([5, 0, 0, 0, LAST]));
        phase.close(model).unwrap();
        refused(&mut phase, 2, line(0, 4_000_000_000, 0), 11);
        phase.length = 1;
        refused(&mut phase, 2, line(0, 4_000_000_000, 0), 13);
    }
}

/// A line of the opening that isn't altered is ordered beside one that is.
#[test]
fn other_lines_of_an_altered_list() {
    let rng = &mut Rng::new(5);
    for model in BOTH {
        let opening = cells([4_294_967_295, 0, 0, 0, 0]);
        let list = [line(0, 5, 1), line(0, 10, 1)];
        let mut phase = Phase::open(model, 1, 1, Homes::PLAIN, &opening, &list).unwrap();
        let altered = [line(0, 4_294_967_290, 1), list[1]];
        assert_eq!(phase.order(model, &altered, 0, 0, 0), Err(24));
        assert_eq!(phase.order(model, &altered, 1, 0, 0), Ok(()));
        let mut table = opening;
        while !phase.all_idle() {
            phase.turn(model, &mut table, 0).unwrap();
        }
        // The opening's list again.
        work(rng, model, &mut phase, &mut table, &list);
        assert_eq!(table, cells([4_294_967_295, 10, 5, 0, 0]));
    }
}

/// In the other kinds such a label is ordered as any other.
#[test]
fn orders_of_the_other_kinds() {
    for model in BOTH {
        for kind in [2, 3] {
            let mut phase = Phase::open(model, kind, 2, Homes::PLAIN, &[0; 5], &[]).unwrap();
            for label in TESTS {
                assert_eq!(phase.order(model, &[], 0, 2, label), Err(6));
                assert_eq!(phase.order(model, &[], 0, 0, label), Ok(()));
                assert_eq!(phase.order(model, &[], 0, 0, label), Err(8));
                let mut table = [0; 5];
                while !phase.all_idle() {
                    phase.turn(model, &mut table, 0).unwrap();
                }
            }
            assert_eq!(phase.order(model, &[], 0, 0, 0), Err(7));
        }
    }
}

/// A record that works for such a label isn't spoilt, and its turns go by the
/// rule.
#[test]
fn records_with_such_labels() {
    for model in BOTH {
        let mut phase = Phase::open(model, 1, 1, Homes::PLAIN, &[0; 5], &[]).unwrap();
        let entry = content(4_294_967_295, 1);
        phase.workers[0] = Activity::ReadingOn { entry, cell: 0 };
        assert!(!phase.is_spoilt(model));
        let mut table = cells([5, 0, 0, 0, 0]);
        while !phase.all_idle() {
            phase.turn(model, &mut table, 0).unwrap();
        }
        assert_eq!(table, cells([4_294_967_295, 5, 0, 0, 0]));
    }
}

// ---- "in both models"

#[test]
fn both_models_alike() {
    for seed in 0..3000 {
        let rng = &mut Rng::new(seed);
        let (homes, n) = (homes(rng), rng.within(2, 30));
        let table = table(rng, homes, n);
        let crew = rng.within(1, 4);
        let mut list = orders(rng, &table, crew, 3 * n);
        if let Some(line) = list.first_mut().filter(|_| rng.once_in(4)) {
            line.label = test_label(rng);
        }
        for kind in 1..=3 {
            let [gateway, kiosk] =
                BOTH.map(|model| Phase::open(model, kind, crew as u64, homes, &table, &list));
            assert_eq!(gateway, kiosk);
        }
    }
}

// ---- "and in a reply round's sent list at the same place"

#[test]
fn rounds_refuse_in_order() {
    let bad = [
        (line(9, 0, 0), 7),
        (line(9, 4_000_000_000, 0), 24),
        (line(0, 4_294_967_295, 1), 24),
        (line(9, LAST, 0), 14),
        (line(9, LAST, 1), 6),
    ];
    let full = [line(0, 1, 1), line(0, 2, 1), line(0, LAST, 1)];
    for model in BOTH {
        // What the lent table holds doesn't count.
        for stands in [0, 1, content(4_294_967_295, 1)] {
            let opened = |n: usize, count, a, sent: &[Order]| {
                let mut table = vec![stands; n];
                let answer = round::open(model, count, Homes { a, b: 0 }, &mut table, sent);
                assert!(answer.is_ok() || table == vec![stands; n]);
                answer
            };
            for (first, number) in bad {
                assert_eq!(opened(1, 1, 1, &[first]), Err(1));
                assert_eq!(opened(3, 0, 1, &[first]), Err(2));
                assert_eq!(opened(3, 1, 2, &[first]), Err(21));
                assert_eq!(opened(3, 1, 1, &vec![first; 65_537]), Err(16));
                for (second, _) in bad {
                    for place in 0..=full.len() {
                        let mut sent = full.to_vec();
                        sent.insert(place, first);
                        sent.push(second);
                        assert_eq!(opened(3, 1, 1, &sent), Err(number));
                        assert_eq!(opened(9, 1, 1, &sent), Err(number));
                    }
                }
            }
            assert_eq!(opened(3, 1, 1, &full), Err(9));
            assert_eq!(opened(4, 1, 1, &full), Ok(()));
        }
    }
}

/// The replies: 7, 6, 22, and accepted where the lent table has the label.
#[test]
fn replies_with_such_labels() {
    for model in BOTH {
        let [top, four] = [content(4_294_967_295, 2), content(4_000_000_000, 9)];
        let mut table = [top, four, 0, content(3, 5), 0];
        let reply = |worker, label| Reply { worker, label };
        let replies = [
            reply(0, 4_294_967_295),
            reply(1, 4_294_967_290),
            reply(2, 4_294_967_295),
            reply(2, 4_294_967_290),
            reply(0, 0),
            reply(1, 4_294_967_295),
            reply(1, LAST),
        ];
        let (mut answers, mut lent) = ([77; 8], [78; 4]);
        let answer = round::close(
            model,
            2,
            Homes::PLAIN,
            &mut table,
            &replies,
            &mut answers,
            &mut lent,
        );
        assert_eq!(answer, Ok(2));
        assert_eq!(answers, [0, 22, 6, 6, 7, 0, 22, 77]);
        assert_eq!(table, [four, 0, 0, content(3, 5), 0]);
        assert_eq!(lent, [four, content(3, 5), 78, 78]);
    }
}

#[test]
fn random_closings() {
    let mut accepted = 0;
    for seed in 0..3000 {
        let rng = &mut Rng::new(seed);
        let model = rng.pick(&BOTH);
        let (homes, n) = (homes(rng), rng.within(2, 20));
        let mut table = with_tests(rng, homes, n, 0);
        let crew = rng.within(1, 4);
        let replies = replies(rng, &table, crew, 3 * n);
        let mut left = least_prices(table.iter().copied());
        let standing = left.clone();
        let (mut answers, mut lent) = (vec![77; replies.len()], vec![78; n]);
        let count = crew as u64;
        let answer = round::close(
            model,
            count,
            homes,
            &mut table,
            &replies,
            &mut answers,
            &mut lent,
        );
        for (reply, said) in replies.iter().zip(answers) {
            let expected = match *reply {
                Reply { label: 0, .. } => 7,
                Reply { worker, .. } if worker as usize >= crew => 6,
                Reply { label, .. } if !standing.contains_key(&label) => 22,
                Reply { label, .. } => {
                    left.remove(&label);
                    accepted += usize::from(label > LAST);
                    0
                }
            };
            assert_eq!(said, expected, "seed {seed}");
        }
        assert_eq!(answer, Ok(left.len()));
        assert_eq!(table, layout(homes, n, &left), "seed {seed}");
    }
    assert!(accepted > 500, "{accepted}");
}

// ---- till lists and the sheet

/// "The fields' values are checked when the shift opens."
#[test]
fn till_lists() {
    for model in BOTH {
        for (text, number) in [
            ("4000000000,1", 24),
            ("4294967295,\"0\"", 24),
            ("3,1\r\n\"4000000000\",10000000\r\n", 24),
            ("3,0\r\n4000000000,1", 14),
            ("0,1\r\n4000000000,1", 7),
            ("3999999999,1", 0),
        ] {
            let mut list = [line(9, 9, 9); 2];
            let read = till::read(model, text.as_bytes(), 1, &mut list).unwrap();
            let answer = opens(model, 1, &[0; 5], &list[..read]);
            assert_eq!(answer.err().unwrap_or(0), number, "{text}");
        }
    }
}

/// Items are taken whatever they say; one with such a label stays in the list.
#[test]
fn on_the_sheet() {
    let mut sheet = String::new();
    let mut said = String::new();
    for (number, (line, answer)) in (1..).zip([
        ("item 0 4000000000 0", "ok"),
        ("cells 5", "ok"),
        ("open 1 1 1 0", "refused 24"),
        ("item 0 0 1", "ok"),
        ("open 1 1 1 0", "refused 24"),
        ("open 1 1 2 0", "refused 21"),
        ("open 2 1 1 0", "ok"),
        ("order 0 4000000000", "ok"),
        ("run", "done"),
        ("close", "ok"),
        ("open 3 1 1 0", "ok"),
        ("order 0 4294967295", "ok"),
        ("run", "no"),
        ("close", "ok"),
        ("open 1 1 1 0", "refused 24"),
        ("order 0", "refused 11"),
        ("list", "0"),
    ]) {
        sheet += &format!("{line}\n").replace(' ', "\t");
        said += &format!("{number} {answer}\n").replace(' ', "\t");
    }
    assert_eq!(replay_bytes(sheet.as_bytes()), said.as_bytes());
}
