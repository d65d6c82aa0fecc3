//! Moves from one table to another by the library and by the reference, in both models: on sound, damaged and other old tables, into new tables of
//! every refusal, and by calls in every sequence.

use std::collections::{BTreeMap, HashSet, VecDeque};
use std::hint::black_box;

use conformance::shifts::{closed, dealt_move};
use conformance::trials::{cells, guarded, some_cells, Tally, GUARD, NO_COUNTS};
use conformance::{
    check, close, count, for_both_models, list, order, reference_move_call, reference_run_moves, turn, Call, Calls, Orders, MODELS, REFUSED, WORDS,
};
use reference::generate::moving::{cells as new_cells, unfit};
use reference::generate::{
    all_lists, even_homes, fill, homes, label_with, labels_of, other_homes, overwrite, price, returned, table, test_label, Rng,
};
use reference::layout::{content, label_of, layout, least_prices, price_of, Homes, Prices};
use reference::model::{Model, KIOSK};
use reference::moving::{Move, Task};
use reference::phase::{LOOK_UP, PUT_IN, TAKE_OUT};

for_both_models! {
    the_limits,
    openings_refuse_in_order,
    new_tables_that_are_not_empty,
    one_cell_more_than_labels,
    random_openings,
    the_shortest_list_decides,
    all_small_lists_of_calls,
    every_state_and_every_call,
    random_lists_of_calls,
    whole_moves,
    test_numbers_are_moved,
    moved_tables_in_other_calls,
    moved_on_and_back,
    the_greatest_moves,
}

/// What calls leave: the new table and their answers.
#[derive(Clone, Debug, PartialEq, Eq)]
struct Left {
    cells: Vec<u64>,
    answers: Vec<u64>,
}

/// An opening and calls by the library and by the reference, with so many places for answers and any numbers in them, for lists that amount to these
/// calls: the same answers, and the same cells and places afterwards, also those behind. The old table stays as it was, and so does all else if the
/// opening is refused.
#[allow(clippy::too_many_arguments)]
fn same_moves_of(
    random: &mut Rng,
    model: Model,
    count: u64,
    homes: Homes,
    old: &[u64],
    new: &[u64],
    (calls, lists): (&[Call], &Calls),
    places: usize,
) -> Result<Left, u8> {
    let lent = guarded(old, || random.draw());
    let before = Left { cells: guarded(new, || random.draw()), answers: (0..places + GUARD).map(|_| random.draw()).collect() };
    let (mut left, mut expected) = (before.clone(), before.clone());
    let theirs = reference_run_moves(model, count, homes, old, &mut expected.cells[..new.len()], calls, &mut expected.answers[..places]);
    let same = lent.clone();
    let ours = lists.run_moves(model, count, homes, &lent[..old.len()], &mut left.cells[..new.len()], &mut left.answers[..places]);
    // told where an answer differs; of long lists the front
    let told = || format!("{model:?}, {count} workers, {homes:?}, {old:?} to {new:?}, {:?}", &calls[..calls.len().min(100)]);
    assert_eq!(ours, theirs, "{}", told());
    assert!(left == expected, "{}: left {left:?} for {expected:?}", told());
    assert!(black_box(&lent) == &same, "{}: the old table was written", told());
    assert!(ours.is_ok() || left == before, "{}: a refusal wrote", told());
    left.cells.truncate(new.len());
    left.answers.truncate(calls.len().min(places));
    ours.map(|()| left)
}

/// The same with lists of one length and places enough.
fn same_moves(random: &mut Rng, model: Model, count: u64, homes: Homes, old: &[u64], new: &[u64], calls: &[Call]) -> Result<Left, u8> {
    let behind = random.below(3);
    same_moves_of(random, model, count, homes, old, new, (calls, &Calls::of(calls)), calls.len() + behind)
}

/// A move to so many empty cells that opens.
fn same(random: &mut Rng, model: Model, crew: u32, homes: Homes, old: &[u64], new: usize, calls: &[Call]) -> Left {
    same_moves(random, model, crew.into(), homes, old, &vec![0; new], calls).expect("a sound table and room for its labels")
}

/// A number of cells for many calls: few, or some around the kiosk's most.
fn fewer_cells(random: &mut Rng, model: Model) -> usize {
    some_cells(random, KIOSK).min(model.max_cells)
}

/// The layout of a table's labels and prices in so many cells.
fn laid(homes: Homes, cells: usize, old: &[u64]) -> Vec<u64> {
    layout(homes, cells, &least_prices(old.iter().copied()))
}

/// A whole move with turns as chance deals them: it closes, on the layout.
fn moved(random: &mut Rng, model: Model, homes: Homes, old: &[u64], new: usize) -> Vec<u64> {
    let crew = random.within(1, model.max_workers) as u32;
    let calls = dealt_move(model, crew, homes, old, new, || random.below(crew as usize) as u32);
    let left = same(random, model, crew, homes, old, new, &calls);
    assert_eq!(left.answers.last(), Some(&0));
    assert_eq!(left.cells, laid(homes, new, old));
    left.cells
}

/// Orders, turns and closes for two workers and one more, who is none.
const EVERY: [Call; 8] = [
    Call { op: 1, line: 0, worker: 0, key: 0 },
    Call { op: 1, line: 0, worker: 1, key: 0 },
    Call { op: 1, line: 0, worker: 2, key: 0 },
    Call { op: 2, line: 0, worker: 0, key: 0 },
    Call { op: 2, line: 0, worker: 1, key: 0 },
    Call { op: 2, line: 0, worker: 2, key: 0 },
    Call { op: 3, line: 0, worker: 0, key: 0 },
    Call { op: 0, line: 9, worker: 9, key: 9 },
];

// ---- openings

/// Lengths and crews of both models and just outside, of either table, with odd and even a: 1 before 2, 2 before 21, and these before all else.
fn the_limits(model: Model) {
    let random = &mut Rng::new(1);
    let lengths = [0, 1, 2, 255, 256, 257, 8191, 8192, 8193, 10_000];
    for (old, new) in lengths.into_iter().flat_map(|old| lengths.map(|new| (old, new))) {
        for count in [1, 4, 5, 16].into_iter().chain(NO_COUNTS) {
            for homes in [homes(random), even_homes(random)] {
                let number = match homes.a % 2 {
                    _ if !model.is_length(old) || !model.is_length(new) => 1,
                    _ if !model.is_crew(count) => 2,
                    0 => 21,
                    _ => 0,
                };
                let due = |behind| Some(if number == 0 { behind } else { number });
                let [empty, full] = [0, content(7, 1)].map(|cell| move |length| vec![cell; length]);
                let calls = [order(0, 0), turn(0), close()];
                let left = same_moves(random, model, count, homes, &empty(old), &empty(new), &calls);
                match left {
                    Ok(left) => assert_eq!((number, left.answers), (0, vec![0, WORDS + 2, REFUSED + 10])),
                    Err(refused) => assert_eq!(refused, number),
                }
                assert_eq!(same_moves(random, model, count, homes, &full(old), &full(new), &calls).err(), due(4));
                if new > 0 {
                    assert_eq!(same_moves(random, model, count, homes, &empty(old), &full(new), &calls).err(), due(23));
                }
            }
        }
    }
}

/// Each refusal with all that come after it due too.
fn openings_refuse_in_order(model: Model) {
    let random = &mut Rng::new(2);
    let most = model.max_workers as u64;
    for (unsound, number) in [
        ([content(1, 1); 3], 4),
        ([0, 0, 1], 4),
        ([0, content(1, 0), 0], 4),
        ([0, content(1, 10_000_000), 0], 4),
        (cells([1, 0, 0]), 17),
        (cells([0, 1, 4]), 18),
    ] {
        let long: Vec<u64> = unsound.iter().copied().cycle().take(model.max_cells + 1).collect();
        // too few cells, not all empty, both, and neither
        for new in [vec![0; 2], vec![0, 0, 0, 1], vec![7; 2], vec![0; 4]] {
            let mut refused = |old: &[u64], new: &[u64], count, a, number| {
                assert_eq!(same_moves(random, model, count, Homes { a, b: 0 }, old, new, &EVERY), Err(number));
            };
            for a in [1, 2] {
                refused(&unsound[..1], &new, 0, a, 1);
                refused(&long, &new, 0, a, 1);
                refused(&unsound, &new[..1], 0, a, 1);
                refused(&unsound, &long, 0, a, 1);
                refused(&unsound, &new, 0, a, 2);
                refused(&unsound, &new, most + 1, a, 2);
            }
            refused(&unsound, &new, 1, 2, 21);
            refused(&unsound, &new, 1, 1, number);
        }
    }
    for new in [vec![0; 2], vec![0, 0, 0, 1], vec![7; 2]] {
        assert_eq!(same_moves(random, model, 1, Homes { a: 2, b: 0 }, &cells([0, 4, 1]), &new, &EVERY), Err(21));
        assert_eq!(same_moves(random, model, 1, Homes::PLAIN, &cells([0, 4, 1]), &new, &EVERY), Err(23));
    }
}

/// One cell anywhere: a label with its price, without one or with one that it may not have, and a price without a label.
fn new_tables_that_are_not_empty(model: Model) {
    let random = &mut Rng::new(3);
    for length in [2, 3, 7, 63, 64, 65, 128, 256] {
        for at in 0..length {
            for cell in [1, 9_999_999, 1 << 31, content(1, 0), content(7, 1), content(1 << 31, 0), u64::MAX] {
                let mut new = vec![0; length];
                new[at] = cell;
                let homes = homes(random);
                let old = if random.once_in(2) { vec![0; 2] } else { layout(homes, 9, &[(at as u32 + 1, 5)].into()) };
                assert_eq!(same_moves(random, model, 1, homes, &old, &new, &EVERY), Err(23), "{cell} in cell {at} of {length}");
            }
        }
    }
    for at in [0, 1, model.max_cells / 2, model.max_cells - 1] {
        let mut new = vec![0; model.max_cells];
        new[at] = 1;
        assert_eq!(same_moves(random, model, 1, Homes::PLAIN, &[0; 2], &new, &EVERY), Err(23));
    }
}

/// As many cells as labels, one more, and others around them: by the labels, not by the old length.
fn one_cell_more_than_labels(model: Model) {
    let random = &mut Rng::new(4);
    for labels in [0, 1, 2, 3, 10, 63, 64, 65, 254, 255] {
        let homes = homes(random);
        let set: Prices = (1..=labels).map(|label| (100 * label, price(random))).collect();
        let labels = labels as usize;
        for old in [labels + 1, 256, model.max_cells].into_iter().filter(|&old| old > labels.max(1)) {
            let old = layout(homes, old, &set);
            for new in labels.saturating_sub(2).max(2)..=(labels + 3).min(256) {
                let left = same_moves(random, model, 1, homes, &old, &vec![0; new], &EVERY);
                assert_eq!(left.err(), (new <= labels).then_some(23), "{labels} labels, {new} cells");
            }
        }
    }
}

/// Any old table, sound, torn, full or written over, by its own homes and by others, into any new one, and now and then a wrong crew or a.
fn random_openings(model: Model) {
    let random = &mut Rng::new(5);
    let mut tally = Tally::default();
    for _ in 0..20_000 {
        let cells = some_cells(random, model);
        let own = homes(random);
        let mut old = if random.once_in(2) { table(random, own, cells) } else { returned(random, own, cells) };
        match random.below(20) {
            0 => fill(random, own, &mut old),
            1 => overwrite(random, &mut old),
            _ => (),
        }
        let homes = match random.below(20) {
            0 => even_homes(random),
            1 => other_homes(random, own, cells),
            _ => own,
        };
        let mut new = vec![0; new_cells(random, &old, model.max_cells)];
        match random.below(20) {
            0..=4 => unfit(random, &old, &mut new),
            5 => new.resize(random.pick(&[0, 1, model.max_cells + 1]), 0),
            _ => (),
        }
        let crew = random.within(1, model.max_workers) as u64;
        let count = if random.once_in(20) { random.pick(&NO_COUNTS) } else { crew };
        let calls = some_calls(random, crew as usize, 20);
        tally.take(&same_moves(random, model, count, homes, &old, &new, &calls));
    }
    tally.each(&[0, 1, 2, 4, 17, 18, 21, 23], 100);
}

// ---- lists of calls

/// So many calls at most, of any sequence: for every worker and some that there are not, and with other numbers for a close.
fn some_calls(random: &mut Rng, crew: usize, most: usize) -> Vec<Call> {
    let worker = |random: &mut Rng| match random.below(12) {
        0 => random.pick(&[crew as u32, crew as u32 + 1, 16, 1 << 16, 1 << 31, u32::MAX]),
        _ => random.below(crew) as u32,
    };
    let call = |random: &mut Rng| match random.below(16) {
        0 => Call { op: random.pick(&[0, 3, 3, 4, 257, 1 << 31, u32::MAX]), ..turn(worker(random)) },
        1..=5 => order(worker(random), 0),
        _ => turn(worker(random)),
    };
    (0..random.below(most + 1)).map(|_| call(random)).collect()
}

/// Lists of different lengths, and places for answers: behind the shortest nothing is read and nothing written.
fn the_shortest_list_decides(model: Model) {
    let random = &mut Rng::new(6);
    let old = cells([4, 3, 0, 13, 8]);
    let calls = dealt_move(model, 2, Homes::PLAIN, &old, 7, || random.below(2) as u32);
    let whole = Calls::of(&calls);
    let some = [0, 1, 2, 5, calls.len() - 1, calls.len()];
    for lengths in all_lists(3, &some) {
        let [ops, workers, places] = lengths[..] else { unreachable!("three lengths") };
        let lists = Calls { ops: whole.ops[..ops].to_vec(), workers: whole.workers[..workers].to_vec(), ..Calls::default() };
        let shortest = ops.min(workers).min(places);
        let left = same_moves_of(random, model, 2, Homes::PLAIN, &old, &[0; 7], (&calls[..shortest], &lists), places).expect("a sound table");
        assert_eq!(left, same(random, model, 2, Homes::PLAIN, &old, 7, &calls[..shortest]));
        assert_eq!(left.cells == laid(Homes::PLAIN, 7, &old), shortest + 1 >= calls.len());
    }
}

/// All lists of up to five calls, those that are refused too, on every sound table of labels 1 to 3 in two and three cells; of up to six on two empty
/// cells, where that is enough for calls behind the close.
fn all_small_lists_of_calls(model: Model) {
    let random = &mut Rng::new(7);
    let mut tally = BTreeMap::<u64, usize>::new();
    for (length, set) in [2, 3].into_iter().flat_map(|length| (0..8).map(move |set| (length, set))) {
        let set: Prices = (1..=3).filter(|label| set >> (label - 1) & 1 == 1).map(|label| (label, 10 + label)).collect();
        if set.len() >= length {
            continue;
        }
        let homes = homes(random);
        let old = layout(homes, length, &set);
        let new = random.within(2.max(set.len() + 1), 4);
        let most = if set.is_empty() && length == 2 { 6 } else { 5 };
        for calls in (0..=most).flat_map(|calls| all_lists(calls, &EVERY)) {
            for answer in same(random, model, 2, homes, &old, new, &calls).answers {
                *tally.entry(answer).or_default() += 1;
            }
        }
    }
    let answers = [0, REFUSED + 6, REFUSED + 8, REFUSED + 9, REFUSED + 10, REFUSED + 11, WORDS + 1, WORDS + 2, WORDS + 5];
    assert_eq!(Vec::from_iter(tally.keys().copied()), answers, "{tally:?}");
    assert!(tally.values().all(|&often| often > 20), "{tally:?}");
}

/// Every state that some calls of a move lead to, by one list of calls, and from there every call; and then on to the close, worker by worker.
/// How many states there are.
fn every_call(random: &mut Rng, model: Model, crew: u32, homes: Homes, old: &[u64], new: usize) -> usize {
    let record = Move::open(model, crew.into(), homes, old, &vec![0; new]).expect("a sound table and room for its labels");
    let every: Vec<Call> = (0..=crew).flat_map(|worker| [order(worker, 0), turn(worker)]).chain([close()]).collect();
    let expected = laid(homes, new, old);
    let mut seen = HashSet::from([(record.clone(), vec![0; new])]);
    let mut open = VecDeque::from([(record, vec![0; new], Vec::new())]);
    while let Some((record, cells, calls)) = open.pop_front() {
        for &call in &every {
            let (mut record, mut cells, mut calls) = (record.clone(), cells.clone(), calls.clone());
            reference_move_call(model, &mut record, old, &mut cells, call);
            calls.push(call);
            if seen.insert((record.clone(), cells.clone())) {
                open.push_back((record.clone(), cells.clone(), calls.clone()));
            }
            while record.open {
                let busy = (0..crew).find(|&worker| record.workers[worker as usize] != Task::IDLE);
                let call = match busy {
                    Some(worker) => turn(worker),
                    None if record.next < old.len() => order(0, 0),
                    None => close(),
                };
                reference_move_call(model, &mut record, old, &mut cells, call);
                calls.push(call);
            }
            assert_eq!(same(random, model, crew, homes, old, new, &calls).cells, expected);
        }
    }
    seen.len()
}

fn every_state_and_every_call(model: Model) {
    let random = &mut Rng::new(8);
    let mut states = 0;
    for (crew, labels, old, new) in [
        (2, &[3, 4, 8, 13][..], 5, 5),
        (2, &[3, 8], 5, 3),
        (2, &[2, 5, 8], 4, 6),
        (2, &[6, 13], 3, 7),
        (3, &[4, 9, 14], 4, 5),
        (3, &[3, 4, 8, 13], 5, 6),
        (3, &[1, 2], 3, 3),
        (4, &[7], 3, 2),
        (2, &[], 3, 2),
    ] {
        let set: Prices = labels.iter().map(|&label| (label, price(random))).collect();
        for homes in [Homes::PLAIN, homes(random)] {
            states += every_call(random, model, crew, homes, &layout(homes, old, &set), new);
        }
    }
    assert!(states > 5000, "{states} states");
}

/// Calls of any sequence, many of them refused: from few to more than a move has.
fn random_lists_of_calls(model: Model) {
    let random = &mut Rng::new(9);
    let mut tally = BTreeMap::<u64, usize>::new();
    let mut ended = 0;
    for _ in 0..20_000 {
        let cells = fewer_cells(random, model);
        let homes = homes(random);
        let old = table(random, homes, cells);
        let new = new_cells(random, &old, model.max_cells);
        let crew = random.within(1, model.max_workers);
        let mut calls = some_calls(random, crew, 10 * cells);
        // some go on to the end, and past it
        if random.once_in(4) {
            calls.clear();
            for call in dealt_move(model, crew as u32, homes, &old, new, || random.below(crew) as u32) {
                calls.extend(some_calls(random, crew, 2).into_iter().filter(|call| call.op == 2));
                calls.push(call);
            }
            calls.extend(some_calls(random, crew, 5));
        }
        let left = same(random, model, crew as u32, homes, &old, new, &calls);
        ended += usize::from(left.answers.last() == Some(&(REFUSED + 11)));
        for answer in left.answers {
            *tally.entry(answer).or_default() += 1;
        }
    }
    let answers = [0, REFUSED + 6, REFUSED + 8, REFUSED + 9, REFUSED + 10, REFUSED + 11, WORDS + 1, WORDS + 2, WORDS + 5];
    assert_eq!(Vec::from_iter(tally.keys().copied()), answers, "{tally:?}");
    assert!(tally.values().all(|&often| often > 500) && ended > 500, "{tally:?} {ended}");
}

// ---- whole moves

/// Sound tables of all kinds into larger tables, tables as large and smaller ones.
fn whole_moves(model: Model) {
    let random = &mut Rng::new(10);
    let (mut larger, mut smaller) = (0, 0);
    for _ in 0..10_000 {
        let cells = fewer_cells(random, model);
        let homes = homes(random);
        // now and then all at home in the last cell of the new table
        let old = match random.once_in(8) {
            true => {
                let at_end = (1..).map(|turn| label_with(homes, (2 * turn * cells - 1) as u32)).filter(|&label| label > 0);
                layout(homes, cells, &at_end.take((cells - 1).min(50)).map(|label| (label, price(random))).collect())
            }
            false => table(random, homes, cells),
        };
        let new = if random.once_in(4) { (2 * cells).min(model.max_cells) } else { new_cells(random, &old, model.max_cells) };
        moved(random, model, homes, &old, new);
        larger += usize::from(new > cells);
        smaller += usize::from(new < cells);
    }
    assert!(larger > 2000 && smaller > 1000, "{larger} larger, {smaller} smaller");
}

/// Tables of test numbers and others, from one cell more than there are labels on.
fn test_numbers_are_moved(model: Model) {
    let random = &mut Rng::new(15);
    assert_eq!(moved(random, model, Homes::PLAIN, &cells([u32::MAX, 0, 0, 0, 0]), 7), cells([0, 0, 0, u32::MAX, 0, 0, 0]));
    for _ in 0..2000 {
        let cells = random.within(2, 30);
        let homes = homes(random);
        let mut set = Prices::new();
        for _ in 0..random.below(cells) {
            let label = if random.once_in(4) { 1 + random.below(3 * cells) as u32 } else { test_label(random) };
            set.insert(label, price(random));
        }
        let new = random.within(2.max(set.len() + 1), 2 * cells);
        let left = moved(random, model, homes, &layout(homes, cells, &set), new);
        assert_eq!(least_prices(left), set);
    }
}

/// A moved table is checked, counted and listed as any other, its labels are found at their prices, and shifts open on it and close.
fn moved_tables_in_other_calls(model: Model) {
    let random = &mut Rng::new(11);
    for _ in 0..2000 {
        let cells = fewer_cells(random, model);
        let homes = homes(random);
        let old = table(random, homes, cells);
        let new = new_cells(random, &old, model.max_cells);
        let mut left = moved(random, model, homes, &old, new);
        let labels = labels_of(&old);
        assert_eq!(check(model, homes, &left), Ok(()));
        assert_eq!(count(model, homes, &left), Ok(labels.len()));
        let mut out = vec![0; labels.len()];
        assert_eq!(list(model, homes, &left, &mut out), Ok(labels.len()));
        assert_eq!(least_prices(out), least_prices(old.iter().copied()));
        // each label looked up, and some taken out
        for (kind, taken) in [(LOOK_UP, &labels[..]), (TAKE_OUT, &labels[..labels.len() / 2]), (PUT_IN, &[])] {
            let before = left.clone();
            for &label in taken.iter().take(30) {
                let calls: Vec<Call> = [order(0, label)].into_iter().chain((0..4 * new + 9).map(|_| turn(0))).chain([close()]).collect();
                let mut answers = vec![0; calls.len()];
                assert_eq!(Calls::of(&calls).run(model, kind.into(), 1, homes, &mut left, &Orders::of(&[]), &mut answers), 0);
                let finished = answers.iter().find(|&&answer| ![0, WORDS + 1].contains(&answer));
                let price = old.iter().find(|&&cell| label_of(cell) == label).map(|&cell| u64::from(price_of(cell)));
                assert_eq!(finished.copied(), if kind == LOOK_UP { price } else { Some(WORDS + 2) });
            }
            let ordered: Vec<(u32, u32)> = taken.iter().take(30).map(|&label| (label, 0)).collect();
            assert_eq!(left, closed(kind, homes, &before, &ordered));
        }
    }
}

/// From table to table, of any lengths, and back to the first length: the first table.
fn moved_on_and_back(model: Model) {
    let random = &mut Rng::new(12);
    for _ in 0..2000 {
        let cells = fewer_cells(random, model);
        let homes = homes(random);
        let first = table(random, homes, cells);
        let mut old = first.clone();
        for _ in 0..random.within(1, 3) {
            let new = new_cells(random, &old, model.max_cells);
            old = moved(random, model, homes, &old, new);
        }
        assert_eq!(moved(random, model, homes, &old, cells), first);
    }
}

/// The same moves in both models.
#[test]
fn both_models_alike() {
    let random = &mut Rng::new(13);
    for _ in 0..5000 {
        let cells = fewer_cells(random, KIOSK);
        let homes = homes(random);
        let old = if random.once_in(4) { returned(random, homes, cells) } else { table(random, homes, cells) };
        let mut new = vec![0; new_cells(random, &old, 256)];
        if random.once_in(8) {
            unfit(random, &old, &mut new);
        }
        let crew = random.within(1, 4);
        let calls = some_calls(random, crew, 200);
        let [gateway, kiosk] = MODELS.map(|model| same_moves(random, model, crew as u64, homes, &old, &new, &calls));
        assert_eq!(gateway, kiosk);
    }
}

/// As many cells, labels and workers as there may be; half of the labels from half of the cells and to half of them; and no label at all.
fn the_greatest_moves(model: Model) {
    let random = &mut Rng::new(14);
    let (most, crew) = (model.max_cells, model.max_workers as u32);
    for homes in [Homes::PLAIN, homes(random)] {
        let mut set = Prices::new();
        while set.len() < most - 1 {
            set.insert(random.within(1, u32::MAX as usize) as u32, price(random));
        }
        let half: Prices = set.iter().step_by(2).map(|(&label, &price)| (label, price)).take(most / 2 - 1).collect();
        for (set, old, new) in [(set, most, most), (half.clone(), most / 2, most), (half, most, most / 2), (Prices::new(), most, 2)] {
            let old = layout(homes, old, &set);
            assert_eq!(moved(random, model, homes, &old, new).len(), new);
            // one worker after the other, all of them
            let mut turns = (0..crew).cycle();
            let calls = dealt_move(model, crew, homes, &old, new, || turns.next().expect("round and round"));
            assert_eq!(same(random, model, crew, homes, &old, new, &calls).cells, laid(homes, new, &old));
        }
    }
}
