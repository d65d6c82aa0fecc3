//! Reply rounds opened and closed by the library and by the reference, in both models: on sound, damaged and other tables, with lists of every
//! refusal, and with lists and places of many lengths.

use std::collections::{BTreeMap, BTreeSet};

use conformance::trials::{cells, guarded, some_cells, Tally, GUARD, NO_COUNTS};
use conformance::{for_both_models, reference_round_close, reference_round_open, round_close, round_open, Orders, Replies, MODELS};
use reference::generate::round::replies;
use reference::generate::{
    all_lists, even_homes, homes, labels_of, later, orders, other_homes, overwrite, price, returned, shop_label, spoil, table, Rng, WRONG_PRICES,
};
use reference::layout::{content, label_of, layout, Homes, Prices};
use reference::model::Model;
use reference::phase::{Order, FIRST_TEST_LABEL};
use reference::round::Reply;

for_both_models! {
    the_limits,
    openings_refuse_in_order,
    all_small_openings,
    random_openings,
    the_shortest_list_decides,
    long_lists_sent,
    closings_refuse_in_order,
    all_small_closings,
    replies_for_test_numbers,
    random_closings,
    places_to_spare_and_one_too_few,
    many_replies,
    whole_rounds,
    the_greatest_rounds,
}

/// A line of the list sent.
fn line(worker: u32, label: u32, price: u32) -> Order {
    Order { worker, label, price }
}

fn reply(worker: u32, label: u32) -> Reply {
    Reply { worker, label }
}

/// An opening by the library and by the reference: the same answer and the same cells, and a refusal leaves them as they were. The table left.
fn same_opening_of(random: &mut Rng, model: Model, count: u64, homes: Homes, table: &[u64], sent: [&[u32]; 3]) -> Result<Vec<u64>, u8> {
    let before = guarded(table, || random.draw());
    let (mut ours, mut theirs) = (before.clone(), before.clone());
    let answer = reference_round_open(model, count, homes, &mut theirs[..table.len()], sent);
    // told where an answer differs; of a long list the front
    let told = || format!("{model:?}, {count} workers, {homes:?}, {table:?}, {:?}", sent.map(|list| (list.len(), &list[..list.len().min(100)])));
    assert_eq!(round_open(model, count, homes, &mut ours[..table.len()], sent), answer, "{}", told());
    assert!(ours == theirs, "{}: left {ours:?} for {theirs:?}", told());
    assert!(answer.is_ok() || ours == before, "{}: a refusal wrote", told());
    ours.truncate(table.len());
    answer.map(|()| ours)
}

/// The same with three lists of one length.
fn same_opening(random: &mut Rng, model: Model, count: u64, homes: Homes, table: &[u64], sent: &[Order]) -> Result<Vec<u64>, u8> {
    same_opening_of(random, model, count, homes, table, Orders::of(sent).lists())
}

/// What a closing leaves: the table, the answers to the replies and the list.
#[derive(Clone, Debug, PartialEq, Eq)]
struct Left {
    cells: Vec<u64>,
    answers: Vec<u32>,
    out: Vec<u64>,
}

type Close = fn(Model, u64, Homes, &mut [u64], [&[u32]; 2], &mut [u32], &mut [u64]) -> Result<usize, u8>;

/// A closing by the library and by the reference, with so many places for answers and so many for the list, with any numbers in them: the same
/// answer, and the same cells and places afterwards, also those behind; a refusal leaves all as they were.
fn same_closing_of(
    random: &mut Rng,
    model: Model,
    count: u64,
    homes: Homes,
    table: &[u64],
    replies: [&[u32]; 2],
    (places, room): (usize, usize),
) -> Result<Left, u8> {
    let before = Left {
        cells: guarded(table, || random.draw()),
        answers: (0..places + GUARD).map(|_| random.draw() as u32).collect(),
        out: (0..room + GUARD).map(|_| random.draw()).collect(),
    };
    let closed = |close: Close| {
        let mut left = before.clone();
        let answer = close(model, count, homes, &mut left.cells[..table.len()], replies, &mut left.answers[..places], &mut left.out[..room]);
        (answer, left)
    };
    let ((ours, mut left), (theirs, expected)) = (closed(round_close), closed(reference_round_close));
    let told = || {
        let replies = replies.map(|list| (list.len(), &list[..list.len().min(100)]));
        format!("{model:?}, {count} workers, {homes:?}, {table:?}, {replies:?}, {places} and {room} places")
    };
    assert_eq!(ours, theirs, "{}", told());
    assert!(left == expected, "{}: left {left:?} for {expected:?}", told());
    let listed = match ours {
        Err(number) => {
            assert!(left == before, "{}: a refusal wrote", told());
            return Err(number);
        }
        Ok(listed) => listed,
    };
    left.cells.truncate(table.len());
    left.answers.truncate(replies.map(<[u32]>::len).into_iter().min().unwrap_or(0));
    left.out.truncate(listed);
    Ok(left)
}

/// The same with two lists of one length.
fn same_closing(
    random: &mut Rng,
    model: Model,
    count: u64,
    homes: Homes,
    table: &[u64],
    replies: &[Reply],
    places: (usize, usize),
) -> Result<Left, u8> {
    same_closing_of(random, model, count, homes, table, Replies::of(replies).lists(), places)
}

/// A list for a round on so many cells: new labels, with repeats, or all labels of a table and new ones.
fn sent(random: &mut Rng, homes: Homes, cells: usize, crew: usize) -> Vec<Order> {
    let of = if random.once_in(2) { table(random, homes, cells) } else { vec![0; cells] };
    let mut sent = orders(random, &of, crew, 3 * cells);
    for _ in 0..random.below(sent.len() + 1) / 2 {
        let label = random.pick(&sent).label;
        sent.push(line(random.below(crew) as u32, label, price(random)));
    }
    sent
}

// ---- both calls

/// Lengths and crews of both models and just outside, with odd and even a: 1 before 2, 2 before 21, and these before all else.
fn the_limits(model: Model) {
    let random = &mut Rng::new(1);
    let bad = vec![line(99, 0, 0); 3];
    for length in [0, 1, 2, 255, 256, 257, 8191, 8192, 8193, 10_000] {
        for count in (0..=5).chain([15, 16]).chain(NO_COUNTS) {
            for homes in [Homes::PLAIN, homes(random), even_homes(random), Homes { a: u32::MAX - 1, b: u32::MAX }] {
                let number = match homes.a % 2 {
                    _ if !model.is_length(length) => 1,
                    _ if !model.is_crew(count) => 2,
                    0 => 21,
                    _ => 0,
                };
                let due = |behind| Some(if number == 0 { behind } else { number });
                for table in [vec![0; length], vec![content(7, 1); length], vec![1; length]] {
                    let expected = if number == 0 { Ok(vec![0; length]) } else { Err(number) };
                    assert_eq!(same_opening(random, model, count, homes, &table, &[]), expected);
                    assert_eq!(same_opening(random, model, count, homes, &table, &bad).err(), due(7));
                    let replies = [reply(0, 7), reply(99, 7), reply(99, 0)];
                    let sound = length == 0 || table[0] == 0;
                    let closed = same_closing(random, model, count, homes, &table, &replies, (2, 0));
                    assert_eq!(closed.err(), due(if sound { 12 } else { 4 }));
                    let closed = same_closing(random, model, count, homes, &table, &replies, (3, 0));
                    match closed {
                        Ok(left) => assert_eq!((left.answers, left.out), (vec![22, 6, 7], vec![])),
                        Err(refused) => assert_eq!(Some(refused), due(4)),
                    }
                }
            }
        }
    }
}

// ---- openings

/// Each refusal with all that come after it due too, on tables that no shift would open.
fn openings_refuse_in_order(model: Model) {
    let random = &mut Rng::new(2);
    let even = Homes { a: 2, b: 0 };
    let long = vec![line(99, 0, 0); 65_537];
    let full = [line(0, 1, 1), line(0, 2, 1), line(0, 3, 1)];
    let bad = [
        (line(99, 0, 0), 7),
        (line(0, 0, 1), 7),
        (line(99, FIRST_TEST_LABEL, 0), 24),
        (line(0, u32::MAX, 1), 24),
        (line(99, 5, 0), 14),
        (line(0, FIRST_TEST_LABEL - 1, 10_000_000), 14),
        (line(1, 5, 1), 6),
    ];
    for stands in [0, 1, content(1, 1), content(5, 0), u64::MAX] {
        let mut refused = |length: usize, count, homes, sent: &[Order], number| {
            assert_eq!(same_opening(random, model, count, homes, &vec![stands; length], sent), Err(number));
        };
        for homes in [even, Homes::PLAIN] {
            refused(1, 0, homes, &long, 1);
            refused(model.max_cells + 1, 0, homes, &long, 1);
            refused(3, 0, homes, &long, 2);
            refused(3, model.max_workers as u64 + 1, homes, &long, 2);
        }
        refused(3, 1, even, &long, 21);
        refused(3, 1, even, &full, 21);
        refused(3, 1, Homes::PLAIN, &long, 16);
        refused(3, 1, Homes::PLAIN, &long[1..], 7);
        for (first, number) in bad {
            refused(3, 1, even, &[first], 21);
            for (second, _) in bad {
                for place in 0..=full.len() {
                    let mut list = full.to_vec();
                    list.insert(place, first);
                    list.push(second);
                    refused(3, 1, Homes::PLAIN, &list, number);
                    refused(100, 1, Homes::PLAIN, &list, number);
                }
            }
        }
        refused(2, 1, Homes::PLAIN, &full, 9);
        refused(3, 1, Homes::PLAIN, &full, 9);
        for price in WRONG_PRICES {
            refused(3, 1, Homes::PLAIN, &[line(0, 7, price)], 14);
        }
    }
}

/// All lists of up to three lines, good ones and bad, for two to four cells with anything in them.
fn all_small_openings(model: Model) {
    let random = &mut Rng::new(3);
    let mut tally = Tally::default();
    let good = [line(0, 1, 5), line(1, 1, 3), line(0, 4, 9), line(1, 4, 8), line(0, 3, 1), line(0, 8, 1)];
    let bad = [line(0, 0, 1), line(0, FIRST_TEST_LABEL, 1), line(2, 1, 1), line(0, 1, 0)];
    let lines = [&good[..], &bad].concat();
    for cells in 2..=4 {
        for length in 0..=3 {
            for list in all_lists(length, &lines) {
                let homes = if random.once_in(2) { Homes::PLAIN } else { homes(random) };
                let lent = returned(random, homes, cells);
                tally.take(&same_opening(random, model, 2, homes, &lent, &list));
            }
        }
    }
    tally.each(&[0, 6, 7, 9, 14, 24], 100);
}

/// Any table lent, any list, and now and then a wrong crew or a.
fn random_openings(model: Model) {
    let random = &mut Rng::new(4);
    let mut tally = Tally::default();
    for _ in 0..20_000 {
        let cells = some_cells(random, model);
        let mut homes = homes(random);
        let crew = random.within(1, model.max_workers);
        let mut list = sent(random, homes, cells, crew);
        while !list.is_empty() && random.once_in(6) {
            let place = random.below(list.len());
            spoil(random, &mut list[place], crew);
        }
        let mut lent = returned(random, homes, cells);
        if random.once_in(4) {
            lent = (0..cells).map(|_| random.draw()).collect();
        }
        let count = if random.once_in(20) { random.pick(&NO_COUNTS) } else { crew as u64 };
        if random.once_in(20) {
            homes = even_homes(random);
        }
        tally.take(&same_opening(random, model, count, homes, &lent, &list));
    }
    tally.each(&[0, 1, 2, 6, 7, 9, 14, 21, 24], 5);
}

/// Lists of different lengths, of lines and of replies: behind the shortest nothing is read.
fn the_shortest_list_decides(model: Model) {
    let random = &mut Rng::new(5);
    let good = [line(0, 8, 3), line(1, 13, 2), line(0, 8, 1)];
    for more in [line(0, 0, 0), line(0, u32::MAX, 1), line(9, 5, 1), line(0, 1, 1), line(0, 8, 0)] {
        let all = [good[0], good[1], good[2], more, line(0, 2, 1), line(0, 3, 1), line(0, 4, 1)];
        let all_of = Orders::of(&all);
        for lengths in all_lists(3, &[0, 1, 2, 3, 4, 5, 6, 7]) {
            let lists = [0, 1, 2].map(|list| &all_of.lists()[list][..lengths[list]]);
            let shortest = lengths.into_iter().min().expect("three lengths");
            let answer = same_opening_of(random, model, 2, Homes::PLAIN, &[7; 5], lists);
            assert_eq!(answer, same_opening(random, model, 2, Homes::PLAIN, &[7; 5], &all[..shortest]));
        }
    }
    let table = cells([4, 3, 0, 13, 8]);
    let replies = [reply(0, 8), reply(1, 13), reply(2, 4), reply(0, 3), reply(0, 4)];
    let all = Replies::of(&replies);
    for lengths in all_lists(2, &[0, 1, 2, 3, 4, 5]) {
        let lists = [&all.keys[..lengths[0]], &all.workers[..lengths[1]]];
        let shorter = lengths[0].min(lengths[1]);
        // as many answer places as replies are enough, however long the other list is
        for places in shorter..8 {
            let left = same_closing_of(random, model, 2, Homes::PLAIN, &table, lists, (places, 4)).expect("places enough");
            assert_eq!(left.answers, [0, 0, 6, 0, 0][..shorter]);
            assert_eq!(left.out.len(), [4, 3, 2, 2, 1, 0][shorter]);
        }
        if shorter > 0 {
            assert_eq!(same_closing_of(random, model, 2, Homes::PLAIN, &table, lists, (shorter - 1, 4)), Err(12));
        }
    }
}

fn long_lists_sent(model: Model) {
    let random = &mut Rng::new(6);
    let crew = model.max_workers;
    for (length, number) in [(65_535, None), (65_536, None), (65_537, Some(16)), (100_000, Some(16))] {
        let list: Vec<Order> = (0..length).map(|i| line((i % crew) as u32, 1 + (i % 50) as u32, 1 + random.below(99_999) as u32)).collect();
        for cells in [51, 200] {
            let homes = homes(random);
            assert_eq!(same_opening(random, model, crew as u64, homes, &vec![9; cells], &list).err(), number);
        }
        assert_eq!(same_opening(random, model, crew as u64, Homes::PLAIN, &[9; 50], &list).err(), number.or(Some(9)));
        // a bad line at the end
        let mut spoilt = list;
        spoilt[length - 1].price = 0;
        assert_eq!(same_opening(random, model, crew as u64, Homes::PLAIN, &[9; 50], &spoilt).err(), number.or(Some(14)));
    }
}

// ---- closings

/// Each refusal with all that come after it due too.
fn closings_refuse_in_order(model: Model) {
    let random = &mut Rng::new(7);
    let replies = [reply(99, 0), reply(0, 5)];
    let most = model.max_workers as u64;
    for (unsound, number) in [
        ([content(1, 1); 3], 4),
        ([0, 0, 1], 4),
        ([0, content(1, 0), 0], 4),
        ([0, content(1, 10_000_000), 0], 4),
        (cells([1, 0, 0]), 17),
        (cells([0, 1, 4]), 18),
    ] {
        let long: Vec<u64> = unsound.iter().copied().cycle().take(model.max_cells + 1).collect();
        for places in [(0, 0), (1, 3), (2, 0), (2, 3)] {
            let mut refused = |table: &[u64], count, a, number| {
                assert_eq!(same_closing(random, model, count, Homes { a, b: 0 }, table, &replies, places), Err(number));
            };
            for a in [1, 2] {
                refused(&unsound[..1], 0, a, 1);
                refused(&long, 0, a, 1);
                refused(&unsound, 0, a, 2);
                refused(&unsound, most + 1, a, 2);
            }
            refused(&unsound, 1, 2, 21);
            refused(&unsound, 1, 1, number);
        }
    }
    let sound = cells([0, 4, 1]);
    for places in [(0, 0), (1, 1), (1, 2), (2, 1), (9, 1), (1, 9)] {
        assert_eq!(same_closing(random, model, 1, Homes { a: 2, b: 0 }, &sound, &replies, places), Err(21));
        assert_eq!(same_closing(random, model, 1, Homes::PLAIN, &sound, &replies, places), Err(12));
    }
    for places in [(2, 2), (2, 9), (9, 2)] {
        let left = same_closing(random, model, 1, Homes::PLAIN, &sound, &replies, places);
        assert_eq!(left, Ok(Left { cells: sound.to_vec(), answers: vec![7, 22], out: cells([4, 1]).to_vec() }));
    }
}

/// All lists of up to three replies, good ones and others, to every sound table of labels 1 to 4 in two to four cells.
fn all_small_closings(model: Model) {
    let random = &mut Rng::new(8);
    let one: Vec<Reply> = (0..3).flat_map(|worker| (0..5).map(move |label| reply(worker, label))).collect();
    let mut closed = 0;
    for (cells, set) in (2..=4).flat_map(|cells| (0..16).map(move |set| (cells, set))) {
        let set: Prices = (1..=4).filter(|label| set >> (label - 1) & 1 == 1).map(|label| (label, 10 + label)).collect();
        if set.len() >= cells {
            continue;
        }
        let homes = homes(random);
        let table = layout(homes, cells, &set);
        for length in 0..=3 {
            for replies in all_lists(length, &one) {
                let places = (length + random.below(2), set.len() + random.below(2));
                same_closing(random, model, 2, homes, &table, &replies, places).expect("a sound table and places enough");
                closed += 1;
            }
        }
    }
    assert!(closed > 80_000, "{closed} rounds");
}

/// A table that has test numbers: its replies are accepted, others are absent, and what is left is listed.
fn replies_for_test_numbers(model: Model) {
    let random = &mut Rng::new(15);
    let table = cells([u32::MAX, FIRST_TEST_LABEL, 0, 3, 0]);
    let replies = [reply(0, u32::MAX), reply(1, 4_294_967_290), reply(2, u32::MAX), reply(0, 0), reply(1, u32::MAX), reply(1, FIRST_TEST_LABEL - 1)];
    let left = same_closing(random, model, 2, Homes::PLAIN, &table, &replies, (7, 4)).expect("a sound table and places enough");
    assert_eq!(left.answers, [0, 22, 6, 7, 0, 22]);
    assert_eq!((left.cells, left.out), (cells([FIRST_TEST_LABEL, 0, 0, 3, 0]).to_vec(), cells([FIRST_TEST_LABEL, 3]).to_vec()));
}

/// Tables as they come back, sound, torn, full or written over, by their own homes and by others, with any replies, and now and then with a
/// wrong crew, a wrong a or too few places.
fn random_closings(model: Model) {
    let random = &mut Rng::new(9);
    let mut tally = Tally::default();
    let mut answers = BTreeMap::<u32, usize>::new();
    for _ in 0..20_000 {
        let cells = some_cells(random, model);
        let own = homes(random);
        let lent = if random.once_in(2) { table(random, own, cells) } else { returned(random, own, cells) };
        let homes = match random.below(20) {
            0 => even_homes(random),
            1..=3 => other_homes(random, own, cells),
            _ => own,
        };
        let crew = random.within(1, model.max_workers);
        let replies = replies(random, &lent, crew, 3 * cells);
        let count = if random.once_in(20) { random.pick(&NO_COUNTS) } else { crew as u64 };
        let labels = labels_of(&lent).len();
        let places = match random.below(10) {
            0 => (replies.len().saturating_sub(1), labels),
            1 => (replies.len(), labels.saturating_sub(1)),
            _ => (replies.len() + random.below(3), labels + random.below(3)),
        };
        let closed = same_closing(random, model, count, homes, &lent, &replies, places);
        tally.take(&closed);
        for answer in closed.into_iter().flat_map(|left| left.answers) {
            *answers.entry(answer).or_default() += 1;
        }
    }
    tally.each(&[0, 1, 2, 4, 12, 17, 18, 21], 5);
    assert_eq!(Vec::from_iter(answers.keys()), [&0, &6, &7, &22]);
    assert!(answers.values().all(|&often| often > 2000), "{answers:?}");
}

/// One place too few, as many as are needed and one more, in each list; all labels replied for too, so that nothing would be listed.
fn places_to_spare_and_one_too_few(model: Model) {
    let random = &mut Rng::new(10);
    for _ in 0..2000 {
        let cells = random.within(2, 20);
        let homes = homes(random);
        let crew = random.within(1, model.max_workers);
        let table = table(random, homes, cells);
        let labels = labels_of(&table);
        let replies = match random.once_in(4) {
            true => labels.iter().map(|&label| reply(0, label)).collect(),
            false => replies(random, &table, crew, 3 * cells),
        };
        for places in replies.len().saturating_sub(1)..replies.len() + 2 {
            for room in labels.len().saturating_sub(1)..labels.len() + 2 {
                let closed = same_closing(random, model, crew as u64, homes, &table, &replies, (places, room));
                let short = places < replies.len() || room < labels.len();
                assert_eq!(closed.err(), short.then_some(12));
            }
        }
    }
}

/// More replies than a list sent may have lines, one label's and all labels'.
fn many_replies(model: Model) {
    let random = &mut Rng::new(11);
    let crew = model.max_workers;
    for length in [65_535, 65_536, 65_537, 200_000] {
        for labels in [1, 50] {
            let homes = homes(random);
            let set: Prices = (1..=100).map(|label| (label, price(random))).collect();
            let table = layout(homes, 128, &set);
            let replies: Vec<Reply> = (0..length).map(|i| reply((i % crew) as u32, 1 + (i % labels) as u32)).collect();
            let left = same_closing(random, model, crew as u64, homes, &table, &replies, (length, 100)).expect("places enough");
            assert!(left.answers.iter().all(|&answer| answer == 0));
            assert_eq!(left.out.len(), 100 - labels);
        }
    }
}

// ---- whole rounds

/// A list sent, and the replies: every label sent has an accepted reply or is listed, never both. So the numbers of distinct ones add up. Some
/// tables are altered in between, to sound ones or others.
fn whole_rounds(model: Model) {
    let random = &mut Rng::new(12);
    let mut tally = Tally::default();
    for _ in 0..6000 {
        let cells = some_cells(random, model).min(model.max_cells);
        let homes = homes(random);
        let crew = random.within(1, model.max_workers);
        let list = sent(random, homes, cells, crew);
        let lent: Vec<u64> = (0..cells).map(|_| random.draw()).collect();
        let opened = same_opening(random, model, crew as u64, homes, &lent, &list);
        let Ok(mut table) = opened else {
            assert_eq!(opened, Err(9));
            continue;
        };
        let crew = random.within(1, model.max_workers);
        let replies = replies(random, &table, crew, 3 * cells);
        let altered = random.once_in(3);
        match random.once_in(2) {
            true if altered => table = later(random, homes, &table),
            false if altered => overwrite(random, &mut table),
            _ => (),
        }
        let closed = same_closing(random, model, crew as u64, homes, &table, &replies, (replies.len() + 1, cells));
        tally.take(&closed);
        if altered {
            continue;
        }
        let left = closed.expect("the table that the opening left");
        let labels: BTreeSet<u32> = list.iter().map(|line| line.label).collect();
        let accepted = replies.iter().zip(&left.answers).filter(|(_, &answer)| answer == 0);
        let replied: BTreeSet<u32> = accepted.map(|(reply, _)| reply.label).collect();
        let listed: BTreeSet<u32> = left.out.iter().map(|&cell| label_of(cell)).collect();
        assert!(labels.iter().all(|label| replied.contains(label) != listed.contains(label)), "{labels:?} {replied:?} {listed:?}");
        assert_eq!(labels.len(), replied.len() + left.out.len());
    }
    tally.each(&[0, 4, 17, 18], 20);
}

/// The same rounds in both models.
#[test]
fn both_models_alike() {
    let random = &mut Rng::new(13);
    for _ in 0..2000 {
        let cells = if random.once_in(20) { random.within(250, 256) } else { random.within(2, 20) };
        let homes = homes(random);
        let crew = random.within(1, 4);
        let list = sent(random, homes, cells, crew);
        let [gateway, kiosk] = MODELS.map(|model| same_opening(random, model, crew as u64, homes, &vec![7; cells], &list));
        assert_eq!(gateway, kiosk);
        let table = kiosk.unwrap_or_else(|_| returned(random, homes, cells));
        let replies = replies(random, &table, crew, 3 * cells);
        let places = (replies.len(), cells);
        let [gateway, kiosk] = MODELS.map(|model| same_closing(random, model, crew as u64, homes, &table, &replies, places));
        assert_eq!(gateway, kiosk);
    }
}

/// As many cells, labels and workers as there may be, sent as often as there may be lines; hardly anybody and nearly everybody replies.
fn the_greatest_rounds(model: Model) {
    let random = &mut Rng::new(14);
    let (cells, crew) = (model.max_cells, model.max_workers);
    for homes in [Homes::PLAIN, homes(random)] {
        let mut labels = BTreeSet::new();
        while labels.len() < cells - 1 {
            labels.insert(shop_label(random));
        }
        let labels = Vec::from_iter(labels);
        let mut list: Vec<Order> = labels.iter().map(|&label| line(0, label, price(random))).collect();
        list.extend((list.len()..65_536).map(|_| line(0, random.pick(&labels), price(random))));
        random.shuffle(&mut list);
        for (i, line) in list.iter_mut().enumerate() {
            line.worker = (i % crew) as u32;
        }
        let table = same_opening(random, model, crew as u64, homes, &vec![u64::MAX; cells], &list).expect("room for all");
        for replied in [0, 10, cells / 2, cells - 10, cells - 1] {
            let replies: Vec<Reply> = labels[..replied].iter().map(|&label| reply(label % crew as u32, label)).collect();
            let left = same_closing(random, model, crew as u64, homes, &table, &replies, (replied, cells - 1)).expect("places enough");
            assert_eq!(left.out.len(), cells - 1 - replied);
        }
    }
}
