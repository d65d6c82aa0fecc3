//! Point 8 of document 02, sentence by sentence: reply rounds.

use std::collections::{BTreeMap, BTreeSet};

use reference::generate::round::replies;
use reference::generate::{
    all_lists, even_homes, homes, labels_of, later, orders, other_homes, overwrite, price,
    returned, shop_label, spoil, table, Rng,
};
use reference::layout::{content, is_sound, label_of, layout, price_of, soundness, Homes};
use reference::model::{Model, GATEWAY, KIOSK};
use reference::phase::Order;
use reference::refusal;
use reference::round::{close, open, Reply};

const BOTH: [Model; 2] = [GATEWAY, KIOSK];

/// Both models, each with its most cells and workers.
const LIMITS: [(Model, usize, u64); 2] = [(GATEWAY, 8192, 16), (KIOSK, 256, 4)];

fn line(worker: u32, label: u32, price: u32) -> Order {
    Order {
        worker,
        label,
        price,
    }
}

fn reply(worker: u32, label: u32) -> Reply {
    Reply { worker, label }
}

/// Contents of these labels at price 1; 0 is an empty cell.
fn cells<const N: usize>(labels: [u32; N]) -> [u64; N] {
    labels.map(|label| content(label, label.min(1)))
}

/// The table that an opening leaves; a refused one leaves it as it was.
fn opened(
    model: Model,
    count: u64,
    homes: Homes,
    table: &[u64],
    sent: &[Order],
) -> Result<Vec<u64>, u8> {
    let mut left = table.to_vec();
    let answer = open(model, count, homes, &mut left, sent);
    assert!(answer.is_ok() || left == table, "a refusal wrote");
    answer.map(|()| left)
}

/// What a closing leaves: the table, the replies' answers and the list.
#[derive(Clone, Debug, PartialEq, Eq)]
struct Closed {
    table: Vec<u64>,
    answers: Vec<u32>,
    listed: Vec<u64>,
}

/// A closing with so many answer places and a list of so many places: a refusal
/// changes nothing, and places behind the answers and the list keep their
/// contents, which differ from place to place.
fn closed_into(
    model: Model,
    count: u64,
    homes: Homes,
    table: &[u64],
    replies: &[Reply],
    (places, room): (usize, usize),
) -> Result<Closed, u8> {
    let before = Closed {
        table: table.to_vec(),
        answers: (0..places as u32).map(|place| 1000 + place).collect(),
        listed: (0..room as u64).map(|place| u64::MAX - place).collect(),
    };
    let mut left = before.clone();
    let answer = close(
        model,
        count,
        homes,
        &mut left.table,
        replies,
        &mut left.answers,
        &mut left.listed,
    );
    let Ok(listed) = answer else {
        assert!(left == before, "a refusal wrote");
        return Err(answer.unwrap_err());
    };
    assert_eq!(
        left.answers[replies.len()..],
        before.answers[replies.len()..]
    );
    assert_eq!(left.listed[listed..], before.listed[listed..]);
    left.answers.truncate(replies.len());
    left.listed.truncate(listed);
    Ok(left)
}

/// A closing with places enough and some more.
fn closed(
    model: Model,
    count: u64,
    homes: Homes,
    table: &[u64],
    replies: &[Reply],
) -> Result<Closed, u8> {
    let enough = (replies.len() + 3, table.len() + 3);
    closed_into(model, count, homes, table, replies, enough)
}

// ---- the paper's words, without a shift

/// The number that an opening on so many cells is refused with, or 0.
fn fault_at_opening(model: Model, count: u64, homes: Homes, cells: usize, sent: &[Order]) -> u8 {
    let (_, most_cells, most_workers) = LIMITS[usize::from(model == KIOSK)];
    if cells < 2 || cells > most_cells {
        return 1;
    }
    if count < 1 || count > most_workers {
        return 2;
    }
    if homes.a.is_multiple_of(2) {
        return 21;
    }
    if sent.len() > 65_536 {
        return 16;
    }
    let of_line = |line: &Order| match *line {
        Order { label: 0, .. } => 7,
        Order {
            label: 4_000_000_000..,
            ..
        } => 24,
        Order {
            price: 0 | 10_000_000..,
            ..
        } => 14,
        Order { worker, .. } if u64::from(worker) >= count => 6,
        _ => 0,
    };
    let labels: BTreeSet<u32> = sent.iter().map(|line| line.label).collect();
    match sent.iter().map(of_line).find(|&number| number != 0) {
        Some(number) => number,
        None if labels.len() >= cells => 9,
        None => 0,
    }
}

/// The layout of the labels sent, each at the least price sent for it.
fn filled(homes: Homes, cells: usize, sent: &[Order]) -> Vec<u64> {
    let mut entries: Vec<(u32, u32)> = sent.iter().map(|line| (line.label, line.price)).collect();
    entries.sort_unstable();
    entries.dedup_by_key(|entry| entry.0);
    layout(homes, cells, &entries.into_iter().collect())
}

/// What a closing that isn't refused leaves.
fn settled(count: u64, homes: Homes, table: &[u64], replies: &[Reply]) -> Closed {
    let standing: BTreeMap<u32, u32> = table
        .iter()
        .filter(|&&cell| cell != 0)
        .map(|&cell| (label_of(cell), price_of(cell)))
        .collect();
    let answer = |reply: &Reply| match *reply {
        Reply { label: 0, .. } => 7,
        Reply { worker, .. } if u64::from(worker) >= count => 6,
        Reply { label, .. } if !standing.contains_key(&label) => 22,
        _ => 0,
    };
    let answers: Vec<u32> = replies.iter().map(answer).collect();
    let mut left = standing.clone();
    for (reply, _) in replies.iter().zip(&answers).filter(|(_, &said)| said == 0) {
        left.remove(&reply.label);
    }
    let table = layout(homes, table.len(), &left);
    let listed = table.iter().copied().filter(|&cell| cell != 0).collect();
    Closed {
        table,
        answers,
        listed,
    }
}

#[test]
fn the_number() {
    assert_eq!(refusal::ABSENT, 22);
}

/// Document 01's labels sent, one reply by another worker than at the opening.
#[test]
fn an_example() {
    for model in BOTH {
        let sent = [3, 8, 13, 4].map(|label| line(label % 2, label, 1));
        let table = opened(model, 2, Homes::PLAIN, &[0; 5], &sent).unwrap();
        assert_eq!(table, cells([4, 3, 0, 13, 8]));
        assert_eq!(
            closed(model, 1, Homes::PLAIN, &table, &[reply(0, 8), reply(0, 9)]),
            Ok(Closed {
                table: cells([3, 0, 0, 13, 4]).to_vec(),
                answers: vec![0, 22],
                listed: cells([3, 13, 4]).to_vec(),
            })
        );
    }
}

// ---- "A round opens with the list sent, checked as by a put-in opening on an
// empty table"

#[test]
fn openings_at_the_limits() {
    for (model, most_cells, most_workers) in LIMITS {
        for length in [0, 1, 2, 255, 256, 257, 8191, 8192, 8193, 10_000] {
            for count in [0, 1, 3, 4, 5, 16, 17, 1 << 32, 1 << 32 | 1, u64::MAX] {
                for a in [0, 1, 2, u32::MAX - 1, u32::MAX] {
                    let table = vec![content(7, 1); length];
                    let answer = opened(model, count, Homes { a, b: 5 }, &table, &[]);
                    let expected = match a % 2 {
                        _ if length < 2 || length > most_cells => Err(1),
                        _ if count < 1 || count > most_workers => Err(2),
                        0 => Err(21),
                        _ => Ok(vec![0; length]),
                    };
                    assert_eq!(answer, expected, "{length} {count} {a}");
                }
            }
        }
    }
}

#[test]
fn openings_refuse_in_order() {
    let even = Homes { a: 2, b: 0 };
    let long = vec![line(9, 0, 0); 65_537];
    let full = [line(0, 1, 1), line(0, 2, 1), line(0, 3, 1)];
    let bad = [(line(9, 0, 0), 7), (line(9, 5, 0), 14), (line(9, 5, 1), 6)];
    for (model, most_cells, most_workers) in LIMITS {
        // None of these tables would open a shift.
        for stands in [0, 1, content(1, 1), content(5, 0)] {
            let refused = |length: usize, count, homes, sent: &[Order]| {
                let table = vec![stands; length];
                opened(model, count, homes, &table, sent).unwrap_err()
            };
            for homes in [even, Homes::PLAIN] {
                for length in [1, most_cells + 1] {
                    assert_eq!(refused(length, 0, homes, &long), 1);
                }
                for count in [0, most_workers + 1] {
                    assert_eq!(refused(2, count, homes, &long), 2);
                }
            }
            assert_eq!(refused(2, 1, even, &long), 21);
            assert_eq!(refused(2, 1, even, &full), 21);
            assert_eq!(refused(2, 1, Homes::PLAIN, &long), 16);
            assert_eq!(refused(2, 1, Homes::PLAIN, &long[1..]), 7);
            for (first, number) in bad {
                assert_eq!(refused(2, 1, even, &[first]), 21);
                for (second, _) in bad {
                    for place in 0..=full.len() {
                        let mut sent = full.to_vec();
                        sent.insert(place, first);
                        sent.push(second);
                        assert_eq!(refused(2, 1, Homes::PLAIN, &sent), number);
                        assert_eq!(refused(100, 1, Homes::PLAIN, &sent), number);
                    }
                }
            }
            assert_eq!(refused(2, 1, Homes::PLAIN, &full), 9);
            assert_eq!(refused(3, 1, Homes::PLAIN, &full), 9);
        }
    }
}

/// Fewer labels than cells, each counted once, however often it is sent.
#[test]
fn as_many_labels_as_there_is_room() {
    for (model, most_cells, most_workers) in LIMITS {
        for length in [2, 3, 5, 64, 256, most_cells] {
            let label = |i: usize| line((i as u64 % most_workers) as u32, 1 + i as u32, 9);
            let mut sent: Vec<Order> = (0..length - 1).map(label).collect();
            for _ in 0..3 {
                sent.push(line(0, 1, 8));
            }
            let expected = filled(Homes::PLAIN, length, &sent);
            assert_eq!(expected.iter().filter(|&&cell| cell == 0).count(), 1);
            // Labels that stand already don't count.
            for table in [vec![0; length], expected.clone(), vec![u64::MAX; length]] {
                let answer = opened(model, most_workers, Homes::PLAIN, &table, &sent);
                assert_eq!(answer.as_ref(), Ok(&expected));
                sent.push(line(0, length as u32, 1));
                let answer = opened(model, most_workers, Homes::PLAIN, &table, &sent);
                assert_eq!(answer, Err(9));
                sent.pop();
            }
        }
    }
}

#[test]
fn the_longest_list_sent() {
    for model in BOTH {
        let mut sent = vec![line(0, 7, 5); 65_536];
        sent[40_000].price = 3;
        let answer = opened(model, 1, Homes::PLAIN, &[9, 9, 9], &sent);
        assert_eq!(answer, Ok(vec![0, content(7, 3), 0]));
        sent.push(line(0, 7, 5));
        assert_eq!(opened(model, 1, Homes::PLAIN, &[9, 9, 9], &sent), Err(16));
    }
}

// ---- "the lent table is then emptied and filled by one shift"

#[test]
fn an_empty_list_sent() {
    for model in BOTH {
        for table in [[0; 3], cells([3, 1, 5]), [1, 2, 3], [u64::MAX; 3]] {
            let left = opened(model, 1, Homes::PLAIN, &table, &[]).unwrap();
            assert_eq!(left, [0; 3]);
            let nobody = [reply(0, 3), reply(0, 1)];
            let closed = closed(model, 1, Homes::PLAIN, &left, &nobody).unwrap();
            assert_eq!(closed.table, [0; 3]);
            assert_eq!((closed.answers, closed.listed), (vec![22, 22], vec![]));
        }
    }
}

#[test]
fn the_least_price_sent() {
    for model in BOTH {
        let prices = [7, 3, 9_999_999, 3, 8];
        for list in all_lists(4, &prices) {
            let sent: Vec<Order> = (0..).zip(&list).map(|(i, &p)| line(i, 8, p)).collect();
            let left = opened(model, 4, Homes::PLAIN, &[0; 5], &sent).unwrap();
            let least = list.into_iter().min().unwrap();
            assert_eq!(left, [0, 0, 0, content(8, least), 0]);
        }
    }
}

/// Any table lent, any list and any crew: the paper's number, or the layout.
#[test]
fn random_openings() {
    let mut seen = BTreeMap::<u8, usize>::new();
    for seed in 0..40_000 {
        let rng = &mut Rng::new(seed);
        let (model, most_cells, most_workers) = rng.pick(&LIMITS);
        let n = match rng.below(500) {
            0 => most_cells - 1 + rng.below(3),
            1..=9 => rng.within(250, 260),
            _ => rng.within(2, 20),
        };
        let mut homes = homes(rng);
        let crew = rng.within(1, most_workers as usize);
        let lent = returned(rng, homes, n);
        // Labels of the lent table among them, or only new ones.
        let of = match rng.once_in(2) {
            true => table(rng, homes, n),
            false => vec![0; n],
        };
        let mut sent = orders(rng, &of, crew, 3 * n);
        if !sent.is_empty() && rng.once_in(6) {
            for _ in 0..rng.within(1, 2) {
                let place = rng.below(sent.len());
                spoil(rng, &mut sent[place], crew);
            }
        }
        let count = match rng.once_in(10) {
            true => rng.pick(&[0, most_workers + 1, 1 << 32 | 1]),
            false => crew as u64,
        };
        if rng.once_in(10) {
            homes = even_homes(rng);
        }
        let number = fault_at_opening(model, count, homes, n, &sent);
        *seen.entry(number).or_default() += 1;
        let expected = match number {
            0 => Ok(filled(homes, n, &sent)),
            _ => Err(number),
        };
        let answer = opened(model, count, homes, &lent, &sent);
        assert_eq!(answer, expected, "seed {seed}");
    }
    let numbers: Vec<u8> = seen.keys().copied().collect();
    assert_eq!(numbers, [0, 1, 2, 6, 7, 9, 14, 21, 24], "{seen:?}");
    assert!(seen.values().all(|&often| often > 20), "{seen:?}");
    assert!(seen[&0] > 15_000, "{seen:?}");
}

// ---- "those that pass 7 and 6 are looked up in one shift, those found are taken
// out in the next, and what is left is listed as List does"

#[test]
fn a_repeated_reply_is_accepted_each_time() {
    for model in BOTH {
        let table = cells([4, 3, 0, 13, 8]);
        let replies = [0, 1, 2, 0, 1, 2, 2].map(|worker| reply(worker, 13));
        let closed = closed(model, 3, Homes::PLAIN, &table, &replies).unwrap();
        assert_eq!(closed.answers, [0; 7]);
        assert_eq!(closed.table, cells([3, 0, 0, 8, 4]));
        assert_eq!(closed.listed, cells([3, 8, 4]));
    }
}

#[test]
fn no_replies() {
    for model in BOTH {
        let table = [
            content(4, 5),
            content(3, 9),
            0,
            content(13, 1),
            content(8, 7),
        ];
        for count in 1..=4 {
            let closed = closed(model, count, Homes::PLAIN, &table, &[]).unwrap();
            assert_eq!(closed.table, table);
            assert_eq!(closed.answers, []);
            assert_eq!(
                closed.listed,
                [content(4, 5), content(3, 9), content(13, 1), content(8, 7)]
            );
        }
    }
}

#[test]
fn every_label_replied() {
    for model in BOTH {
        let table = cells([4, 3, 0, 13, 8]);
        for list in all_lists(4, &[3, 4, 8, 13]) {
            let replies: Vec<Reply> = (0..).zip(&list).map(|(i, &l)| reply(i, l)).collect();
            let closed = closed(model, 4, Homes::PLAIN, &table, &replies).unwrap();
            assert_eq!(closed.answers, [0; 4]);
            let distinct: BTreeSet<u32> = list.into_iter().collect();
            assert_eq!(closed.listed.len(), 4 - distinct.len());
            assert_eq!(closed.table == [0; 5], distinct.len() == 4);
        }
    }
}

/// All lists of up to three replies, good ones and others, to every table of
/// three cells and some labels.
#[test]
fn all_small_closings() {
    let one: Vec<Reply> = (0..3)
        .flat_map(|worker| (0..5).map(move |label| reply(worker, label)))
        .collect();
    for homes in [
        Homes::PLAIN,
        Homes {
            a: 0x3333_3333,
            b: 1,
        },
    ] {
        for set in 0..16 {
            let labels = (1..=4).filter(|label| set >> (label - 1) & 1 == 1);
            let set: BTreeMap<u32, u32> = labels.map(|label| (label, 10 + label)).collect();
            if set.len() > 2 {
                continue;
            }
            let table = layout(homes, 3, &set);
            for length in 0..=3 {
                for replies in all_lists(length, &one) {
                    let expected = settled(2, homes, &table, &replies);
                    assert_eq!(closed(KIOSK, 2, homes, &table, &replies), Ok(expected));
                }
            }
        }
    }
}

/// A round drawn at random, in a model with so many cells; the workers of the
/// opening and those of the closing differ.
struct Round {
    cells: usize,
    homes: Homes,
    sent: Vec<Order>,
    opening: u64,
    closing: u64,
}

fn round(rng: &mut Rng, cells: usize, most_workers: u64) -> Round {
    let homes = homes(rng);
    let crew = rng.within(1, most_workers as usize);
    let of = match rng.once_in(2) {
        true => table(rng, homes, cells),
        false => vec![0; cells],
    };
    let mut sent = orders(rng, &of, crew, 3 * cells);
    while fault_at_opening(GATEWAY, crew as u64, homes, cells, &sent) == 9 {
        sent.pop();
    }
    // The same labels again, at other prices.
    for _ in 0..rng.below(sent.len() + 1) {
        let again = rng.pick(&sent);
        sent.push(line(rng.below(crew) as u32, again.label, price(rng)));
    }
    Round {
        cells,
        homes,
        sent,
        opening: crew as u64,
        closing: rng.within(1, most_workers as usize) as u64,
    }
}

/// A round of a small table mostly.
fn some_round(rng: &mut Rng, most_cells: usize, most_workers: u64) -> Round {
    let cells = match rng.below(1000) {
        0 => most_cells - rng.below(2),
        1..=40 => rng.within(250, 256),
        _ => rng.within(2, 20),
    };
    round(rng, cells, most_workers)
}

// ---- "every label sent has an accepted reply or is listed, never both", "the
// number of distinct labels sent equals the distinct labels so replied plus the
// labels listed"

#[test]
fn replied_or_listed() {
    let mut seen = BTreeMap::<u32, usize>::new();
    for seed in 0..10_000 {
        let rng = &mut Rng::new(seed);
        let (model, most_cells, most_workers) = rng.pick(&LIMITS);
        let round = some_round(rng, most_cells, most_workers);
        let lent = vec![rng.draw(); round.cells];
        let table = opened(model, round.opening, round.homes, &lent, &round.sent).unwrap();
        assert_eq!(table, filled(round.homes, round.cells, &round.sent));
        let replies = replies(rng, &table, round.closing as usize, 3 * round.cells);
        let closed = closed(model, round.closing, round.homes, &table, &replies).unwrap();
        let labels: BTreeSet<u32> = round.sent.iter().map(|line| line.label).collect();
        let replied: BTreeSet<u32> = replies
            .iter()
            .zip(&closed.answers)
            .filter(|(_, &answer)| answer == 0)
            .map(|(reply, _)| reply.label)
            .collect();
        let listed: BTreeSet<u32> = closed.listed.iter().map(|&cell| label_of(cell)).collect();
        for label in &labels {
            let (replied, listed) = (replied.contains(label), listed.contains(label));
            assert!(replied != listed, "label {label}, seed {seed}");
        }
        assert_eq!(labels.len(), replied.len() + closed.listed.len());
        // A reply that counts is accepted if its label was sent.
        for (reply, &answer) in replies.iter().zip(&closed.answers) {
            *seen.entry(answer).or_default() += 1;
            let counts = reply.label != 0 && u64::from(reply.worker) < round.closing;
            assert_eq!(answer == 0, counts && labels.contains(&reply.label));
        }
        assert_eq!(
            closed,
            settled(round.closing, round.homes, &table, &replies),
            "seed {seed}"
        );
    }
    let numbers: Vec<u32> = seen.keys().copied().collect();
    assert_eq!(numbers, [0, 6, 7, 22], "{seen:?}");
    assert!(seen.values().all(|&often| often > 2000), "{seen:?}");
}

/// The same round in both models.
#[test]
fn both_models_alike() {
    for seed in 0..2000 {
        let rng = &mut Rng::new(seed);
        let round = some_round(rng, 256, 4);
        let lent = vec![7; round.cells];
        let [gateway, kiosk] =
            BOTH.map(|model| opened(model, round.opening, round.homes, &lent, &round.sent));
        assert_eq!(gateway, kiosk);
        let table = kiosk.unwrap();
        let replies = replies(rng, &table, round.closing as usize, 3 * round.cells);
        let [gateway, kiosk] =
            BOTH.map(|model| closed(model, round.closing, round.homes, &table, &replies));
        assert_eq!(gateway, kiosk);
    }
}

/// As many cells, labels and workers as there may be, and more replies than a
/// list sent may have lines.
#[test]
fn the_greatest_rounds() {
    for (model, most_cells, most_workers) in LIMITS {
        for homes in [
            Homes::PLAIN,
            Homes {
                a: 2_654_435_769,
                b: 7,
            },
        ] {
            let rng = &mut Rng::new(most_cells as u64);
            let mut labels = BTreeSet::new();
            while labels.len() < most_cells - 1 {
                labels.insert(shop_label(rng));
            }
            let labels: Vec<u32> = labels.into_iter().collect();
            let worker = |i: usize| (i as u64 % most_workers) as u32;
            let mut sent: Vec<Order> = labels.iter().map(|&l| line(0, l, price(rng))).collect();
            while sent.len() < 65_536 {
                sent.push(line(0, rng.pick(&labels), price(rng)));
            }
            rng.shuffle(&mut sent);
            for (i, line) in sent.iter_mut().enumerate() {
                line.worker = worker(i);
            }
            let table = vec![u64::MAX; most_cells];
            let table = opened(model, most_workers, homes, &table, &sent).unwrap();
            assert_eq!(table, filled(homes, most_cells, &sent));
            let (replied, silent) = labels.split_at(labels.len() - 100);
            let replies: Vec<Reply> = (0..66_000)
                .map(|i| reply(worker(i), replied[i % replied.len()]))
                .collect();
            let closed = closed(model, most_workers, homes, &table, &replies).unwrap();
            assert_eq!(closed, settled(most_workers, homes, &table, &replies));
            assert_eq!(closed.listed.len(), silent.len());
            assert!(closed.answers.iter().all(|&answer| answer == 0));
        }
    }
}

// ---- "If table, a and b come back as the opening left them"

/// Written over in between: refused as by check, or another sound table, and the
/// answers are by what was lent.
#[test]
fn another_table_comes_back() {
    let mut seen = BTreeMap::<u8, usize>::new();
    for seed in 0..20_000 {
        let rng = &mut Rng::new(seed);
        let (model, _, most_workers) = rng.pick(&LIMITS);
        let n = rng.within(2, 30);
        let round = round(rng, n, most_workers);
        let own = round.homes;
        let mut table = opened(model, round.opening, own, &vec![0; n], &round.sent).unwrap();
        let mut homes = own;
        match rng.below(4) {
            0 => table = returned(rng, own, n),
            1 => table = later(rng, own, &table),
            2 => homes = other_homes(rng, own, n),
            _ => overwrite(rng, &mut table),
        }
        let mut replies = replies(rng, &table, round.closing as usize, 3 * n);
        for line in round.sent.iter().take(5) {
            replies.push(reply(0, line.label));
        }
        let answer = closed(model, round.closing, homes, &table, &replies);
        let number = soundness(homes, &table).err().unwrap_or(0);
        *seen.entry(number).or_default() += 1;
        let expected = match number {
            0 => Ok(settled(round.closing, homes, &table, &replies)),
            _ => Err(number),
        };
        assert_eq!(answer, expected, "seed {seed}");
    }
    let numbers: Vec<u8> = seen.keys().copied().collect();
    assert_eq!(numbers, [0, 4, 17, 18], "{seen:?}");
    assert!(seen.values().all(|&often| often > 1000), "{seen:?}");
}

/// One label taken out and another put in between the calls.
#[test]
fn answers_by_the_lent_table() {
    for model in BOTH {
        let sent = [3, 8, 13, 4].map(|label| line(0, label, 1));
        let table = opened(model, 1, Homes::PLAIN, &[0; 5], &sent).unwrap();
        assert_eq!(table, cells([4, 3, 0, 13, 8]));
        let altered = cells([4, 3, 0, 13, 9]);
        assert!(is_sound(Homes::PLAIN, &altered));
        let replies = [8, 9, 13].map(|label| reply(0, label));
        assert_eq!(
            closed(model, 1, Homes::PLAIN, &altered, &replies),
            Ok(Closed {
                table: cells([0, 0, 0, 3, 4]).to_vec(),
                answers: vec![22, 0, 0],
                listed: cells([3, 4]).to_vec(),
            })
        );
    }
}

// ---- "Each reply has its own answer, 0 if accepted, else its number; answer
// places past the replies keep their contents", "It refuses with 22 a reply whose
// label isn't in the lent table, after 7 and 6 for that reply."

#[test]
fn each_reply_has_its_own_answer() {
    for model in BOTH {
        let table = cells([4, 3, 0, 13, 8]);
        let (mut left, mut answers, mut lent) = (table, [77; 9], [78; 6]);
        let replies = [
            reply(0, 13),
            reply(0, 0),
            reply(2, 0),
            reply(2, 3),
            reply(u32::MAX, 5),
            reply(1, 5),
            reply(1, 13),
        ];
        let answer = close(
            model,
            2,
            Homes::PLAIN,
            &mut left,
            &replies,
            &mut answers,
            &mut lent,
        );
        assert_eq!(answer, Ok(3));
        assert_eq!(left, cells([3, 0, 0, 8, 4]));
        assert_eq!(answers, [0, 7, 7, 6, 6, 22, 0, 77, 77]);
        let [a, b, c] = cells([3, 8, 4]);
        assert_eq!(lent, [a, b, c, 78, 78, 78]);
    }
}

/// A worker of the opening is none of a smaller crew at the closing.
#[test]
fn fewer_workers_at_the_closing() {
    for model in BOTH {
        let sent = [line(3, 3, 1), line(2, 8, 1)];
        let table = opened(model, 4, Homes::PLAIN, &[0; 5], &sent).unwrap();
        for (count, answers) in [(1, [6, 6]), (2, [6, 6]), (3, [6, 0]), (4, [0, 0])] {
            let replies = [reply(3, 3), reply(2, 8)];
            let closed = closed(model, count, Homes::PLAIN, &table, &replies).unwrap();
            assert_eq!(closed.answers, answers);
            let silent = answers.iter().filter(|&&answer| answer != 0).count();
            assert_eq!(closed.listed.len(), silent);
        }
    }
}

// ---- "Closing checks 1, 2, 21, 4 and 12"

#[test]
fn closings_at_the_limits() {
    for (model, most_cells, most_workers) in LIMITS {
        for length in [0, 1, 2, 255, 256, 257, 8191, 8192, 8193, 10_000] {
            for count in [0, 1, 3, 4, 5, 16, 17, 1 << 32, 1 << 32 | 1, u64::MAX] {
                for a in [0, 1, 2, u32::MAX - 1, u32::MAX] {
                    let homes = Homes { a, b: 5 };
                    let number = match a % 2 {
                        _ if length < 2 || length > most_cells => 1,
                        _ if count < 1 || count > most_workers => 2,
                        0 => 21,
                        _ => 0,
                    };
                    // Unsound, sound, and sound with a place for answers too few.
                    let full = vec![content(7, 1); length];
                    let answer = closed(model, count, homes, &full, &[]);
                    assert_eq!(answer, Err(if number == 0 { 4 } else { number }));
                    let empty = vec![0; length];
                    let answer = closed(model, count, homes, &empty, &[reply(0, 7)]);
                    assert_eq!(answer.is_ok(), number == 0);
                    assert!(number == 0 || answer == Err(number));
                    let short = closed_into(model, count, homes, &empty, &[reply(0, 7)], (0, 0));
                    assert_eq!(short, Err(if number == 0 { 12 } else { number }));
                }
            }
        }
    }
}

#[test]
fn closings_refuse_in_order() {
    let one = |labels| cells::<3>(labels).to_vec();
    let replies = [reply(9, 0), reply(0, 5)];
    for (model, most_cells, most_workers) in LIMITS {
        for (unsound, number) in [
            (vec![content(1, 1); 3], 4),
            (vec![0, 0, 1], 4),
            (vec![0, content(1, 0), 0], 4),
            (vec![0, content(1, 10_000_000), 0], 4),
            (one([1, 0, 0]), 17),
            (one([0, 1, 4]), 18),
        ] {
            let long: Vec<u64> = unsound
                .iter()
                .copied()
                .cycle()
                .take(most_cells + 1)
                .collect();
            for places in [(0, 0), (1, 3), (2, 0), (2, 3)] {
                let refused = |table: &[u64], count, a| {
                    let homes = Homes { a, b: 0 };
                    closed_into(model, count, homes, table, &replies, places).unwrap_err()
                };
                for a in [1, 2] {
                    assert_eq!(refused(&unsound[..1], 0, a), 1);
                    assert_eq!(refused(&long, 0, a), 1);
                    assert_eq!(refused(&unsound, 0, a), 2);
                    assert_eq!(refused(&unsound, most_workers + 1, a), 2);
                }
                assert_eq!(refused(&unsound, 1, 2), 21);
                assert_eq!(refused(&unsound, 1, 1), number);
            }
        }
        let sound = one([0, 4, 1]);
        for places in [(0, 0), (1, 1), (1, 2), (2, 1), (9, 1), (1, 9)] {
            let refused = |homes| closed_into(model, 1, homes, &sound, &replies, places);
            assert_eq!(refused(Homes { a: 2, b: 0 }), Err(21));
            assert_eq!(refused(Homes::PLAIN), Err(12));
        }
        for places in [(2, 2), (2, 9), (9, 2)] {
            let answer = closed_into(model, 1, Homes::PLAIN, &sound, &replies, places);
            assert_eq!(answer.map(|closed| closed.answers), Ok(vec![7, 22]));
        }
    }
}

// ---- "12, the last for a list shorter than the lent table's label count or
// fewer answer places than replies"

/// By the labels lent, however many replies are accepted, and by the replies,
/// however many are refused.
#[test]
fn places_to_spare_and_one_too_few() {
    for seed in 0..4000 {
        let rng = &mut Rng::new(seed);
        let (model, _, most_workers) = rng.pick(&LIMITS);
        let n = rng.within(2, 20);
        let homes = homes(rng);
        let crew = rng.within(1, most_workers as usize);
        let table = table(rng, homes, n);
        let mut replies = replies(rng, &table, crew, 3 * n);
        if rng.once_in(4) {
            replies = labels_of(&table).into_iter().map(|l| reply(0, l)).collect();
        }
        let labels = labels_of(&table).len();
        let expected = settled(crew as u64, homes, &table, &replies);
        for places in replies.len().saturating_sub(1)..replies.len() + 2 {
            for room in labels.saturating_sub(1)..labels + 2 {
                let count = crew as u64;
                let answer = closed_into(model, count, homes, &table, &replies, (places, room));
                if places < replies.len() || room < labels {
                    assert_eq!(answer, Err(12), "seed {seed}");
                } else {
                    assert_eq!(answer.as_ref(), Ok(&expected), "seed {seed}");
                }
            }
        }
    }
}
