//! What holds after every turn and every close.

use std::collections::HashMap;

use reference::generate::{all_lists, even_homes, homes, other_homes, price, shop_label_with, Rng};
use reference::layout::{
    content, is_sound, label_of, layout, least_prices, soundness, way_is_greater, Homes, Prices,
};
use reference::model::GATEWAY;
use reference::phase::{
    Activity, Answer, Order, Phase, FIRST_TEST_LABEL, LOOK_UP, PUT_IN, TAKE_OUT,
};

fn prices(table: &[u64]) -> Prices {
    least_prices(table.iter().copied())
}

/// The content that a worker carries.
fn entry(activity: Activity) -> Option<u64> {
    match activity {
        Activity::Idle => None,
        Activity::ReadingOn { entry, .. }
        | Activity::Replacing { entry, .. }
        | Activity::WalkingBack { entry, .. }
        | Activity::Seeking { entry, .. } => Some(entry),
    }
}

/// The cell a worker's next turn touches.
fn touched(activity: Activity) -> Option<usize> {
    match activity {
        Activity::Idle => None,
        Activity::ReadingOn { cell, .. }
        | Activity::Replacing { cell, .. }
        | Activity::WalkingBack { cell, .. }
        | Activity::Seeking { cell, .. } => Some(cell),
    }
}

/// The labels and prices a shift should end with. Of an order outside put-in
/// shifts the price doesn't count.
fn expected(kind: u32, opening: &Prices, ordered: &[(u32, u32)]) -> Prices {
    let mut prices = opening.clone();
    for &(label, price) in ordered {
        if kind == PUT_IN {
            let least = prices.entry(label).or_insert(price);
            *least = price.min(*least);
        } else if kind == TAKE_OUT {
            prices.remove(&label);
        }
    }
    prices
}

/// A turn, with what holds of every turn.
fn checked_turn(
    phase: &mut Phase,
    table: &mut [u64],
    worker: usize,
    opening: &Prices,
    ordered: &[(u32, u32)],
) -> Answer {
    let old_phase = phase.clone();
    let old_table = table.to_vec();
    let answer = phase
        .turn(GATEWAY, table, worker as u64)
        .expect("no refusal");
    // At most the touched cell changes; only that worker's record changes.
    let touched = touched(old_phase.workers[worker]);
    for cell in 0..table.len() {
        assert!(table[cell] == old_table[cell] || Some(cell) == touched);
    }
    let mut same = phase.clone();
    same.workers[worker] = old_phase.workers[worker];
    assert_eq!(same, old_phase);
    assert!(!phase.is_spoilt(GATEWAY));
    // The answer fits the record.
    assert_eq!(answer == Answer::Idle, touched.is_none());
    assert_eq!(
        answer == Answer::WentOn,
        phase.workers[worker] != Activity::Idle
    );
    match phase.kind {
        PUT_IN => {
            let greater = |(at, &cell): (usize, &u64)| {
                cell == 0 || way_is_greater(phase.homes, table, label_of(cell), at)
            };
            assert!(table.iter().enumerate().all(greater), "{table:?}");
            assert!(is_sound(phase.homes, table));
            // The table's and the carried labels, and the least prices there.
            let carried = phase.crew().iter().filter_map(|&activity| entry(activity));
            let all = least_prices(table.iter().copied().chain(carried));
            assert_eq!(all, expected(PUT_IN, opening, ordered));
            // A label's price never rises.
            let now = prices(table);
            for (label, price) in prices(&old_table) {
                assert!(now.get(&label).is_none_or(|&now| now <= price));
            }
        }
        // Of the labels to stay, none is ever missing, and no price changes.
        // Ways may be broken, but a cell is empty and none wrong by itself.
        TAKE_OUT => {
            assert_ne!(soundness(phase.homes, table), Err(4), "{table:?}");
            let now = prices(table);
            assert!(now.iter().all(|(label, price)| opening[label] == *price));
            let stay = expected(TAKE_OUT, opening, ordered);
            assert!(stay.keys().all(|label| now.contains_key(label)));
        }
        _ => {
            assert_eq!(table, old_table);
            let label = entry(old_phase.workers[worker]).map(label_of);
            match answer {
                Answer::Price(price) => assert_eq!(opening.get(&label.unwrap()), Some(&price)),
                Answer::No => assert!(!opening.contains_key(&label.unwrap())),
                other => assert_ne!(other, Answer::Finished),
            }
        }
    }
    if phase.kind != LOOK_UP {
        assert!(!matches!(answer, Answer::Price(_) | Answer::No));
    }
    answer
}

/// Of these orders the first whose labels leave a cell empty beside those of
/// the table.
fn room_for(opening: &Prices, n: usize, mut orders: Vec<Order>) -> Vec<Order> {
    let mut labels = opening.clone();
    orders.retain(|order| {
        let fits = labels.len() + 1 < n || labels.contains_key(&order.label);
        if fits {
            labels.insert(order.label, order.price);
        }
        fits
    });
    orders
}

/// Random shifts, one after another on the same table; now and then with other
/// homes, where these open it.
#[test]
fn random_shifts() {
    let (mut closes, mut moved) = (0, 0);
    for seed in 0..6000 {
        let rng = &mut Rng::new(seed);
        let n = rng.within(2, 14);
        let style = rng.below(4);
        let home = rng.below(n) as u32;
        let first_homes = homes(rng);
        let mut homes = first_homes;
        let label = |rng: &mut Rng| match style {
            0 => rng.within(1, 3 * n) as u32,
            1 => FIRST_TEST_LABEL - rng.within(1, 3 * n) as u32,
            2 => 100 * rng.within(1, 2 * n) as u32,
            _ => {
                let value = rng.within(1, 2 * n) as u32 * n as u32 + home;
                shop_label_with(first_homes, n, value)
            }
        };
        let mut table = vec![0; n];
        for _ in 0..8 {
            let kind = rng.pick(&[1, 1, 1, 2, 2, 3]);
            let count = rng.pick(&[1, 2, 2, 3, 4, 5, 16]);
            let opening = prices(&table);
            let other = other_homes(rng, homes, n);
            if rng.once_in(3) && is_sound(other, &table) {
                homes = other;
                moved += usize::from(!opening.is_empty());
            }
            let list = room_for(
                &opening,
                n,
                (0..rng.below(2 * n))
                    .map(|_| Order {
                        worker: rng.below(count) as u32,
                        label: label(rng),
                        price: price(rng),
                    })
                    .collect(),
            );
            let mut phase = Phase::open(GATEWAY, kind, count as u64, homes, &table, &list).unwrap();
            let mut wanted = rng.below(2 * count + n);
            let mut ordered = Vec::new();
            let mut turns = 0;
            while wanted > 0 || !phase.all_idle() {
                let worker = rng.below(count);
                if wanted > 0 && rng.once_in(2) {
                    wanted -= 1;
                    // Any line of the list, any number of times.
                    let line = rng.below(list.len() + 1);
                    let (worker, label, price) = match list.get(line) {
                        Some(order) if kind == 1 => {
                            (order.worker as usize, order.label, order.price)
                        }
                        _ => (worker, label(rng), 0),
                    };
                    let idle = phase.workers[worker] == Activity::Idle;
                    let answer = phase.order(GATEWAY, &list, line as u64, worker as u64, label);
                    if kind == 1 && line == list.len() {
                        assert_eq!(answer, Err(15));
                    } else if idle {
                        assert_eq!(answer, Ok(()));
                        ordered.push((label, price));
                    } else {
                        assert_eq!(answer, Err(8));
                    }
                    continue;
                }
                // Sometimes one worker gets many turns in a row.
                let row = rng.pick(&[1, 1, 1, 2, 5, 20]);
                for _ in 0..row {
                    checked_turn(&mut phase, &mut table, worker, &opening, &ordered);
                }
                turns += row;
                assert!(turns < 1_000_000, "seed {seed} doesn't end");
            }
            phase.close(GATEWAY).unwrap();
            let set = expected(phase.kind, &opening, &ordered);
            assert_eq!(table, layout(homes, n, &set), "seed {seed}");
            closes += 1;
        }
    }
    assert_eq!(closes, 48_000);
    assert!(moved > 4000, "{moved}");
}

/// All interleavings of one shift.
struct Walk {
    n: usize,
    opening: Prices,
    orders: Vec<(u32, u32)>,
    /// Each order for each worker.
    list: Vec<Order>,
    /// States seen: true if wholly explored, false while on the path.
    seen: HashMap<(Vec<u64>, Vec<Activity>, usize), bool>,
    ends: usize,
}

impl Walk {
    /// Explores from a state where the first `given` orders are given.
    fn explore(&mut self, phase: &Phase, table: &[u64], given: usize) {
        let key = (table.to_vec(), phase.crew().to_vec(), given);
        match self.seen.get(&key) {
            Some(true) => return,
            Some(false) => panic!("turns can go round for ever: {key:?}"),
            None => self.seen.insert(key.clone(), false),
        };
        for worker in 0..phase.count {
            let mut phase = phase.clone();
            if phase.workers[worker] == Activity::Idle {
                if given < self.orders.len() {
                    let line = given * phase.count + worker;
                    let label = self.orders[given].0;
                    let answer =
                        phase.order(GATEWAY, &self.list, line as u64, worker as u64, label);
                    answer.unwrap();
                    self.explore(&phase, table, given + 1);
                }
            } else {
                let mut table = table.to_vec();
                let ordered = &self.orders[..given];
                checked_turn(&mut phase, &mut table, worker, &self.opening, ordered);
                self.explore(&phase, &table, given);
            }
        }
        if given == self.orders.len() && phase.all_idle() {
            phase.clone().close(GATEWAY).unwrap();
            let set = expected(phase.kind, &self.opening, &self.orders);
            assert_eq!(table, layout(phase.homes, self.n, &set));
            self.ends += 1;
        }
        self.seen.insert(key, true);
    }
}

fn explore(
    kind: u32,
    count: usize,
    homes: Homes,
    n: usize,
    opening: &Prices,
    orders: &[(u32, u32)],
) {
    let table = layout(homes, n, opening);
    let order = |worker, (label, price)| Order {
        worker,
        label,
        price,
    };
    let list: Vec<Order> = orders
        .iter()
        .flat_map(|&entry| (0..count as u32).map(move |worker| order(worker, entry)))
        .collect();
    let phase = match Phase::open(GATEWAY, kind.into(), count as u64, homes, &table, &list) {
        Ok(phase) => phase,
        Err(number) => {
            assert_eq!(number, 9);
            assert!(expected(kind, opening, orders).len() >= n);
            return;
        }
    };
    let mut walk = Walk {
        n,
        opening: opening.clone(),
        orders: orders.to_vec(),
        list,
        seen: HashMap::new(),
        ends: 0,
    };
    walk.explore(&phase, &table, 0);
    assert!(walk.ends > 0);
}

/// All sets of fewer than `n` of the labels, with the prices in every way.
fn sets(n: usize, labels: &[u32], prices: &[u32]) -> Vec<Prices> {
    let mut sets = vec![Prices::new()];
    for &label in labels {
        for i in 0..sets.len() {
            if sets[i].len() + 1 < n {
                for &price in prices {
                    let mut set = sets[i].clone();
                    set.insert(label, price);
                    sets.push(set);
                }
            }
        }
    }
    sets
}

/// Every table, every two orders, every interleaving of two workers; in put-in
/// shifts with two prices for each, so that they differ, fall, rise and tie.
fn every_two_orders(homes: Homes, n: usize) {
    let labels: Vec<u32> = (1..=2 * n as u32).collect();
    for kind in 1..=3 {
        // A take-out or look-up runs alike for all prices.
        let two: &[u32] = if kind == PUT_IN { &[5, 9] } else { &[5] };
        for opening in sets(n, &labels, two) {
            for &a in &labels {
                for &b in &labels {
                    for &p in two {
                        for &q in two {
                            explore(kind, 2, homes, n, &opening, &[(a, p), (b, q)]);
                        }
                    }
                }
            }
        }
    }
}

#[test]
fn all_interleavings_of_two_orders() {
    for n in 2..=4 {
        every_two_orders(Homes::PLAIN, n);
    }
}

/// The same with homes in other cells: those of 1, 2, 3, .. backwards; by a
/// great a; and four of six labels at one home.
#[test]
fn all_interleavings_with_other_homes() {
    for (a, b, cells) in [
        (u32::MAX, 0, vec![3, 2, 1, 0, 3, 2, 1, 0]),
        (2_654_435_769, 1, vec![1, 0, 0, 2, 1, 1]),
        (0x3333_3333, 1, vec![1, 1, 1, 1, 0, 0]),
    ] {
        let (homes, n) = (Homes { a, b }, cells.len() / 2);
        let home = |label| homes.home(label, n);
        assert_eq!((1..=2 * n as u32).map(home).collect::<Vec<_>>(), cells);
        every_two_orders(homes, n);
    }
}

/// Clusters of one home, three workers, three orders at different prices.
#[test]
fn all_interleavings_of_three_orders() {
    for (n, labels) in [
        (4, vec![3, 7, 11, 4]),
        (4, vec![2, 3, 7, 8]),
        (5, vec![3, 4, 8, 13]),
    ] {
        for opening in sets(n, &labels, &[7]) {
            for kind in 1..=2 {
                for &a in &labels {
                    for &b in labels.iter().filter(|&&b| b >= a) {
                        for &c in labels.iter().filter(|&&c| c >= b) {
                            let orders = [(a, 6), (b, 4), (c, 5)];
                            explore(kind, 3, Homes::PLAIN, n, &opening, &orders);
                        }
                    }
                }
            }
        }
    }
}

/// One label, or two at one home, at up to four prices from three workers.
#[test]
fn all_interleavings_of_prices() {
    for (first, other) in [(8, 8), (8, 13), (13, 8)] {
        let openings = [
            vec![],
            vec![(8, 1)],
            vec![(8, 3)],
            vec![(8, 9)],
            vec![(13, 3)],
            vec![(13, 9)],
        ];
        for opening in openings {
            let opening: Prices = opening.into_iter().collect();
            for p in 1..=4 {
                for q in 1..=4 {
                    for r in 1..=4 {
                        let orders = [(first, p), (8, q), (other, r)];
                        explore(1, 3, Homes::PLAIN, 5, &opening, &orders);
                    }
                }
            }
        }
    }
}

/// The layout is the only sound table with its labels and prices: every table
/// of these contents, some of which no sound table has. So it is for any homes,
/// also by an even a, with which no shift opens.
#[test]
fn one_sound_table_per_set() {
    let odd = [(1, 0), (3, 1), (2_654_435_769, 7), (u32::MAX, u32::MAX)];
    let even = [(0, 0), (0, 2), (2, 1), (u32::MAX - 1, 4)];
    for (a, b) in odd.into_iter().chain(even) {
        one_sound_table(Homes { a, b });
    }
}

fn one_sound_table(homes: Homes) {
    for n in 2..=4usize {
        let most = if n == 4 { 6 } else { 2 * n as u32 };
        let mut right = vec![0];
        for label in 1..=most {
            right.extend([content(label, 1), content(label, 9_999_999)]);
        }
        let mut contents = right.clone();
        if n < 4 {
            contents.extend([1, 9_999_999, content(1, 0), content(2, 10_000_000)]);
        }
        for table in all_lists(n, &contents) {
            let set = prices(&table);
            let right = table.iter().all(|cell| right.contains(cell));
            let laid = set.len() < n && right && table == layout(homes, n, &set);
            assert_eq!(is_sound(homes, &table), laid, "{homes:?} {table:?}");
        }
    }
}

/// Two shifts on one table, with the same a and b and with equal labels and
/// equal least prices ordered, close on one table: another crew, other turns, another sequence, another
/// list, and more orders at prices that aren't lower.
#[test]
fn equal_least_prices_close_alike() {
    let mut more = 0;
    for seed in 0..4000 {
        let rng = &mut Rng::new(seed);
        let n = rng.within(3, 16);
        let homes = homes(rng);
        let label = |rng: &mut Rng| rng.within(1, 2 * n) as u32;
        let opening: Prices = (0..rng.below(n / 2))
            .map(|_| (label(rng), price(rng)))
            .collect();
        let room = n - opening.len() - 1;
        let first: Vec<(u32, u32)> = (0..rng.within(1, room))
            .map(|_| (label(rng), price(rng)))
            .collect();
        let mut second: Vec<(u32, u32)> = expected(PUT_IN, &Prices::new(), &first)
            .into_iter()
            .collect();
        while !rng.once_in(3) {
            let (label, least) = rng.pick(&second);
            let dearer = least + rng.below(3) as u32;
            second.push((label, dearer.min(9_999_999)));
            more += 1;
        }
        rng.shuffle(&mut second);
        let tables = [&first, &second].map(|orders| {
            let mut table = layout(homes, n, &opening);
            let count = rng.within(1, 16);
            let order = |&(label, price): &(u32, u32)| Order {
                worker: rng.below(count) as u32,
                label,
                price,
            };
            let list: Vec<Order> = orders.iter().map(order).collect();
            let mut phase = Phase::open(GATEWAY, 1, count as u64, homes, &table, &list).unwrap();
            let mut given = 0;
            while given < list.len() || !phase.all_idle() {
                if given < list.len() && rng.once_in(2) {
                    // A line whose worker is busy waits.
                    given += usize::from(phase.order(GATEWAY, &list, given as u64, 0, 0).is_ok());
                } else {
                    phase
                        .turn(GATEWAY, &mut table, rng.below(count) as u64)
                        .unwrap();
                }
            }
            phase.close(GATEWAY).unwrap();
            table
        });
        assert_eq!(tables[0], tables[1], "seed {seed}");
        assert_eq!(
            tables[0],
            layout(homes, n, &expected(PUT_IN, &opening, &first))
        );
    }
    assert!(more > 1000);
}

/// Forged records and altered tables, with any a and b: a refusal 13, or a turn
/// that leaves the record unspoilt and changes at most the touched cell.
#[test]
fn forged_records() {
    let mut spoilt = 0;
    for seed in 0..200_000 {
        let rng = &mut Rng::new(seed);
        let n = rng.within(2, 6);
        let any = |rng: &mut Rng| {
            // Also contents without a label or with a wrong price.
            let price = rng.pick(&[0, 0, 1, 2, 9_999_999, 10_000_000, u32::MAX]);
            content(rng.below(3 * n) as u32, price)
        };
        let mut table: Vec<u64> = (0..n).map(|_| any(rng)).collect();
        let mut phase = Phase::shut();
        phase.kind = rng.pick(&[1, 2, 2, 2, 3]);
        phase.length = n;
        phase.count = rng.within(1, 16);
        phase.open = true;
        phase.homes = match rng.once_in(4) {
            true => even_homes(rng),
            false => homes(rng),
        };
        let worker = rng.below(phase.count);
        let cell = |rng: &mut Rng| {
            let past = usize::from(rng.once_in(8));
            rng.below(n + past)
        };
        let entry = any(rng);
        phase.workers[worker] = match rng.below(5) {
            0 => Activity::Idle,
            1 => Activity::ReadingOn {
                entry,
                cell: cell(rng),
            },
            2 => Activity::Replacing {
                entry,
                cell: cell(rng),
                found: any(rng),
                from: cell(rng),
            },
            3 => Activity::WalkingBack {
                entry,
                cell: cell(rng),
            },
            _ => Activity::Seeking {
                entry,
                hole: cell(rng),
                cell: cell(rng),
                taken: match rng.below(2) {
                    0 => None,
                    _ => Some((any(rng), cell(rng))),
                },
            },
        };
        let old = (phase.clone(), table.clone());
        let answer = phase.turn(GATEWAY, &mut table, worker as u64);
        assert_eq!(answer == Err(13), old.0.is_spoilt(GATEWAY));
        if answer.is_err() {
            spoilt += 1;
            assert_eq!((phase, table), old);
            continue;
        }
        assert!(!phase.is_spoilt(GATEWAY));
        let touched = touched(old.0.workers[worker]);
        assert!((0..n).all(|c| table[c] == old.1[c] || Some(c) == touched));
    }
    assert!(spoilt > 20_000 && spoilt < 180_000);
}
