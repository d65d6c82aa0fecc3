//! Point 2 of document 02, sentence by sentence: full only when it is full.

use std::collections::BTreeSet;

use reference::generate::{orders, spoil, Rng};
use reference::layout::{content, label_of, layout, Homes, Prices};
use reference::model::GATEWAY;
use reference::phase::{Activity, Answer, Order, Phase};
use reference::sheet::replay_bytes;

fn order(worker: u32, label: u32, price: u32) -> Order {
    Order {
        worker,
        label,
        price,
    }
}

/// The answer of a put-in opening.
fn opens(count: u64, table: &[u64], list: &[Order]) -> Result<(), u8> {
    Phase::open(GATEWAY, 1, count, Homes::PLAIN, table, list).map(|_| ())
}

/// Gives every line of the list in turn, runs each to its end and closes.
fn work(count: u64, table: &mut [u64], list: &[Order]) {
    let mut phase = Phase::open(GATEWAY, 1, count, Homes::PLAIN, table, list).unwrap();
    for (line, order) in (0..).zip(list) {
        phase.order(GATEWAY, list, line, 0, 0).unwrap();
        while phase.turn(GATEWAY, table, order.worker.into()).unwrap() == Answer::WentOn {}
    }
    phase.close(GATEWAY).unwrap();
}

// ---- opening

/// 1, 2, 3, 16, 4, the lines, 9; all that come later are due too.
#[test]
fn openings_refuse_in_order() {
    let long = vec![order(9, 0, 0); 65_537];
    let unsound = [content(1, 1), content(1, 1)];
    for kind in [0, 1] {
        assert_eq!(
            Phase::open(GATEWAY, kind, 0, Homes::PLAIN, &unsound[..1], &long),
            Err(1)
        );
        assert_eq!(
            Phase::open(GATEWAY, kind, 0, Homes::PLAIN, &unsound, &long),
            Err(2)
        );
    }
    assert_eq!(
        Phase::open(GATEWAY, 0, 1, Homes::PLAIN, &unsound, &long),
        Err(3)
    );
    assert_eq!(
        Phase::open(GATEWAY, 4, 1, Homes::PLAIN, &unsound, &long),
        Err(3)
    );
    assert_eq!(opens(1, &unsound, &long), Err(16));
    assert_eq!(opens(1, &unsound, &long[1..]), Err(4));
    // Every bad line comes before 9, though the table is full without it.
    let table = [0, content(7, 1)];
    let full = [order(0, 1, 1), order(0, 2, 1), order(0, 3, 1)];
    for (bad, number) in [
        (order(9, 0, 0), 7),
        (order(9, 5, 0), 14),
        (order(9, 5, 1), 6),
    ] {
        for place in 0..=full.len() {
            let mut list = full.to_vec();
            list.insert(place, bad);
            assert_eq!(opens(1, &table, &list), Err(number));
        }
    }
    assert_eq!(opens(1, &table, &full), Err(9));
}

/// Each line for 7, 14 and then 6 (24 behind 7: point 10), the earliest line deciding.
#[test]
fn the_earliest_bad_line_decides() {
    let bad = [
        (order(9, 0, 0), 7),
        (order(0, 0, 1), 7),
        (order(9, 5, 0), 14),
        (order(0, 5, 10_000_000), 14),
        (order(2, 5, 1), 6),
        (order(u32::MAX, 5, 1), 6),
    ];
    for (first, number) in bad {
        for (second, _) in bad {
            let list = [order(1, 3, 2), first, order(0, 4, 2), second];
            assert_eq!(opens(2, &[0; 9], &list), Err(number));
            assert_eq!(opens(2, &[0; 2], &list), Err(number));
        }
    }
}

/// The labels of table and list together, each counted once, against a count
/// by a set; bad lines at random places.
#[test]
fn random_openings() {
    let mut answers = [0; 25];
    for seed in 0..40_000 {
        let rng = &mut Rng::new(seed);
        let n = rng.within(2, 12);
        let labels = match rng.once_in(2) {
            true => n - 1,
            false => rng.below(n),
        };
        let mut set = Prices::new();
        while set.len() < labels {
            set.insert(rng.within(1, 2 * n) as u32, 1);
        }
        let table = layout(Homes::PLAIN, n, &set);
        let crew = rng.within(1, 16);
        let mut list = orders(rng, &table, crew, 2 * n);
        if !list.is_empty() && rng.once_in(6) {
            for _ in 0..rng.within(1, 2) {
                let place = rng.below(list.len());
                spoil(rng, &mut list[place], crew);
            }
        }
        let faults = list.iter().map(|order| match *order {
            Order { label: 0, .. } => 7,
            Order {
                label: 4_000_000_000..,
                ..
            } => 24,
            Order { price: 0, .. } => 14,
            Order { price, .. } if price > 9_999_999 => 14,
            Order { worker, .. } if worker as usize >= crew => 6,
            _ => 0,
        });
        let together: BTreeSet<u32> = set
            .into_keys()
            .chain(list.iter().map(|order| order.label))
            .collect();
        let full = if together.len() >= n { 9 } else { 0 };
        let expected = faults.chain([full]).find(|&fault| fault != 0).unwrap_or(0);
        let answer = Phase::open(GATEWAY, 1, crew as u64, Homes::PLAIN, &table, &list);
        assert_eq!(answer.map_or_else(|number| number, |_| 0), expected);
        answers[expected as usize] += 1;
    }
    for number in [0, 6, 7, 9, 14, 24] {
        assert!(answers[number] > 500, "{number}: {answers:?}");
    }
}

#[test]
fn two_cells_with_7() {
    let table = [0, content(7, 5)];
    for list in [&[][..], &[order(0, 7, 1)], &[order(0, 7, 9); 3]] {
        assert_eq!(opens(1, &table, list), Ok(()));
    }
    for label in [1, 2, 6, 8, 3_999_999_999] {
        assert_eq!(opens(1, &table, &[order(0, label, 1)]), Err(9));
        let both = [order(0, 7, 1), order(0, label, 1)];
        assert_eq!(opens(1, &table, &both), Err(9));
        assert_eq!(opens(1, &[0, 0], &[order(0, label, 1); 2]), Ok(()));
        assert_eq!(opens(1, &[0, 0], &both), Err(9));
    }
}

/// The grocer: one empty cell, and the entire assortment sent again.
#[test]
fn the_assortment_sent_again() {
    for n in [2, 5, 64, 300, 8192] {
        let labels: Vec<u32> = (1..n).map(|i| i * 77).collect();
        let opening: Prices = labels
            .iter()
            .map(|&label| (label, 100 + label % 9))
            .collect();
        let mut table = layout(Homes::PLAIN, n as usize, &opening);
        assert_eq!(table.iter().filter(|&&cell| cell == 0).count(), 1);
        let list: Vec<Order> = (0..)
            .zip(labels.iter().rev())
            .map(|(i, &label)| order(i % 16, label, 104))
            .collect();
        let mut list_and_new = list.clone();
        list_and_new.insert(n as usize / 2, order(0, 76, 1));
        assert_eq!(opens(16, &table, &list_and_new), Err(9));
        work(16, &mut table, &list);
        let lower = |(label, price): (u32, u32)| (label, price.min(104));
        let expected = opening.into_iter().map(lower).collect();
        assert_eq!(table, layout(Homes::PLAIN, n as usize, &expected));
    }
}

/// New labels up to the last but one cell, each many times; one more is 9.
#[test]
fn repeats_count_once() {
    for n in 2..20u32 {
        for old in 0..n {
            let opening: Prices = (1..=old).map(|label| (label, 3)).collect();
            let table = layout(Homes::PLAIN, n as usize, &opening);
            let mut list: Vec<Order> = (0..5)
                .flat_map(|_| (1..n).map(|l| order(0, l, 2)))
                .collect();
            assert_eq!(opens(1, &table, &list), Ok(()));
            list.push(order(0, n, 2));
            assert_eq!(opens(1, &table, &list), Err(9));
        }
    }
}

#[test]
fn the_longest_list() {
    let mut list = vec![order(0, 7, 9); 65_536];
    list[65_535].price = 4;
    let mut table = [0, 0];
    let mut phase = Phase::open(GATEWAY, 1, 1, Homes::PLAIN, &table, &list).unwrap();
    assert_eq!(phase.order(GATEWAY, &list, 65_536, 0, 0), Err(15));
    assert_eq!(phase.order(GATEWAY, &list, 65_535, 0, 0), Ok(()));
    while phase.turn(GATEWAY, &mut table, 0).unwrap() == Answer::WentOn {}
    assert_eq!(table, [0, content(7, 4)]);
    list[65_535].label = 8;
    assert_eq!(opens(1, &[0, 0], &list), Err(9));
    list[65_535].worker = 1;
    assert_eq!(opens(1, &[0, 0], &list), Err(6));
    list.push(order(0, 7, 1));
    assert_eq!(opens(1, &[0, 0], &list), Err(16));
    assert_eq!(opens(1, &[1, 1], &list), Err(16));
    for kind in [2, 3] {
        assert!(Phase::open(GATEWAY, kind, 1, Homes::PLAIN, &[0, 0], &list).is_ok());
        assert_eq!(
            Phase::open(GATEWAY, kind, 1, Homes::PLAIN, &[1, 1], &list),
            Err(4)
        );
    }
}

/// Kinds 2 and 3 neither read nor refuse the list, nor the line number.
#[test]
fn other_kinds_read_no_list() {
    let table = [content(4, 3), 0];
    let lists = [
        vec![],
        vec![order(0, 4, 1)],
        vec![order(9, 0, 0)],
        vec![order(0, 5, 1), order(0, 6, 1)],
        vec![order(9, 0, 0); 65_537],
    ];
    for kind in [2, 3] {
        let plain = Phase::open(GATEWAY, kind, 1, Homes::PLAIN, &table, &[]).unwrap();
        let mut ordered = plain.clone();
        ordered.order(GATEWAY, &[], 0, 0, 4).unwrap();
        for list in &lists {
            assert_eq!(
                Phase::open(GATEWAY, kind, 1, Homes::PLAIN, &table, list),
                Ok(plain.clone())
            );
            for line in [0, 1, 65_537, u64::MAX] {
                let mut phase = plain.clone();
                assert_eq!(phase.order(GATEWAY, list, line, 1, 4), Err(6));
                assert_eq!(phase.order(GATEWAY, list, line, 0, 0), Err(7));
                assert_eq!(phase.order(GATEWAY, list, line, 0, 4), Ok(()));
                assert_eq!(phase, ordered);
                assert_eq!(phase.order(GATEWAY, list, line, 0, 4), Err(8));
            }
        }
    }
}

// ---- order

/// 13, 11, 15, 6, 8, 7, 14 (24 behind 7: point 10); all that can be due later are. The worker and the
/// label handed in aren't read.
#[test]
fn order_refuses_in_order() {
    let list = [
        order(0, 5, 1),
        order(2, 0, 0),
        order(0, 0, 0),
        order(1, 0, 0),
        order(1, 5, 0),
    ];
    let mut phase = Phase::open(GATEWAY, 1, 2, Homes::PLAIN, &[0, 0], &list[..1]).unwrap();
    let unread = [(0, 0), (0, 5), (1, 5), (9, 0), (u64::MAX, 7)];
    let refused = |phase: &Phase, line: u64, number: u8| {
        for (worker, label) in unread {
            let mut same = phase.clone();
            assert_eq!(same.order(GATEWAY, &list, line, worker, label), Err(number));
            assert_eq!(same, *phase);
        }
    };
    assert_eq!(phase.order(GATEWAY, &list, 0, 1, 9), Ok(()));
    let busy = Activity::ReadingOn {
        entry: content(5, 1),
        cell: 1,
    };
    assert_eq!(phase.workers[0], busy);
    for line in [5, 6, 1 << 32, u64::MAX] {
        refused(&phase, line, 15);
    }
    for (line, number) in [(1, 6), (2, 8), (3, 7), (4, 14), (0, 8)] {
        refused(&phase, line, number);
    }
    let mut table = [0, 0];
    while phase.turn(GATEWAY, &mut table, 0).unwrap() == Answer::WentOn {}
    phase.close(GATEWAY).unwrap();
    let mut spoilt = phase.clone();
    spoilt.length = 1;
    for line in 0..7 {
        refused(&phase, line, 11);
        refused(&spoilt, line, 13);
    }
}

#[test]
fn a_line_given_twice() {
    let list = [order(0, 8, 6), order(1, 8, 6), order(0, 3, 2)];
    let mut table = [0; 5];
    let mut phase = Phase::open(GATEWAY, 1, 2, Homes::PLAIN, &table, &list).unwrap();
    for _ in 0..3 {
        assert_eq!(phase.order(GATEWAY, &list, 0, 0, 0), Ok(()));
        assert_eq!(phase.order(GATEWAY, &list, 0, 0, 0), Err(8));
        assert_eq!(phase.order(GATEWAY, &list, 2, 0, 0), Err(8));
        assert_eq!(phase.order(GATEWAY, &list, 1, 0, 0), Ok(()));
        while !phase.all_idle() {
            phase.turn(GATEWAY, &mut table, 1).unwrap();
            phase.turn(GATEWAY, &mut table, 0).unwrap();
        }
        assert_eq!(table, [0, 0, 0, content(8, 6), 0]);
    }
    // A line may also never be given.
    phase.close(GATEWAY).unwrap();
    assert_eq!(table, [0, 0, 0, content(8, 6), 0]);
}

/// The list of an order call may be another one than that of the opening: its
/// line is checked afresh, and what is ordered is what it says.
#[test]
fn an_altered_list() {
    let opened = [order(0, 8, 6)];
    let phase = Phase::open(GATEWAY, 1, 2, Homes::PLAIN, &[0; 5], &opened).unwrap();
    let mut other = phase.clone();
    assert_eq!(other.order(GATEWAY, &[], 0, 0, 8), Err(15));
    assert_eq!(other.order(GATEWAY, &[order(2, 8, 6)], 0, 0, 8), Err(6));
    assert_eq!(other.order(GATEWAY, &[order(0, 0, 6)], 0, 0, 8), Err(7));
    assert_eq!(other.order(GATEWAY, &[order(0, 8, 0)], 0, 0, 8), Err(14));
    assert_eq!(other, phase);
    // Longer than any opening takes.
    let mut long = vec![order(9, 0, 0); 70_000];
    long[69_999] = order(1, 4, 7);
    assert_eq!(other.order(GATEWAY, &long, 69_999, 0, 8), Ok(()));
    let altered = Activity::ReadingOn {
        entry: content(4, 7),
        cell: 4,
    };
    assert_eq!(other.workers[1], altered);
}

/// The record keeps nothing of the list: 13 has no bound for it.
#[test]
fn no_count_of_orders() {
    let list = [order(0, 8, 6), order(0, 3, 2)];
    let phase = Phase::open(GATEWAY, 1, 1, Homes::PLAIN, &[0; 5], &list);
    assert_eq!(
        phase,
        Phase::open(GATEWAY, 1, 1, Homes::PLAIN, &[0; 5], &[])
    );
    let mut table = [0, 0];
    let mut phase = Phase::open(GATEWAY, 1, 1, Homes::PLAIN, &table, &list[..1]).unwrap();
    for _ in 0..1000 {
        phase.order(GATEWAY, &list, 0, 0, 0).unwrap();
        while phase.turn(GATEWAY, &mut table, 0).unwrap() == Answer::WentOn {}
        assert!(!phase.is_spoilt(GATEWAY));
    }
    assert_eq!(table.map(label_of), [8, 0]);
}

// ---- the sheet

/// Spaces stand for tabs.
fn replay(sheet: &str) -> String {
    let sheet = sheet.replace(' ', "\t");
    String::from_utf8(replay_bytes(sheet.as_bytes()))
        .unwrap()
        .replace('\t', " ")
}

/// Lines beside their answers, parted by a bar.
fn shown(lines: &[&str]) {
    let sheet: Vec<&str> = lines
        .iter()
        .map(|l| l.split(" | ").next().unwrap())
        .collect();
    let answers: String = (1..)
        .zip(lines)
        .filter_map(|(i, l)| Some(format!("{i} {}\n", l.split_once(" | ")?.1)))
        .collect();
    assert_eq!(replay(&sheet.join("\n")), answers);
}

/// Fields of an order by the kind of the shift.
#[test]
fn fields_of_an_order() {
    let fourth = |kind: u32, order: &str| {
        let printed = replay(&format!(
            "cells 5\nitem 0 1 1\nopen {kind} 1 1 0\n{order}\nlist\n"
        ));
        printed.lines().nth(3).unwrap().to_string()
    };
    for (order, put_in, other) in [
        ("order 0", "4 ok", "4 bad"),
        ("order 1", "4 refused 15", "4 bad"),
        ("order 4294967295", "4 refused 15", "4 bad"),
        ("order 0 1", "4 bad", "4 ok"),
        ("order 0 0", "4 bad", "4 refused 7"),
        ("order 1 1", "4 bad", "4 refused 6"),
        ("order 0 1 1", "4 bad", "4 bad"),
        ("order", "4 bad", "4 bad"),
        ("order ", "4 bad", "4 bad"),
        ("order 00", "4 bad", "4 bad"),
        ("order 0 ", "4 bad", "4 bad"),
        ("order 9 00", "4 bad", "4 bad"),
        ("order 4294967296", "4 bad", "4 bad"),
        ("order 0 4294967296", "4 bad", "4 bad"),
    ] {
        assert_eq!(fourth(1, order), put_in, "{order}");
        assert_eq!(fourth(2, order), other, "{order}");
        assert_eq!(fourth(3, order), other, "{order}");
        // In a shut shift all of them are refused with 11.
        assert_eq!(replay(order), "1 refused 11\n");
    }
}

/// Items last until the close of a put-in shift and are gone after it.
#[test]
fn items_kept_and_cleared() {
    shown(&[
        "item 1 8 4 | ok",
        "open 1 2 1 0 | refused 1",
        "cells 2 | ok",
        "item 0 3 9 | ok",
        "open 1 2 1 0 | refused 9",
        "open 1 17 1 0 | refused 2",
        "open 4 1 1 0 | refused 3",
        "open 2 1 1 0 | ok",
        "order 0 8 | ok",
        "run | done",
        "close | ok",
        "cells 5 | ok",
        "open 3 1 1 0 | ok",
        "close | ok",
        "cells 1 | refused 1",
        "open 1 1 1 0 | refused 6",
        "open 1 2 1 0 | ok",
        "order 2 | refused 15",
        "order 1 | ok",
        "order 0 | ok",
        "close | refused 10",
        "order 0 | refused 8",
        "run | done done",
        "order 0 | ok",
        "run | - done",
        "close | ok",
        "list | 2 8 4 3 9",
        "open 1 2 1 0 | ok",
        "order 0 | refused 15",
        "close | ok",
        "item 0 13 1 | ok",
        "open 1 1 1 0 | ok",
        "order 1 | refused 15",
        "order 0 | ok",
        "run | done",
        "close | ok",
        "list | 3 3 9 13 1 8 4",
    ]);
}

/// Items are numbers, no more; what they say is checked when a shift opens.
#[test]
fn items_of_any_numbers() {
    for (item, answer) in [
        ("item 0 0 0", "refused 7"),
        ("item 4294967295 0 4294967295", "refused 7"),
        ("item 4294967295 4294967295 4294967295", "refused 24"),
        ("item 4294967295 3999999999 4294967295", "refused 14"),
        ("item 4294967295 3999999999 9999999", "refused 6"),
        ("item 0 3999999999 9999999", "ok"),
    ] {
        let printed = replay(&format!("{item}\ncells 5\nopen 1 1 1 0\n"));
        assert_eq!(printed, format!("1 ok\n2 ok\n3 {answer}\n"));
    }
}

#[test]
fn items_in_an_open_shift() {
    for kind in 1..=3 {
        for item in ["item 0 1 1", "item 0 0 0", "item"] {
            let sheet = format!("cells 5\nopen {kind} 1 1 0\n{item}\nlist\n");
            assert_eq!(replay(&sheet), "1 ok\n2 ok\n3 bad\n");
        }
    }
}

/// 1,024 items are taken, also around openings and tables; one more is bad.
#[test]
fn the_most_items() {
    let items = "item 0 7 1\n".repeat(512);
    let full = format!("{items}cells 5\nopen 3 1 1 0\nclose\n{items}");
    let printed = replay(&format!(
        "{full}open 1 1 1 0\norder 1023\norder 1024\nrun\nclose\n"
    ));
    let last: Vec<&str> = printed.lines().skip(1027).collect();
    assert_eq!(
        last,
        [
            "1028 ok",
            "1029 ok",
            "1030 refused 15",
            "1031 done",
            "1032 ok"
        ]
    );
    assert!(printed.lines().take(1027).all(|line| line.ends_with(" ok")));
    let more = replay(&format!("{full}item 0 7 1\nlist\n"));
    assert_eq!(more.lines().count(), 1028);
    assert!(more.ends_with("\n1027 ok\n1028 bad\n"));
    // After the close the next list starts afresh.
    let again = replay(&format!(
        "{full}open 1 1 1 0\nclose\n{items}{items}item 0 7 1\n"
    ));
    assert!(again.ends_with("\n2053 ok\n2054 bad\n"));
}
