//! Point 3 of document 02, sentence by sentence: three kinds of unsound.

use std::collections::BTreeSet;

use reference::generate::{all_lists, fill, overwrite, returned, table, torn, Rng, WRONG_PRICES};
use reference::layout::{content, layout, soundness, Homes, Prices};
use reference::listing::{check, count, list, list_front};
use reference::model::GATEWAY;
use reference::phase::{Answer, Order, Phase};
use reference::refusal;
use reference::sheet::replay_bytes;

/// Price 1 beside every label.
fn cells<const N: usize>(labels: [u32; N]) -> [u64; N] {
    labels.map(|label| match label {
        0 => 0,
        _ => content(label, 1),
    })
}

fn order(worker: u32, label: u32, price: u32) -> Order {
    Order {
        worker,
        label,
        price,
    }
}

/// Contents that make every table unsound.
fn wrong_contents() -> Vec<u64> {
    let without = [1, 9_999_999, 10_000_000, u32::MAX].map(|price| content(0, price));
    let labelled = WRONG_PRICES.iter().flat_map(|&price| {
        let labels = [1, 5, 8, u32::MAX];
        labels.map(|label| content(label, price))
    });
    without.into_iter().chain(labelled).collect()
}

/// What every call that needs a sound table says of this one: its number, or 0.
/// A refusal keeps all lent places.
fn said(table: &[u64]) -> u8 {
    let answer = check(GATEWAY, Homes::PLAIN, table);
    let number = answer.map_or_else(|number| number, |()| 0);
    assert_eq!(count(GATEWAY, Homes::PLAIN, table).map(|_| ()), answer);
    let lists = [vec![], vec![order(9, 0, 0)], vec![order(0, 1, 1); 3]];
    if number == 0 {
        for kind in 1..=3 {
            assert!(Phase::open(GATEWAY, kind, 1, Homes::PLAIN, table, &[]).is_ok());
        }
        return 0;
    }
    for places in [0, 1, table.len(), table.len() + 3] {
        let mut lent = vec![77; places];
        assert_eq!(list(GATEWAY, Homes::PLAIN, table, &mut lent), Err(number));
        assert!(list_front(GATEWAY, Homes::PLAIN, table, &mut lent).is_empty());
        assert_eq!(lent, vec![77; places]);
    }
    for kind in 1..=3 {
        for list in &lists {
            assert_eq!(
                Phase::open(GATEWAY, kind, 1, Homes::PLAIN, table, list),
                Err(number)
            );
        }
    }
    number
}

#[test]
fn the_numbers() {
    assert_eq!(refusal::UNSOUND, 4);
    assert_eq!(refusal::GAP, 17);
    assert_eq!(refusal::DISORDER, 18);
}

// ---- "Keep 4 for a table without an empty cell"

#[test]
fn a_full_table() {
    // Every label at home; only greater labels on every way; not so.
    assert_eq!(said(&cells([5, 6, 7, 8, 9])), 4);
    assert_eq!(said(&cells([4, 3, 2, 13, 8])), 4);
    assert_eq!(said(&cells([4, 3, 2, 8, 13])), 4);
    assert_eq!(said(&cells([13, 8, 3, 4, 2])), 4);
    assert_eq!(said(&cells([1, 1])), 4);
    assert_eq!(said(&cells([2, 1])), 4);
    assert_eq!(said(&cells([1, 2])), 4);
    // One cell empty, and it isn't full.
    assert_eq!(said(&cells([5, 6, 7, 8, 0])), 0);
    assert_eq!(said(&cells([0, 6, 7, 8, 9])), 0);
    // What has a price but no label isn't empty.
    assert_eq!(said(&[content(2, 1), 1]), 4);
    assert_eq!(said(&[1, 1]), 4);
    let rng = &mut Rng::new(1);
    for n in 2..200 {
        let mut full = table(rng, Homes::PLAIN, n);
        fill(rng, Homes::PLAIN, &mut full);
        assert!(!full.contains(&0));
        assert_eq!(said(&full), 4);
    }
}

// ---- "or with a label 0 beside a price or a price out of range"

/// 4 goes before 17 and 18, whichever cell has the lower number.
#[test]
fn a_wrong_cell() {
    let tables = [
        (cells([0, 0, 0, 0, 0, 0]), 0),
        (cells([12, 6, 0, 3, 0, 5]), 0),
        // Cell 1 breaks the way rule, or cell 4, or both.
        (cells([0, 6, 0, 0, 0, 0]), 17),
        (cells([0, 0, 0, 0, 3, 0]), 17),
        (cells([6, 12, 0, 0, 0, 0]), 18),
        (cells([0, 0, 0, 3, 9, 0]), 18),
        (cells([0, 6, 0, 3, 9, 0]), 17),
        (cells([6, 12, 0, 0, 3, 0]), 18),
    ];
    for (table, number) in tables {
        assert_eq!(said(&table), number);
        for at in 0..table.len() {
            for wrong in wrong_contents() {
                let mut table = table;
                table[at] = wrong;
                assert_eq!(said(&table), 4, "{table:?}");
            }
        }
    }
    // The least and the greatest price are right.
    for price in [1, 9_999_999] {
        assert_eq!(said(&[0, content(5, price)]), 0);
        assert_eq!(said(&[content(5, price), 0]), 17);
        assert_eq!(said(&[0, 0, content(5, price), content(8, price)]), 17);
    }
}

// ---- "Otherwise the lowest-numbered cell whose label breaks the way rule decides"

/// A label at home in cell `home` and standing in the next one: a hole before
/// it, or a smaller label.
fn break_at(table: &mut [u64], home: usize, number: u8) -> usize {
    let n = table.len();
    let cell = (home + 1) % n;
    table[cell] = content((5 * n + home) as u32, 3);
    if number == 18 {
        table[home] = content((4 * n + home) as u32, 2);
    }
    cell
}

/// Two labels that break the rule, anywhere in the ring. It is the cell that
/// counts, not the home: one that came over the end stands in cell 0.
#[test]
fn the_lowest_numbered_cell() {
    for n in 5..12 {
        for one in 0..n {
            for kind in [17, 18] {
                let mut table = vec![0; n];
                break_at(&mut table, one, kind);
                assert_eq!(said(&table), kind);
            }
            let apart = |from: usize, to: usize| (to + n - from) % n >= 2;
            for other in (0..n).filter(|&other| apart(one, other) && apart(other, one)) {
                for (kind, other_kind) in [(17, 17), (17, 18), (18, 17), (18, 18)] {
                    let mut table = vec![0; n];
                    let broken = break_at(&mut table, one, kind);
                    let other_broken = break_at(&mut table, other, other_kind);
                    let lowest = if broken < other_broken {
                        kind
                    } else {
                        other_kind
                    };
                    assert_eq!(said(&table), lowest, "{table:?}");
                }
            }
        }
    }
}

// ---- "by the first content on its way that isn't greater"

/// A label three cells from its home, with every way of empty cells, smaller
/// labels, greater ones and copies of itself, at every place of the ring.
#[test]
fn the_first_content_on_the_way() {
    let n = 8;
    for home in 0..n {
        let cell = |step: usize| (home + step) % n;
        let label = (50 * n + home) as u32;
        for way in all_lists(3, &[0, 1, 2, 3]) {
            let mut table = vec![0; n];
            for (step, &what) in way.iter().enumerate() {
                // The others are at home where they stand.
                let at_home = |turn: usize| content((turn * n + cell(step)) as u32, 9);
                table[cell(step)] = match what {
                    0 => 0,
                    1 => at_home(4),
                    2 => content(label, 2),
                    _ => at_home(99),
                };
            }
            table[cell(3)] = content(label, 1);
            let expected = match way.iter().find(|&&what| what != 3) {
                None => 0,
                Some(0) => 17,
                Some(_) => 18,
            };
            assert_eq!(said(&table), expected, "{table:?}");
        }
    }
}

/// The first from the home, and not the nearest to the cell.
#[test]
fn the_first_and_not_the_nearest() {
    // 12 is at home in cell 2 and stands in cell 4; 7 and 8 are at home.
    assert_eq!(said(&cells([0, 0, 0, 8, 12])), 17);
    assert_eq!(said(&cells([0, 0, 7, 0, 12])), 18);
    // Behind 14, which is greater: 8 is at home in cell 2 and stands in cell 5.
    assert_eq!(said(&cells([0, 0, 14, 0, 4, 8])), 17);
    assert_eq!(said(&cells([0, 0, 14, 3, 0, 8])), 18);
    assert_eq!(said(&cells([0, 0, 14, 9, 10, 8])), 0);
    // The same over the end: 10 is at home in cell 4 and stands in cell 1.
    assert_eq!(said(&cells([6, 10, 0, 0, 16, 0])), 17);
    assert_eq!(said(&cells([0, 10, 0, 0, 16, 5])), 18);
    assert_eq!(said(&cells([12, 10, 0, 0, 16, 11])), 0);
}

/// On a way over the end of the table the cells before the end come first.
#[test]
fn over_the_end() {
    // 4 at home in the last cell.
    assert_eq!(said(&cells([4, 0, 0, 0, 0])), 17);
    assert_eq!(said(&cells([9, 0, 0, 0, 4])), 18);
    assert_eq!(said(&cells([4, 0, 0, 0, 9])), 0);
    assert_eq!(said(&cells([5, 4, 0, 0, 0])), 17);
    assert_eq!(said(&cells([0, 4, 0, 0, 9])), 17);
    assert_eq!(said(&cells([0, 9, 0, 0, 4])), 18);
    assert_eq!(said(&cells([5, 4, 0, 0, 9])), 0);
    // The whole ring but one cell: 6 at home in cell 1 stands in cell 0.
    assert_eq!(said(&cells([6, 11, 12, 13, 0])), 17);
    assert_eq!(said(&cells([6, 11, 0, 13, 14])), 17);
    assert_eq!(said(&cells([6, 11, 2, 0, 14])), 18);
    assert_eq!(said(&cells([11, 6, 0, 13, 14])), 18);
}

// ---- "17 if that content is 0 and 18 if it is a label"

#[test]
fn the_tables_of_document_01() {
    assert_eq!(said(&cells([0, 0, 0, 8, 13])), 18);
    assert_eq!(said(&cells([0, 0, 0, 3, 3])), 18);
    assert_eq!(said(&cells([6, 0, 0, 0, 0])), 17);
    assert_eq!(said(&cells([5, 6, 7, 8, 9])), 4);
}

/// Smaller labels and the label itself, at every price.
#[test]
fn prices_play_no_part() {
    for price in [1, 5, 9_999_999] {
        for other in [1, 5, 9_999_999] {
            let two = |first, second| [0, 0, 0, content(first, price), content(second, other)];
            assert_eq!(said(&two(3, 8)), 18);
            assert_eq!(said(&two(8, 8)), 18);
            assert_eq!(said(&two(13, 8)), 0);
        }
        assert_eq!(said(&[0, 0, 0, 0, content(8, price)]), 17);
    }
}

/// Torn images of [4, 3, 0, 13, 8], of the table without 8, and of no labels.
#[test]
fn torn_images() {
    let four = cells([4, 3, 0, 13, 8]);
    let three = cells([3, 0, 0, 13, 4]);
    let none = [0; 5];
    for (front, rest, numbers) in [
        (four, three, [0, 18, 18, 18, 18, 0]),
        (three, four, [0, 18, 0, 0, 0, 0]),
        (four, none, [0, 17, 17, 17, 17, 0]),
        (none, four, [0, 17, 0, 0, 17, 0]),
        (three, none, [0, 17, 17, 17, 17, 0]),
        (none, three, [0, 0, 0, 0, 0, 0]),
    ] {
        for (cut, number) in numbers.into_iter().enumerate() {
            let torn = torn(&front, &rest, cut);
            assert_eq!(said(&torn), number, "{front:?} {rest:?} {cut}");
        }
    }
}

// ---- "both in the place of 4"

/// 1, 2, 3 and 16 come before; 7, 24, 14, 6 and 9 behind.
#[test]
fn openings_refuse_in_order() {
    let long = vec![order(9, 0, 0); 65_537];
    for (table, number) in [
        (cells([1, 3, 5]), 4),
        ([0, 0, content(2, 10_000_000)], 4),
        (cells([1, 0, 0]), 17),
        (cells([3, 6, 0]), 18),
    ] {
        for kind in 0..=4 {
            assert_eq!(
                Phase::open(GATEWAY, kind, 0, Homes::PLAIN, &table, &long),
                Err(2)
            );
            assert_eq!(
                Phase::open(GATEWAY, kind, 17, Homes::PLAIN, &table, &long),
                Err(2)
            );
        }
        for kind in [0, 4] {
            assert_eq!(
                Phase::open(GATEWAY, kind, 1, Homes::PLAIN, &table, &long),
                Err(3)
            );
        }
        assert_eq!(
            Phase::open(GATEWAY, 1, 1, Homes::PLAIN, &table, &long),
            Err(16)
        );
        for kind in [2, 3] {
            assert_eq!(
                Phase::open(GATEWAY, kind, 1, Homes::PLAIN, &table, &long),
                Err(number)
            );
        }
        // Bad lines, and more labels than the table has room for.
        let lists = [
            vec![order(0, 0, 1)],
            vec![order(0, 4_000_000_000, 1)],
            vec![order(0, 5, 0)],
            vec![order(1, 5, 1)],
            vec![order(9, 0, 0); 65_536],
            (1..9).map(|label| order(0, label, 1)).collect(),
        ];
        let alone = |list| Phase::open(GATEWAY, 1, 1, Homes::PLAIN, &[0; 3], list).map(|_| ());
        let numbers = [7, 24, 14, 6, 7, 9];
        for (list, behind) in lists.iter().zip(numbers) {
            assert_eq!(alone(list), Err(behind));
            assert_eq!(
                Phase::open(GATEWAY, 1, 1, Homes::PLAIN, &table, list),
                Err(number)
            );
        }
        assert_eq!(said(&table), number);
    }
}

/// The length comes before, a list too short behind.
#[test]
fn check_count_and_list_refuse_in_order() {
    for (front, number) in [
        ([0, 1, 0], 4),
        ([0, content(1, 0), 0], 4),
        (cells([6, 12, 0]), 17),
        (cells([0, 1, 8193]), 18),
    ] {
        for (n, expected) in [(1, 1), (8192, number), (8193, 1), (9000, 1)] {
            let mut table = front.to_vec();
            table.resize(n, 0);
            assert_eq!(said(&table), expected);
        }
    }
    assert_eq!(
        list(GATEWAY, Homes::PLAIN, &cells([0, 1, 0]), &mut []),
        Err(12)
    );
    assert_eq!(
        list(GATEWAY, Homes::PLAIN, &cells([1, 0, 0]), &mut []),
        Err(17)
    );
    assert_eq!(
        list(GATEWAY, Homes::PLAIN, &cells([3, 6, 0]), &mut [0]),
        Err(18)
    );
}

/// A take-out in the middle of its work leaves a copy of a label on that label's
/// way.
#[test]
fn on_the_sheet() {
    let sheet = "cells 5\nitem 0 3 1\nitem 1 8 1\nopen 1 2 1 0\norder 0\norder 1\nrun\nclose\n\
                 open 2 1 1 0\norder 0 8\nturn 0\nturn 0\nturn 0\nturn 0\nlist\nrun\nlist\n";
    let printed = replay_bytes(sheet.replace(' ', "\t").as_bytes());
    let printed = String::from_utf8(printed).unwrap();
    assert!(printed.ends_with("15\trefused\t18\n16\tdone\n17\t1\t3\t1\n"));
}

/// Two take-outs at work leave a label behind an empty cell for a while: worker
/// 1 is about to put 1 in the place of 2, while worker 0 takes out 1 and 5.
#[test]
fn a_gap_in_a_take_out_shift() {
    let mut table = cells([0, 5, 2, 1]);
    let mut phase = Phase::open(GATEWAY, 2, 2, Homes::PLAIN, &table, &[]).unwrap();
    let turns = |phase: &mut Phase, table: &mut [u64], worker: u64, turns: usize| {
        for _ in 0..turns {
            phase.turn(GATEWAY, table, worker).unwrap();
            assert_eq!(said(table), 0);
        }
    };
    phase.order(GATEWAY, &[], 0, 0, 1).unwrap();
    turns(&mut phase, &mut table, 0, 5);
    phase.order(GATEWAY, &[], 0, 1, 2).unwrap();
    turns(&mut phase, &mut table, 1, 3);
    turns(&mut phase, &mut table, 0, 1);
    phase.order(GATEWAY, &[], 0, 0, 5).unwrap();
    turns(&mut phase, &mut table, 0, 6);
    assert_eq!(table, cells([0, 0, 2, 0]));
    phase.turn(GATEWAY, &mut table, 1).unwrap();
    assert_eq!(table, cells([0, 0, 1, 0]));
    assert_eq!(said(&table), 17);
    while phase.turn(GATEWAY, &mut table, 1).unwrap() == Answer::WentOn {}
    assert_eq!(table, [0; 4]);
    phase.close(GATEWAY).unwrap();
}

// ---- all tables

/// The same said by sets. The pairs of a cell with a label and a number of
/// steps from its home, short of the cell itself, that lead to a content which
/// isn't greater: the least pair decides.
fn by_sets(table: &[u64]) -> u8 {
    let n = table.len() as u64;
    let (label, price) = (|cell: u64| cell >> 32, |cell: u64| cell & 0xffff_ffff);
    let contents: BTreeSet<u64> = table.iter().copied().collect();
    let right =
        |&cell: &u64| cell == 0 || label(cell) > 0 && (1..10_000_000).contains(&price(cell));
    if !contents.contains(&0) || !contents.iter().all(right) {
        return 4;
    }
    let met = |cell: u64, steps: u64| (label(table[cell as usize]) + steps) % n;
    let breaks = |&(cell, steps): &(u64, u64)| {
        let own = table[cell as usize];
        let short = (0..=steps).all(|fewer| met(cell, fewer) != cell);
        own != 0 && short && label(table[met(cell, steps) as usize]) <= label(own)
    };
    let pairs = (0..n).flat_map(|cell| (0..n).map(move |steps| (cell, steps)));
    let breaches: BTreeSet<(u64, u64)> = pairs.filter(breaks).collect();
    match breaches.first() {
        None => 0,
        Some(&(cell, steps)) if table[met(cell, steps) as usize] == 0 => 17,
        Some(_) => 18,
    }
}

fn number(table: &[u64]) -> u8 {
    soundness(Homes::PLAIN, table).map_or_else(|number| number, |()| 0)
}

/// How often each number was said.
#[derive(Default)]
struct Tally([usize; 19]);

impl Tally {
    fn take(&mut self, table: &[u64]) {
        let expected = by_sets(table);
        assert_eq!(number(table), expected, "{table:?}");
        self.0[expected as usize] += 1;
    }

    /// How often 0, 4, 17 and 18 were said; no other number was.
    fn said(&self) -> [usize; 4] {
        let said = [0, 4, 17, 18].map(|number| self.0[number]);
        assert_eq!(said.iter().sum::<usize>(), self.0.iter().sum::<usize>());
        said
    }
}

/// How often each number is said of all tables of these contents.
fn tally(n: usize, contents: &[u64]) -> [usize; 4] {
    let mut tally = Tally::default();
    for table in all_lists(n, contents) {
        tally.take(&table);
    }
    tally.said()
}

/// Every table of 2 and 3 cells: labels 1 to 9 at three prices that are right
/// and three that aren't, and prices without a label.
#[test]
fn all_tables_of_two_and_three_cells() {
    let mut contents = vec![0, 1, 9_999_999, u64::from(u32::MAX)];
    for label in 1..=9 {
        let prices = [1, 2, 9_999_999, 0, 10_000_000, u32::MAX];
        contents.extend(prices.map(|price| content(label, price)));
    }
    // Beside an empty cell there is one label, at home or not, and no second
    // one on its way.
    assert_eq!(tally(2, &contents), [28, 58 * 58 - 28 - 27, 27, 0]);
    // One sound table for each set of up to two labels, each at three prices.
    let said = tally(3, &contents);
    assert_eq!(said[0], 1 + 9 * 3 + 36 * 9);
    assert!(said[2] > 300 && said[3] > 300, "{said:?}");
}

/// Every table of 4 cells: labels 1 to 8 at two prices, and some wrong contents.
#[test]
fn all_tables_of_four_cells() {
    let mut contents = vec![0, 1, 9_999_999, content(3, 0), content(8, 10_000_000)];
    for label in 1..=8 {
        contents.extend([content(label, 1), content(label, 9_999_999)]);
    }
    let said = tally(4, &contents);
    assert_eq!(said[0], 1 + 8 * 2 + 28 * 4 + 56 * 8);
    assert!(said[2] > 3000 && said[3] > 3000, "{said:?}");
}

/// Every table of 5 cells: labels 1 to 10, 8 also at another price, and some
/// wrong contents.
#[test]
fn all_tables_of_five_cells() {
    let mut contents = vec![0, 1, content(7, 0), content(4, 10_000_000)];
    contents.extend((1..=10).map(|label| content(label, 1)));
    contents.push(content(8, 9_999_999));
    let said = tally(5, &contents);
    // Sets of up to four labels, without 8 and with it.
    assert_eq!(said[0], 1 + 9 + 36 + 84 + 126 + 2 * (1 + 9 + 36 + 84));
    assert!(said[2] > 30_000 && said[3] > 30_000, "{said:?}");
}

/// Every call says the same, on every table of up to 4 cells.
#[test]
fn all_calls_on_small_tables() {
    for n in 2..=4 {
        let mut contents = vec![0, 1, content(2, 0), content(2, 7)];
        contents.extend((1..=2 * n).map(|label| content(label as u32, 1)));
        for table in all_lists(n, &contents) {
            assert_eq!(said(&table), by_sets(&table));
        }
    }
}

// ---- the repair bench

#[test]
fn returned_tables() {
    let rng = &mut Rng::new(3);
    let mut tally = Tally::default();
    for _ in 0..20_000 {
        let n = rng.within(2, 24);
        tally.take(&returned(rng, Homes::PLAIN, n));
    }
    let said = tally.said();
    assert!(said.iter().all(|&often| often > 1500), "{said:?}");
}

/// One damage at a time: cells written over.
#[test]
fn cells_written_over() {
    let rng = &mut Rng::new(4);
    let mut tally = Tally::default();
    for _ in 0..20_000 {
        let n = rng.within(2, 24);
        let mut table = table(rng, Homes::PLAIN, n);
        overwrite(rng, &mut table);
        tally.take(&table);
    }
    let said = tally.said();
    assert!(said.iter().all(|&often| often > 1500), "{said:?}");
}

/// Every cut of two tables. Sound ones have no cell that is wrong by itself, so
/// 4 says that no cell is empty.
#[test]
fn tables_torn_everywhere() {
    let rng = &mut Rng::new(5);
    let mut tally = Tally::default();
    for _ in 0..400 {
        let n = rng.within(2, 30);
        let (front, rest) = (table(rng, Homes::PLAIN, n), table(rng, Homes::PLAIN, n));
        assert_eq!(torn(&front, &rest, 0), rest);
        assert_eq!(torn(&front, &rest, n), front);
        for cut in 0..=n {
            let torn = torn(&front, &rest, cut);
            tally.take(&torn);
            assert_eq!(said(&torn) == 4, !torn.contains(&0));
        }
    }
    let said = tally.said();
    assert!(
        said[0] > 500 && said[1] > 50 && said[2] > 500 && said[3] > 500,
        "{said:?}"
    );
}

/// A torn image and a full one are told apart, at all lengths.
#[test]
fn torn_or_full() {
    for n in [4, 5, 64, 65, 1000, 8191, 8192] {
        let labels = |labels: Vec<usize>| -> Vec<u64> {
            let prices: Prices = labels.iter().map(|&label| (label as u32, 1)).collect();
            layout(Homes::PLAIN, n, &prices)
        };
        // Every cell but the first has a label that is at home there.
        let at_home = labels((1..n).collect());
        let mut full = at_home.clone();
        full[0] = content(n as u32, 1);
        // Two labels at one home, torn between them.
        let home = n / 2;
        let two = labels(vec![home + n, home + 2 * n]);
        let cut = home + 1;
        assert_eq!(said(&at_home), 0);
        assert_eq!(said(&two), 0);
        assert_eq!(said(&full), 4);
        assert_eq!(said(&torn(&vec![0; n], &two, cut)), 17);
        assert_eq!(said(&torn(&at_home, &two, cut)), 18);
    }
}
