//! The sheet and the tables of document 01, with price 1 beside every label and
//! homes by a of 1 and b of 0.

use reference::layout::{content, is_sound, layout, Homes, Prices};
use reference::listing::{check, count, list, list_front, taken_word};
use reference::model::GATEWAY;
use reference::phase::{Activity, Answer, Order, Phase, LOOK_UP, PUT_IN, TAKE_OUT};
use reference::sheet::replay_bytes;

fn set(labels: &[u32]) -> Prices {
    labels.iter().map(|&label| (label, 1)).collect()
}

fn cell(label: u32) -> u64 {
    match label {
        0 => 0,
        _ => content(label, 1),
    }
}

fn cells<const N: usize>(labels: [u32; N]) -> [u64; N] {
    labels.map(cell)
}

/// A list with one label for each worker.
fn list_of(labels: &[u32]) -> Vec<Order> {
    let order = |(worker, &label)| Order {
        worker,
        label,
        price: 1,
    };
    (0..).zip(labels).map(order).collect()
}

/// Opens a shift without a list.
fn open(kind: u64, count: u64, table: &[u64]) -> Result<Phase, u8> {
    Phase::open(GATEWAY, kind, count, Homes::PLAIN, table, &[])
}

/// Gives a worker a label to take out or look up.
fn order(phase: &mut Phase, worker: u64, label: u32) -> Result<(), u8> {
    phase.order(GATEWAY, &[], 0, worker, label)
}

/// Opens a shift, gives each label to its worker, runs it and closes.
fn shift(kind: u32, table: &mut [u64], labels: &[u32]) -> Vec<Answer> {
    let list = list_of(labels);
    let mut phase = Phase::open(
        GATEWAY,
        kind.into(),
        labels.len() as u64,
        Homes::PLAIN,
        table,
        &list,
    )
    .unwrap();
    for (worker, &label) in (0..).zip(labels) {
        phase.order(GATEWAY, &list, worker, worker, label).unwrap();
    }
    let mut answers = vec![Answer::Idle; labels.len()];
    while !phase.all_idle() {
        for (worker, finish) in answers.iter_mut().enumerate() {
            let answer = phase.turn(GATEWAY, table, worker as u64).unwrap();
            if !matches!(answer, Answer::WentOn | Answer::Idle) {
                *finish = answer;
            }
        }
    }
    phase.close(GATEWAY).unwrap();
    answers
}

/// Spaces stand for tabs.
fn replay(sheet: &str) -> String {
    let sheet = sheet.replace(' ', "\t");
    String::from_utf8(replay_bytes(sheet.as_bytes()))
        .unwrap()
        .replace('\t', " ")
}

const SHEET: &str = "\
cells 5
item 0 3 1
item 1 8 1
item 0 13 1
item 1 4 1
open 1 2 1 0
order 0
order 1
run
order 2
order 3
run
close
list
";

const PRINTED: &str = "\
1 ok
2 ok
3 ok
4 ok
5 ok
6 ok
7 ok
8 ok
9 done done
10 ok
11 ok
12 done done
13 ok
14 4 4 1 3 1 13 1 8 1
";

#[test]
fn the_sheet() {
    assert_eq!(replay(SHEET), PRINTED);
    // Also without the last newline.
    assert_eq!(replay(SHEET.trim_end()), PRINTED);
}

#[test]
fn five_cells() {
    let table = layout(Homes::PLAIN, 5, &set(&[3, 4, 8, 13]));
    assert_eq!(table, cells([4, 3, 0, 13, 8]));
    assert!(is_sound(Homes::PLAIN, &table));
    assert_eq!(taken_word(&table, 0), 27);
    assert_eq!(taken_word(&table, 1), 0);
}

#[test]
fn without_8() {
    let mut table = cells([4, 3, 0, 13, 8]);
    assert_eq!(shift(TAKE_OUT, &mut table, &[8]), [Answer::Finished]);
    assert_eq!(table, cells([3, 0, 0, 13, 4]));
    assert_eq!(layout(Homes::PLAIN, 5, &set(&[3, 4, 13])), table);
}

#[test]
fn thirteen_by_two_workers() {
    let mut table = cells([4, 3, 0, 13, 8]);
    shift(TAKE_OUT, &mut table, &[13, 13]);
    assert_eq!(table, cells([3, 0, 0, 8, 4]));
}

#[test]
fn eight_by_two_workers() {
    let mut table = [0; 5];
    shift(PUT_IN, &mut table, &[8, 8]);
    assert_eq!(table, cells([0, 0, 0, 8, 0]));
}

#[test]
fn two_cells() {
    let table = layout(Homes::PLAIN, 2, &set(&[7]));
    assert_eq!(table, cells([0, 7]));
    // Document 02: the shift opens for a list of 7 alone.
    assert!(Phase::open(GATEWAY, 1, 1, Homes::PLAIN, &table, &list_of(&[7])).is_ok());
    assert_eq!(
        Phase::open(GATEWAY, 1, 1, Homes::PLAIN, &table, &list_of(&[1])),
        Err(9)
    );
}

#[test]
fn greatest_label() {
    assert_eq!(
        layout(Homes::PLAIN, 5, &set(&[4294967295])),
        cells([4294967295, 0, 0, 0, 0])
    );
    // Document 02: it is met at opening, and no shift puts it in.
    let met = cells([4294967295, 0, 0, 0, 0]);
    let mut table = met;
    shift(PUT_IN, &mut table, &[5, 3999999999]);
    assert_eq!(table, cells([4294967295, 5, 0, 0, 3999999999]));
    let answers = shift(LOOK_UP, &mut table, &[4294967295, 4294967290]);
    assert_eq!(answers, [Answer::Price(1), Answer::No]);
    shift(TAKE_OUT, &mut table, &[4294967295]);
    assert_eq!(table, cells([5, 0, 0, 0, 3999999999]));
    for table in [met, [0; 5]] {
        let list = list_of(&[4294967295]);
        let answer = Phase::open(GATEWAY, 1, 1, Homes::PLAIN, &table, &list);
        assert_eq!(answer, Err(24));
    }
}

#[test]
fn unsound_tables() {
    // Which number it is comes from document 02.
    for (table, number) in [
        ([0, 0, 0, 8, 13], 18),
        ([0, 0, 0, 3, 3], 18),
        ([6, 0, 0, 0, 0], 17),
        ([5, 6, 7, 8, 9], 4),
    ] {
        let table = cells(table);
        assert!(!is_sound(Homes::PLAIN, &table));
        assert_eq!(check(GATEWAY, Homes::PLAIN, &table), Err(number));
        assert_eq!(count(GATEWAY, Homes::PLAIN, &table), Err(number));
        let mut lent = [77; 1];
        assert_eq!(list(GATEWAY, Homes::PLAIN, &table, &mut lent), Err(number));
        assert!(list_front(GATEWAY, Homes::PLAIN, &table, &mut lent).is_empty());
        assert_eq!(lent, [77]);
        for kind in 1..=3 {
            assert_eq!(open(kind, 1, &table), Err(number));
        }
    }
}

#[test]
fn lengths() {
    for (n, answer) in [
        (0, Err(1)),
        (1, Err(1)),
        (2, Ok(())),
        (8192, Ok(())),
        (8193, Err(1)),
    ] {
        let table = vec![0; n];
        for kind in 1..=3 {
            assert_eq!(open(kind, 1, &table).map(|_| ()), answer);
        }
        assert_eq!(check(GATEWAY, Homes::PLAIN, &table), answer);
        assert_eq!(count(GATEWAY, Homes::PLAIN, &table), answer.map(|()| 0));
        assert_eq!(
            list(GATEWAY, Homes::PLAIN, &table, &mut []),
            answer.map(|()| 0)
        );
    }
}

#[test]
fn worker_counts() {
    for kind in 1..=3 {
        for (count, answer) in [
            (0, Err(2)),
            (1, Ok(())),
            (16, Ok(())),
            (17, Err(2)),
            (u64::MAX, Err(2)),
        ] {
            assert_eq!(open(kind, count, &[0; 5]).map(|_| ()), answer);
        }
    }
}

#[test]
fn kinds() {
    for kind in [0, 4, 1 << 32 | 1, u64::MAX] {
        assert_eq!(open(kind, 1, &[0; 5]), Err(3));
    }
}

#[test]
fn openings_refuse_in_order() {
    assert_eq!(open(0, 0, &cells([1])), Err(1));
    assert_eq!(open(0, 0, &cells([1, 1])), Err(2));
    assert_eq!(open(0, 1, &cells([1, 1])), Err(3));
    assert_eq!(open(1, 1, &cells([1, 1])), Err(4));
}

#[test]
fn a_shift_without_orders_keeps_its_table() {
    for kind in 1..=3 {
        let mut table = cells([4, 3, 0, 13, 8]);
        let mut phase = open(kind, 16, &table).unwrap();
        for worker in 0..16 {
            assert_eq!(phase.turn(GATEWAY, &mut table, worker), Ok(Answer::Idle));
        }
        assert_eq!(phase.close(GATEWAY), Ok(()));
        assert_eq!(table, cells([4, 3, 0, 13, 8]));
        assert_eq!(phase.close(GATEWAY), Err(11));
    }
    assert_eq!(
        replay("cells 5\nopen 1 16 1 0\nclose\nlist\n"),
        "1 ok\n2 ok\n3 ok\n4 0\n"
    );
}

#[test]
fn look_up_answers() {
    let mut table = cells([4, 3, 0, 13, 8]);
    let answers = shift(LOOK_UP, &mut table, &[3, 4, 8, 13, 1, 2, 18, 4294967295]);
    use Answer::{No, Price};
    assert_eq!(
        answers,
        [Price(1), Price(1), Price(1), Price(1), No, No, No, No]
    );
    assert_eq!(table, cells([4, 3, 0, 13, 8]));
}

#[test]
fn order_refuses_in_order() {
    for kind in [2, 3] {
        let mut phase = open(kind, 2, &[0, 0, 0]).unwrap();
        assert_eq!(order(&mut phase, 2, 0), Err(6));
        assert_eq!(order(&mut phase, 1 << 32, 1), Err(6));
        assert_eq!(order(&mut phase, 0, 0), Err(7));
        assert_eq!(order(&mut phase, 0, 5), Ok(()));
        assert_eq!(order(&mut phase, 0, 0), Err(8));
        assert_eq!(order(&mut phase, 1, 5), Ok(()));
        assert_eq!(order(&mut phase, 1, 5), Err(8));
        assert_eq!(phase.close(GATEWAY), Err(10));
        let mut table = [0, 0, 0];
        while !phase.all_idle() {
            phase.turn(GATEWAY, &mut table, 0).unwrap();
            phase.turn(GATEWAY, &mut table, 1).unwrap();
        }
        assert_eq!(order(&mut phase, 1, 0), Err(7));
        assert_eq!(phase.close(GATEWAY), Ok(()));
        assert_eq!(order(&mut phase, 2, 0), Err(11));
        phase.length = 1;
        assert_eq!(order(&mut phase, 2, 0), Err(13));
    }
}

#[test]
fn turn_refuses_in_order() {
    let mut phase = open(3, 2, &[0, 0, 0]).unwrap();
    assert_eq!(phase.turn(GATEWAY, &mut [0, 0], 2), Err(5));
    assert_eq!(phase.turn(GATEWAY, &mut [0, 0, 0], 2), Err(6));
    assert_eq!(phase.turn(GATEWAY, &mut [0, 0, 0], 1 << 32), Err(6));
    phase.close(GATEWAY).unwrap();
    assert_eq!(phase.turn(GATEWAY, &mut [0, 0], 2), Err(11));
    phase.count = 0;
    assert_eq!(phase.turn(GATEWAY, &mut [0, 0], 2), Err(13));
    assert_eq!(phase.close(GATEWAY), Err(13));
}

#[test]
fn spoilt_records() {
    let sound = open(2, 2, &[0; 5]).unwrap();
    assert!(!sound.is_spoilt(GATEWAY));
    assert!(!Phase::shut().is_spoilt(GATEWAY));
    let spoilt = |change: &dyn Fn(&mut Phase)| {
        let mut phase = sound.clone();
        change(&mut phase);
        phase.is_spoilt(GATEWAY)
    };
    assert!(spoilt(&|p| p.kind = 0));
    assert!(spoilt(&|p| p.kind = 4));
    assert!(spoilt(&|p| p.length = 1));
    assert!(spoilt(&|p| p.length = 8193));
    assert!(spoilt(&|p| p.count = 0));
    assert!(spoilt(&|p| p.count = 17));

    let with = |kind: u32, worker: usize, activity: Activity| {
        spoilt(&|p| {
            p.kind = kind;
            p.workers[worker] = activity;
        })
    };
    let activities = |label: u32, cell: usize| {
        let entry = content(label, 1);
        [
            Activity::ReadingOn { entry, cell },
            Activity::Replacing {
                entry,
                cell,
                found: 0,
                from: 0,
            },
            Activity::WalkingBack { entry, cell },
            Activity::Seeking {
                entry,
                hole: 0,
                cell,
                taken: None,
            },
        ]
    };
    for (kind, lacks) in [
        (PUT_IN, [false, false, true, true]),
        (TAKE_OUT, [false; 4]),
        (LOOK_UP, [false, true, true, true]),
    ] {
        for (activity, lacks) in activities(1, 4).into_iter().zip(lacks) {
            assert_eq!(with(kind, 1, activity), lacks);
            // Past the count nobody works.
            assert!(with(kind, 2, activity));
            assert!(with(kind, 15, activity));
        }
        for activity in activities(0, 4).into_iter().chain(activities(1, 5)) {
            assert!(with(kind, 0, activity));
        }
    }
    let replacing = |from| Activity::Replacing {
        entry: cell(1),
        cell: 0,
        found: 0,
        from,
    };
    let seeking = |hole, from| Activity::Seeking {
        entry: cell(1),
        hole,
        cell: 0,
        taken: Some((0, from)),
    };
    assert!(!with(TAKE_OUT, 0, replacing(4)));
    assert!(with(TAKE_OUT, 0, replacing(5)));
    assert!(!with(TAKE_OUT, 0, seeking(4, 4)));
    assert!(with(TAKE_OUT, 0, seeking(5, 4)));
    assert!(with(TAKE_OUT, 0, seeking(4, 5)));
}

#[test]
fn listing() {
    let table = cells([4, 3, 0, 13, 8]);
    assert_eq!(check(GATEWAY, Homes::PLAIN, &table), Ok(()));
    assert_eq!(count(GATEWAY, Homes::PLAIN, &table), Ok(4));
    let mut short = [77; 3];
    assert_eq!(list(GATEWAY, Homes::PLAIN, &table, &mut short), Err(12));
    assert!(list_front(GATEWAY, Homes::PLAIN, &table, &mut short).is_empty());
    assert_eq!(short, [77; 3]);
    let mut lent = [77; 6];
    assert_eq!(list(GATEWAY, Homes::PLAIN, &table, &mut lent), Ok(4));
    let listed = [cell(4), cell(3), cell(13), cell(8), 77, 77];
    assert_eq!(lent, listed);
    let mut lent = [77; 6];
    assert_eq!(
        list_front(GATEWAY, Homes::PLAIN, &table, &mut lent),
        cells([4, 3, 13, 8])
    );
    assert_eq!(lent, listed);
}

#[test]
fn taken_words_place_the_groups() {
    let labels: Prices = (1..150).map(|i| (i * i * 7 + 5, 1)).collect();
    let table = layout(Homes::PLAIN, 200, &labels);
    let words: Vec<u64> = (0..4).map(|group| taken_word(&table, group)).collect();
    assert_eq!(words[3] >> 8, 0);
    let ones = |words: &[u64]| words.iter().map(|w| w.count_ones() as usize).sum::<usize>();
    assert_eq!(count(GATEWAY, Homes::PLAIN, &table), Ok(ones(&words)));
    // The groups backwards give the same list.
    let mut by_groups = vec![0; labels.len()];
    for group in (0..4).rev() {
        let mut place = ones(&words[..group]);
        for (bit, &cell) in table[group * 64..].iter().take(64).enumerate() {
            if words[group] >> bit & 1 == 1 {
                by_groups[place] = cell;
                place += 1;
            }
        }
    }
    let mut lent = vec![0; labels.len()];
    list(GATEWAY, Homes::PLAIN, &table, &mut lent).unwrap();
    assert_eq!(lent, by_groups);
}

/// The words of a put-in, taken turn by turn.
#[test]
fn turns_on_the_sheet() {
    assert_eq!(
        replay(
            "cells 5\nitem 0 3 1\nitem 1 8 1\nopen 1 2 1 0\norder 0\norder 1\nturn 0\nturn 1\nturn 1\n\
             turn 0\nturn 0\nturn 0\nturn 0\nturn 0\nturn 0\nclose\nlist\n"
        ),
        "1 ok\n2 ok\n3 ok\n4 ok\n5 ok\n6 ok\n7 on\n8 on\n9 done\n10 on\n11 on\n\
         12 on\n13 done\n14 idle\n15 idle\n16 ok\n17 2 8 1 3 1\n"
    );
}

/// One worker takes 8 out of [4, 3, 0, 13, 8], each turn by hand.
#[test]
fn a_take_out_by_hand() {
    use Activity::*;
    let mut table = cells([4, 3, 0, 13, 8]);
    let mut phase = open(2, 1, &table).unwrap();
    order(&mut phase, 0, 8).unwrap();
    let ordered = content(8, 0);
    let steps = [
        // Home 3 holds 13; cell 4 holds 8.
        (
            ReadingOn {
                entry: ordered,
                cell: 4,
            },
            [4, 3, 0, 13, 8],
        ),
        (
            WalkingBack {
                entry: ordered,
                cell: 4,
            },
            [4, 3, 0, 13, 8],
        ),
        (
            Seeking {
                entry: cell(8),
                hole: 4,
                cell: 0,
                taken: None,
            },
            [4, 3, 0, 13, 8],
        ),
        // The way of 4 in cell 0 is cell 4.
        (
            Replacing {
                entry: cell(8),
                cell: 4,
                found: cell(4),
                from: 0,
            },
            [4, 3, 0, 13, 8],
        ),
        (
            WalkingBack {
                entry: cell(4),
                cell: 0,
            },
            [4, 3, 0, 13, 4],
        ),
        (
            Seeking {
                entry: cell(4),
                hole: 0,
                cell: 1,
                taken: None,
            },
            [4, 3, 0, 13, 4],
        ),
        (
            Replacing {
                entry: cell(4),
                cell: 0,
                found: cell(3),
                from: 1,
            },
            [4, 3, 0, 13, 4],
        ),
        (
            WalkingBack {
                entry: cell(3),
                cell: 1,
            },
            [3, 3, 0, 13, 4],
        ),
        (
            Seeking {
                entry: cell(3),
                hole: 1,
                cell: 2,
                taken: None,
            },
            [3, 3, 0, 13, 4],
        ),
        (
            Replacing {
                entry: cell(3),
                cell: 1,
                found: 0,
                from: 2,
            },
            [3, 3, 0, 13, 4],
        ),
    ];
    for (activity, left) in steps {
        assert_eq!(phase.turn(GATEWAY, &mut table, 0), Ok(Answer::WentOn));
        assert_eq!(phase.workers[0], activity);
        assert_eq!(table, cells(left));
    }
    assert_eq!(phase.turn(GATEWAY, &mut table, 0), Ok(Answer::Finished));
    assert_eq!(table, cells([3, 0, 0, 13, 4]));
}

/// Worker 0 has seen 5 in cell 2 as what replaces 20, then others work.
fn seeking_back() -> (Phase, [u64; 5]) {
    let mut table = cells([20, 16, 5, 0, 0]);
    let mut phase = open(2, 3, &table).unwrap();
    order(&mut phase, 0, 20).unwrap();
    for _ in 0..4 {
        phase.turn(GATEWAY, &mut table, 0).unwrap();
    }
    let seeking = Activity::Seeking {
        entry: cell(20),
        hole: 0,
        cell: 1,
        taken: Some((cell(5), 2)),
    };
    assert_eq!(phase.workers[0], seeking);
    order(&mut phase, 1, 16).unwrap();
    while phase.turn(GATEWAY, &mut table, 1).unwrap() == Answer::WentOn {}
    assert_eq!(table, cells([20, 5, 0, 0, 0]));
    (phase, table)
}

#[test]
fn a_nearer_label_is_taken() {
    let (mut phase, mut table) = seeking_back();
    phase.turn(GATEWAY, &mut table, 0).unwrap();
    let replacing = Activity::Replacing {
        entry: cell(20),
        cell: 0,
        found: cell(5),
        from: 1,
    };
    assert_eq!(phase.workers[0], replacing);
    while phase.turn(GATEWAY, &mut table, 0).unwrap() == Answer::WentOn {}
    assert_eq!(table, cells([5, 0, 0, 0, 0]));
}

#[test]
fn a_nearer_empty_cell_is_taken() {
    let (mut phase, mut table) = seeking_back();
    order(&mut phase, 2, 5).unwrap();
    while phase.turn(GATEWAY, &mut table, 2).unwrap() == Answer::WentOn {}
    assert_eq!(table, cells([20, 0, 0, 0, 0]));
    assert_eq!(phase.turn(GATEWAY, &mut table, 0), Ok(Answer::WentOn));
    assert_eq!(phase.turn(GATEWAY, &mut table, 0), Ok(Answer::Finished));
    assert_eq!(table, [0; 5]);
}

#[test]
fn sheet_limits() {
    assert_eq!(
        replay(
            "list\nopen 1 1 1 0\ncells 1\ncells 0\ncells 4097\ncells 2\nlist\ncells 4096\n\
             cells 4097\nopen 1 0 1 0\nopen 1 17 1 0\nopen 0 1 1 0\nopen 4 1 1 0\nopen 3 16 1 0\nturn 15\nturn 16\n\
             close\ncells 2\nopen 1 1 1 0\nturn 1\nclose\n"
        ),
        "1 refused 1\n2 refused 1\n3 refused 1\n4 refused 1\n5 refused 1\n6 ok\n7 0\n8 ok\n\
         9 refused 1\n10 refused 2\n11 refused 2\n12 refused 3\n13 refused 3\n14 ok\n15 idle\n\
         16 refused 6\n17 ok\n18 ok\n19 ok\n20 refused 6\n21 ok\n"
    );
}

#[test]
fn a_shut_shift_on_the_sheet() {
    let shut = "run\norder 0\norder 0 1\norder\norder \norder x y z\norder 0 01 1\nturn 0\nclose\n";
    let answers = |first: usize| {
        (first..first + 9)
            .map(|line| format!("{line} refused 11\n"))
            .collect::<String>()
    };
    assert_eq!(replay(shut), answers(1));
    let later = format!("cells 3\nopen 2 1 1 0\nclose\n{shut}");
    assert_eq!(replay(&later), format!("1 ok\n2 ok\n3 ok\n{}", answers(4)));
    assert_eq!(replay_bytes(b"order\t\0\r\n"), b"1\trefused\t11\n");
}

#[test]
fn refused_opening_leaves_it_shut() {
    assert_eq!(
        replay("cells 3\nopen 2 0 1 0\nturn 0\nopen 2 1 1 0\nturn 0\n"),
        "1 ok\n2 refused 2\n3 refused 11\n4 ok\n5 idle\n"
    );
}

#[test]
fn bad_lines() {
    for line in [
        "",
        "\r",
        "run\r",
        "run\t",
        "\trun",
        " run",
        "run\t0",
        "Run",
        "runs",
        "ru",
        "cells",
        "cells\t",
        "cells\t5\t",
        "cells\t05",
        "cells\t5\r",
        "cells\t4294967296",
        "cells\t+5",
        "cells\t-5",
        "cells\t5\0",
        "cells 5",
        "open\t1",
        "open\t1\t",
        "open\t1\t1",
        "open\t1\t1\t1",
        "open\t1\t1\t1\t0\t1",
        "open\t\t1\t1\t1\t0",
        "open\t01\t1\t1\t0",
        "open\t1\t18446744073709551617\t1\t0",
        "item",
        "item\t0\t1",
        "item\t0\t1\t",
        "item\t0\t1\t1\t",
        "item\t0\t1\t1\t1",
        "item\t00\t1\t1",
        "item\t0\t1\t01",
        "item\t0\t4294967296\t1",
        "item\t0\t1\t1\r",
        "items\t0\t1\t1",
        "turn",
        "turn\t00",
        "turn\t0\t0",
        "close\t",
        "close\t0",
        "list\t",
        "order\0",
        "order ",
        "orders",
        "orde",
        "\u{feff}run",
    ] {
        let sheet = format!("{line}\nlist\n");
        assert_eq!(replay_bytes(sheet.as_bytes()), b"1\tbad\n", "{line:?}");
    }
    // In an open shift also these.
    for line in [
        "cells\t5",
        "cells\t1",
        "cells",
        "open\t1\t1\t1\t0",
        "open\t9\t9\t1\t0",
        "open",
        "item\t0\t1\t1",
        "item",
        "order",
        "order\t",
        "order\t00",
        "order\t0\t",
        "order\t4294967296",
        "order\t0\r",
    ] {
        let sheet = format!("cells\t5\nopen\t1\t1\t1\t0\n{line}\nlist\n");
        assert_eq!(
            replay_bytes(sheet.as_bytes()),
            b"1\tok\n2\tok\n3\tbad\n",
            "{line:?}"
        );
    }
}

#[test]
fn ends_of_input() {
    assert_eq!(replay_bytes(b""), b"");
    assert_eq!(replay_bytes(b"\n"), b"1\tbad\n");
    assert_eq!(replay_bytes(b"run"), b"1\trefused\t11\n");
    assert_eq!(replay_bytes(b"run\n"), b"1\trefused\t11\n");
    assert_eq!(replay_bytes(b"run\n\n"), b"1\trefused\t11\n2\tbad\n");
    assert_eq!(replay_bytes(b"run\nru"), b"1\trefused\t11\n2\tbad\n");
}

#[test]
fn run_fields() {
    assert_eq!(
        replay(
            "cells 5\nitem 1 3999999999 1\nopen 1 3 1 0\nrun\norder 0\nrun\nclose\nopen 3 3 1 0\norder 0 5\n\
             order 2 3999999999\nrun\nrun\n"
        ),
        "1 ok\n2 ok\n3 ok\n4 - - -\n5 ok\n6 - done -\n7 ok\n8 ok\n9 ok\n10 ok\n\
         11 no - 1\n12 - - -\n"
    );
}

/// A take-out in the middle of its work leaves a copy: list is refused 18.
#[test]
fn list_in_an_open_shift() {
    assert_eq!(
        replay(
            "cells 5\nitem 0 3 1\nitem 1 8 1\nopen 1 2 1 0\norder 0\norder 1\nrun\nclose\nopen 2 1 1 0\n\
             order 0 8\nturn 0\nturn 0\nturn 0\nlist\nturn 0\nlist\nrun\nlist\n"
        ),
        "1 ok\n2 ok\n3 ok\n4 ok\n5 ok\n6 ok\n7 done done\n8 ok\n9 ok\n10 ok\n\
         11 on\n12 on\n13 on\n14 2 8 1 3 1\n15 on\n16 refused 18\n17 done\n18 1 3 1\n"
    );
}
