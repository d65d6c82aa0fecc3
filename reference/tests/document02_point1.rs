//! Point 1 of document 02, sentence by sentence: the lower price stands.

use reference::layout::{
    content, is_sound, label_of, layout, least_prices, price_of, Homes, Prices,
};
use reference::listing::{check, count, list, taken_word};
use reference::model::GATEWAY;
use reference::phase::{Activity, Answer, Order, Phase, LOOK_UP, PUT_IN, TAKE_OUT};
use reference::sheet::replay_bytes;

use Activity::{Idle, ReadingOn, Replacing, Seeking, WalkingBack};

/// Spaces stand for tabs.
fn replay(sheet: &str) -> String {
    let sheet = sheet.replace(' ', "\t");
    String::from_utf8(replay_bytes(sheet.as_bytes()))
        .unwrap()
        .replace('\t', " ")
}

fn order(worker: u32, label: u32, price: u32) -> Order {
    Order {
        worker,
        label,
        price,
    }
}

/// A shift of one worker with that record, whatever it is.
fn forged(kind: u32, n: usize, activity: Activity) -> Phase {
    let mut phase = Phase::open(GATEWAY, kind.into(), 1, Homes::PLAIN, &vec![0; n], &[]).unwrap();
    phase.workers[0] = activity;
    phase
}

/// One turn of a forged record: the answer, the new record and the cells.
fn turned<const N: usize>(
    kind: u32,
    activity: Activity,
    mut table: [u64; N],
) -> (Answer, Activity, [u64; N]) {
    let mut phase = forged(kind, N, activity);
    let answer = phase.turn(GATEWAY, &mut table, 0).unwrap();
    (answer, phase.workers[0], table)
}

#[test]
fn contents() {
    assert_eq!(content(0, 0), 0);
    assert_eq!(content(1, 0), 4_294_967_296);
    assert_eq!(content(3, 250), 3 * 4_294_967_296 + 250);
    for label in [0, 1, 5, u32::MAX] {
        for price in [0, 1, 9_999_999, u32::MAX] {
            let content = content(label, price);
            assert_eq!((label_of(content), price_of(content)), (label, price));
        }
    }
}

#[test]
fn wrong_cells_are_unsound() {
    let with = |cell| [content(5, 1), 0, cell, 0, content(4, 9_999_999)];
    for right in [0, content(7, 1), content(2, 2), content(7, 9_999_999)] {
        assert!(is_sound(Homes::PLAIN, &with(right)));
    }
    for wrong in [
        1,
        2,
        9_999_999,
        10_000_000,
        u64::from(u32::MAX),
        content(7, 0),
        content(7, 10_000_000),
        content(7, u32::MAX),
        content(u32::MAX, 0),
    ] {
        let table = with(wrong);
        assert!(!is_sound(Homes::PLAIN, &table), "{wrong}");
        assert_eq!(check(GATEWAY, Homes::PLAIN, &table), Err(4));
        assert_eq!(count(GATEWAY, Homes::PLAIN, &table), Err(4));
        let mut lent = [77; 2];
        assert_eq!(list(GATEWAY, Homes::PLAIN, &table, &mut lent), Err(4));
        assert_eq!(lent, [77; 2]);
        for kind in 1..=3 {
            assert_eq!(
                Phase::open(GATEWAY, kind, 1, Homes::PLAIN, &table, &[]),
                Err(4)
            );
        }
    }
    // A price without a label is no empty cell.
    assert!(!is_sound(Homes::PLAIN, &[1, 2]));
    assert!(!is_sound(Homes::PLAIN, &[content(2, 1), 1]));
    // One label at two prices stands twice.
    assert!(!is_sound(
        Homes::PLAIN,
        &[0, 0, 0, content(8, 2), content(8, 1)]
    ));
    assert!(!is_sound(
        Homes::PLAIN,
        &[0, 0, 0, content(8, 1), content(8, 2)]
    ));
    // Precedence goes by label, not by price.
    assert!(is_sound(
        Homes::PLAIN,
        &[0, 0, 0, content(13, 1), content(8, 9)]
    ));
    assert!(!is_sound(
        Homes::PLAIN,
        &[0, 0, 0, content(8, 9), content(13, 1)]
    ));
}

#[test]
fn least() {
    let ordered = [(8, 5), (3, 2), (8, 4), (8, 9), (3, 2)].map(|(l, p)| content(l, p));
    let prices = least_prices(ordered.into_iter().chain([0, 7]));
    assert_eq!(prices, Prices::from([(3, 2), (8, 4)]));
    let table = layout(Homes::PLAIN, 5, &prices);
    assert_eq!(table, [0, 0, 0, content(8, 4), content(3, 2)][..]);
}

#[test]
fn lists_take_whole_cells() {
    let table = [content(5, 7), 0, 0, 0, content(4, 9_999_999)];
    let mut lent = [77; 3];
    assert_eq!(list(GATEWAY, Homes::PLAIN, &table, &mut lent), Ok(2));
    assert_eq!(lent, [content(5, 7), content(4, 9_999_999), 77]);
    assert_eq!(taken_word(&table, 0), 0b10001);
    // Taken is what holds a label.
    assert_eq!(taken_word(&[1, content(3, 0), 0, 5], 0), 0b10);
}

/// What a put-in reads: 8 at price 5, at home in cell 3 of 5.
#[test]
fn a_put_in_reads() {
    let entry = content(8, 5);
    let reads = |found: u64| {
        let table = [0, 0, 0, found, 0];
        let (answer, activity, left) = turned(PUT_IN, ReadingOn { entry, cell: 3 }, table);
        assert_eq!(left, table);
        (answer, activity)
    };
    // A greater label, at any price, sends it on.
    for found in [content(9, 1), content(13, 9), content(u32::MAX, 0)] {
        let on = ReadingOn { entry, cell: 4 };
        assert_eq!(reads(found), (Answer::WentOn, on));
    }
    // Its label at a lower or the same price finishes.
    for price in [0, 1, 4, 5] {
        assert_eq!(reads(content(8, price)), (Answer::Finished, Idle));
    }
    // Its label at a higher price, a smaller label at any price, no label.
    for found in [
        content(8, 6),
        content(8, u32::MAX),
        content(7, 1),
        content(7, 9),
        content(1, 0),
        0,
        3,
        5,
        u64::from(u32::MAX),
    ] {
        let replace = Replacing {
            entry,
            cell: 3,
            found,
            from: 3,
        };
        assert_eq!(reads(found), (Answer::WentOn, replace));
    }
}

/// What a put-in's replace turn does with what it found.
#[test]
fn a_put_in_replaces() {
    let entry = content(8, 5);
    let replaces = |found: u64, now: u64| {
        let activity = Replacing {
            entry,
            cell: 3,
            found,
            from: 3,
        };
        let (answer, activity, left) = turned(PUT_IN, activity, [0, 0, 0, now, 0]);
        assert_eq!((left[0], left[1], left[2], left[4]), (0, 0, 0, 0));
        (answer, activity, left[3])
    };
    // Its label at a higher price, or an empty cell: finished.
    for found in [content(8, 6), content(8, 9_999_999), 0, 1, 7] {
        assert_eq!(replaces(found, found), (Answer::Finished, Idle, entry));
    }
    // A smaller label is carried on with its price, and so is any other that a
    // forged record may have found: its own at no higher price, or a greater one.
    for found in [
        content(3, 1),
        content(7, 9),
        content(8, 5),
        content(8, 4),
        content(9, 6),
    ] {
        let on = ReadingOn {
            entry: found,
            cell: 4,
        };
        assert_eq!(replaces(found, found), (Answer::WentOn, on, entry));
    }
    // Contents are compared whole: the same label at another price, or
    // another price without a label, is a change, and the cell is read again.
    for (found, now) in [
        (content(8, 6), content(8, 7)),
        (content(8, 6), content(8, 4)),
        (content(3, 2), content(3, 1)),
        (content(3, 2), content(4, 2)),
        (0, 1),
        (1, 0),
        (1, 2),
    ] {
        let again = ReadingOn { entry, cell: 3 };
        assert_eq!(replaces(found, now), (Answer::WentOn, again, now));
    }
}

#[test]
fn a_look_up_answers_the_price() {
    let looks = |found: u64| {
        // The price of the order plays no part.
        let entry = content(8, 77);
        let table = [0, 0, 0, found, 0];
        let (answer, activity, left) = turned(LOOK_UP, ReadingOn { entry, cell: 3 }, table);
        assert_eq!(left, table);
        assert_eq!(activity == Idle, answer != Answer::WentOn);
        answer
    };
    for price in [0, 1, 76, 77, 78, 9_999_999, u32::MAX] {
        assert_eq!(looks(content(8, price)), Answer::Price(price));
        assert_eq!(looks(content(9, price)), Answer::WentOn);
        assert_eq!(looks(content(7, price)), Answer::No);
        assert_eq!(looks(content(0, price)), Answer::No);
    }
}

#[test]
fn a_take_out_goes_by_label() {
    let entry = content(8, 0);
    for (found, next) in [
        (content(9, 1), ReadingOn { entry, cell: 4 }),
        (content(8, 9), WalkingBack { entry, cell: 3 }),
        (content(8, 0), WalkingBack { entry, cell: 3 }),
        (content(7, 9), WalkingBack { entry, cell: 3 }),
        (5, WalkingBack { entry, cell: 3 }),
    ] {
        let table = [0, 0, 0, found, 0];
        let turned = turned(TAKE_OUT, ReadingOn { entry, cell: 3 }, table);
        assert_eq!(turned, (Answer::WentOn, next, table));
    }
    // It knows its label at any price, and from there on the whole content.
    for found in [content(8, 0), content(8, 9), content(8, u32::MAX)] {
        let table = [0, 0, 0, 0, found];
        let seeking = Seeking {
            entry: found,
            hole: 4,
            cell: 0,
            taken: None,
        };
        let turned = turned(TAKE_OUT, WalkingBack { entry, cell: 4 }, table);
        assert_eq!(turned, (Answer::WentOn, seeking, table));
    }
    for (cell, answer, next) in [
        (4, Answer::WentOn, WalkingBack { entry, cell: 3 }),
        (3, Answer::Finished, Idle),
    ] {
        for found in [0, 8, content(7, 0), content(9, 0)] {
            let mut table = [0; 5];
            table[cell] = found;
            let turned = turned(TAKE_OUT, WalkingBack { entry, cell }, table);
            assert_eq!(turned, (answer, next, table));
        }
    }
}

/// Seeking, a cell without a label is empty, whatever its price.
#[test]
fn a_take_out_takes_cells_without_a_label() {
    let entry = content(8, 9);
    let seeking = |cell, taken| Seeking {
        entry,
        hole: 3,
        cell,
        taken,
    };
    for empty in [0, 1, 9, u64::from(u32::MAX)] {
        // On the walk forward, next to the hole and further on.
        let replacing = Replacing {
            entry,
            cell: 3,
            found: empty,
            from: 4,
        };
        let table = [0, 0, 0, entry, empty];
        let near = turned(TAKE_OUT, seeking(4, None), table);
        assert_eq!(near, (Answer::WentOn, replacing, table));
        let table = [empty, 0, 0, entry, content(4, 1)];
        let far = turned(TAKE_OUT, seeking(0, None), table);
        let back = seeking(4, Some((empty, 0)));
        assert_eq!(far, (Answer::WentOn, back, table));
        // On the walk back.
        let table = [content(3, 1), 0, 0, entry, empty];
        let nearer = turned(TAKE_OUT, seeking(4, Some((content(3, 1), 0))), table);
        assert_eq!(nearer, (Answer::WentOn, replacing, table));
    }
}

#[test]
fn a_take_out_replaces() {
    let entry = content(8, 9);
    let replaces = |found: u64, now: u64| {
        let activity = Replacing {
            entry,
            cell: 3,
            found,
            from: 4,
        };
        let (answer, activity, left) = turned(TAKE_OUT, activity, [0, 0, 0, now, 0]);
        assert_eq!((left[0], left[1], left[2], left[4]), (0, 0, 0, 0));
        (answer, activity, left[3])
    };
    // What has no label is copied as 0.
    for empty in [0, 1, 9, u64::from(u32::MAX)] {
        assert_eq!(replaces(empty, entry), (Answer::Finished, Idle, 0));
    }
    // A label is copied with its price, and then taken out where it was seen.
    let found = content(3, 4);
    let next = WalkingBack {
        entry: found,
        cell: 4,
    };
    assert_eq!(replaces(found, entry), (Answer::WentOn, next, found));
    // The cell is compared whole; if it has changed it is looked at again.
    for now in [content(8, 8), content(8, 0), content(7, 9), 0, 9] {
        let again = WalkingBack { entry, cell: 3 };
        assert_eq!(replaces(found, now), (Answer::WentOn, again, now));
        assert_eq!(replaces(0, now), (Answer::WentOn, again, now));
    }
}

/// 13 looks at labels, never at prices.
#[test]
fn spoilt_by_label() {
    for kind in 1..=3 {
        for price in [0, 1, 10_000_000, u32::MAX] {
            let entry = content(1, price);
            assert!(!forged(kind, 5, ReadingOn { entry, cell: 4 }).is_spoilt(GATEWAY));
            let entry = content(0, price);
            assert!(forged(kind, 5, ReadingOn { entry, cell: 4 }).is_spoilt(GATEWAY));
        }
    }
    for found in [0, 1, content(1, 0), content(1, 10_000_000)] {
        let entry = content(1, 0);
        let replacing = Replacing {
            entry,
            cell: 0,
            found,
            from: 0,
        };
        let seeking = Seeking {
            entry,
            hole: 0,
            cell: 0,
            taken: Some((found, 0)),
        };
        assert!(!forged(PUT_IN, 5, replacing).is_spoilt(GATEWAY));
        assert!(!forged(TAKE_OUT, 5, replacing).is_spoilt(GATEWAY));
        assert!(!forged(TAKE_OUT, 5, seeking).is_spoilt(GATEWAY));
    }
}

/// A put-in price of 0 or above 9,999,999, after the check for 7.
#[test]
fn fourteen_in_its_place() {
    for price in [0, 10_000_000, 10_000_001, u32::MAX] {
        let list = [order(0, 0, price), order(0, 5, price), order(1, 5, price)];
        for line in list {
            let number = if line.label == 0 { 7 } else { 14 };
            assert_eq!(
                Phase::open(GATEWAY, 1, 1, Homes::PLAIN, &[0, 0], &[line]),
                Err(number)
            );
        }
        // At an order call, with a list that no opening takes.
        let mut phase = Phase::open(GATEWAY, 1, 2, Homes::PLAIN, &[0, 0], &[]).unwrap();
        let before = phase.clone();
        assert_eq!(phase.order(GATEWAY, &list, 0, 0, 5), Err(7));
        assert_eq!(phase.order(GATEWAY, &list, 1, 0, 5), Err(14));
        assert_eq!(phase, before);
        assert_eq!(phase.order(GATEWAY, &[order(0, 5, 1)], 0, 0, 0), Ok(()));
        assert_eq!(phase.order(GATEWAY, &list, 1, 0, 5), Err(8));
        assert_eq!(phase.order(GATEWAY, &list, 2, 0, 5), Err(14));
    }
    // The least and the greatest price.
    for price in [1, 9_999_999] {
        let list = [order(0, 5, price)];
        let mut table = [0, 0];
        let mut phase = Phase::open(GATEWAY, 1, 1, Homes::PLAIN, &table, &list).unwrap();
        assert_eq!(phase.order(GATEWAY, &list, 0, 0, 0), Ok(()));
        while phase.turn(GATEWAY, &mut table, 0).unwrap() == Answer::WentOn {}
        assert_eq!(table, [0, content(5, price)]);
    }
}

/// A worker about to write over 8 at price 9 meets 8 at price 3.
#[test]
fn a_fallen_price_is_carried_on() {
    let mut table = [0, 0, 0, content(8, 9), 0];
    let list = [order(0, 13, 5), order(1, 8, 3)];
    let mut phase = Phase::open(GATEWAY, 1, 2, Homes::PLAIN, &table, &list).unwrap();
    phase.order(GATEWAY, &list, 0, 0, 0).unwrap();
    assert_eq!(phase.turn(GATEWAY, &mut table, 0), Ok(Answer::WentOn));
    phase.order(GATEWAY, &list, 1, 0, 0).unwrap();
    assert_eq!(phase.turn(GATEWAY, &mut table, 1), Ok(Answer::WentOn));
    assert_eq!(phase.turn(GATEWAY, &mut table, 1), Ok(Answer::Finished));
    assert_eq!(table, [0, 0, 0, content(8, 3), 0]);
    while phase.turn(GATEWAY, &mut table, 0).unwrap() == Answer::WentOn {}
    assert_eq!(table, [0, 0, 0, content(13, 5), content(8, 3)]);
}

#[test]
fn prices_on_the_sheet() {
    // Prices fall, rise and tie; the least stands.
    assert_eq!(
        replay(
            "cells 5\nitem 0 3 700\nitem 1 8 50\nitem 0 3 699\nitem 1 8 51\nopen 1 2 1 0\norder 0\n\
             order 1\nrun\norder 2\norder 3\nrun\nclose\nlist\nopen 3 3 1 0\norder 0 3\norder 1 8\n\
             order 2 13\nturn 1\nturn 0\nturn 0\nrun\norder 0 8\nrun\nclose\n"
        ),
        "1 ok\n2 ok\n3 ok\n4 ok\n5 ok\n6 ok\n7 ok\n8 ok\n9 done done\n10 ok\n11 ok\n\
         12 done done\n13 ok\n14 2 8 50 3 699\n15 ok\n16 ok\n17 ok\n18 ok\n19 50\n20 on\n\
         21 699\n22 - - no\n23 ok\n24 50 - -\n25 ok\n"
    );
    // The price is a number like others; 14 comes when the shift opens.
    for (price, answer) in [
        ("0", "refused 14"),
        ("1", "ok"),
        ("9999999", "ok"),
        ("10000000", "refused 14"),
        ("4294967295", "refused 14"),
    ] {
        assert_eq!(
            replay(&format!("cells 2\nitem 0 5 {price}\nopen 1 1 1 0\n")),
            format!("1 ok\n2 ok\n3 {answer}\n")
        );
    }
}
