//! Point 6 of document 02, sentence by sentence: homes that spread.

use std::collections::BTreeSet;

use reference::generate::factory::{
    self, crowding, picture, Crowding, Step, CELLS, FITTED, GOLDEN, PRIME,
};
use reference::generate::{
    even_homes, homes, label_with, orders, other_homes, price, returned, table, Rng,
};
use reference::layout::{
    content, is_sound, label_of, layout, least_prices, soundness, way_length, way_passes, Homes,
    Prices,
};
use reference::listing::{check, count, list, list_front};
use reference::model::GATEWAY;
use reference::phase::{Activity, Answer, Order, Phase, LOOK_UP, PUT_IN, TAKE_OUT};
use reference::refusal;
use reference::sheet::replay_bytes;

use Activity::{Idle, ReadingOn, Replacing, Seeking, WalkingBack};

const EVEN: [u32; 5] = [0, 2, 100, 1 << 31, 4_294_967_294];
const ODD: [u32; 6] = [1, 3, 101, (1 << 31) + 1, 2_654_435_769, 4_294_967_295];
const ADDED: [u32; 4] = [0, 1, 1 << 31, 4_294_967_295];

fn with(a: u32, b: u32) -> Homes {
    Homes { a, b }
}

/// All a of a list with all b.
fn pairs(all: &[u32]) -> impl Iterator<Item = Homes> + '_ {
    all.iter().flat_map(|&a| ADDED.map(|b| with(a, b)))
}

/// Price 1 beside every label.
fn cells<const N: usize>(labels: [u32; N]) -> [u64; N] {
    labels.map(|label| match label {
        0 => 0,
        _ => content(label, 1),
    })
}

fn set(labels: &[u32]) -> Prices {
    labels.iter().map(|&label| (label, 1)).collect()
}

fn order(worker: u32, label: u32, price: u32) -> Order {
    Order {
        worker,
        label,
        price,
    }
}

/// Opens a shift without a list.
fn open(kind: u64, count: u64, homes: Homes, table: &[u64]) -> Result<Phase, u8> {
    Phase::open(GATEWAY, kind, count, homes, table, &[])
}

/// Gives each order to its worker, deals turns at random until all are idle, and
/// closes.
fn work(rng: &mut Rng, phase: &mut Phase, table: &mut [u64], list: &[Order]) {
    let (mut given, mut turns) = (0, 0);
    while given < list.len() || !phase.all_idle() {
        turns += 1;
        assert!(turns < 1_000_000, "the shift doesn't end");
        if given < list.len() && rng.once_in(2) {
            let order = list[given];
            // A line whose worker is busy waits.
            let answer = phase.order(
                GATEWAY,
                list,
                given as u64,
                order.worker.into(),
                order.label,
            );
            given += usize::from(answer.is_ok());
        } else {
            let worker = rng.below(phase.count) as u64;
            phase.turn(GATEWAY, table, worker).unwrap();
        }
    }
    phase.close(GATEWAY).unwrap();
}

/// Spaces stand for tabs.
fn replay(sheet: &str) -> String {
    let sheet = sheet.replace(' ', "\t");
    String::from_utf8(replay_bytes(sheet.as_bytes()))
        .unwrap()
        .replace('\t', " ")
}

/// Lines beside their answers, parted by a bar.
fn shown(lines: &[&str]) {
    let sheet: Vec<&str> = lines
        .iter()
        .map(|l| l.split(" | ").next().unwrap())
        .collect();
    let answers: String = (1..)
        .zip(lines)
        .filter_map(|(i, l)| Some(format!("{i} {}\n", l.split_once(" | ")?.1)))
        .collect();
    assert_eq!(replay(&sheet.join("\n")), answers);
}

/// The paper's rule, in numbers that never overflow.
fn by_the_paper(homes: Homes, label: u32, n: usize) -> usize {
    let product = u128::from(homes.a) * u128::from(label) + u128::from(homes.b);
    (product % 4_294_967_296 % n as u128) as usize
}

/// What is said of a table: the length, a, and then soundness by sets. The pairs
/// of a cell with a label and a number of steps from its home, short of the cell
/// itself, that lead to a content which isn't greater: the least pair decides.
fn by_sets(homes: Homes, table: &[u64]) -> u8 {
    let n = table.len();
    if !(2..=8192).contains(&n) {
        return 1;
    }
    if homes.a.is_multiple_of(2) {
        return 21;
    }
    let (label, price) = (
        |cell: u64| (cell >> 32) as u32,
        |cell: u64| cell & 0xffff_ffff,
    );
    let contents: BTreeSet<u64> = table.iter().copied().collect();
    let right =
        |&cell: &u64| cell == 0 || label(cell) > 0 && (1..10_000_000).contains(&price(cell));
    if !contents.contains(&0) || !contents.iter().all(right) {
        return 4;
    }
    let met = |cell: usize, steps| (by_the_paper(homes, label(table[cell]), n) + steps) % n;
    let breaks = |&(cell, steps): &(usize, usize)| {
        let own = table[cell];
        let short = (0..=steps).all(|fewer| met(cell, fewer) != cell);
        own != 0 && short && label(table[met(cell, steps)]) <= label(own)
    };
    let pairs = (0..n).flat_map(|cell| (0..n).map(move |steps| (cell, steps)));
    match pairs.into_iter().find(breaks) {
        None => 0,
        Some((cell, steps)) if table[met(cell, steps)] == 0 => 17,
        Some(_) => 18,
    }
}

/// What every call that needs a sound table says of this one: its number, or 0.
/// A refusal keeps all lent places.
fn said(homes: Homes, table: &[u64]) -> u8 {
    let answer = check(GATEWAY, homes, table);
    let number = answer.map_or_else(|number| number, |()| 0);
    assert_eq!(count(GATEWAY, homes, table).map(|_| ()), answer);
    for places in [0, table.len(), table.len() + 3] {
        let mut lent = vec![77; places];
        let labels = table.iter().filter(|&&cell| cell != 0).count();
        let expected = match number {
            0 if places < labels => Err(12),
            0 => Ok(labels),
            _ => Err(number),
        };
        assert_eq!(list(GATEWAY, homes, table, &mut lent), expected);
        if expected.is_err() {
            assert!(list_front(GATEWAY, homes, table, &mut lent).is_empty());
            assert_eq!(lent, vec![77; places]);
        }
    }
    for kind in 1..=3 {
        let opened = open(kind, 1, homes, table);
        assert_eq!(opened.map_or_else(|number| number, |_| 0), number);
    }
    number
}

/// A table with 9 behind its home, which is empty.
fn gap(homes: Homes, n: usize) -> Vec<u64> {
    let mut table = vec![0; n];
    table[(homes.home(9, n) + 1) % n] = content(9, 1);
    table
}

/// A table with two labels at home in cell 1, the smaller one there. The a is
/// odd.
fn disorder(homes: Homes, n: usize) -> Vec<u64> {
    let mut labels = [7, 8].map(|turn| label_with(homes, turn * n as u32 + 1));
    labels.sort();
    let mut table = vec![0; n];
    table[1] = content(labels[0], 1);
    table[2] = content(labels[1], 1);
    table
}

#[test]
fn the_numbers() {
    assert_eq!(refusal::EVEN, 21);
    assert_eq!(Homes::PLAIN, with(1, 0));
}

// ---- "Our label factory now numbers in steps of 100, and a 1,025-cell table
// crowds into forty-one homes."

/// Side by side: document 01's homes and those of an a chosen without a look at
/// these labels.
#[test]
fn the_factory() {
    for (homes, labels, expected) in [
        (Homes::PLAIN, 512, (41, 2_946, 12, 6_916, 3_458, 4_994)),
        (GOLDEN, 512, (512, 0, 0, 1_024, 512, 2_048)),
        (Homes::PLAIN, 900, (41, 9_429, 21, 20_658, 10_329, 13_029)),
        (GOLDEN, 900, (900, 0, 0, 1_800, 900, 5_678)),
        (Homes::PLAIN, 1000, (41, 11_700, 24, 25_400, 12_700, 16_768)),
        (GOLDEN, 1000, (989, 285, 46, 2_299, 1_285, 10_243)),
        (Homes::PLAIN, 1024, (41, 12_276, 24, 26_600, 13_300, 30_942)),
        (GOLDEN, 1024, (989, 1_296, 350, 3_390, 2_320, 23_586)),
        // An odd a needn't spread, nor are spread labels all that counts.
        (PRIME, 900, (104, 39_840, 91, 80_233, 40_740, 45_275)),
        (FITTED, 900, (900, 0, 0, 1_800, 900, 72_484)),
    ] {
        let (own, ways, longest_way, put_in, look_up, take_out) = expected;
        let expected = Crowding {
            labels,
            homes: own,
            ways,
            longest_way,
            put_in,
            look_up,
            take_out,
        };
        assert_eq!(crowding(homes, labels), expected, "{homes:?}");
        // A look-up has a turn for each cell of its way and one for its own.
        assert_eq!(look_up, ways + labels);
    }
}

/// The labels' homes without an a: every twenty-fifth cell, and no other.
#[test]
fn forty_one_homes() {
    let own = |homes: Homes, labels: u32| -> BTreeSet<usize> {
        let labels = (1..=labels).map(|i| 100 * i);
        labels.map(|label| homes.home(label, 1025)).collect()
    };
    let twenty_fifths: BTreeSet<usize> = (0..41).map(|i| 25 * i).collect();
    for labels in [41, 42, 900, 1024, 1_000_000] {
        assert_eq!(own(Homes::PLAIN, labels), twenty_fifths);
    }
    // Nor does b alone help.
    for b in [1, 12, 4096] {
        assert_eq!(own(with(1, b), 1024).len(), 41);
    }
    assert_eq!(own(GOLDEN, 1_000_000).len(), 1025);
}

#[test]
fn how_the_numbers_were_chosen() {
    let golden_ratio = (1.0 + 5f64.sqrt()) / 2.0;
    assert_eq!(
        f64::from(GOLDEN.a),
        (4_294_967_296.0 / golden_ratio).floor()
    );
    assert!((2..1 << 16).all(|divisor| !PRIME.a.is_multiple_of(divisor)));
    assert_eq!(FITTED.a.wrapping_mul(25), 1);
    assert!((1..=1024).all(|k| FITTED.home(100 * k, 1025) == 4 * k as usize % 1025));
}

/// The first hundred cells: each label as the length of its way.
#[test]
fn the_picture() {
    let first = |homes| {
        let picture = picture(homes, &factory::table(homes, 900), 100);
        assert_eq!(picture.lines().count(), 11);
        assert_eq!(picture.chars().filter(|c| !"·\n".contains(*c)).count(), 900);
        picture.lines().next().unwrap().to_string()
    };
    assert_eq!(
        first(Homes::PLAIN),
        "0123456789abcdefghijk····0123456789abcdefghijkl···\
         0123456789abcdefghijkl···0123456789abcdefghijkl···"
    );
    assert_eq!(
        first(GOLDEN),
        "·0000000000000·00·00000000000000000000·00·00000000\
         0·0·00000000·000000·0000000000000000·000000·000000"
    );
}

/// The shifts close on the table that the layout says, full and empty.
#[test]
fn the_factory_closes() {
    for homes in [Homes::PLAIN, GOLDEN, PRIME, FITTED] {
        let orders = factory::orders(1000);
        let mut table = vec![0; CELLS];
        let steps = factory::shift(PUT_IN, homes, &mut table, &orders);
        assert_eq!(table, factory::table(homes, 1000));
        assert!(is_sound(homes, &table));
        let given = steps.iter().filter(|step| matches!(step, Step::Order(_)));
        assert_eq!(given.count(), 1000);
        factory::shift(LOOK_UP, homes, &mut table, &orders);
        assert_eq!(table, factory::table(homes, 1000));
        factory::shift(TAKE_OUT, homes, &mut table, &orders[600..]);
        assert_eq!(table, factory::table(homes, 600));
        factory::shift(TAKE_OUT, homes, &mut table, &orders[..600]);
        assert_eq!(table, [0; CELLS]);
    }
}

// ---- "A shift is opened with two numbers, a and b, each 32 bits wide."

/// Every b, and every odd a, also for the greatest lengths and counts.
#[test]
fn numbers_of_32_bits() {
    for homes in pairs(&ODD) {
        for n in [2, 5, 8191, 8192] {
            for kind in 1..=3 {
                for count in [1, 16] {
                    let phase = open(kind, count, homes, &vec![0; n]).unwrap();
                    assert_eq!(phase.homes, homes);
                }
            }
        }
    }
    for homes in pairs(&EVEN) {
        for kind in 1..=3 {
            assert_eq!(open(kind, 1, homes, &[0; 5]), Err(21));
        }
    }
}

// ---- "A label's home becomes (a times label plus b) modulo 4,294,967,296, then
// modulo the length."

/// The homes of (label, length): (1, 2), (13, 5), (100, 1025), (4294967295, 7),
/// (4294967295, 8192), (2147483648, 4095), (3999999999, 7) and (3999999999, 8192).
const HOMES: [(u32, u32, [usize; 8]); 12] = [
    (1, 0, [1, 3, 100, 3, 8191, 128, 2, 2047]),
    (1, 1, [0, 4, 101, 0, 0, 129, 3, 2048]),
    (1, 4294967295, [0, 2, 99, 2, 8190, 127, 1, 2046]),
    (3, 0, [1, 4, 300, 1, 8189, 128, 5, 6141]),
    (3, 1, [0, 0, 301, 2, 8190, 129, 6, 6142]),
    (3, 4294967295, [0, 3, 299, 0, 8188, 127, 4, 6140]),
    (2654435769, 0, [1, 4, 569, 5, 1607, 128, 5, 3655]),
    (2654435769, 1, [0, 0, 570, 6, 1608, 129, 6, 3656]),
    (2654435769, 4294967295, [0, 3, 568, 4, 1606, 127, 4, 3654]),
    (4294967295, 0, [1, 3, 921, 1, 1, 128, 2, 6145]),
    (4294967295, 1, [0, 4, 922, 2, 2, 129, 3, 6146]),
    (4294967295, 4294967295, [0, 2, 920, 0, 0, 127, 1, 6144]),
];

const LABELS: [(u32, usize); 8] = [
    (1, 2),
    (13, 5),
    (100, 1025),
    (4294967295, 7),
    (4294967295, 8192),
    (2147483648, 4095),
    (3999999999, 7),
    (3999999999, 8192),
];

/// Wherever a home is computed: by itself, at an order of every kind, in a
/// layout, in a sound table, in ways and in the walk back of a take-out.
#[test]
fn homes_everywhere() {
    for (a, b, expected) in HOMES {
        let homes = with(a, b);
        for ((label, n), home) in LABELS.into_iter().zip(expected) {
            assert_eq!(homes.home(label, n), home);
            assert_eq!(by_the_paper(homes, label, n), home);
            let mut alone = vec![0; n];
            alone[home] = content(label, 1);
            assert_eq!(layout(homes, n, &set(&[label])), alone);
            for kind in 1..=3 {
                let list = [order(0, label, 7)];
                let opened = Phase::open(GATEWAY, kind, 1, homes, &vec![0; n], &list);
                if kind == 1 && label == 4294967295 {
                    assert_eq!(opened, Err(24));
                    continue;
                }
                let mut phase = opened.unwrap();
                phase.order(GATEWAY, &list, 0, 0, label).unwrap();
                let price = if kind == 1 { 7 } else { 0 };
                let entry = content(label, price);
                assert_eq!(phase.workers[0], ReadingOn { entry, cell: home });
            }
            for at in [0, 1, home, (home + 1) % n, n - 1] {
                let mut table = vec![0; n];
                table[at] = content(label, 1);
                let expected = if at == home { 0 } else { 17 };
                assert_eq!(said(homes, &table), expected, "{homes:?} {label} {at}");
                assert_eq!(way_length(homes, label, at, n), (at + n - home) % n);
                assert_eq!(way_passes(homes, label, at, home, n), at != home);
                // The turn that reads the home and doesn't find its label there
                // finishes.
                let entry = content(label, 0);
                let mut phase = open(2, 1, homes, &vec![0; n]).unwrap();
                phase.workers[0] = WalkingBack { entry, cell: at };
                let answer = phase.turn(GATEWAY, &mut vec![0; n], 0);
                let expected = match at == home {
                    true => (Answer::Finished, Idle),
                    false => {
                        let cell = (at + n - 1) % n;
                        (Answer::WentOn, WalkingBack { entry, cell })
                    }
                };
                assert_eq!((answer.unwrap(), phase.workers[0]), expected);
            }
        }
    }
}

/// The modulo of 4,294,967,296 comes first, b belongs under it, and neither
/// number is forgotten: other rules put these labels elsewhere.
#[test]
fn no_other_rule() {
    type Rule = fn(u128, u128, u128, u128) -> u128;
    const ALL: u128 = 1 << 32;
    // Each with a case of a, b, label and length that it gets wrong.
    let others: [(Rule, (u32, u32, u32, usize)); 9] = [
        // Without the modulo of 4,294,967,296.
        (|a, b, x, n| (a * x + b) % n, (3, 0, 4294967295, 5)),
        (|a, b, x, n| (a * x + b) % n, (1, 4294967295, 1, 5)),
        // b under the modulo of the length alone.
        (|a, b, x, n| (a * x % ALL + b) % n, (1, 1, 4294967295, 7)),
        // The remainders by the length multiplied.
        (
            |a, b, x, n| ((a % n) * (x % n) + b) % n,
            (3, 0, 4294967295, 5),
        ),
        // Without b, without a, and the two changed.
        (|a, _, x, n| a * x % ALL % n, (3, 1, 13, 5)),
        (|_, b, x, n| (x + b) % ALL % n, (3, 0, 13, 5)),
        (|a, b, x, n| (b * x + a) % ALL % n, (3, 1, 13, 5)),
        (|a, b, x, n| a * (x + b) % ALL % n, (3, 1, 13, 5)),
        // The upper half of the product.
        (|a, b, x, n| (a * x + b) / ALL % n, (3, 0, 13, 5)),
    ];
    for (i, (other, (a, b, label, n))) in others.into_iter().enumerate() {
        let home = with(a, b).home(label, n);
        assert_eq!(home, by_the_paper(with(a, b), label, n));
        let other = other(a.into(), b.into(), label.into(), n as u128);
        assert_ne!(home as u128, other, "rule {i}");
    }
    // Where the length divides 4,294,967,296, its modulo is as good as none.
    for n in [2, 4, 1024, 8192] {
        for homes in pairs(&ODD) {
            for label in [1, 13, 2147483648, 4294967295] {
                let product = u128::from(homes.a) * u128::from(label) + u128::from(homes.b);
                assert_eq!(homes.home(label, n) as u128, product % n as u128);
            }
        }
    }
}

#[test]
fn homes_of_any_numbers() {
    let rng = &mut Rng::new(1);
    for _ in 0..200_000 {
        let homes = match rng.once_in(4) {
            true => even_homes(rng),
            false => homes(rng),
        };
        let n = match rng.once_in(2) {
            true => rng.within(2, 40),
            false => rng.within(2, 8192),
        };
        let label = match rng.below(3) {
            0 => rng.within(1, 3 * n) as u32,
            1 => u32::MAX - rng.below(3 * n) as u32,
            _ => (rng.draw() >> 32) as u32,
        };
        let home = homes.home(label, n);
        assert!(home < n);
        assert_eq!(home, by_the_paper(homes, label, n));
    }
}

/// The generator's labels for a home are at home there.
#[test]
fn labels_for_a_home() {
    let rng = &mut Rng::new(2);
    for _ in 0..20_000 {
        let (homes, n) = (homes(rng), rng.within(2, 8192));
        let value = (rng.draw() >> 32) as u32;
        let label = label_with(homes, value);
        assert_eq!(homes.home(label, n), value as usize % n);
    }
}

// ---- "With a of 1 and b of 0 all cases of 01 hold as they now stand."

/// The cases themselves are the tests of document 01; here the rule of its
/// layout.
#[test]
fn document_01s_homes() {
    for n in (2..100).chain([1025, 8191, 8192]) {
        for label in (1..300).chain([2147483647, 2147483648, 4294967294, 4294967295]) {
            assert_eq!(with(1, 0).home(label, n), label as usize % n);
        }
    }
}

// ---- "The record keeps a and b, 1 and 0 after a refused opening; 13 doesn't
// test them."

#[test]
fn the_record_keeps_them() {
    let rng = &mut Rng::new(3);
    for homes in pairs(&ODD) {
        for kind in 1..=3 {
            let list = [order(0, 8, 2), order(1, 13, 1)];
            let mut table = layout(homes, 5, &set(&[3, 8]));
            let mut phase = Phase::open(GATEWAY, kind, 2, homes, &table, &list).unwrap();
            assert_eq!(phase.homes, homes);
            work(rng, &mut phase, &mut table, &list);
            // Closed, and through refused calls.
            assert_eq!((phase.homes, phase.open), (homes, false));
            assert_eq!(phase.order(GATEWAY, &list, 0, 0, 8), Err(11));
            assert_eq!(phase.turn(GATEWAY, &mut table, 0), Err(11));
            assert_eq!(phase.close(GATEWAY), Err(11));
            assert_eq!(phase.homes, homes);
        }
    }
}

#[test]
fn through_every_call() {
    let homes = with(2654435769, 7);
    let list = [order(0, 8, 2), order(1, 13, 1)];
    let mut table = [0; 5];
    let mut phase = Phase::open(GATEWAY, 1, 2, homes, &table, &list).unwrap();
    for line in [0, 1, 0, 5] {
        let _ = phase.order(GATEWAY, &list, line, 0, 0);
        assert_eq!(phase.homes, homes);
        for worker in [0, 1, 2, 0] {
            let _ = phase.turn(GATEWAY, &mut table, worker);
            assert_eq!(phase.homes, homes);
        }
        let _ = phase.turn(GATEWAY, &mut [0; 4], 0);
        let _ = phase.close(GATEWAY);
        assert_eq!(phase.homes, homes);
    }
}

#[test]
fn after_a_refused_opening() {
    let shut = Phase::shut();
    assert_eq!(shut.homes, with(1, 0));
    assert_eq!((shut.kind, shut.length, shut.count), (3, 2, 1));
    assert!(!shut.open && shut.all_idle() && !shut.is_spoilt(GATEWAY));
}

/// A record isn't spoilt by its a and b, even or odd, nor mended by them.
#[test]
fn thirteen_does_not_test_them() {
    let all = || pairs(&ODD).chain(pairs(&EVEN));
    for homes in all() {
        for kind in 1..=3 {
            let mut phase = open(kind, 2, Homes::PLAIN, &[0; 5]).unwrap();
            phase.homes = homes;
            assert!(!phase.is_spoilt(GATEWAY));
            assert_eq!(phase.turn(GATEWAY, &mut [0; 5], 0), Ok(Answer::Idle));
            let list = [order(1, 8, 2)];
            assert_eq!(phase.order(GATEWAY, &list, 0, 1, 8), Ok(()));
            assert!(!phase.is_spoilt(GATEWAY));
            assert_eq!(phase.close(GATEWAY), Err(10));
            while phase.turn(GATEWAY, &mut [0; 5], 1).unwrap() == Answer::WentOn {}
            assert_eq!(phase.close(GATEWAY), Ok(()));
            assert_eq!(phase.close(GATEWAY), Err(11));
            assert_eq!(phase.homes, homes);
            phase.length = 1;
            assert!(phase.is_spoilt(GATEWAY));
            assert_eq!(phase.close(GATEWAY), Err(13));
            assert_eq!(phase.homes, homes);
        }
        let mut shut = Phase::shut();
        shut.homes = homes;
        assert_eq!(shut.order(GATEWAY, &[], 0, 0, 8), Err(11));
        assert_eq!(shut.turn(GATEWAY, &mut [0; 2], 0), Err(11));
        assert_eq!(shut.close(GATEWAY), Err(11));
    }
}

// ---- "Prove the layout and every shift for any rule that yields a cell below
// the length."

/// A record forged with an even a works by the same definitions: its homes are
/// those of the rule, and its shifts close on the layout.
#[test]
fn forged_with_an_even_a() {
    // 2 times the label plus 1: homes 2, 4, 2, 2 of 3, 4, 8, 13.
    let homes = with(2, 1);
    assert_eq!(
        [3, 4, 8, 13].map(|label| homes.home(label, 5)),
        [2, 4, 2, 2]
    );
    let list = [
        order(0, 3, 1),
        order(1, 8, 1),
        order(0, 13, 1),
        order(1, 4, 1),
    ];
    let rng = &mut Rng::new(4);
    for _ in 0..200 {
        let mut table = [0; 5];
        let mut phase = Phase::open(GATEWAY, 1, 2, Homes::PLAIN, &table, &list).unwrap();
        phase.homes = homes;
        phase.order(GATEWAY, &list, 2, 0, 0).unwrap();
        let entry = content(13, 1);
        assert_eq!(phase.workers[0], ReadingOn { entry, cell: 2 });
        while phase.turn(GATEWAY, &mut table, 0).unwrap() == Answer::WentOn {}
        work(rng, &mut phase, &mut table, &list);
        assert_eq!(table, cells([3, 0, 13, 8, 4]));
        assert_eq!(table[..], layout(homes, 5, &set(&[3, 4, 8, 13])));
        // No call at rest takes them.
        assert_eq!(said(homes, &table), 21);
        let mut phase = open(2, 2, Homes::PLAIN, &[0; 5]).unwrap();
        phase.homes = homes;
        work(
            rng,
            &mut phase,
            &mut table,
            &[order(1, 13, 0), order(0, 13, 0)],
        );
        assert_eq!(table, cells([0, 0, 8, 3, 4]));
    }
    // With 0 all labels are at home in one cell.
    let mut phase = open(2, 1, Homes::PLAIN, &[0; 5]).unwrap();
    phase.homes = with(0, 4294967295);
    for label in [1, 13, 4294967295] {
        phase.order(GATEWAY, &[], 0, 0, label).unwrap();
        let entry = content(label, 0);
        assert_eq!(phase.workers[0], ReadingOn { entry, cell: 0 });
        while phase.turn(GATEWAY, &mut [0; 5], 0).unwrap() == Answer::WentOn {}
    }
}

/// Shifts of all kinds under any homes, forged even ones too, close on the
/// layout that the rule gives, computed here from the greatest label down.
#[test]
fn shifts_under_any_homes() {
    for seed in 0..6000 {
        let rng = &mut Rng::new(seed);
        let homes = match rng.once_in(4) {
            true => even_homes(rng),
            false => homes(rng),
        };
        let n = rng.within(2, 16);
        let mut laid = Prices::new();
        let mut table = vec![0; n];
        for kind in [PUT_IN, TAKE_OUT, PUT_IN, LOOK_UP] {
            let count = rng.within(1, 5);
            let empty = vec![0; n];
            let list: Vec<Order> = orders(rng, &table, count, 3 * n)
                .into_iter()
                .take(rng.below(2 * n))
                .collect();
            let mut all = laid.clone();
            for order in &list {
                let least = all.entry(order.label).or_insert(order.price);
                *least = order.price.min(*least);
            }
            if kind == PUT_IN && all.len() >= n {
                continue;
            }
            let mut phase = open(kind.into(), count as u64, Homes::PLAIN, &empty).unwrap();
            phase.homes = homes;
            work(rng, &mut phase, &mut table, &list);
            match kind {
                PUT_IN => laid = all,
                TAKE_OUT => laid.retain(|label, _| list.iter().all(|o| o.label != *label)),
                _ => {}
            }
            let mut expected = vec![0; n];
            for (&label, &price) in laid.iter().rev() {
                let home = by_the_paper(homes, label, n);
                let cell = (0..n).map(|step| (home + step) % n);
                let cell = cell.into_iter().find(|&cell| expected[cell] == 0).unwrap();
                expected[cell] = content(label, price);
            }
            assert_eq!(table, expected, "seed {seed} {homes:?}");
        }
    }
}

// ---- "The sheet's `open` gains a and b as third and fourth number"

#[test]
fn the_sheets_open() {
    for (line, answer) in [
        ("open 1 2 1 0", "ok"),
        ("open 1 2 3 4294967295", "ok"),
        ("open 3 16 4294967295 4294967295", "ok"),
        ("open 1 2 2 0", "refused 21"),
        ("open 1 2 0 0", "refused 21"),
        ("open 1 2 4294967294 1", "refused 21"),
        ("open 1 17 2 0", "refused 2"),
        ("open 4 2 2 0", "refused 3"),
        ("open", "bad"),
        ("open ", "bad"),
        ("open 1", "bad"),
        ("open 1 2", "bad"),
        ("open 1 2 ", "bad"),
        ("open 1 2 1", "bad"),
        ("open 1 2 1 ", "bad"),
        ("open 1 2 1 0 ", "bad"),
        ("open 1 2 1 0 0", "bad"),
        ("open 1 2  0", "bad"),
        ("open 1 2 01 0", "bad"),
        ("open 1 2 1 00", "bad"),
        ("open 1 2 4294967296 0", "bad"),
        ("open 1 2 4294967297 0", "bad"),
        ("open 1 2 1 4294967296", "bad"),
        ("open 1 2 1 -1", "bad"),
        ("open 1 2 x 0", "bad"),
        ("open 1 2 1 0\r", "bad"),
    ] {
        let printed = replay(&format!("cells 5\n{line}\nturn 2\n"));
        let expected = match answer {
            "ok" if line.starts_with("open 3") => "1 ok\n2 ok\n3 idle\n".to_string(),
            "ok" => "1 ok\n2 ok\n3 refused 6\n".to_string(),
            "bad" => "1 ok\n2 bad\n".to_string(),
            refused => format!("1 ok\n2 {refused}\n3 refused 11\n"),
        };
        assert_eq!(printed, expected, "{line:?}");
        // In an open shift all are bad, and before `cells` 1 comes first.
        let printed = replay(&format!("cells 5\nopen 3 1 3 5\n{line}\nlist\n"));
        assert_eq!(printed, "1 ok\n2 ok\n3 bad\n");
        let expected = if answer == "bad" {
            "1 bad\n"
        } else {
            "1 refused 1\n"
        };
        assert_eq!(replay(line), expected);
    }
    // Other lines have no more numbers than before.
    for line in [
        "cells 5 1 0",
        "item 0 1 1 1",
        "list 1 0",
        "close 1 0",
        "run 1 0",
    ] {
        assert_eq!(replay(&format!("{line}\n")), "1 bad\n");
    }
}

/// The sheet of document 01 under other homes, and its shifts after it.
#[test]
fn the_sheet_under_other_homes() {
    let sheet = |a: u32, b: u32| {
        let printed = replay(&format!(
            "cells 5\nitem 0 3 1\nitem 1 8 1\nitem 0 13 1\nitem 1 4 1\nopen 1 2 {a} {b}\n\
             order 0\norder 1\nrun\norder 2\norder 3\nrun\nclose\nlist\nopen 3 1 {a} {b}\n\
             order 0 3\nrun\nclose\nopen 2 2 {a} {b}\norder 0 13\norder 1 13\nrun\nclose\nlist\n"
        ));
        let mut lists = printed.lines().filter(|line| line.len() > 12);
        assert_eq!(printed.lines().nth(16), Some("17 1"));
        [lists.next().unwrap(), lists.next().unwrap()].map(str::to_string)
    };
    assert_eq!(sheet(1, 0), ["14 4 4 1 3 1 13 1 8 1", "24 3 3 1 8 1 4 1"]);
    // One cell on: [8, 4, 3, 0, 13] and [4, 3, 0, 0, 8].
    assert_eq!(sheet(1, 1), ["14 4 8 1 4 1 3 1 13 1", "24 3 4 1 3 1 8 1"]);
    // Homes 4, 2, 4, 4: [8, 3, 4, 0, 13] and [3, 0, 4, 0, 8].
    assert_eq!(sheet(3, 0), ["14 4 8 1 3 1 4 1 13 1", "24 3 3 1 4 1 8 1"]);
    // Homes 3, 2, 3, 3: [3, 0, 4, 13, 8] and [0, 0, 4, 8, 3].
    assert_eq!(
        sheet(4294967295, 0),
        ["14 4 3 1 4 1 13 1 8 1", "24 3 4 1 8 1 3 1"]
    );
}

// ---- "and check, count and list take them too"

/// One table, and what is said of it under several homes.
#[test]
fn at_rest() {
    let table = cells([4, 3, 0, 13, 8]);
    for (homes, number) in [
        (with(1, 0), 0),
        (with(1, 5), 0),
        (with(11, 0), 0),
        (with(6, 0), 21),
        (with(1, 1), 18),
        (with(1, 4), 17),
        (with(3, 0), 17),
    ] {
        assert_eq!(by_sets(homes, &table), number, "{homes:?}");
        assert_eq!(said(homes, &table), number, "{homes:?}");
    }
    let mut lent = [77; 5];
    assert_eq!(list(GATEWAY, with(1, 5), &table, &mut lent), Ok(4));
    assert_eq!(lent[..4], cells([4, 3, 13, 8]));
    assert_eq!(lent[4], 77);
    let mut lent = [77; 5];
    assert_eq!(
        list_front(GATEWAY, with(1, 5), &table, &mut lent),
        cells([4, 3, 13, 8])
    );
}

// ---- "the sheet's `list` uses those of the last accepted opening, 1 and 0
// before any"

/// Before any opening there is no label, but with an even a it would be 21.
#[test]
fn a_list_before_any_opening() {
    shown(&[
        "list | refused 1",
        "open 1 1 2 0 | refused 1",
        "list | refused 1",
        "cells 5 | ok",
        "list | 0",
        "open 1 1 2 0 | refused 21",
        "list | 0",
        "open 1 17 4 0 | refused 2",
        "open 4 1 4 0 | refused 3",
        "list | 0",
        "cells 8 | ok",
        "list | 0",
    ]);
}

/// A refused opening, with whatever a and b, changes nothing for `list`.
#[test]
fn a_list_after_refused_openings() {
    // 8 and 13 under 3 and 1 in five cells: both at home in cell 0.
    let mut lines = vec![
        "cells 5 | ok",
        "item 0 8 4 | ok",
        "item 0 13 6 | ok",
        "open 1 1 3 1 | ok",
        "order 0 | ok",
        "run | done",
        "list | 1 8 4",
        "order 1 | ok",
        "run | done",
        "list | 2 13 6 8 4",
        "close | ok",
        "list | 2 13 6 8 4",
    ];
    // By these it would be refused, with 13 at home in cells 3, 2, 1 and 1.
    let table = [content(13, 6), content(8, 4), 0, 0, 0];
    assert_eq!(said(with(1, 0), &table), 17);
    assert_eq!(said(with(3, 3), &table), 17);
    assert_eq!(said(with(3, 2), &table), 18);
    assert_eq!(said(with(1, 3), &table), 18);
    for refused in [
        "open 2 1 1 0 | refused 17",
        "open 2 1 3 3 | refused 17",
        "open 2 1 3 2 | refused 18",
        "open 3 1 1 3 | refused 18",
        "open 2 1 2 1 | refused 21",
        "open 2 0 1 0 | refused 2",
        "open 0 1 1 0 | refused 3",
        "cells 1 | refused 1",
        "item 3 9 9 | ok",
        "open 1 1 3 1 | refused 6",
        "open 1 1 1 0 | refused 17",
    ] {
        lines.extend([refused, "list | 2 13 6 8 4"]);
    }
    // Accepted ones do: after 13 is out, 8 stands right by 1 and 2 as well.
    lines.extend([
        "open 2 1 3 1 | ok",
        "list | 2 13 6 8 4",
        "order 0 13 | ok",
        "run | done",
        "close | ok",
        "list | 1 8 4",
        "open 2 1 1 3 | refused 17",
        "list | 1 8 4",
        "open 3 1 1 2 | ok",
        "list | 1 8 4",
        "close | ok",
        "list | 1 8 4",
        "open 2 1 1 0 | refused 17",
        "list | 1 8 4",
    ]);
    shown(&lines);
}

/// While a shift is open its own a and b count, not those before.
#[test]
fn a_list_in_a_shift_under_other_homes() {
    shown(&[
        "cells 5 | ok",
        "item 0 8 4 | ok",
        "open 1 1 1 0 | ok",
        "order 0 | ok",
        "run | done",
        "close | ok",
        "list | 1 8 4",
        // By 1 and 294967305 it has its home still; 13 goes before it.
        "item 0 13 6 | ok",
        "item 0 3999999995 9 | ok",
        "open 1 1 1 294967305 | ok",
        "list | 1 8 4",
        "order 1 | ok",
        "run | done",
        // 3999999995 plus 294967305 is 4: by 1 and 0 its home was cell 0.
        "list | 2 8 4 3999999995 9",
        "order 0 | ok",
        "run | done",
        "close | ok",
        "list | 3 8 4 13 6 3999999995 9",
        "open 3 1 1 0 | refused 18",
        "list | 3 8 4 13 6 3999999995 9",
    ]);
}

/// `cells` and `close` change nothing: an empty table is listed as before, and
/// the next shift may have any a and b.
#[test]
fn a_list_after_cells() {
    shown(&[
        "cells 5 | ok",
        "item 0 8 4 | ok",
        "open 1 1 3 1 | ok",
        "order 0 | ok",
        "run | done",
        "close | ok",
        "list | 1 8 4",
        "cells 7 | ok",
        "list | 0",
        "cells 0 | refused 1",
        "list | 0",
        "open 3 1 2 0 | refused 21",
        "list | 0",
        "item 0 8 4 | ok",
        "open 1 1 5 5 | ok",
        "order 0 | ok",
        "run | done",
        "close | ok",
        "list | 1 8 4",
    ]);
}

// ---- "Equal closed tables need equal a and b"

/// One set, several a and b: other tables, each the layout. Only where all homes
/// are the same, as with 5 more in five cells, is the table.
#[test]
fn one_set_in_other_tables() {
    let laid = [
        (with(1, 0), [4, 3, 0, 13, 8]),
        (with(1, 1), [8, 4, 3, 0, 13]),
        (with(1, 5), [4, 3, 0, 13, 8]),
        (with(3, 0), [8, 3, 4, 0, 13]),
        (with(4294967295, 0), [3, 0, 4, 13, 8]),
        (with(1, 4294967295), [3, 0, 13, 8, 4]),
    ];
    let rng = &mut Rng::new(5);
    for (homes, labels) in laid {
        assert_eq!(layout(homes, 5, &set(&[3, 4, 8, 13])), cells(labels));
        let list = [
            order(0, 3, 1),
            order(1, 8, 1),
            order(0, 13, 1),
            order(1, 4, 1),
        ];
        for _ in 0..50 {
            let mut table = [0; 5];
            let mut phase = Phase::open(GATEWAY, 1, 2, homes, &table, &list).unwrap();
            work(rng, &mut phase, &mut table, &list);
            assert_eq!(table, cells(labels));
        }
    }
}

/// Equal sets and prices, once with equal a and b and once with others.
#[test]
fn closed_alike_or_not() {
    let (mut alike, mut other) = (0, 0);
    for seed in 0..4000 {
        let rng = &mut Rng::new(seed);
        let n = rng.within(3, 16);
        let first = homes(rng);
        let second = other_homes(rng, first, n);
        let labels = rng.within(1, n - 1);
        let mut wanted = Prices::new();
        while wanted.len() < labels {
            wanted.insert(rng.within(1, 4 * n) as u32, price(rng));
        }
        let mut closed = |homes: Homes| {
            let count = rng.within(1, 5);
            let mut list: Vec<Order> = wanted
                .iter()
                .map(|(&label, &price)| order(rng.below(count) as u32, label, price))
                .collect();
            rng.shuffle(&mut list);
            let mut table = vec![0; n];
            let mut phase = Phase::open(GATEWAY, 1, count as u64, homes, &table, &list).unwrap();
            work(rng, &mut phase, &mut table, &list);
            table
        };
        assert_eq!(closed(first), closed(first));
        let (one, two) = (closed(first), closed(second));
        assert_eq!(one, layout(first, n, &wanted));
        assert_eq!(two, layout(second, n, &wanted));
        match one == two {
            true => alike += 1,
            false => other += 1,
        }
    }
    assert!(alike > 500 && other > 1500, "{alike} {other}");
}

// ---- "and a turn depends on them as well"

/// A forged record's turn under these homes: the answer, the new record and the
/// cells.
fn turned(
    kind: u64,
    homes: Homes,
    activity: Activity,
    table: [u64; 5],
) -> (Answer, Activity, [u64; 5]) {
    let mut phase = open(kind, 1, Homes::PLAIN, &[0; 5]).unwrap();
    phase.homes = homes;
    phase.workers[0] = activity;
    let mut table = table;
    let answer = phase.turn(GATEWAY, &mut table, 0).unwrap();
    (answer, phase.workers[0], table)
}

/// Two turns alike in all but a, or in all but b.
#[test]
fn turns_that_differ_by_a_or_b() {
    // Walking back with 8 at cell 3: its home by 1 and 0, not by others.
    let entry = content(8, 0);
    let back = WalkingBack { entry, cell: 3 };
    let on = WalkingBack { entry, cell: 2 };
    let ended = (Answer::Finished, Idle, [0; 5]);
    let goes_on = (Answer::WentOn, on, [0; 5]);
    for (homes, expected) in [
        (with(1, 0), ended),
        (with(3, 0), goes_on),
        (with(1, 1), goes_on),
        (with(11, 5), ended),
        (with(2, 2), ended),
        (with(2, 0), goes_on),
    ] {
        assert_eq!(turned(2, homes, back, [0; 5]), expected, "{homes:?}");
    }
    // Seeking a replacement for 13 in cell 3: does the way of 4 in cell 0 pass?
    let entry = content(13, 1);
    let table = cells([4, 0, 0, 13, 8]);
    let seeking = |cell, taken| Seeking {
        entry,
        hole: 3,
        cell,
        taken,
    };
    for (homes, next) in [
        (with(1, 4), seeking(4, Some((content(4, 1), 0)))),
        (with(1, 0), seeking(1, None)),
        (with(7, 0), seeking(4, Some((content(4, 1), 0)))),
    ] {
        let expected = (Answer::WentOn, next, table);
        assert_eq!(turned(2, homes, seeking(0, None), table), expected);
    }
    // On the way back: does that of 8 in cell 4?
    let taken = Some((content(4, 1), 0));
    for (homes, found, from) in [
        (with(1, 0), content(8, 1), 4),
        (with(1, 1), content(4, 1), 0),
        (with(3, 0), content(4, 1), 0),
    ] {
        let replacing = Replacing {
            entry,
            cell: 3,
            found,
            from,
        };
        let expected = (Answer::WentOn, replacing, table);
        assert_eq!(turned(2, homes, seeking(4, taken), table), expected);
    }
}

/// Alike in kind, a, b, length, record and cell, turns are alike, whatever else
/// stands in the table and the other records. Those that put in and look up do
/// not read a and b: the home is in the record since the order.
#[test]
fn turns_alike() {
    let (mut by_homes, mut finished) = (0, 0);
    for seed in 0..60_000 {
        let rng = &mut Rng::new(seed);
        let any = |rng: &mut Rng| content(rng.below(12) as u32, rng.pick(&[0, 1, 2]));
        let kind = rng.within(1, 3) as u64;
        let (entry, cell) = (content(rng.within(1, 12) as u32, 1), rng.below(5));
        let activity = match (kind, rng.below(4)) {
            (2, 0) => WalkingBack { entry, cell },
            (2, 1) => Seeking {
                entry,
                hole: rng.below(5),
                cell,
                taken: rng.once_in(2).then(|| (any(rng), rng.below(5))),
            },
            (1 | 2, 2) => Replacing {
                entry,
                cell,
                found: any(rng),
                from: rng.below(5),
            },
            _ => ReadingOn { entry, cell },
        };
        let read = any(rng);
        let mut tables = [[0; 5]; 2].map(|table| table.map(|_| any(rng)));
        tables.iter_mut().for_each(|table| table[cell] = read);
        let first = homes(rng);
        let second = other_homes(rng, first, 5);
        let one = turned(kind, first, activity, tables[0]);
        let two = turned(kind, first, activity, tables[1]);
        assert_eq!((one.0, one.1, one.2[cell]), (two.0, two.1, two.2[cell]));
        finished += usize::from(one.1 == Idle);
        let other = turned(kind, second, activity, tables[0]);
        if other != one {
            assert_eq!(kind, 2);
            assert!(matches!(activity, WalkingBack { .. } | Seeking { .. }));
            by_homes += 1;
        }
    }
    assert!(by_homes > 1000 && finished > 1000, "{by_homes} {finished}");
}

// ---- "It refuses with 21 an even a, after 3 and before 16 at opening"

/// 1, 2, 3, 21, 16, 4 or 17 or 18, the lines, 9; all that come later are due
/// too. With an odd a each that comes later is given.
#[test]
fn the_place_of_21_at_opening() {
    let long = vec![order(9, 0, 0); 65_537];
    let lists: [(&[Order], u8); 6] = [
        (&[order(0, 0, 1)], 7),
        (&[order(0, 5, 0)], 14),
        (&[order(1, 5, 1)], 6),
        (&[order(0, 5, 1), order(0, 6, 1), order(0, 7, 1)], 9),
        (&[order(0, 5, 1)], 0),
        (&[], 0),
    ];
    for (even, odd) in pairs(&EVEN).zip(pairs(&ODD[..5])) {
        let tables = [
            (layout(odd, 3, &set(&[4])), 0),
            (vec![0; 3], 0),
            (cells([1, 3, 5]).to_vec(), 4),
            (vec![0, 0, content(2, 10_000_000)], 4),
            (vec![0, 7, 0], 4),
            (gap(odd, 3), 17),
            (disorder(odd, 3), 18),
        ];
        for (table, number) in tables {
            assert_eq!(by_sets(odd, &table), number);
            let table = &table[..];
            for homes in [even, odd] {
                for kind in 0..=4 {
                    for list in lists.map(|list| list.0).into_iter().chain([&long[..]]) {
                        for short in [0, 1] {
                            let table = &table[..short];
                            assert_eq!(Phase::open(GATEWAY, kind, 0, homes, table, list), Err(1));
                            assert_eq!(Phase::open(GATEWAY, kind, 1, homes, table, list), Err(1));
                        }
                        let answer = |count| Phase::open(GATEWAY, kind, count, homes, table, list);
                        assert_eq!(answer(0), Err(2));
                        assert_eq!(answer(17), Err(2));
                        if kind == 0 || kind == 4 {
                            assert_eq!(answer(1), Err(3));
                        }
                    }
                }
            }
            for kind in 1..=3 {
                for list in lists.map(|list| list.0).into_iter().chain([&long[..]]) {
                    assert_eq!(Phase::open(GATEWAY, kind, 1, even, table, list), Err(21));
                    assert_eq!(Phase::open(GATEWAY, kind, 16, even, table, list), Err(21));
                }
                for (list, behind) in lists {
                    let expected = match (number, kind) {
                        (0, 1) => behind,
                        _ => number,
                    };
                    let answer = Phase::open(GATEWAY, kind, 1, odd, table, list);
                    assert_eq!(answer.map_or_else(|number| number, |_| 0), expected);
                }
                let expected = if kind == 1 { 16 } else { number };
                let answer = Phase::open(GATEWAY, kind, 1, odd, table, &long);
                assert_eq!(answer.map_or_else(|number| number, |_| 0), expected);
            }
        }
    }
    // Too long a table: 1 also for an even a.
    for homes in pairs(&EVEN) {
        assert_eq!(
            Phase::open(GATEWAY, 1, 1, homes, &vec![0; 8193], &long),
            Err(1)
        );
        assert_eq!(
            Phase::open(GATEWAY, 1, 1, homes, &vec![0; 8192], &long),
            Err(21)
        );
    }
}

/// Every odd a is passed by and every even one refused, by its last bit alone.
#[test]
fn even_by_the_last_bit() {
    let rng = &mut Rng::new(6);
    for bit in 0..32 {
        for b in ADDED {
            let a = 1 << bit;
            let expected = if bit == 0 { Ok(()) } else { Err(21) };
            assert_eq!(check(GATEWAY, with(a, b), &[0; 5]), expected);
            assert_eq!(check(GATEWAY, with(a | 1, b), &[0; 5]), Ok(()));
            assert_eq!(
                check(GATEWAY, with(!a, b), &[0; 5]),
                if bit == 0 { Err(21) } else { Ok(()) }
            );
        }
    }
    for _ in 0..10_000 {
        let (odd, even) = (homes(rng), even_homes(rng));
        assert_eq!(check(GATEWAY, odd, &[0; 5]), Ok(()));
        assert_eq!(check(GATEWAY, even, &[0; 5]), Err(21));
    }
}

// ---- "and after 1 elsewhere"

/// 1, 21, 4 or 17 or 18, 12.
#[test]
fn the_place_of_21_at_rest() {
    for (even, odd) in pairs(&EVEN).zip(pairs(&ODD[..5])) {
        for n in [4, 64, 8192] {
            for (table, number) in [
                (vec![0; n], 0),
                (layout(odd, n, &set(&[5, 9])), 0),
                (vec![1; n], 4),
                (gap(odd, n), 17),
                (disorder(odd, n), 18),
            ] {
                assert_eq!(said(odd, &table), number, "{odd:?} {n}");
                assert_eq!(said(even, &table), 21);
                // The list too short comes last.
                let answer = list(GATEWAY, odd, &table, &mut []);
                let labels = table.iter().filter(|&&cell| cell != 0).count();
                let expected = match (number, labels) {
                    (0, 0) => Ok(0),
                    (0, _) => Err(12),
                    _ => Err(number),
                };
                assert_eq!(answer, expected);
                assert_eq!(list(GATEWAY, even, &table, &mut []), Err(21));
            }
        }
        for n in [0, 1, 8193, 9000] {
            for homes in [even, odd] {
                assert_eq!(said(homes, &vec![0; n]), 1);
                assert_eq!(said(homes, &vec![1; n]), 1);
            }
        }
    }
}

// ---- tables left by one a and b and opened under others

/// An exact small table for each answer.
#[test]
fn opened_under_others() {
    // 8 in cell 3 of five.
    let rng = &mut Rng::new(7);
    let list = [order(0, 8, 1)];
    let mut table = [0; 5];
    let mut phase = Phase::open(GATEWAY, 1, 1, with(1, 0), &table, &list).unwrap();
    work(rng, &mut phase, &mut table, &list);
    assert_eq!(table, cells([0, 0, 0, 8, 0]));
    // By 1 and 1 its home is the empty cell 4.
    assert_eq!(said(with(1, 1), &table), 17);
    // By 1 and 5, by 11 and 0 and by 3 and 4 it is cell 3 as well.
    for homes in [with(1, 5), with(11, 0), with(3, 4)] {
        assert_eq!(said(homes, &table), 0);
        let phase = open(2, 1, homes, &table).unwrap();
        assert_eq!(phase.homes, homes);
    }
    // 2 and 3 in three cells, left by 1 and 0: 3 in cell 0, 2 in cell 2.
    let list = [order(0, 2, 1), order(0, 3, 1)];
    let mut table = [0; 3];
    let mut phase = Phase::open(GATEWAY, 1, 1, with(1, 0), &table, &list).unwrap();
    work(rng, &mut phase, &mut table, &list);
    assert_eq!(table, cells([3, 0, 2]));
    // By 1 and 2 the home of 3 is cell 2, where the smaller 2 stands.
    assert_eq!(said(with(1, 2), &table), 18);
    // By 1 and 1 that of 3 is the empty cell 1, and that of 2 cell 0.
    assert_eq!(said(with(1, 1), &table), 17);
    assert_eq!(said(with(1, 3), &table), 0);
}

/// Closed under one pair, opened under another: the answer is that of the
/// definition applied directly, and where it opens the shift goes on by the new
/// pair.
#[test]
fn closed_under_one_pair_and_opened_under_another() {
    let mut tally = [0; 22];
    for seed in 0..12_000 {
        let rng = &mut Rng::new(seed);
        let n = rng.within(2, 24);
        let first = homes(rng);
        let opening = table(rng, first, n);
        let count = rng.within(1, 5);
        let kind = rng.pick(&[PUT_IN, TAKE_OUT]);
        let mut list = orders(rng, &opening, count, 3 * n);
        if kind == TAKE_OUT {
            list.truncate(rng.within(0, n));
        }
        let mut closed = opening.clone();
        if let Ok(mut phase) =
            Phase::open(GATEWAY, kind.into(), count as u64, first, &opening, &list)
        {
            work(rng, &mut phase, &mut closed, &list);
        }
        assert_eq!(by_sets(first, &closed), 0, "seed {seed}");
        let second = match rng.once_in(8) {
            true => even_homes(rng),
            false => other_homes(rng, first, n),
        };
        let expected = by_sets(second, &closed);
        assert_eq!(said(second, &closed), expected, "seed {seed}");
        tally[expected as usize] += 1;
        if expected == 0 {
            // What closed as the layout of one is the layout of the other too.
            let prices = least_prices(closed.iter().copied());
            assert_eq!(layout(second, n, &prices), closed);
            let labels: Vec<u32> = prices.keys().copied().collect();
            let gone: Vec<Order> = labels
                .iter()
                .filter(|_| rng.once_in(2))
                .map(|&label| order(0, label, 0))
                .collect();
            let mut phase = open(2, 1, second, &closed).unwrap();
            work(rng, &mut phase, &mut closed, &gone);
            let mut left = prices;
            left.retain(|label, _| gone.iter().all(|o| o.label != *label));
            assert_eq!(closed, layout(second, n, &left));
        }
    }
    let others = [0, 17, 18, 21].map(|number| tally[number]);
    assert_eq!(others.iter().sum::<usize>(), 12_000);
    assert!(others.iter().all(|&often| often > 1000), "{others:?}");
}

/// Damaged tables under their own homes and under others.
#[test]
fn damaged_tables() {
    let mut tally = [0; 22];
    for seed in 0..12_000 {
        let rng = &mut Rng::new(seed);
        let n = rng.within(2, 24);
        let own = homes(rng);
        let image = returned(rng, own, n);
        for homes in [own, other_homes(rng, own, n), Homes::PLAIN, even_homes(rng)] {
            let expected = by_sets(homes, &image);
            assert_eq!(said(homes, &image), expected, "seed {seed} {homes:?}");
            tally[expected as usize] += 1;
        }
        // Soundness by itself doesn't look at the last bit of a.
        let even = even_homes(rng);
        if soundness(even, &image).is_ok() {
            let prices = least_prices(image.iter().copied());
            assert_eq!(layout(even, n, &prices), image);
            assert!(image.iter().all(|&cell| cell == 0 || label_of(cell) > 0));
        }
    }
    for number in [0, 4, 17, 18, 21] {
        assert!(tally[number] > 2000, "{number}: {tally:?}");
    }
}
