//! Point 7 of document 02, sentence by sentence: a gateway for kiosks.

use reference::generate::{even_homes, homes, orders, price, returned, table, Rng};
use reference::layout::{content, layout, least_prices, Homes, Prices};
use reference::listing::{check, count, list, list_front};
use reference::model::{Model, GATEWAY, KIOSK};
use reference::phase::{Activity, Answer, Order, Phase, PUT_IN};
use reference::till::read;

const BOTH: [Model; 2] = [GATEWAY, KIOSK];

fn order(worker: u32, label: u32, price: u32) -> Order {
    Order {
        worker,
        label,
        price,
    }
}

/// What opening says, without the record.
fn opening(model: Model, kind: u64, count: u64, table: &[u64], list: &[Order]) -> Result<(), u8> {
    Phase::open(model, kind, count, Homes::PLAIN, table, list).map(|_| ())
}

// ---- "2 to 256 cells, 1 to 4 workers"

#[test]
fn lengths() {
    for (cells, gateway, kiosk) in [
        (0, Err(1), Err(1)),
        (1, Err(1), Err(1)),
        (2, Ok(()), Ok(())),
        (255, Ok(()), Ok(())),
        (256, Ok(()), Ok(())),
        (257, Ok(()), Err(1)),
        (8192, Ok(()), Err(1)),
        (8193, Err(1), Err(1)),
    ] {
        let table = vec![0; cells];
        for (model, answer) in [(GATEWAY, gateway), (KIOSK, kiosk)] {
            for kind in 1..=3 {
                assert_eq!(opening(model, kind, 1, &table, &[]), answer, "{cells}");
            }
            let counted = answer.map(|()| 0);
            assert_eq!(check(model, Homes::PLAIN, &table), answer);
            assert_eq!(count(model, Homes::PLAIN, &table), counted);
            let mut lent = [77; 3];
            assert_eq!(list(model, Homes::PLAIN, &table, &mut lent), counted);
            assert!(list_front(model, Homes::PLAIN, &table, &mut lent).is_empty());
            assert_eq!(lent, [77; 3]);
        }
    }
}

#[test]
fn worker_counts() {
    const OLD: Order = Order {
        worker: 77,
        label: 77,
        price: 77,
    };
    for (crew, gateway, kiosk) in [
        (0, Err(2), Err(2)),
        (1, Ok(()), Ok(())),
        (3, Ok(()), Ok(())),
        (4, Ok(()), Ok(())),
        (5, Ok(()), Err(2)),
        (16, Ok(()), Err(2)),
        (17, Err(2), Err(2)),
        (1 << 32 | 1, Err(2), Err(2)),
    ] {
        for (model, answer) in [(GATEWAY, gateway), (KIOSK, kiosk)] {
            for kind in 1..=3 {
                assert_eq!(opening(model, kind, crew, &[0, 0], &[]), answer, "{crew}");
            }
            let mut lent = [OLD; 6];
            let text = b"3,1\r\n8,2\r\n13,3\r\n4,4\r\n5,5\r\n";
            assert_eq!(read(model, text, crew, &mut lent), answer.map(|()| 5));
            let worker = |place| if place < 5 { place % crew } else { 77 };
            for (place, order) in (0..).zip(lent).filter(|_| answer.is_ok()) {
                assert_eq!(u64::from(order.worker), worker(place));
            }
            assert!(answer.is_ok() || lent == [OLD; 6]);
            // It comes first.
            for text in [&b""[..], b"1", b"x,1", b"1,2"] {
                let first = read(model, text, crew, &mut []);
                assert_eq!(first == Err(2), answer == Err(2));
            }
        }
    }
}

// ---- "every call so far", "answer 1, 2 and 13 by these limits"

#[test]
fn openings_refuse_in_order() {
    let long = vec![order(9, 0, 0); 65_537];
    let full = [order(0, 1, 1), order(0, 2, 1), order(0, 3, 1)];
    // A price without a label in the last cell.
    let unsound = |cells: usize| [vec![0; cells - 1], vec![1]].concat();
    for homes in [Homes::PLAIN, Homes { a: 2, b: 7 }] {
        let kiosk = |kind, count, table: &[u64], list: &[Order]| {
            Phase::open(KIOSK, kind, count, homes, table, list).map(|_| ())
        };
        for (kind, count) in [(1, 1), (2, 4), (0, 0), (4, 5), (4, 16), (4, 17)] {
            for cells in [1, 257, 300, 8192, 8193] {
                assert_eq!(kiosk(kind, count, &unsound(cells), &long), Err(1));
            }
        }
        for kind in 0..=4 {
            for count in [0, 5, 16, 17] {
                for cells in [2, 256] {
                    assert_eq!(kiosk(kind, count, &unsound(cells), &long), Err(2));
                }
            }
        }
        for (kind, count) in [(0, 1), (4, 4)] {
            assert_eq!(kiosk(kind, count, &unsound(256), &long), Err(3));
        }
        let even = homes.check().err();
        for (list, number) in [(&long[..], 16), (&long[1..], 4), (&full, 4)] {
            let number = even.unwrap_or(number);
            assert_eq!(kiosk(1, 4, &unsound(256), list), Err(number));
        }
    }
    for (line, number) in [
        (order(4, 0, 0), 7),
        (order(4, 5, 0), 14),
        (order(4, 5, 1), 6),
    ] {
        let list = [full[0], line, full[1], full[2], order(9, 0, 0)];
        assert_eq!(opening(KIOSK, 1, 4, &[0; 3], &list), Err(number));
    }
    assert_eq!(opening(KIOSK, 1, 4, &[0; 3], &full), Err(9));
    assert_eq!(opening(KIOSK, 1, 4, &[0; 3], &full[1..]), Ok(()));
    // As long a list as the gateway takes.
    let list = vec![order(3, 7, 1); 65_536];
    assert_eq!(opening(KIOSK, 1, 4, &[0; 256], &list), Ok(()));
    // 255 labels and no more, in the longest table.
    let list: Vec<Order> = (1..=256).map(|label| order(0, label, 1)).collect();
    assert_eq!(opening(KIOSK, 1, 1, &[0; 256], &list), Err(9));
    assert_eq!(opening(KIOSK, 1, 1, &[0; 256], &list[1..]), Ok(()));
}

#[test]
fn at_rest_refuses_in_order() {
    let even = Homes { a: 2, b: 0 };
    for cells in [1, 257, 8192] {
        assert_eq!(check(KIOSK, even, &vec![1; cells]), Err(1));
        assert_eq!(count(KIOSK, even, &vec![1; cells]), Err(1));
        assert_eq!(list(KIOSK, even, &vec![1; cells], &mut []), Err(1));
    }
    for (homes, table, number) in [
        (even, vec![1; 256], 21),
        (Homes::PLAIN, vec![1; 256], 4),
        (
            Homes::PLAIN,
            layout(Homes::PLAIN, 256, &[(7, 1)].into()),
            12,
        ),
    ] {
        assert_eq!(list(KIOSK, homes, &table, &mut []), Err(number));
    }
}

/// The tables at rest and the openings of the two models differ by 1 and 2 only.
#[test]
fn one_rule_for_both_models() {
    let (mut small, mut alike) = (0, 0);
    for seed in 0..4000 {
        let rng = &mut Rng::new(seed);
        let n = match rng.once_in(2) {
            true => rng.within(2, 12),
            false => rng.within(250, 262),
        };
        let own = homes(rng);
        let image = returned(rng, own, n);
        let homes = match rng.once_in(10) {
            true => even_homes(rng),
            false => own,
        };
        let crew = rng.within(1, 6);
        let kind = rng.within(0, 4) as u64;
        let lines = orders(rng, &image, crew, 3 * n);
        let places = rng.below(n + 1);
        let listed = BOTH.map(|model| {
            let mut lent = vec![77; places];
            let answer = list(model, homes, &image, &mut lent);
            (answer, lent)
        });
        let opened = BOTH.map(|model| Phase::open(model, kind, crew as u64, homes, &image, &lines));
        if n > 256 {
            small += 1;
            assert_eq!(listed[1], (Err(1), vec![77; places]));
            assert_eq!(check(KIOSK, homes, &image), Err(1));
            assert_eq!(count(KIOSK, homes, &image), Err(1));
            assert_eq!(opened[1], Err(1));
            continue;
        }
        assert_eq!(listed[0], listed[1]);
        let [gateway, kiosk] = BOTH.map(|model| check(model, homes, &image));
        assert_eq!(gateway, kiosk);
        let [gateway, kiosk] = BOTH.map(|model| count(model, homes, &image));
        assert_eq!(gateway, kiosk);
        if crew > 4 {
            assert_eq!(opened[1], Err(2));
        } else {
            alike += usize::from(opened[0].is_ok());
            assert_eq!(opened[0], opened[1]);
        }
    }
    assert!(small > 500 && alike > 300, "{small} {alike}");
}

/// Every kiosk call on a record that is no kiosk's: 13, and nothing changes.
fn is_spoilt_to_kiosks(phase: &Phase, table: &[u64], list: &[Order]) {
    assert!(phase.is_spoilt(KIOSK));
    let (mut same, mut cells) = (phase.clone(), table.to_vec());
    for worker in [0, 3, 4, 15, 16] {
        assert_eq!(same.order(KIOSK, list, 0, worker, 8), Err(13));
        assert_eq!(same.order(KIOSK, &[], 0, worker, 0), Err(13));
        assert_eq!(same.turn(KIOSK, &mut cells, worker), Err(13));
        assert_eq!(same.turn(KIOSK, &mut [0; 2], worker), Err(13));
    }
    assert_eq!(same.close(KIOSK), Err(13));
    assert_eq!((&same, &cells[..]), (phase, table));
}

/// Records of the gateway with too many workers or cells, fresh, in the middle
/// of their work and closed.
#[test]
fn records_of_the_gateway() {
    let list = [order(0, 8, 1), order(0, 13, 2)];
    for (cells, crew) in [(5, 5), (5, 16), (257, 1), (300, 4), (8192, 16)] {
        for kind in 1..=3 {
            let mut table = vec![0; cells];
            let mut phase = Phase::open(GATEWAY, kind, crew, Homes::PLAIN, &table, &list).unwrap();
            is_spoilt_to_kiosks(&phase, &table, &list);
            phase.order(GATEWAY, &list, 0, 0, 8).unwrap();
            while !phase.all_idle() {
                is_spoilt_to_kiosks(&phase, &table, &list);
                phase.turn(GATEWAY, &mut table, 0).unwrap();
            }
            phase.close(GATEWAY).unwrap();
            is_spoilt_to_kiosks(&phase, &table, &list);
        }
    }
    for model in BOTH {
        assert!(!Phase::shut().is_spoilt(model));
    }
    for (cells, crew) in [(2, 1), (256, 4), (256, 1), (2, 4)] {
        for kind in 1..=3 {
            let table = vec![0; cells];
            let phase = Phase::open(GATEWAY, kind, crew, Homes::PLAIN, &table, &[]).unwrap();
            assert!(!phase.is_spoilt(KIOSK));
        }
    }
}

/// A call of a shift: an order, a turn, or the close.
#[derive(Clone, Copy)]
enum Call {
    Order(u64, u64, u32),
    Turn(u64),
    Close,
}

fn apply(
    model: Model,
    phase: &mut Phase,
    table: &mut [u64],
    list: &[Order],
    call: Call,
) -> Result<Option<Answer>, u8> {
    match call {
        Call::Order(line, worker, label) => phase.order(model, list, line, worker, label)?,
        Call::Turn(worker) => return phase.turn(model, table, worker).map(Some),
        Call::Close => phase.close(model)?,
    }
    Ok(None)
}

/// Of any record the kiosk's calls say 13 or what the gateway's say, and do the
/// same: 13 where the gateway's do, or the length or the count is beyond it.
#[test]
fn any_record() {
    let (mut beyond, mut alike) = (0, 0);
    for seed in 0..100_000 {
        let rng = &mut Rng::new(seed);
        let n = rng.pick(&[2, 3, 5, 255, 256, 257, 258, 8192]);
        let mut phase = Phase::shut();
        phase.kind = rng.pick(&[0, 1, 2, 2, 3, 4]);
        phase.length = rng.pick(&[n, n, n, n, 1, 8193]);
        phase.count = rng.within(0, 8);
        phase.open = !rng.once_in(8);
        phase.homes = homes(rng);
        let entry = content(rng.below(12) as u32, rng.below(3) as u32);
        let past = usize::from(rng.once_in(8));
        let cell = rng.below(n + past);
        let worker = rng.below(phase.count.max(1));
        phase.workers[worker] = match rng.below(4) {
            0 => Activity::Idle,
            1 => Activity::ReadingOn { entry, cell },
            2 => Activity::WalkingBack { entry, cell },
            _ => Activity::Replacing {
                entry,
                cell,
                found: 0,
                from: cell,
            },
        };
        let mut cells = vec![0; n];
        cells[rng.below(n)] = content(rng.below(12) as u32, 1);
        let list = [order(worker as u32, 8, 1)];
        let call = match rng.below(4) {
            0 => Call::Order(0, worker as u64, 8),
            1 => Call::Close,
            _ => Call::Turn(worker as u64),
        };
        let [gateway, kiosk] = BOTH.map(|model| {
            let (mut phase, mut cells) = (phase.clone(), cells.clone());
            let answer = apply(model, &mut phase, &mut cells, &list, call);
            (answer, phase, cells)
        });
        if phase.length > 256 || phase.count > 4 {
            beyond += usize::from(gateway.0 != Err(13));
            assert_eq!(kiosk, (Err(13), phase, cells));
        } else {
            alike += usize::from(gateway.0 != Err(13));
            assert_eq!(gateway, kiosk);
        }
    }
    assert!(beyond > 5000 && alike > 5000, "{beyond} {alike}");
}

/// Opened by the one model and carried on by the other, call by call.
#[test]
fn carried_on_by_the_other_model() {
    let mut opened = 0;
    for seed in 0..3000 {
        let rng = &mut Rng::new(seed);
        let n = match rng.once_in(20) {
            true => rng.within(254, 256),
            false => rng.within(2, 12),
        };
        let homes = homes(rng);
        let crew = rng.within(1, 4);
        let kind = rng.within(1, 3) as u64;
        let start = table(rng, homes, n);
        let list = orders(rng, &start, crew, 3 * n);
        let [first, other] =
            BOTH.map(|model| Phase::open(model, kind, crew as u64, homes, &start, &list));
        assert_eq!(first, other);
        let Ok(mut phase) = first else {
            continue;
        };
        opened += 1;
        let (mut same, mut cells, mut same_cells) = (phase.clone(), start.clone(), start);
        for _ in 0..rng.within(1, 80) {
            let call = match rng.below(10) {
                0 => Call::Close,
                1..=3 => Call::Order(
                    rng.below(list.len() + 1) as u64,
                    rng.below(crew + 1) as u64,
                    rng.below(3 * n) as u32,
                ),
                _ => Call::Turn(rng.below(crew + 1) as u64),
            };
            let model = rng.pick(&BOTH);
            assert_eq!(
                apply(GATEWAY, &mut phase, &mut cells, &list, call),
                apply(model, &mut same, &mut same_cells, &list, call)
            );
            assert_eq!((&phase, &cells), (&same, &same_cells), "seed {seed}");
            assert!(BOTH.iter().all(|&model| !phase.is_spoilt(model)));
        }
    }
    assert!(opened > 1500, "{opened}");
}

// ---- "A table that both may open must close alike in both"

/// A whole shift with these orders, each for any worker, in any order and with
/// any turns.
fn whole(
    rng: &mut Rng,
    model: Model,
    kind: u32,
    homes: Homes,
    table: &[u64],
    entries: &[(u32, u32)],
) -> Vec<u64> {
    let crew = rng.within(1, model.max_workers);
    let mut list: Vec<Order> = entries
        .iter()
        .map(|&(label, price)| order(rng.below(crew) as u32, label, price))
        .collect();
    rng.shuffle(&mut list);
    let mut table = table.to_vec();
    let mut phase = Phase::open(model, kind.into(), crew as u64, homes, &table, &list).unwrap();
    let mut given = 0;
    while given < list.len() || !phase.all_idle() {
        if given < list.len() && rng.once_in(2) {
            let Order { worker, label, .. } = list[given];
            match phase.order(model, &list, given as u64, worker.into(), label) {
                Ok(()) => given += 1,
                answer => assert_eq!(answer, Err(8)),
            }
        } else {
            let worker = rng.below(crew) as u64;
            phase.turn(model, &mut table, worker).unwrap();
        }
    }
    phase.close(model).unwrap();
    table
}

#[test]
fn closed_alike() {
    for seed in 0..2000 {
        let rng = &mut Rng::new(seed);
        let n = match rng.once_in(10) {
            true => rng.within(250, 256),
            false => rng.within(3, 20),
        };
        let homes = homes(rng);
        let mut set = Prices::new();
        for _ in 0..rng.below(n - 1) {
            set.insert(rng.within(1, 3 * n) as u32, price(rng));
        }
        let start = layout(homes, n, &set);
        for kind in [1, 2, 3] {
            let mut entries: Vec<(u32, u32)> =
                set.iter().map(|(&label, _)| (label, price(rng))).collect();
            rng.shuffle(&mut entries);
            entries.truncate(rng.below(n));
            for _ in 0..rng.below(n - set.len()) {
                entries.push((rng.within(1, 3 * n) as u32, price(rng)));
            }
            // The same labels and least prices, and higher ones beside them.
            let least = least_prices(entries.iter().map(|&(label, price)| content(label, price)));
            let mut others: Vec<(u32, u32)> = least.into_iter().collect();
            for _ in 0..rng.below(others.len() + 1) {
                let (label, price) = rng.pick(&others);
                others.push((label, (price + 1).min(9_999_999)));
            }
            let gateway = whole(rng, GATEWAY, kind, homes, &start, &entries);
            let kiosk = whole(rng, KIOSK, kind, homes, &start, &others);
            assert_eq!(gateway, kiosk, "seed {seed}");
            if kind == PUT_IN {
                let ordered = entries.iter().map(|&(label, price)| content(label, price));
                let all = least_prices(start.iter().copied().chain(ordered));
                assert_eq!(kiosk, layout(homes, n, &all));
            }
            let listed = BOTH.map(|model| {
                let mut lent = vec![77; n];
                let answer = list(model, homes, &kiosk, &mut lent);
                assert_eq!(count(model, homes, &kiosk), answer);
                assert_eq!(check(model, homes, &kiosk), Ok(()));
                (answer, lent)
            });
            assert_eq!(listed[0], listed[1]);
        }
    }
}
