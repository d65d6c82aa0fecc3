//! The exported functions against the reference, on sound, torn, full, damaged and oversized tables, on lists of orders and on lists of calls,
//! with homes by many a and b, in both models.
//!
//! The library lends the list of the opening to every order call: what an altered list does is not reached from here.

use std::collections::BTreeMap;
use std::time::{Duration, Instant};

use conformance::shifts::{calls_of, closed, dealt, Entry};
use conformance::{
    check, close, count, for_both_models, list, order, order_line, reference_open, reference_run, turn, Call, Calls, Orders, MODELS, REFUSED, WORDS,
};
use reference::generate::factory::{self, crowding, FITTED, GOLDEN, PRIME};
use reference::generate::{
    all_lists, even_homes, fill, homes, is_shop_label, label_with, later, orders, other_homes, overwrite, price, returned, shop_label, spoil, table,
    test_label, torn, Rng, WRONG_PRICES,
};
use reference::layout::{content, is_sound, label_of, layout, price_of, Homes, Prices, MAX_PRICE};
use reference::listing::{self, GROUP};
use reference::model::{Model, GATEWAY, KIOSK};
use reference::phase::{Activity, Order, Phase, FIRST_TEST_LABEL, LOOK_UP, PUT_IN, TAKE_OUT};
use reference::refusal;

for_both_models! {
    check_count_and_list,
    every_group_of_few_cells,
    groups_one_after_the_other,
    the_limits_of_a_table,
    wrong_cells,
    openings_of_some_tables,
    openings_refuse_in_order,
    all_small_tables,
    returned_tables,
    large_returned_tables,
    one_cell_written_over,
    torn_everywhere,
    full_tables,
    two_cells_with_7,
    all_small_openings,
    long_lists,
    a_shift_without_orders_keeps_its_table,
    lists_with_test_numbers,
    tables_with_test_numbers,
    prices_and_lines,
    the_shortest_list_decides,
    the_shortest_part_of_the_orders_decides,
    random_lists_of_calls,
    the_assortment_sent_again,
    all_interleavings_of_small_shifts,
    all_interleavings_of_two_put_ins,
    all_interleavings_of_one_label,
    all_interleavings_of_a_label_pushed_on,
    even_a_in_its_place,
    homes_of_single_labels,
    one_set_in_other_tables,
    opened_under_others,
    large_shifts_under_any_homes,
}

/// What stands in lent places before a call.
const MARK: u64 = 0xDEAD_BEEF_DEAD_BEEF;

/// A line of a list of orders.
fn put(worker: u32, label: u32, price: u32) -> Order {
    Order { worker, label, price }
}

/// Homes at the borders of the 32 bits, odd a and then even ones.
const ODD: [u32; 6] = [1, 3, 101, (1 << 31) + 1, 2_654_435_769, u32::MAX];
const EVEN: [u32; 6] = [0, 2, 100, 1 << 31, 2_654_435_768, u32::MAX - 1];
const ADDED: [u32; 4] = [0, 1, 1 << 31, u32::MAX];

/// All a of a list with all b.
fn pairs(all: &[u32]) -> impl Iterator<Item = Homes> + '_ {
    all.iter().flat_map(|&a| ADDED.map(|b| Homes { a, b }))
}

/// Document 01's homes as often as others.
fn some_homes(random: &mut Rng) -> Homes {
    if random.once_in(2) {
        Homes::PLAIN
    } else {
        homes(random)
    }
}

fn same_at_rest(model: Model, homes: Homes, table: &[u64], room: usize) {
    assert_eq!(check(model, homes, table), listing::check(model, homes, table), "check of {table:?}, {homes:?}");
    assert_eq!(count(model, homes, table), listing::count(model, homes, table), "count of {table:?}, {homes:?}");
    let (mut ours, mut theirs) = (vec![MARK; room], vec![MARK; room]);
    assert_eq!(list(model, homes, table, &mut ours), listing::list(model, homes, table, &mut theirs), "list of {table:?}, {homes:?}, {room} places");
    assert_eq!(ours, theirs, "places after the list of {table:?}, {homes:?}");
}

fn check_count_and_list(model: Model) {
    let mut random = Rng::new(1);
    for round in 0..6000 {
        let cells = match round % 20 {
            0 => random.pick(&[2, 3, 63, 64, 65, 127, 128, 129, 255, 256, 257]),
            1 => 2 + random.below(400),
            _ => 2 + random.below(12),
        };
        let homes = some_homes(&mut random);
        let table = if round % 2 == 0 { table(&mut random, homes, cells) } else { returned(&mut random, homes, cells) };
        let labels = table.iter().filter(|&&x| x != 0).count();
        let others = [other_homes(&mut random, homes, cells), even_homes(&mut random)];
        for room in [0, labels.saturating_sub(1), labels, labels + 1, cells + 5] {
            same_at_rest(model, homes, &table, room);
            others.iter().for_each(|&other| same_at_rest(model, other, &table, room));
        }
    }
}

/// A table with a label in its home in each of the cells that are told: sound, unless all are.
fn at_home(homes: Homes, cells: usize, taken: impl Fn(usize) -> bool) -> Vec<u64> {
    let labels = |at| (0..).map(move |turn| label_with(homes, (at + turn * cells) as u32));
    let label = |at| labels(at).find(|&label| label > 0).expect("a label");
    (0..cells).map(|at| if taken(at) { content(label(at), 1 + at as u32) } else { 0 }).collect()
}

/// The list of a sound table, with so many places behind: each group's cells stand behind as many as there are ones in the earlier words, and what stood
/// behind them all still does. With a place too few nothing is written.
fn listed_by_groups(model: Model, homes: Homes, table: &[u64], behind: usize) {
    let words: Vec<u64> = (0..table.len().div_ceil(GROUP)).map(|group| listing::taken_word(table, group)).collect();
    let labels: usize = words.iter().map(|word| word.count_ones() as usize).sum();
    let mark = |place: usize| MARK + place as u64;
    let mut lent: Vec<u64> = (0..labels + behind).map(mark).collect();
    assert_eq!(list(model, homes, table, &mut lent), Ok(labels), "{table:?}");
    let mut place = 0;
    for (group, &word) in words.iter().enumerate() {
        for bit in (0..GROUP).filter(|bit| word >> bit & 1 == 1) {
            assert_eq!(lent[place], table[GROUP * group + bit], "cell {bit} of group {group} of {table:?}");
            place += 1;
        }
    }
    assert_eq!(place, labels);
    assert!((labels..labels + behind).all(|place| lent[place] == mark(place)), "behind the list of {table:?}");
    if labels > 0 {
        let mut short: Vec<u64> = (0..labels - 1).map(mark).collect();
        assert_eq!(list(model, homes, table, &mut short), Err(refusal::SHORT_LIST));
        assert!((0..labels - 1).all(|place| short[place] == mark(place)), "a short list of {table:?}");
    }
}

/// Every choice of taken cells in small tables.
fn every_group_of_few_cells(model: Model) {
    for (homes, most) in [(Homes::PLAIN, 13), (GOLDEN, 9), (Homes { a: u32::MAX, b: 77 }, 9)] {
        for cells in 2..=most {
            for choice in 0..(1 << cells) - 1 {
                let table = at_home(homes, cells, |at| choice >> at & 1 == 1);
                listed_by_groups(model, homes, &table, choice % 4);
                same_at_rest(model, homes, &table, cells);
            }
        }
    }
}

/// Tables of one group and more, with last groups of few cells, of nearly 64 and of 64: one cell taken, one cell empty, first and last cells of groups, even and odd
/// cells, whole groups, and cells at random from few to nearly all.
fn groups_one_after_the_other(model: Model) {
    let mut random = Rng::new(77);
    let lengths = [2, 3, 31, 62, 63, 64, 65, 66, 96, 126, 127, 128, 129, 130, 191, 192, 193, 255, 256, 1000, 4096, 8191, 8192];
    for cells in lengths.into_iter().filter(|&cells| model.is_length(cells)) {
        for homes in [Homes::PLAIN, homes(&mut random)] {
            let at_home = |taken: &dyn Fn(usize) -> bool| at_home(homes, cells, taken);
            let mut tables: Vec<Vec<u64>> = vec![
                at_home(&|at| at % GROUP == 0),
                at_home(&|at| at % GROUP == GROUP - 1),
                at_home(&|at| at % GROUP != 0),
                at_home(&|at| at % GROUP != GROUP - 1),
                at_home(&|at| at % 2 == 0),
                at_home(&|at| at % 2 == 1),
                at_home(&|at| at / GROUP % 2 == 0 && at > 0),
                at_home(&|at| at / GROUP % 2 == 1),
                at_home(&|_| false),
            ];
            for at in [0, 1, 31, 32, 62, 63, 64, 65, 127, 128, cells / 2, cells - 2, cells - 1].into_iter().filter(|&at| at < cells) {
                tables.push(at_home(&|cell| cell == at));
                tables.push(at_home(&|cell| cell != at));
            }
            for tenths in 1..10 {
                let taken: Vec<bool> = (0..cells).map(|at| at > 0 && random.below(10) < tenths).collect();
                tables.push(at_home(&|at| taken[at]));
            }
            for table in tables.iter().filter(|table| table.contains(&0)) {
                for behind in [0, 1, 63, 64, 65] {
                    listed_by_groups(model, homes, table, behind);
                }
                same_at_rest(model, homes, table, cells);
            }
        }
    }
}

fn the_limits_of_a_table(model: Model) {
    let mut random = Rng::new(2);
    for cells in [0, 1, 2, 255, 256, 257, 8191, 8192, 8193, 10000] {
        for homes in [Homes::PLAIN, homes(&mut random), even_homes(&mut random)] {
            same_at_rest(model, homes, &vec![0; cells], 3);
        }
        for homes in [Homes::PLAIN, homes(&mut random)] {
            if cells >= 2 {
                let table = table(&mut random, homes, cells);
                same_at_rest(model, homes, &table, cells);
                same_at_rest(model, even_homes(&mut random), &table, cells);
                same_at_rest(model, homes, &returned(&mut random, homes, cells), cells);
            }
        }
    }
}

/// Every single cell that makes a table unsound, and its neighbours that do not.
fn wrong_cells(model: Model) {
    for cells in [2, 3, 5, 64, 65] {
        for at in 0..cells {
            for label in [0, at as u32, (at + cells) as u32, u32::MAX] {
                for price in [0, 1, 2, MAX_PRICE - 1, MAX_PRICE, MAX_PRICE + 1, 1 << 24, (1 << 24) + 1, (1 << 31) + 1, u32::MAX] {
                    let (mut alone, mut among) = (vec![0; cells], vec![1; cells]);
                    alone[at] = content(label, price);
                    among[at] = content(label, price);
                    for homes in [Homes::PLAIN, GOLDEN, Homes { a: 3, b: u32::MAX }] {
                        same_at_rest(model, homes, &alone, cells);
                        same_at_rest(model, homes, &among, cells);
                    }
                }
            }
        }
    }
}

/// The opening, alone and before a batch of calls or calls one by one, and the calls: answers and tables are those of the reference.
fn same_run(model: Model, kind: u64, crew: u64, homes: Homes, table: &[u64], orders: &[Order], calls: &[Call]) -> Vec<u64> {
    same_run_of(model, kind, crew, homes, table, (orders, &Orders::of(orders)), (calls, &Calls::of(calls)), calls.len() + 2)
}

/// The same for lists that amount to these orders and these calls, and for so many places for answers.
#[allow(clippy::too_many_arguments)]
fn same_run_of(
    model: Model,
    kind: u64,
    crew: u64,
    homes: Homes,
    table: &[u64],
    orders: (&[Order], &Orders),
    calls: (&[Call], &Calls),
    places: usize,
) -> Vec<u64> {
    let mut expected = (vec![MARK; places], table.to_vec());
    let opening = reference_run(model, kind, crew, homes, &mut expected.1, orders.0, calls.0, &mut expected.0);
    // told where an answer differs; of a long list the front
    let told = || {
        format!("{model:?} {kind} {crew} {homes:?} {table:?}, {} orders {:?}, {:?}", orders.0.len(), &orders.0[..orders.0.len().min(100)], calls.0)
    };
    assert_eq!(orders.1.open(model, kind, crew, homes, table), opening, "opening alone: {}", told());
    type Run = fn(&Calls, Model, u64, u64, Homes, &mut [u64], &Orders, &mut [u64]) -> u64;
    for (run, name) in [(Calls::run as Run, "batch"), (Calls::run_singly, "one by one")] {
        let mut ours = (vec![MARK; places], table.to_vec());
        assert_eq!(run(calls.1, model, kind, crew, homes, &mut ours.1, orders.1, &mut ours.0), opening, "opening, {name}: {}", told());
        assert_eq!(ours.0, expected.0, "answers, {name}: {}", told());
        assert_eq!(ours.1, expected.1, "table, {name}: {}", told());
    }
    expected.1
}

/// The header has the numbers that the comparisons use, and every function of it answers 64 bits and has its counterpart for kiosks.
#[test]
fn numbers_of_the_header() {
    let header = include_str!("../../include/vulzegan.h");
    let meaning = |name: &str| {
        let line = header.lines().find(|l| l.split(' ').nth(1) == Some(name)).unwrap_or_else(|| panic!("{name} in the header"));
        line.splitn(3, ' ').nth(2).expect("a meaning").to_string()
    };
    assert_eq!(meaning("VULZEGAN_ACCEPTED"), "UINT64_C(0)");
    assert_eq!(meaning("VULZEGAN_REFUSED"), format!("UINT64_C({REFUSED})"));
    assert_eq!(meaning("VULZEGAN_WORDS"), format!("UINT64_C({WORDS})"));
    for (n, name) in [(1, "WENT_ON"), (2, "FINISHED"), (4, "NO"), (5, "IDLE")] {
        assert_eq!(meaning(&format!("VULZEGAN_{name}")), format!("(VULZEGAN_WORDS + {n})"));
    }
    for (n, name) in
        [(4, "UNSOUND"), (17, "GAP"), (18, "DISORDER"), (19, "BAD_RECORD"), (20, "BAD_FIELD"), (21, "EVEN"), (23, "UNFIT"), (24, "TEST_NUMBER")]
    {
        assert_eq!(meaning(&format!("VULZEGAN_{name}")), format!("(VULZEGAN_REFUSED + {n})"));
    }
    for (n, name) in [(0, "ACCEPTED"), (6, "NO_WORKER"), (7, "BLANK"), (22, "ABSENT")] {
        assert_eq!(meaning(&format!("VULZEGAN_REPLY_{name}")), format!("UINT32_C({n})"));
    }
    assert!(header.contains("VULZEGAN_REFUSED + the number of documents 01 and 02, 1 to 21, 23 and 24;"));
    let functions: Vec<&str> = header.lines().filter(|l| l.contains(" vulzegan_") && l.contains('(')).collect();
    assert!(functions.len() == 20 && functions.iter().all(|l| l.starts_with("uint64_t vulzegan_")), "{functions:?}");
    let text = header.split_whitespace().collect::<Vec<_>>().join(" ");
    // the parameters of each function; those for kiosks have the same
    let declared = |text: &str| -> BTreeMap<String, String> {
        let parts = text.split("uint64_t vulzegan_").skip(1).map(|part| part.split_once(");").expect("a declaration").0);
        parts.map(|part| part.split_once('(').expect("parameters")).map(|(name, of)| (name.into(), of.into())).collect()
    };
    let (kiosk, gateway): (BTreeMap<_, _>, BTreeMap<_, _>) = declared(&text).into_iter().partition(|(name, _)| name.starts_with("kiosk_"));
    assert_eq!(
        Vec::from_iter(gateway.keys()),
        ["check", "count", "list", "open", "read_till", "round_close", "round_open", "run_calls", "run_calls_singly", "run_moves"]
    );
    assert_eq!(kiosk, gateway.into_iter().map(|(name, of)| (format!("kiosk_{name}"), of)).collect());
    for (list, times) in [
        ("(uint32_t a, uint32_t b, const uint64_t *cells, size_t cells_len", 6),
        ("uint64_t *out, size_t out_len);", 4),
        ("struct vulzegan_order { uint32_t key; uint32_t price; uint32_t worker; };", 1),
        ("(uint64_t kind, uint64_t count, uint32_t a, uint32_t b, const uint64_t *cells, size_t cells_len, const struct vulzegan_order *orders, size_t orders_len);", 2),
        ("(uint64_t kind, uint64_t count, uint32_t a, uint32_t b, uint64_t *cells, size_t cells_len, const uint32_t *order_keys, size_t order_keys_len,", 4),
        ("const uint32_t *order_prices, size_t order_prices_len, const uint32_t *order_workers, size_t order_workers_len,", 4),
        ("const uint32_t *ops, size_t ops_len, const uint32_t *lines, size_t lines_len,", 4),
        ("const uint32_t *workers, size_t workers_len, const uint32_t *keys, size_t keys_len, uint64_t *answers, size_t answers_len);", 4),
        ("(const uint8_t *text, size_t text_len, uint64_t count, uint32_t *keys, size_t keys_len,", 2),
        ("uint32_t *prices, size_t prices_len, uint32_t *workers, size_t workers_len);", 2),
        ("(uint64_t count, uint32_t a, uint32_t b, uint64_t *cells, size_t cells_len, const uint32_t *keys, size_t keys_len,", 4),
        ("const uint32_t *prices, size_t prices_len, const uint32_t *workers, size_t workers_len);", 2),
        ("const uint32_t *workers, size_t workers_len, uint32_t *answers, size_t answers_len,", 2),
        ("(uint64_t count, uint32_t a, uint32_t b, const uint64_t *old, size_t old_len, uint64_t *cells, size_t cells_len,", 2),
        ("const uint32_t *ops, size_t ops_len, const uint32_t *workers, size_t workers_len, uint64_t *answers, size_t answers_len);", 2),
    ] {
        assert_eq!(text.matches(list).count(), times, "{list}");
    }
    assert!(!header.contains("VULZEGAN_YES"));
    for limits in ["2 to 8,192 cells, and a phase 1 to 16 workers", "2 to 256 cells, and a phase 1 to 4 workers"] {
        assert_eq!(text.matches(limits).count(), 1, "{limits}");
    }
    assert!(text.contains("it is (a times key plus b) modulo 4,294,967,296, then modulo the number of cells."));
}

// ---- openings

/// Lengths and crews of both models, and just outside of each, with their answers: 1 before 2, and both before all else.
#[test]
fn openings_at_the_limits() {
    for (model, most_cells, most_workers) in [(GATEWAY, 8192, 16), (KIOSK, 256, 4)] {
        for cells in [0, 1, 2, 255, 256, 257, 8191, 8192, 8193] {
            let table = vec![0; cells];
            for crew in [0, 1, 3, 4, 5, 15, 16, 17, 1 << 32, (1 << 32) + 1, 1 << 40] {
                for kind in [0, 1, 2, 3, 4, 4_000_000_000] {
                    for homes in [Homes::PLAIN, GOLDEN, Homes { a: u32::MAX, b: u32::MAX }, Homes { a: u32::MAX - 1, b: 0 }] {
                        let number = match (kind, homes.a % 2) {
                            _ if cells < 2 || cells > most_cells => 1,
                            _ if crew < 1 || crew > most_workers => 2,
                            (0 | 4.., _) => 3,
                            (_, 0) => 21,
                            _ => 0,
                        };
                        let expected = if number == 0 { 0 } else { REFUSED + number };
                        assert_eq!(Orders::of(&[]).open(model, kind, crew, homes, &table), expected, "{model:?} {cells} {crew} {kind}");
                        for list in [&[][..], &[put(0, 5, 1)], &[put(1, 0, 0)]] {
                            let calls = [Call { op: 1, line: 0, worker: 0, key: 5 }, turn(0), close()];
                            same_run(model, kind, crew, homes, &table, list, &calls);
                        }
                    }
                }
            }
        }
    }
}

/// Tables of document 01 that are not sound, and single cells at the borders of the prices.
fn openings_of_some_tables(model: Model) {
    for (labels, number) in [([0, 0, 0, 8, 13], 18), ([0, 0, 0, 3, 3], 18), ([6, 0, 0, 0, 0], 17), ([5, 6, 7, 8, 9], 4)] {
        let table = labels.map(|x| if x == 0 { 0 } else { content(x, 1) });
        assert_eq!(check(model, Homes::PLAIN, &table), Err(number));
        assert_eq!(same_openings(model, Homes::PLAIN, &table), REFUSED + u64::from(number));
    }
    for cell in [1, MAX_PRICE.into(), content(8, 0), content(8, MAX_PRICE), content(8, MAX_PRICE + 1), content(8, u32::MAX)] {
        for kind in 1..=3 {
            let calls = [Call { op: 1, line: 0, worker: 0, key: 8 }, turn(0), turn(0), turn(0), turn(0)];
            same_run(model, kind, 1, Homes::PLAIN, &[0, 0, 0, cell, 0], &[put(0, 8, 1)], &calls);
        }
    }
}

/// Each refusal of the opening with all that come after it due too.
fn openings_refuse_in_order(model: Model) {
    let refused = |kind, crew, table: &[u64], list: &[Order], number: u64| {
        same_run(model, kind, crew, Homes::PLAIN, table, list, &[]);
        assert_eq!(reference_open(model, kind, crew, Homes::PLAIN, table, list), REFUSED + number, "{kind} {crew} {table:?}");
    };
    let long = vec![put(9, 0, 0); 65_537];
    let full = [put(0, 1, 1), put(0, 2, 1), put(0, 3, 1)];
    let bad = [(put(9, 0, 0), 7), (put(9, FIRST_TEST_LABEL, 0), 24), (put(9, u32::MAX, 1), 24), (put(9, 5, 0), 14), (put(9, 5, 1), 6)];
    // full, a price without a label, a wrong price, a label behind an empty cell, and one behind a smaller label
    let (one, four) = (content(1, 1), content(4, 1));
    for (unsound, number) in [([one; 3], 4), ([0, 0, 1], 4), ([0, content(1, 0), 0], 4), ([one, 0, 0], 17), ([0, one, four], 18)] {
        for kind in [0, 1, 4] {
            refused(kind, 0, &unsound[..1], &long, 1);
            refused(kind, 0, &unsound, &long, 2);
            refused(kind, model.max_workers as u64 + 1, &unsound, &long, 2);
        }
        refused(0, 1, &unsound, &long, 3);
        refused(4, 1, &unsound, &long, 3);
        refused(1, 1, &unsound, &long, 16);
        refused(1, 1, &unsound, &long[1..], number);
        refused(1, 1, &unsound, &full, number);
        for (line, _) in bad {
            refused(1, 1, &unsound, &[line], number);
        }
        for kind in [2, 3] {
            refused(kind, 1, &unsound, &long, number);
        }
    }
    // the same in a table that is too long: its length, as a label, has its home in cell 0 there, and in cell 1 of the longest
    let past = model.max_cells + 1;
    for (front, number) in [([content(5, 1), 0, 0], 17), ([0, one, content(past as u32, 1)], 18), ([0, 1, 0], 4)] {
        let mut table = front.to_vec();
        table.resize(model.max_cells, 0);
        refused(1, 1, &table, &long, 16);
        refused(1, 1, &table, &long[1..], number);
        table.push(0);
        refused(1, 1, &table, &long, 1);
    }
    for (first, number) in bad {
        for (second, _) in bad {
            for place in 0..=full.len() {
                let mut list = full.to_vec();
                list.insert(place, first);
                list.push(second);
                refused(1, 1, &[0, content(7, 1)], &list, number);
            }
        }
    }
    refused(1, 1, &[0, content(7, 1)], &full, 9);
}

// ---- tables of the repair bench

/// Openings of every kind, without a list, with lines that a sound table takes, with a bad line behind one of them, and with more labels than
/// it has room for. The answer that they have in common where the table is not sound, otherwise 0.
fn same_openings(model: Model, homes: Homes, table: &[u64]) -> u64 {
    let many: Vec<Order> = (0..=table.len() as u32).map(|i| put(1, FIRST_TEST_LABEL - 1 - i, 7)).collect();
    let calls = [Call { op: 1, line: 0, worker: 0, key: 5 }, turn(0), turn(0), turn(1), close()];
    let answer = reference_open(model, 2, 2, homes, table, &[]);
    for kind in 1..=3 {
        for list in [&[][..], &[put(0, 5, 3), put(1, 5, 2)], &[put(0, 5, 3), put(2, 0, 0)], &many] {
            same_run(model, kind, 2, homes, table, list, &calls);
            assert!(answer == 0 || answer == reference_open(model, kind, 2, homes, table, list));
        }
    }
    answer
}

/// How often each answer came up.
#[derive(Default)]
struct Tally(BTreeMap<u64, usize>);

impl Tally {
    /// A table through check, count, list and the openings.
    fn take(&mut self, model: Model, homes: Homes, table: &[u64]) {
        let labels = table.iter().filter(|&&cell| cell != 0).count();
        for room in [0, labels, table.len() + 1] {
            same_at_rest(model, homes, table, room);
        }
        *self.0.entry(same_openings(model, homes, table)).or_default() += 1;
    }

    /// Accepted, 4, 17 and 18 came up, each at least so often, and nothing else.
    fn each(self, least: usize) {
        let answers: Vec<u64> = self.0.keys().copied().collect();
        assert_eq!(answers, [0, REFUSED + 4, REFUSED + 17, REFUSED + 18], "{:?}", self.0);
        assert!(self.0.values().all(|&often| often >= least), "{:?}", self.0);
    }
}

/// Every table of up to four cells: labels with homes in every cell, one of them at two prices, and contents that are wrong by themselves.
fn all_small_tables(model: Model) {
    let mut contents = vec![0, content(0, 7), content(3, 0), content(6, MAX_PRICE + 1), content(5, MAX_PRICE)];
    contents.extend((1..=8).map(|label| content(label, 1)));
    let tally = |cells| {
        let mut tally = Tally::default();
        all_lists(cells, &contents).for_each(|table| tally.take(model, Homes::PLAIN, &table));
        tally
    };
    // of two cells one is empty and the other has a label, at home there or not
    assert_eq!(tally(2).0, BTreeMap::from([(0, 1 + 9), (REFUSED + 4, 13 * 13 - 19), (REFUSED + 17, 9)]));
    // one sound table for each set of fewer labels than cells, without 5 and with it at two prices
    for (cells, sound) in [(3, 1 + 7 + 21 + 2 * (1 + 7)), (4, 1 + 7 + 21 + 35 + 2 * (1 + 7 + 21))] {
        let tally = tally(cells);
        assert_eq!(tally.0[&0], sound);
        tally.each(45);
    }
    // as many with other homes
    for homes in [GOLDEN, Homes { a: u32::MAX, b: 1 }, Homes { a: 0x3333_3333, b: u32::MAX }] {
        let mut tally = Tally::default();
        all_lists(3, &contents).for_each(|table| tally.take(model, homes, &table));
        assert_eq!(tally.0[&0], 1 + 7 + 21 + 2 * (1 + 7));
        tally.each(10);
    }
}

/// Sound, torn, full and written over, by one damage or several, spread and crowded.
fn returned_tables(model: Model) {
    let mut random = Rng::new(8);
    let mut tally = Tally::default();
    for round in 0..12_000 {
        let cells = if round % 4 == 0 { random.within(2, model.max_cells.min(400)) } else { random.within(2, 40) };
        let homes = some_homes(&mut random);
        tally.take(model, homes, &returned(&mut random, homes, cells));
    }
    tally.each(1000);
}

/// The same at the greatest lengths.
fn large_returned_tables(model: Model) {
    let mut random = Rng::new(9);
    let mut tally = Tally::default();
    for round in 0..90 {
        let homes = some_homes(&mut random);
        tally.take(model, homes, &returned(&mut random, homes, model.max_cells - round % 3));
    }
    tally.each(8);
}

/// One cell written over, anywhere in the table.
fn one_cell_written_over(model: Model) {
    let mut random = Rng::new(10);
    let mut tally = Tally::default();
    for _ in 0..9000 {
        let cells = random.within(2, 130);
        let homes = some_homes(&mut random);
        let mut table = table(&mut random, homes, cells);
        overwrite(&mut random, &mut table);
        tally.take(model, homes, &table);
    }
    tally.each(800);
}

/// Every cut of two tables: of one table before and after some shifts, and of two that have nothing in common.
fn torn_everywhere(model: Model) {
    let mut random = Rng::new(11);
    let mut tally = Tally::default();
    for cells in [64, 65, 100, 127, 128, 129, 130] {
        for _ in 0..4 {
            let homes = some_homes(&mut random);
            let old = table(&mut random, homes, cells);
            for new in [later(&mut random, homes, &old), table(&mut random, homes, cells)] {
                for cut in 0..=cells {
                    tally.take(model, homes, &torn(&old, &new, cut));
                    tally.take(model, homes, &torn(&new, &old, cut));
                }
            }
        }
    }
    tally.each(25);
}

/// Full tables, in which the way rule holds or is broken, and each with one cell emptied again.
fn full_tables(model: Model) {
    let mut random = Rng::new(12);
    let (mut full, mut tally) = (Tally::default(), Tally::default());
    for round in 0..600 {
        let cells = if round % 60 == 0 { random.within(model.max_cells - 2, model.max_cells) } else { random.within(2, 130) };
        let homes = some_homes(&mut random);
        let mut table = table(&mut random, homes, cells);
        fill(&mut random, homes, &mut table);
        full.take(model, homes, &table);
        table[random.below(cells)] = 0;
        tally.take(model, homes, &table);
    }
    assert_eq!(full.0, BTreeMap::from([(REFUSED + 4, 600)]));
    assert_eq!(tally.0.get(&(REFUSED + 4)), None);
    assert!(tally.0.values().all(|&often| often > 50) && tally.0.len() == 3, "{:?}", tally.0);
}

/// All labels at one home, 8,191 of them: to walk every way reads 33 million cells, each time some 10 ms. A thousand checks take far less.
#[test]
fn crowded_tables_are_checked_in_linear_time() {
    let model = GATEWAY;
    for homes in [Homes::PLAIN, GOLDEN] {
        let mut labels: Vec<u32> = (1..8192).map(|i| label_with(homes, 8192 * i)).collect();
        labels.sort();
        let sound: Vec<u64> = labels.into_iter().rev().map(|label| content(label, 1)).chain([0]).collect();
        let mut broken = sound.clone();
        broken.swap(8189, 8190);
        let start = Instant::now();
        for _ in 0..1000 {
            assert_eq!(check(model, homes, &sound), Ok(()));
            assert_eq!(check(model, homes, &broken), Err(refusal::DISORDER));
        }
        assert!(start.elapsed() < Duration::from_secs(5), "two thousand checks took {:?}", start.elapsed());
        assert_eq!(listing::check(model, homes, &sound), Ok(()));
        assert_eq!(listing::check(model, homes, &broken), Err(refusal::DISORDER));
    }
}

// ---- openings with lists

/// The two-cell table with 7 opens for 7 alone; kinds 2 and 3 open for any list.
fn two_cells_with_7(model: Model) {
    let table = [0, content(7, 5)];
    for (list, full) in [
        (vec![], 0),
        (vec![put(0, 7, 1)], 0),
        (vec![put(0, 7, 9); 3], 0),
        (vec![put(0, 1, 1)], REFUSED + 9),
        (vec![put(0, 8, 1)], REFUSED + 9),
        (vec![put(0, 7, 1), put(0, FIRST_TEST_LABEL - 1, 1)], REFUSED + 9),
        (vec![put(0, 7, 1), put(0, u32::MAX, 1)], REFUSED + 24),
    ] {
        assert_eq!(Orders::of(&list).open(model, 1, 1, Homes::PLAIN, &table), full);
        for kind in 1..=3 {
            same_run(model, kind, 1, Homes::PLAIN, &table, &list, &[order_line(0), turn(0), turn(0), turn(0), close()]);
        }
    }
}

/// Every list of up to three lines of a few labels, prices and workers, on every sound table of three cells and labels 1 to 3.
fn all_small_openings(model: Model) {
    let bad = [put(0, 0, 1), put(0, FIRST_TEST_LABEL, 1), put(0, 1, 0), put(1, 1, 1)];
    let lines: Vec<Order> = bad.into_iter().chain((1..=4).map(|label| put(0, label, 1))).collect();
    let mut lists = vec![vec![]];
    for length in 0..3 {
        let longer = |list: &Vec<Order>| lines.iter().map(|&line| [&list[..], &[line]].concat()).collect::<Vec<_>>();
        let longest = lists.iter().filter(|list| list.len() == length).flat_map(longer).collect::<Vec<_>>();
        lists.extend(longest);
    }
    assert_eq!(lists.len(), 1 + 8 + 64 + 512);
    for homes in [Homes::PLAIN, Homes { a: u32::MAX, b: 5 }] {
        for table in tables(homes, 3, 3, &[1]) {
            for list in &lists {
                for kind in 1..=3 {
                    same_run(model, kind, 1, homes, &table, list, &[]);
                }
            }
        }
    }
}

/// The next label of a list that a shop may add, by the ways in which a count of them may go wrong: near each other, in steps, at one place under a
/// multiplier.
fn family(random: &mut Rng, which: usize, i: &mut u32) -> u32 {
    loop {
        let label = match which {
            0 => 1 + *i,
            1 => 100 * (1 + *i),
            2 => FIRST_TEST_LABEL - 1 - *i,
            3 => (1 + *i) << 16,
            // the inverse of 2654435769: all products by that number begin with the same bits
            4 => (0x8000_0000 + *i).wrapping_mul(340_573_321),
            _ => shop_label(random),
        };
        *i += 1;
        if is_shop_label(label) {
            return label;
        }
    }
}

/// Large tables and long lists, the labels together one fewer than the cells, as many and one more; bad lines at random places.
fn long_lists(model: Model) {
    assert_eq!(340_573_321u32.wrapping_mul(2_654_435_769), 1);
    let random = &mut Rng::new(6);
    for round in 0..120 {
        let cells = random.pick(&[2, 3, 63, 64, 65, model.max_cells / 8, model.max_cells / 2, model.max_cells - 1, model.max_cells]);
        let which = round % 6;
        let standing = random.pick(&[0, cells / 2, cells - 1]);
        let mut set = Prices::new();
        let mut i = 0;
        while set.len() < standing {
            set.insert(family(random, which, &mut i), price(random));
        }
        let homes = some_homes(random);
        let table = layout(homes, cells, &set);
        let old: Vec<u32> = set.into_keys().collect();
        for together in [cells - 1, cells, cells + 1] {
            let mut labels = old.clone();
            let mut i = i;
            labels.extend((standing..together).map(|_| family(random, which, &mut i)));
            let length = random.pick(&[labels.len(), 2 * labels.len(), 65_535, 65_536, 65_537]);
            while labels.len() < length {
                let label = random.pick(&labels);
                labels.push(label);
            }
            random.shuffle(&mut labels);
            let crew = random.within(1, model.max_workers);
            let mut list: Vec<Order> = labels.into_iter().map(|label| put(random.below(crew) as u32, label, price(random))).collect();
            for kind in 1..=3 {
                same_run(model, kind, crew as u64, homes, &table, &list, &[]);
            }
            for _ in 0..2 {
                let place = random.below(list.len());
                spoil(random, &mut list[place], crew);
                same_run(model, 1, crew as u64, homes, &table, &list, &[]);
            }
        }
    }
}

fn a_shift_without_orders_keeps_its_table(model: Model) {
    let table = vec![content(4, 7), content(3, 1), 0, content(13, MAX_PRICE), content(8, 2)];
    for kind in 1..=3 {
        for list in [&[][..], &[put(0, 8, 1)]] {
            assert_eq!(same_run(model, kind, 2, Homes::PLAIN, &table, list, &[close(), turn(0), close()]), table);
        }
    }
}

// ---- test numbers

/// The test numbers of a table, with their prices.
fn tests_of(table: &[u64]) -> Prices {
    table.iter().filter(|&&cell| label_of(cell) >= FIRST_TEST_LABEL).map(|&cell| (label_of(cell), price_of(cell))).collect()
}

/// The last label that a shop adds and the first for tests, alone and behind others; also where the table has that label already.
fn lists_with_test_numbers(model: Model) {
    let random = &mut Rng::new(41);
    for label in [1, FIRST_TEST_LABEL - 1, FIRST_TEST_LABEL, FIRST_TEST_LABEL + 1, 4_294_967_290, u32::MAX] {
        let number = if label < FIRST_TEST_LABEL { 0 } else { REFUSED + 24 };
        let homes = some_homes(random);
        for set in [Prices::new(), Prices::from([(label, 5)]), Prices::from([(u32::MAX, 9), (FIRST_TEST_LABEL, 2)])] {
            let table = layout(homes, 7, &set);
            for list in [vec![put(0, label, 3)], vec![put(1, 7, 1), put(0, 8, 2), put(0, label, 9)]] {
                assert_eq!(Orders::of(&list).open(model, 1, 2, homes, &table), number, "{label}");
                for kind in 1..=3 {
                    let calls = dealt_or_none(random, model, kind, 2, homes, &table, &list);
                    same_run(model, kind.into(), 2, homes, &table, &list, &calls);
                }
            }
        }
    }
}

/// The calls of a shift with these orders if it opens, otherwise none.
fn dealt_or_none(random: &mut Rng, model: Model, kind: u32, crew: u32, homes: Homes, table: &[u64], orders: &[Order]) -> Vec<Call> {
    match reference_open(model, kind.into(), crew.into(), homes, table, orders) {
        0 => dealt(random, model, kind, crew, homes, table, orders),
        _ => vec![],
    }
}

/// Tables that have test numbers, in every call: they are counted, listed, found and taken out as the others, stay where labels are put in beside
/// them, and no list sends one again.
fn tables_with_test_numbers(model: Model) {
    let random = &mut Rng::new(42);
    let (mut kept, mut refused) = (0, 0);
    for _ in 0..3000 {
        let cells = random.within(2, 30);
        let homes = some_homes(random);
        let mut set = Prices::new();
        for _ in 0..random.below(cells) {
            let label = if random.once_in(2) { test_label(random) } else { 1 + random.below(3 * cells) as u32 };
            set.insert(label, price(random));
        }
        let table = layout(homes, cells, &set);
        same_at_rest(model, homes, &table, random.below(cells + 1));
        assert_eq!(count(model, homes, &table), Ok(set.len()));
        let crew = random.within(1, model.max_workers) as u32;
        for kind in [PUT_IN, TAKE_OUT, LOOK_UP] {
            let mut orders = orders(random, &table, crew as usize, 3 * cells);
            if kind != PUT_IN || random.once_in(8) {
                let labels: Vec<u32> = set.keys().copied().chain([test_label(random)]).collect();
                orders.extend((0..random.below(cells)).map(|_| put(random.below(crew as usize) as u32, random.pick(&labels), price(random))));
            }
            let opening = reference_open(model, kind.into(), crew.into(), homes, &table, &orders);
            refused += usize::from(opening == REFUSED + 24);
            let calls = dealt_or_none(random, model, kind, crew, homes, &table, &orders);
            let left = same_run(model, kind.into(), crew.into(), homes, &table, &orders, &calls);
            let entries: Vec<Entry> = orders.iter().map(|order| (order.label, order.price)).collect();
            assert_eq!(left, if opening == 0 { closed(kind, homes, &table, &entries) } else { table.clone() });
            if kind != TAKE_OUT {
                assert_eq!(tests_of(&left), tests_of(&table));
                kept += tests_of(&left).len();
            }
        }
    }
    assert!(kept > 3000 && refused > 100, "{kept} kept, {refused} refused");
}

// ---- calls

/// A line's price: right ones open, wrong ones do not; then the orders of each kind, each refusal of them that a list once accepted leaves.
fn prices_and_lines(model: Model) {
    let one_room = [0, content(4, 2), 0];
    for kind in 1..=3 {
        for price in [1, 2, 3, MAX_PRICE].into_iter().chain(WRONG_PRICES) {
            let list = [put(0, 4, price), put(1, 7, 1), put(0, 7, price)];
            let opens = kind != 1 || !WRONG_PRICES.contains(&price);
            assert_eq!(reference_open(model, kind, 2, Homes::PLAIN, &one_room, &list), if opens { 0 } else { REFUSED + 14 });
            // past the list, then no worker or blank, then busy; where the handed worker and label are not read, they are wrong
            let mut calls = vec![];
            for line in [3, 4, u32::MAX, 0, 0, 2, 1, 1, 3] {
                calls.extend([(2, 4), (2, 0), (0, 0), (0, 4), (u32::MAX, 7)].map(|(worker, key)| Call { op: 1, line, worker, key }));
            }
            for _ in 0..8 {
                calls.extend([turn(0), turn(1)]);
            }
            calls.extend([Call { op: 1, line: 2, worker: 0, key: 7 }, close(), turn(0), turn(0), turn(0), turn(0), turn(0), close()]);
            calls.extend([order_line(0), order_line(3), order(9, 0)]);
            same_run(model, kind, 2, Homes::PLAIN, &one_room, &list, &calls);
        }
    }
}

/// The shortest of the lists says how many calls there are; the lists' other numbers do not count, and further answers keep their contents.
fn the_shortest_list_decides(model: Model) {
    let table = [0, 0, 0, content(8, 9), 0];
    let orders = [put(0, 8, 3), put(1, 13, 2)];
    let calls = [order_line(0), order_line(1), turn(0), turn(1), turn(0), turn(1), turn(1), turn(1), turn(1), close()];
    for short in 0..=calls.len() {
        for which in 0..5 {
            let mut list = Calls::of(&calls);
            let mut places = calls.len();
            match which {
                0 => list.ops.truncate(short),
                1 => list.lines.truncate(short),
                2 => list.workers.truncate(short),
                3 => list.keys.truncate(short),
                _ => places = short,
            }
            same_run_of(model, 1, 2, Homes::PLAIN, &table, (&orders, &Orders::of(&orders)), (&calls[..short], &list), places);
        }
    }
}

/// The same for the list of orders: behind the shortest nothing is read, neither a bad line nor a label too many.
fn the_shortest_part_of_the_orders_decides(model: Model) {
    let table = [0, 0, 0, content(8, 9), 0];
    let good = [put(0, 8, 3), put(1, 13, 2)];
    for more in [put(0, 0, 0), put(0, u32::MAX, 1), put(9, 5, 1), put(0, 1, 1), put(0, 8, 0)] {
        let orders = [good[0], good[1], more, put(0, 2, 1), put(0, 3, 1)];
        for short in 0..=orders.len() {
            for which in 0..3 {
                let mut parts = Orders::of(&orders[..short]);
                let longer = Orders::of(&orders);
                if which != 0 {
                    parts.keys = longer.keys;
                }
                if which != 1 {
                    parts.prices = longer.prices;
                }
                if which != 2 {
                    parts.workers = longer.workers;
                }
                let calls: Vec<Call> = (0..6).flat_map(|line| [order_line(line), turn(0), turn(0), turn(0), turn(1), turn(1)]).collect();
                same_run_of(model, 1, 2, Homes::PLAIN, &table, (&orders[..short], &parts), (&calls, &Calls::of(&calls)), calls.len());
            }
        }
    }
}

/// A shift and calls to it.
struct Drawn {
    kind: u64,
    crew: u64,
    homes: Homes,
    table: Vec<u64>,
    list: Vec<Order>,
    calls: Vec<Call>,
}

/// Turns to the workers in an order drawn at random, orders and closes between them, refused calls too. The lists send an assortment again,
/// fill the table or overfill it, and some have bad lines. Some tables are opened under other homes than they were left by.
fn drawn(random: &mut Rng, cells: usize, crew: usize) -> Drawn {
    let kind = 1 + random.below(3) as u64;
    let own = some_homes(random);
    let table = table(random, own, cells);
    let homes = match random.below(16) {
        0 => even_homes(random),
        1 => other_homes(random, own, cells),
        _ => own,
    };
    let near = 3 * cells;
    let mut list = orders(random, &table, crew, near);
    if !list.is_empty() && random.once_in(8) {
        let place = random.below(list.len());
        spoil(random, &mut list[place], crew);
    }
    let mut calls = Vec::new();
    for _ in 0..random.below(120) {
        let worker = match random.below(40) {
            0 => u32::MAX - random.below(2) as u32,
            1 => crew as u32,
            _ => random.below(crew) as u32,
        };
        let line = match random.below(20) {
            0 => u32::MAX - random.below(2) as u32,
            _ => random.below(list.len() + 2) as u32,
        };
        let known = label_of(table[random.below(cells)]);
        let key = if random.below(2) == 0 { known } else { random.below(near) as u32 };
        let op = match random.below(12) {
            0 => random.pick(&[0, 3, 4, u32::MAX]),
            1 | 2 => 1,
            _ => 2,
        };
        calls.push(Call { op, line, worker, key });
    }
    // to the end: every worker finishes, then the close is accepted
    for _ in 0..400 {
        calls.extend((0..crew as u32).map(turn));
    }
    calls.push(close());
    Drawn { kind, crew: crew as u64, homes, table, list, calls }
}

/// Small tables and crews, and some at the limits of the model and just outside.
fn random_lists_of_calls(model: Model) {
    let mut random = Rng::new(3);
    let mut opened = 0;
    for _ in 0..20_000 {
        let cells = match random.below(1000) {
            0 => random.within(model.max_cells - 1, model.max_cells + 1),
            1..=4 => model.min_cells - 1,
            _ => 2 + random.below(7),
        };
        let crew = if random.once_in(20) { random.within(model.max_workers - 1, model.max_workers + 1) } else { 1 + random.below(4) };
        let Drawn { kind, crew, homes, table, list, calls } = drawn(&mut random, cells, crew);
        opened += u64::from(kind == 1 && reference_open(model, kind, crew, homes, &table, &list) == 0);
        same_run(model, kind, crew, homes, &table, &list, &calls);
    }
    assert!(opened > 3000, "{opened} put-in shifts opened");
}

// ---- the models side by side

/// The opening, the answers and the table that a list of calls leaves.
type Left = (u64, Vec<u64>, Vec<u64>);

/// What the library says in a model: the opening alone, a batch, and calls one by one.
fn said(model: Model, shift: &Drawn) -> (u64, [Left; 2]) {
    let Drawn { kind, crew, homes, ref table, ref list, ref calls } = *shift;
    let (lent, list) = (Orders::of(list), Calls::of(calls));
    let runs = [Calls::run, Calls::run_singly].map(|run| {
        let (mut cells, mut answers) = (table.clone(), vec![MARK; calls.len() + 2]);
        let opening = run(&list, model, kind, crew, homes, &mut cells, &lent, &mut answers);
        (opening, answers, cells)
    });
    (lent.open(model, kind, crew, homes, table), runs)
}

/// Check, count and list answer alike in both models and leave the same list.
fn alike_at_rest(homes: Homes, table: &[u64], room: usize) {
    let [gateway, kiosk] = MODELS.map(|model| {
        let mut lent = vec![MARK; room];
        let listed = list(model, homes, table, &mut lent);
        (check(model, homes, table), count(model, homes, table), listed, lent)
    });
    assert_eq!(gateway, kiosk, "{homes:?} {table:?}");
}

/// The same calls to the same table: where the kiosk takes table and crew, both models give the very same answers.
#[test]
fn both_models_answer_alike() {
    let random = &mut Rng::new(31);
    let mut opened = 0;
    for _ in 0..6000 {
        let cells = if random.once_in(20) { random.within(250, 256) } else { random.within(2, 40) };
        let crew = random.within(1, 4);
        let mut shift = drawn(random, cells, crew);
        if random.once_in(8) {
            shift.homes = some_homes(random);
            shift.table = returned(random, shift.homes, cells);
        }
        let [gateway, kiosk] = MODELS.map(|model| said(model, &shift));
        assert_eq!(gateway, kiosk, "{} {} {:?} {:?} {:?} {:?}", shift.kind, crew, shift.homes, shift.table, shift.list, shift.calls);
        opened += u64::from(kiosk.0 == 0);
        for room in [0, 1, cells] {
            alike_at_rest(shift.homes, &shift.table, room);
        }
    }
    assert!(opened > 3000, "{opened} shifts opened");
}

/// Tables and crews that the gateway takes and the kiosk does not: 1 for the table, otherwise 2 for the crew, and nothing changes. So it stays with
/// every fault that comes behind.
#[test]
fn beyond_the_kiosk() {
    let random = &mut Rng::new(32);
    let mut opened = 0;
    for round in 0..2000 {
        let cells = match round % 4 {
            0 => random.pick(&[257, 258, 300, 511, 512, 8191, 8192]),
            1 => random.within(257, 600),
            _ => random.pick(&[2, 3, 5, 255, 256]),
        };
        let long = cells > 256;
        let crew = if long { random.within(1, 16) } else { random.within(5, 16) };
        let mut shift = drawn(random, cells, crew);
        shift.calls.truncate(200);
        let (alone, _) = said(GATEWAY, &shift);
        assert!(alone != REFUSED + 1 && alone != REFUSED + 2);
        opened += u64::from(alone == 0);
        let refused = |shift: &Drawn| {
            let answer = REFUSED + if long { 1 } else { 2 };
            let left = (answer, vec![MARK; shift.calls.len() + 2], shift.table.clone());
            let told = || format!("{cells} cells, {} workers, kind {}, {:?}", shift.crew, shift.kind, shift.homes);
            assert_eq!(said(KIOSK, shift), (answer, [left.clone(), left]), "{}", told());
            if long {
                let mut lent = vec![MARK; cells];
                assert_eq!(check(KIOSK, shift.homes, &shift.table), Err(refusal::SIZE));
                assert_eq!(count(KIOSK, shift.homes, &shift.table), Err(refusal::SIZE));
                assert_eq!(list(KIOSK, shift.homes, &shift.table, &mut lent), Err(refusal::SIZE));
                assert!(lent.iter().all(|&place| place == MARK));
            }
        };
        refused(&shift);
        shift.crew = random.pick(&[0, 5, 16, 17]);
        refused(&shift);
        shift.kind = random.pick(&[0, 4]);
        refused(&shift);
        shift.homes = even_homes(random);
        refused(&shift);
        overwrite(random, &mut shift.table);
        refused(&shift);
        if !long {
            // the crew put right: 3, then 21
            shift.crew = 4;
            assert_eq!(said(KIOSK, &shift).0, REFUSED + 3);
            shift.kind = 1;
            assert_eq!(said(KIOSK, &shift).0, REFUSED + 21);
        }
    }
    assert!(opened > 800, "{opened} shifts opened");
}

// ---- closed tables

/// The orders of these entries, each for a worker drawn at random.
fn for_workers(random: &mut Rng, crew: u32, entries: &[Entry]) -> Vec<Order> {
    entries.iter().map(|&(label, price)| put(random.below(crew as usize) as u32, label, price)).collect()
}

/// Shifts on one table with the same a and b, the same labels ordered and, for each, the same least price close on one table, in whichever model, whoever has
/// the orders, in whatever sequence, with whatever turns, and with whatever higher prices ordered besides. It is the layout of the set with its least prices.
#[test]
fn equal_least_prices_close_alike() {
    let random = &mut Rng::new(4);
    for _ in 0..4000 {
        let cells = if random.once_in(100) { random.within(250, 256) } else { 3 + random.below(14) };
        let near = 2 * cells;
        let mut set = Prices::new();
        for _ in 0..random.below(cells / 2) {
            set.insert(1 + random.below(near) as u32, price(random));
        }
        let homes = some_homes(random);
        let opening = layout(homes, cells, &set);
        let room = cells - set.len() - 1;
        for kind in [PUT_IN, TAKE_OUT] {
            let mut entries: Vec<Entry> = (0..=random.below(room)).map(|_| (1 + random.below(near) as u32, price(random))).collect();
            // what stands there already takes no room
            for &label in set.keys() {
                if random.once_in(3) {
                    entries.push((label, price(random)));
                }
            }
            let mut others = Vec::new();
            let mut known = Prices::new();
            for &(label, price) in &entries {
                let least = known.get(&label).map_or(price, |&now| now.min(price));
                known.insert(label, least);
            }
            others.extend(known);
            while !random.once_in(4) {
                let (label, least) = random.pick(&others);
                others.push((label, (least + random.below(3) as u32).min(MAX_PRICE)));
            }
            random.shuffle(&mut others);
            let expected = closed(kind, homes, &opening, &entries);
            assert_eq!(closed(kind, homes, &opening, &others), expected);
            for (model, entries) in MODELS.into_iter().flat_map(|model| [(model, &entries), (model, &others)]) {
                let crew = random.within(1, model.max_workers) as u32;
                let orders = for_workers(random, crew, entries);
                let calls = dealt(random, model, kind, crew, homes, &opening, &orders);
                let left = same_run(model, kind.into(), crew.into(), homes, &opening, &orders, &calls);
                assert_eq!(left, expected, "{model:?} {kind} {homes:?} {opening:?} {calls:?}");
            }
            let labels = expected.iter().filter(|&&cell| cell != 0).count();
            assert_eq!(MODELS.map(|model| count(model, homes, &expected)), [Ok(labels); 2]);
            alike_at_rest(homes, &expected, labels);
        }
    }
}

/// A table with one empty cell, and its entire assortment sent again at other prices: it opens, and the lower prices stand.
fn the_assortment_sent_again(model: Model) {
    let random = &mut Rng::new(7);
    let lengths = [2, 3, 5, 64, 100, 1000, model.max_cells];
    for cells in lengths.into_iter().filter(|&cells| model.is_length(cells)) {
        let mut set = Prices::new();
        while set.len() + 1 < cells {
            set.insert(shop_label(random), price(random));
        }
        let homes = some_homes(random);
        let opening = layout(homes, cells, &set);
        let mut entries: Vec<Entry> = set.keys().map(|&label| (label, price(random))).collect();
        random.shuffle(&mut entries);
        let crew = model.max_workers as u32;
        let orders = for_workers(random, crew, &entries);
        let calls = dealt(random, model, PUT_IN, crew, homes, &opening, &orders);
        assert_eq!(same_run(model, 1, crew.into(), homes, &opening, &orders, &calls), closed(PUT_IN, homes, &opening, &entries));
    }
}

// ---- interleavings

/// Every way in which the turns of the unfinished workers can fall, to the end; each is handed over as a list of calls.
fn interleavings(model: Model, phase: &Phase, table: &[u64], calls: &mut Vec<Call>, ended: &mut impl FnMut(&[Call])) {
    let busy: Vec<usize> = (0..phase.count).filter(|&w| phase.workers[w] != Activity::Idle).collect();
    if busy.is_empty() {
        calls.push(close());
        ended(calls);
        calls.pop();
    }
    for worker in busy {
        let (mut phase, mut table) = (phase.clone(), table.to_vec());
        phase.turn(model, &mut table, worker as u64).expect("a turn of a worker of an open shift");
        calls.push(turn(worker as u32));
        interleavings(model, &phase, &table, calls, ended);
        calls.pop();
    }
}

/// All interleavings of one order for each worker; how many there are, none if the table has no room for them.
fn all_interleavings(model: Model, kind: u32, homes: Homes, table: &[u64], entries: &[Entry]) -> u64 {
    let crew = entries.len() as u64;
    let orders: Vec<Order> = (0..).zip(entries).map(|(worker, &(label, price))| put(worker, label, price)).collect();
    let Ok(mut phase) = Phase::open(model, kind.into(), crew, homes, table, &orders) else {
        same_run(model, kind.into(), crew, homes, table, &orders, &[]);
        return 0;
    };
    let mut calls = Vec::new();
    for o in &orders {
        let call = if kind == PUT_IN { order_line(o.worker) } else { order(o.worker, o.label) };
        phase.order(model, &orders, call.line.into(), call.worker.into(), call.key).expect("an idle worker");
        calls.push(call);
    }
    let expected = closed(kind, homes, table, entries);
    let mut runs = 0;
    interleavings(model, &phase, table, &mut calls, &mut |calls| {
        assert_eq!(same_run(model, kind.into(), crew, homes, table, &orders, calls), expected, "{kind} {homes:?} {table:?} {calls:?}");
        runs += 1;
    });
    runs
}

/// The sound tables of some labels, each at every one of the prices.
fn tables(homes: Homes, cells: usize, labels: u32, prices: &[u32]) -> Vec<Vec<u64>> {
    let mut sets = vec![Prices::new()];
    for label in 1..=labels {
        for set in sets.clone() {
            if set.len() + 1 < cells {
                sets.extend(prices.iter().map(|&price| set.clone().into_iter().chain([(label, price)]).collect::<Prices>()));
            }
        }
    }
    sets.iter().map(|set| layout(homes, cells, set)).collect()
}

/// All interleavings of two workers with one order each, on every sound table of labels 1 to 6 in three cells at two prices.
fn all_interleavings_of_small_shifts(model: Model) {
    let mut runs = 0;
    // document 01's homes, and homes with four of the six labels in one cell
    for homes in [Homes::PLAIN, Homes { a: 0x3333_3333, b: 1 }] {
        for table in tables(homes, 3, 6, &[5, 9]) {
            for kind in 1..=3 {
                for (a, b) in [(1, 1), (1, 4), (3, 6), (2, 3)] {
                    runs += all_interleavings(model, kind, homes, &table, &[(a, 5), (b, 9)]);
                }
            }
        }
    }
    assert!(runs > 20_000, "{runs} runs");
}

/// All interleavings of two put-ins of any labels 1 to 8, at two prices each, on every sound table of four cells that has room for them.
fn all_interleavings_of_two_put_ins(model: Model) {
    let mut runs = 0;
    for table in tables(Homes::PLAIN, 4, 8, &[5, 9]) {
        for a in 1..=8 {
            for b in a..=8 {
                for (p, q) in [(5, 5), (5, 9), (9, 5), (9, 9)] {
                    runs += all_interleavings(model, 1, Homes::PLAIN, &table, &[(a, p), (b, q)]);
                }
            }
        }
    }
    assert!(runs > 10_000, "{runs} runs");
}

/// One label at different prices from three workers, in every interleaving; it stands already at a price below, among or above them, or not.
fn all_interleavings_of_one_label(model: Model) {
    let mut runs = 0;
    for opening in [0, content(8, 1), content(8, 3), content(8, 9)] {
        for p in 1..=4 {
            for q in 1..=4 {
                for r in 1..=4 {
                    runs += all_interleavings(model, 1, Homes::PLAIN, &[0, 0, 0, opening, 0], &[(8, p), (8, q), (8, r)]);
                }
            }
        }
    }
    assert!(runs > 1000, "{runs} runs");
}

/// A label at two prices from two workers while a third one's greater label pushes it on.
fn all_interleavings_of_a_label_pushed_on(model: Model) {
    let mut runs = 0;
    for opening in [0, content(8, 1), content(8, 3), content(8, 9)] {
        for (p, q) in [(2, 4), (4, 2), (3, 3)] {
            runs += all_interleavings(model, 1, Homes::PLAIN, &[0, 0, 0, opening, 0], &[(8, p), (8, q), (13, 1)]);
        }
    }
    assert!(runs > 1000, "{runs} runs");
}

// ---- homes

/// A table with 9 behind its home, which is empty.
fn gap(homes: Homes, cells: usize) -> Vec<u64> {
    let mut table = vec![0; cells];
    table[(homes.home(9, cells) + 1) % cells] = content(9, 1);
    table
}

/// A table with two labels at home in cell 1, the smaller one there; a is odd.
fn disorder(homes: Homes, cells: usize) -> Vec<u64> {
    let mut labels = [7, 8].map(|turn| label_with(homes, turn * cells as u32 + 1));
    labels.sort();
    let mut table = vec![0; cells];
    table[1] = content(labels[0], 1);
    table[2] = content(labels[1], 1);
    table
}

/// An even a gets 21 behind 1, 2 and 3 and before all else at opening, and behind 1 at rest; an odd one gets what is due behind it.
fn even_a_in_its_place(model: Model) {
    let full = vec![put(0, 5, 1), put(0, 6, 1), put(0, 7, 1)];
    let long = vec![put(9, 0, 0); 65_537];
    let lists = [
        (vec![put(0, 0, 1)], 7),
        (vec![put(0, FIRST_TEST_LABEL, 0)], 24),
        (vec![put(0, 5, 0)], 14),
        (vec![put(1, 5, 1)], 6),
        (full, 9),
        (long, 16),
        (vec![put(0, 5, 1)], 0),
    ];
    let lists = lists.map(|(list, behind)| (Orders::of(&list), list, behind));
    let no_calls = Calls::default();
    let most = model.max_workers as u64;
    for (even, odd) in pairs(&EVEN).zip(pairs(&ODD)) {
        let tables = [
            (layout(odd, 3, &Prices::from([(4, 1)])), 0),
            (vec![content(1, 1), content(3, 1), content(5, 1)], 4),
            (vec![0, 7, 0], 4),
            (gap(odd, 3), 17),
            (disorder(odd, 3), 18),
        ];
        for (table, unsound) in &tables {
            for (lent, list, behind) in &lists {
                let answers = |kind, crew, homes, table: &[u64], number: u64| {
                    same_run_of(model, kind, crew, homes, table, (list, lent), (&[], &no_calls), 2);
                    let expected = if number == 0 { 0 } else { REFUSED + number };
                    assert_eq!(lent.open(model, kind, crew, homes, table), expected, "{kind} {crew} {homes:?} {table:?}");
                };
                for homes in [even, odd] {
                    for kind in [0, 1, 4] {
                        answers(kind, 0, homes, &table[..1], 1);
                        answers(kind, 0, homes, table, 2);
                        answers(kind, most + 1, homes, table, 2);
                    }
                    answers(0, 1, homes, table, 3);
                    answers(4, most, homes, table, 3);
                }
                for kind in 1..=3 {
                    answers(kind, 1, even, table, 21);
                    let due = match (kind, behind, unsound) {
                        (1, 16, _) => 16,
                        (1, _, 0) => *behind,
                        _ => *unsound,
                    };
                    answers(kind, 1, odd, table, due);
                }
            }
            let expected = if *unsound == 0 { Ok(()) } else { Err(*unsound as u8) };
            assert_eq!(check(model, odd, table), expected);
            assert_eq!(check(model, even, table), Err(refusal::EVEN));
            assert_eq!(count(model, even, table), Err(refusal::EVEN));
            for room in [0, 1, 3] {
                assert_eq!(list(model, even, table, &mut vec![MARK; room]), Err(refusal::EVEN));
                same_at_rest(model, even, table, room);
                same_at_rest(model, odd, table, room);
            }
            for cells in [0, 1, model.max_cells + 1] {
                let table: Vec<u64> = table.iter().copied().cycle().take(cells).collect();
                for homes in [even, odd] {
                    assert_eq!(check(model, homes, &table), Err(refusal::SIZE));
                    same_at_rest(model, homes, &table, 0);
                    assert_eq!(same_openings(model, homes, &table), REFUSED + 1);
                }
            }
        }
    }
}

/// The paper's rule, in numbers that never overflow.
fn by_the_paper(homes: Homes, label: u32, cells: usize) -> usize {
    let product = u128::from(homes.a) * u128::from(label) + u128::from(homes.b);
    (product % 4_294_967_296 % cells as u128) as usize
}

/// One label by itself: its home is where it comes to stand if a shop may add it, the only cell where it may, and where a look-up and a take-out find it.
fn at_home_by_itself(model: Model, homes: Homes, label: u32, cells: usize) {
    let home = by_the_paper(homes, label, cells);
    let empty = vec![0; cells];
    let mut alone = empty.clone();
    alone[home] = content(label, 3);
    assert_eq!(check(model, homes, &alone), Ok(()), "{homes:?} {label} {cells}");
    let mut elsewhere = empty.clone();
    elsewhere[(home + 1) % cells] = content(label, 3);
    assert_eq!(check(model, homes, &elsewhere), Err(refusal::GAP), "{homes:?} {label} {cells}");
    let orders = [put(0, label, 3)];
    let calls = |order: Call| [order, turn(0), turn(0), turn(0), turn(0), close()];
    let put_in = same_run(model, 1, 1, homes, &empty, &orders, &calls(order_line(0)));
    assert_eq!(put_in, if is_shop_label(label) { alone.clone() } else { empty.clone() });
    assert_eq!(same_run(model, 3, 1, homes, &alone, &[], &calls(order(0, label))), alone);
    assert_eq!(same_run(model, 2, 1, homes, &alone, &[], &calls(order(0, label))), empty);
}

/// Numbers at the borders of the 32 bits and any others; lengths that divide 4,294,967,296 and lengths that do not.
fn homes_of_single_labels(model: Model) {
    let random = &mut Rng::new(21);
    for homes in pairs(&ODD) {
        for label in [1, 2, 13, 100, 1 << 31, FIRST_TEST_LABEL - 1, FIRST_TEST_LABEL, u32::MAX] {
            for cells in [2, 3, 5, 7, 64, 255, 256, 1025, 8191, 8192].into_iter().filter(|&cells| model.is_length(cells)) {
                at_home_by_itself(model, homes, label, cells);
            }
        }
    }
    for _ in 0..3000 {
        let homes = homes(random);
        let label = random.below(u32::MAX as usize) as u32 + 1;
        let cells = random.within(2, 200);
        at_home_by_itself(model, homes, label, cells);
    }
}

/// One set in five cells: other a and b, other tables.
fn one_set_in_other_tables(model: Model) {
    let random = &mut Rng::new(22);
    let entries: [Entry; 4] = [(3, 1), (8, 1), (13, 1), (4, 1)];
    for (a, b, labels) in [
        (1, 0, [4, 3, 0, 13, 8]),
        (1, 1, [8, 4, 3, 0, 13]),
        (1, 5, [4, 3, 0, 13, 8]),
        (3, 0, [8, 3, 4, 0, 13]),
        (u32::MAX, 0, [3, 0, 4, 13, 8]),
        (1, u32::MAX, [3, 0, 13, 8, 4]),
    ] {
        let homes = Homes { a, b };
        for _ in 0..100 {
            let orders = for_workers(random, 2, &entries);
            let calls = dealt(random, model, PUT_IN, 2, homes, &[0; 5], &orders);
            let left = same_run(model, 1, 2, homes, &[0; 5], &orders, &calls);
            assert_eq!(left, labels.map(|label| content(label, label.min(1))), "{homes:?}");
        }
    }
}

/// Tables left by one a and b under others: 17, 18 or accepted, and then they close by the others.
fn opened_under_others(model: Model) {
    let cells = |labels: [u32; 3]| labels.map(|label| content(label, label.min(1)));
    for (b, answer) in [(0, 0), (1, REFUSED + 17), (2, REFUSED + 18), (3, 0)] {
        assert_eq!(same_openings(model, Homes { a: 1, b }, &cells([3, 0, 2])), answer);
    }
    let random = &mut Rng::new(23);
    let mut tally = Tally::default();
    let mut moved = 0;
    for _ in 0..6000 {
        let length = random.within(2, 40);
        let first = homes(random);
        let table = table(random, first, length);
        let second = other_homes(random, first, length);
        tally.take(model, second, &table);
        if is_sound(second, &table) {
            moved += 1;
            let labels: Vec<Entry> = table.iter().filter(|&&cell| cell != 0).map(|&cell| (label_of(cell), 1)).collect();
            let gone: Vec<Entry> = labels.into_iter().filter(|_| random.once_in(2)).collect();
            let orders = for_workers(random, 3, &gone);
            let calls = dealt(random, model, TAKE_OUT, 3, second, &table, &orders);
            let left = same_run(model, 2, 3, second, &table, &orders, &calls);
            assert_eq!(left, closed(TAKE_OUT, second, &table, &gone), "{first:?} {second:?} {table:?}");
        }
    }
    let answers: Vec<u64> = tally.0.keys().copied().collect();
    assert_eq!(answers, [0, REFUSED + 17, REFUSED + 18], "{:?}", tally.0);
    assert!(tally.0.values().all(|&often| often > 500) && moved > 500, "{:?} {moved}", tally.0);
}

/// The longest tables and shorter ones, filled and emptied again by halves under any homes.
fn large_shifts_under_any_homes(model: Model) {
    let random = &mut Rng::new(24);
    for round in 0..24 {
        let most = model.max_cells;
        let cells = random.pick(&[most / 8, most / 8 + 1, most / 2 - 1, most / 2, most - 1, most]);
        let homes = if round == 0 { GOLDEN } else { homes(random) };
        let mut set = Prices::new();
        while set.len() < cells / 2 {
            set.insert(shop_label(random), price(random));
        }
        let mut table = layout(homes, cells, &set);
        for kind in [TAKE_OUT, PUT_IN] {
            let known: Vec<u32> = set.keys().copied().collect();
            let entries: Vec<Entry> = (0..cells / 4).map(|_| (random.pick(&known), price(random))).collect();
            let crew = model.max_workers as u32;
            let orders = for_workers(random, crew, &entries);
            let calls = dealt(random, model, kind, crew, homes, &table, &orders);
            let left = same_run(model, kind.into(), crew.into(), homes, &table, &orders, &calls);
            assert_eq!(left, closed(kind, homes, &table, &entries));
            table = left;
        }
    }
}

/// The label factory's shifts, with homes that crowd and homes that spread: the same answers, as many turns and the same closed tables.
#[test]
fn the_factory() {
    let model = GATEWAY;
    for homes in [Homes::PLAIN, GOLDEN, PRIME, FITTED] {
        for labels in [512, 900, 1024] {
            let orders = factory::orders(labels);
            let seen = crowding(homes, labels);
            let full = factory::table(homes, labels);
            let empty = vec![0; factory::CELLS];
            for (kind, opening, left, turns) in
                [(PUT_IN, &empty, &full, seen.put_in), (LOOK_UP, &full, &full, seen.look_up), (TAKE_OUT, &full, &empty, seen.take_out)]
            {
                let steps = factory::shift(kind, homes, &mut opening.clone(), &orders);
                let calls = calls_of(kind, &orders, &steps);
                assert_eq!(calls.iter().filter(|call| call.op == 2).count(), turns);
                assert_eq!(&same_run(model, kind.into(), 16, homes, opening, &orders, &calls), left);
                let mut answers = vec![MARK; calls.len()];
                let lent = Orders::of(&orders);
                assert_eq!(Calls::of(&calls).run(model, kind.into(), 16, homes, &mut opening.clone(), &lent, &mut answers), 0);
                // every turn was worth one, every order finished, and the close was accepted
                assert!(answers.iter().all(|answer| *answer != WORDS + 5 && !(REFUSED..=WORDS).contains(answer)));
                let went_on = answers.iter().filter(|&&answer| answer == WORDS + 1).count();
                assert_eq!((turns - went_on, answers.last()), (labels, Some(&0)));
            }
            same_at_rest(model, homes, &full, labels);
            same_openings(model, homes, &full);
            assert_eq!(count(model, homes, &full), Ok(labels));
            // closed under one pair and opened under another
            for other in [Homes::PLAIN, GOLDEN, PRIME, FITTED].into_iter().filter(|&other| other != homes) {
                same_at_rest(model, other, &full, labels);
                assert_ne!(same_openings(model, other, &full), 0, "{homes:?} {other:?}");
            }
        }
    }
}
