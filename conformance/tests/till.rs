//! Till lists read by the library and by the reference: good texts, damaged ones and all short ones over a few bytes, for all counts of workers
//! of both models and some that there cannot be, into lists of many lengths; and from the text to the closed table.

use std::collections::BTreeMap;
use std::time::{Duration, Instant};

use conformance::shifts::{closed, dealt, Entry};
use conformance::trials::GUARD;
use conformance::{close, for_both_models, lines_of, read_till, reference_read_till, reference_run, Calls, Orders, MODELS, REFUSED};
use reference::generate::till::{all_texts, damaged, good, nick, number, written, Quotes, BYTES, PIECES};
use reference::generate::{homes, is_shop_label, labels_of, price, shop_label, table, Rng};
use reference::layout::{content, layout, Homes, Prices, MAX_PRICE};
use reference::model::{Model, GATEWAY, KIOSK};
use reference::phase::{Order, Phase, PUT_IN};

for_both_models! {
    long_texts_are_read_in_linear_time,
    values_are_checked_at_the_opening,
}

/// Worker counts that get 2 in both models.
const NO_COUNTS: [u64; 8] = [0, 17, 18, 32, 1 << 32, (1 << 32) + 1, (1 << 63) + 3, u64::MAX];

/// One that gets 2 in this.
fn no_count(random: &mut Rng, model: Model) -> u64 {
    let past = model.max_workers as u64 + 1;
    if random.once_in(2) {
        past + random.below(12) as u64
    } else {
        random.pick(&NO_COUNTS)
    }
}

/// What may stand behind a text in memory: the rest of a number, of a field, of a record or of a line end.
const BEHIND: [&[u8]; 8] = [b"5,6\r\n", b",6\r\n", b"\",6\r\n", b"\r\n1,2", b"\n1,2\r\n", b"\"\r\n\r\n", b"\"\"\"\"\"", b"\0\0\0\0\0"];

/// What may stand before it: an end of this.
const BEFORE: &[u8] = b"1,\"2\r\n,\"0";

/// The places that are lent.
fn lent([keys, prices, workers]: &mut [Vec<u32>; 3], lengths: [usize; 3]) -> [&mut [u32]; 3] {
    [&mut keys[..lengths[0]], &mut prices[..lengths[1]], &mut workers[..lengths[2]]]
}

/// Reads by the library and by the reference, into lists of these lengths with any numbers in them, from a text with other bytes around it. The
/// answer and every place afterwards are the same, and a refusal leaves all places as they were.
fn same_reading(random: &mut Rng, model: Model, text: &[u8], count: u64, lengths: [usize; 3]) -> Result<usize, u8> {
    let before = lengths.map(|length| (0..length + GUARD).map(|_| random.draw() as u32).collect::<Vec<u32>>());
    let (mut ours, mut theirs) = (before.clone(), before.clone());
    let front = &BEFORE[random.below(BEFORE.len() + 1)..];
    let around = [front, text, random.pick(&BEHIND)].concat();
    let answer = reference_read_till(model, text, count, lent(&mut theirs, lengths));
    let told = || format!("{model:?}, {count} workers, places {lengths:?}, {:?}", String::from_utf8_lossy(&text[..text.len().min(300)]));
    assert_eq!(read_till(model, &around[front.len()..][..text.len()], count, lent(&mut ours, lengths)), answer, "{}", told());
    assert!(ours == theirs, "{}: left {ours:?} for {theirs:?}", told());
    assert!(answer.is_ok() || ours == before, "{}: a refusal wrote", told());
    answer
}

/// Lengths of the three lists: this one has so many places, the others as many or more.
fn lengths(random: &mut Rng, shortest: usize, places: usize) -> [usize; 3] {
    let mut lengths = [0; 3].map(|_| places + random.below(4));
    lengths[shortest] = places;
    lengths
}

/// How often each answer was given in each model, 0 for the gateway and 1 for the kiosk: a refusal's number, or 0.
#[derive(Default)]
struct Tally(BTreeMap<(u8, u8), usize>);

impl Tally {
    fn read(&mut self, random: &mut Rng, model: Model, text: &[u8], count: u64, lengths: [usize; 3]) -> Result<usize, u8> {
        let answer = same_reading(random, model, text, count, lengths);
        *self.0.entry((u8::from(model == KIOSK), answer.err().unwrap_or(0))).or_default() += 1;
        answer
    }

    /// A text, in one of the models and for some count of workers: into lists that are long enough, and if it is read, into lists of as many
    /// places as records, of one less and of none, each list being the shortest in turn; otherwise into some that are too short. Now and then for
    /// a wrong count too. The number of records, 0 if it is refused.
    fn take(&mut self, random: &mut Rng, text: &[u8]) -> usize {
        let model = random.pick(&MODELS);
        let count = random.within(1, model.max_workers) as u64;
        let enough = lengths(random, 0, text.len() / 4 + 1);
        let answer = self.read(random, model, text, count, enough);
        if let Ok(records) = answer {
            for shortest in 0..3 {
                for (places, expected) in [(records, answer), (records - 1, Err(12)), (0, Err(12))] {
                    let lengths = lengths(random, shortest, places);
                    assert_eq!(self.read(random, model, text, count, lengths), expected);
                }
            }
        } else {
            let short = [random.below(2), random.below(2), random.below(2)];
            assert_eq!(self.read(random, model, text, count, short), answer);
        }
        if random.once_in(4) {
            let (wrong, short) = (no_count(random, model), random.below(3));
            assert_eq!(self.read(random, model, text, wrong, [short; 3]), Err(2));
        }
        answer.unwrap_or(0)
    }

    /// Read, 2, 12, 19 and 20 came up, each at least so often in each model, and nothing else.
    fn each(self, least: usize) {
        let answers: Vec<(u8, u8)> = self.0.keys().copied().collect();
        let expected: Vec<(u8, u8)> = (0..2).flat_map(|model| [0, 2, 12, 19, 20].map(|number| (model, number))).collect();
        assert_eq!(answers, expected, "{:?}", self.0);
        assert!(self.0.values().all(|&often| often >= least), "{:?}", self.0);
    }
}

// ---- cases with their outcome

/// The answer, the same in both models, into lists of so many places that 12 is given by none of these tests.
fn said(text: impl AsRef<[u8]>) -> Result<usize, u8> {
    let [gateway, kiosk] = MODELS.map(|model| same_reading(&mut Rng::new(1), model, text.as_ref(), 3, [50; 3]));
    assert_eq!(gateway, kiosk);
    gateway
}

#[test]
fn cases() {
    for (text, answer) in [
        ("3,1", Ok(1)),
        ("3,1\r\n", Ok(1)),
        ("\"7\",1", Ok(1)),
        ("0,0", Ok(1)),
        ("4294967295,\"4294967295\"", Ok(1)),
        ("3,1\r\n\"8\",250\r\n13,\"9999999\"\r\n\"4\",\"1\"\r\n", Ok(4)),
        // the text as a whole
        ("", Err(19)),
        ("\r\n", Err(19)),
        ("\r\n1,2", Err(19)),
        ("1,2\r\n\r\n", Err(19)),
        ("\u{feff}1,2", Err(19)),
        ("label,price\r\n1,2", Err(20)),
        // not two fields
        ("1", Err(19)),
        ("1,2,3", Err(19)),
        ("1,2,", Err(19)),
        ("\"1,2\"", Err(19)),
        // line ends
        ("1,2\r", Err(19)),
        ("1,2\n", Err(19)),
        ("1,2\n3,4", Err(19)),
        ("1,2\r3,4", Err(19)),
        ("1,2\n\r3,4", Err(19)),
        ("\"1\n\",2", Err(20)),
        ("\"1\r\",2", Err(20)),
        ("\"1\r\n\",2", Err(20)),
        // quotes
        (" \"1\",2", Err(19)),
        ("\"1\" ,2", Err(19)),
        ("1\"\",2", Err(19)),
        ("\"1,2", Err(19)),
        ("1,\"2", Err(19)),
        ("\"1\"\",2", Err(19)),
        ("\"1\"\"\",2", Err(20)),
        ("\"\"\"\",2", Err(20)),
        ("\"1,1\",2", Err(20)),
        // bytes that no field may have
        ("1\t,2", Err(19)),
        ("\"1\t\",2", Err(19)),
        ("1,\"\u{7f}\"", Err(19)),
        ("1,\"\u{e9}\"", Err(19)),
        ("1,2\0", Err(19)),
        // no numbers
        (",1", Err(20)),
        ("1,", Err(20)),
        (",", Err(20)),
        ("\"\",1", Err(20)),
        (" 1,2", Err(20)),
        ("\" 1\",2", Err(20)),
        ("1,2 ", Err(20)),
        ("+1,2", Err(20)),
        ("1,-2", Err(20)),
        ("1.0,2", Err(20)),
        ("01,2", Err(20)),
        ("1,00", Err(20)),
        ("4294967296,1", Err(20)),
        ("1,\"18446744073709551617\"", Err(20)),
        // several at once
        ("x,1,2", Err(19)),
        ("x,\"1", Err(19)),
        ("x,1\r\n1", Err(20)),
        ("1\r\nx,1", Err(19)),
        ("x,1\r\n2,\"3", Err(20)),
        ("x,\"1\r\n2\",3", Err(19)),
    ] {
        assert_eq!(said(text), answer, "{text:?}");
    }
}

#[test]
fn keys_prices_and_workers() {
    let text = b"3,1\r\n\"8\",250\r\n4294967295,\"0\"\r\n\"4\",\"9999999\"\r\n0,7";
    for (model, count) in (1..=16u32).map(|count| (GATEWAY, count)).chain((1..=4).map(|count| (KIOSK, count))) {
        let [mut keys, mut prices, mut workers] = [[77; 7]; 3];
        assert_eq!(read_till(model, text, count.into(), [&mut keys, &mut prices, &mut workers]), Ok(5));
        assert_eq!(keys, [3, 8, u32::MAX, 4, 0, 77, 77]);
        assert_eq!(prices, [1, 250, 0, 9_999_999, 7, 77, 77]);
        assert_eq!(workers, [0, 1 % count, 2 % count, 3 % count, 4 % count, 77, 77]);
    }
}

/// Numbers around powers of two and of ten, up to 38 digits: the least of these are read, others look small in 32, 64 or 96 bits.
#[test]
fn numbers_at_the_borders() {
    let twos = (0..126).map(|power| 1u128 << power);
    let tens = (0..38).map(|power| 10u128.pow(power));
    let shifted = (1..2000u128).flat_map(|times| [times << 32, times << 64, times << 96]);
    for near in twos.chain(tens).chain(shifted) {
        for more in 0..4 {
            let number = (near + more).saturating_sub(2);
            let answer = if number < 1 << 32 { Ok(1) } else { Err(20) };
            for text in [format!("{number},1"), format!("\"{number}\",\"1\"\r\n"), format!("1,{number}\r\n"), format!("1,\"{number}\"")] {
                assert_eq!(said(&text), answer, "{text:?}");
            }
            assert_eq!(said(format!("0{number},1")), Err(20));
        }
    }
}

/// Every byte in the place of each byte of some texts, before it and behind the last, and each byte taken out.
#[test]
fn every_byte_everywhere() {
    let mut random = Rng::new(2);
    let mut tally = Tally::default();
    for text in [&b"1,2"[..], b"\"1\",\"2\"\r\n", b"10,4294967295\r\n\"0\",\"29\"\r\n7,8", b"x,\"a\"\"\r,\n\"\r\n1,2"] {
        for at in 0..=text.len() {
            let (front, behind) = text.split_at(at);
            for byte in 0..=255 {
                tally.take(&mut random, &[front, &[byte], behind].concat());
                if let Some((_, behind)) = behind.split_first() {
                    tally.take(&mut random, &[front, &[byte], behind].concat());
                }
            }
            if let Some((_, behind)) = behind.split_first() {
                tally.take(&mut random, &[front, behind].concat());
            }
            // and the text cut off
            tally.take(&mut random, front);
        }
    }
    tally.each(500);
}

// ---- all short texts

/// Every text of up to seven of eight bytes.
#[test]
fn all_short_texts() {
    let mut random = Rng::new(3);
    let mut tally = Tally::default();
    for length in 0..=7 {
        all_texts(length, &BYTES).for_each(|text| _ = tally.take(&mut random, &text));
    }
    tally.each(500);
}

/// Every text of up to nine pieces, up to two records.
#[test]
fn all_texts_of_pieces() {
    let mut random = Rng::new(4);
    let mut tally = Tally::default();
    let mut two = 0;
    for count in 0..=9 {
        all_texts(count, &PIECES).for_each(|text| two += usize::from(tally.take(&mut random, &text) == 2));
    }
    tally.each(250);
    assert!(two > 10, "{two} texts of two records");
}

/// Every text of up to five records, each good, not of two numbers or broken, and ended or not.
#[test]
fn all_texts_of_records() {
    let mut random = Rng::new(5);
    let mut tally = Tally::default();
    let records: [&[u8]; 8] = [b"7,8", b"\"10\",4294967295", b"x,8", b"7,\"\r\n\"", b"7", b"7,8,9", b"", b"7,\"8"];
    for count in 1..=5 {
        for lines in reference::generate::all_lists(count, &records) {
            let text = lines.join(&b"\r\n"[..]);
            tally.take(&mut random, &text);
            tally.take(&mut random, &[&text[..], b"\r\n"].concat());
        }
    }
    tally.each(250);
}

// ---- texts drawn at random

/// Good texts, each also cut off anywhere and with one byte changed.
#[test]
fn good_texts() {
    let mut random = Rng::new(6);
    let (mut tally, mut nicked) = (Tally::default(), Tally::default());
    for _ in 0..20_000 {
        let (mut text, records) = good(&mut random);
        assert_eq!(tally.take(&mut random, &text), records.len());
        let cut = random.below(text.len() + 1);
        tally.take(&mut random, &text[..cut]);
        nick(&mut random, &mut text);
        nicked.take(&mut random, &text);
    }
    tally.each(150);
    nicked.each(1500);
}

#[test]
fn damaged_texts() {
    let mut random = Rng::new(7);
    let mut tally = Tally::default();
    for _ in 0..60_000 {
        let text = damaged(&mut random);
        tally.take(&mut random, &text);
    }
    tally.each(2500);
}

/// Bytes of the grammar in no order at all.
#[test]
fn any_bytes() {
    let mut random = Rng::new(8);
    let mut tally = Tally::default();
    for _ in 0..200_000 {
        let length = random.below(14);
        let text: Vec<u8> = (0..length).flat_map(|_| random.pick(&[&b"1"[..], b"20", b"4294967295", b",", b",", b"\r\n", b"\""]).to_vec()).collect();
        tally.take(&mut random, &text);
    }
    tally.each(500);
}

// ---- workers and places

/// All counts from 0 to 17 and some that are far greater in both models, texts of every outcome, and lists of 0 to 43 places, each the shortest
/// in turn.
#[test]
fn counts_and_places() {
    let mut random = Rng::new(9);
    let mut tally = Tally::default();
    for text in ["", "1", "x,1", "1,2", "1,2\r\n3,4\r\n", "1,2\r\n3,4\r\n5", "1,2\r\n3,4\r\n5,x", &"7,8\r\n".repeat(40)] {
        let alone = said(text);
        for (model, most) in [(GATEWAY, 16), (KIOSK, 4)] {
            for count in (0..=17).chain(NO_COUNTS) {
                for (shortest, places) in (0..3).flat_map(|shortest| (0..44).map(move |places| (shortest, places))) {
                    let expected = match alone {
                        _ if !(1..=most).contains(&count) => Err(2),
                        Ok(records) if places < records => Err(12),
                        _ => alone,
                    };
                    let lengths = lengths(&mut random, shortest, places);
                    assert_eq!(tally.read(&mut random, model, text.as_bytes(), count, lengths), expected, "{count} {places} {text:?}");
                }
            }
        }
    }
    tally.each(500);
}

/// One list too short beside two that are long, and one long beside two that are too short.
#[test]
fn one_list_apart() {
    let mut random = Rng::new(10);
    let text = b"1,2\r\n3,4\r\n5,6\r\n";
    for places in [[2, 9, 9], [9, 2, 9], [9, 9, 2], [2, 2, 9], [2, 9, 2], [9, 2, 2], [0, 3, 3], [3, 0, 3], [3, 3, 0]] {
        assert_eq!(MODELS.map(|model| same_reading(&mut random, model, text, 2, places)), [Err(12); 2]);
    }
    for places in [[3, 9, 9], [9, 3, 9], [9, 9, 3], [3, 3, 9], [3, 9, 3], [9, 3, 3], [3, 3, 3]] {
        assert_eq!(MODELS.map(|model| same_reading(&mut random, model, text, 2, places)), [Ok(3); 2]);
    }
}

// ---- long texts

/// Fields of very many digits, quoted text of all kinds, and what breaks off far behind its beginning.
#[test]
fn long_fields() {
    for length in [11, 20, 64, 255, 256, 257, 10_000, 1_000_000] {
        // each with its number if it stands without quotes around it
        for (unit, bare) in
            [("0", 20), ("1", 20), ("9", 20), (" ", 20), ("\"\"", 20), (",", 19), ("\r\n", 19), ("1,2\r\n", 20), ("\"\",\"\"\r\n", 20)]
        {
            let field = unit.repeat(length);
            for (text, number) in [
                (format!("\"{field}\",1"), 20),
                (format!("1,\"{field}\"\r\n5"), 20),
                (format!("{field},1\r\n"), bare),
                (format!("\"{field},1"), 19),
                (format!("1,\"{field}\"1"), 19),
                (format!("1,\"{field}\x1f\""), 19),
                (format!("1,2\r\n\"{field}\",3\r\n"), 20),
            ] {
                assert_eq!(said(&text), Err(number), "{length} times {unit:?}");
            }
        }
    }
}

/// Many records, and a damage in the last.
#[test]
fn many_records() {
    let mut random = Rng::new(11);
    let records: Vec<Entry> = (0..300_000).map(|_| (number(&mut random), number(&mut random))).collect();
    let whole = written(&mut random, &records, Quotes::Mixed, true);
    for (model, count) in [(GATEWAY, 13), (KIOSK, 3)] {
        for (places, answer) in [(300_000, Ok(300_000)), (300_005, Ok(300_000)), (299_999, Err(12)), (0, Err(12))] {
            assert_eq!(same_reading(&mut random, model, &whole, count, [places; 3]), answer);
        }
        for (behind, number) in [("\r\n", 19), ("\r\nx,1", 19), ("x,1", 20)] {
            let text = [&whole, behind.as_bytes()].concat();
            assert_eq!(same_reading(&mut random, model, &text, count, [0; 3]), Err(number));
        }
    }
}

/// Some twenty megabytes, in one field, before a field of a thousand bytes and in short ones, all within ten seconds: a reader that goes through
/// them again and again would take hours.
fn long_texts_are_read_in_linear_time(model: Model) {
    let start = Instant::now();
    let mut lists = [(); 3].map(|()| vec![0; 4_000_000]);
    for (text, answer) in [
        (format!("1,\"{}\"", "\"\"".repeat(10_000_000)), Err(20)),
        (format!("1,\"{}", "\"\"".repeat(10_000_000)), Err(19)),
        (format!("{}{}", "1,2\r\n".repeat(4_000_000), "7".repeat(1000)), Err(19)),
        ("1,2\r\n".repeat(4_000_000), Ok(4_000_000)),
        (format!("{}\r\n", "1,2\r\n".repeat(4_000_000)), Err(19)),
        (format!("\"{}", "1,2\r\n".repeat(4_000_000)), Err(19)),
        (format!("1,{}", "1".repeat(20_000_000)), Err(20)),
    ] {
        let [keys, prices, workers] = &mut lists;
        assert_eq!(read_till(model, text.as_bytes(), model.max_workers as u64, [keys, prices, workers]), answer);
    }
    assert!(start.elapsed() < Duration::from_secs(10), "seven texts of twenty megabytes took {:?}", start.elapsed());
}

// ---- from the text to the closed table

/// The orders of a till's list, as the library reads them into lists of so many places.
fn orders_of(model: Model, text: &[u8], crew: u32, records: usize) -> Vec<Order> {
    let [mut keys, mut prices, mut workers] = [(); 3].map(|()| vec![0; records]);
    assert_eq!(read_till(model, text, crew.into(), [&mut keys, &mut prices, &mut workers]), Ok(records));
    lines_of([&keys, &prices, &workers])
}

/// What a put-in opening answers with these orders, in both forms of the list.
fn opening(model: Model, crew: u32, homes: Homes, table: &[u64], orders: &[Order]) -> u64 {
    let lent = Orders::of(orders);
    let answer = lent.open(model, 1, crew.into(), homes, table);
    let mut cells = table.to_vec();
    assert_eq!(Calls::default().run(model, 1, crew.into(), homes, &mut cells, &lent, &mut []), answer);
    assert_eq!(cells, table);
    answer
}

/// A text read, the shift opened with its list, every line ordered and the turns dealt as chance has it, closed: each label stands at the least
/// price of the table and the text, in the layout.
fn from_text_to_table(random: &mut Rng, model: Model, homes: Homes, table: &[u64], crew: u32, entries: &[Entry]) {
    let (quotes, ended) = (random.pick(&[Quotes::Never, Quotes::Mixed, Quotes::Always]), random.once_in(2));
    let text = written(random, entries, quotes, ended);
    let orders = orders_of(model, &text, crew, entries.len());
    assert_eq!(opening(model, crew, homes, table, &orders), 0);
    let calls = dealt(random, model, PUT_IN, crew, homes, table, &orders);
    let (lent, list) = (Orders::of(&orders), Calls::of(&calls));
    let (mut expected, mut told) = (table.to_vec(), vec![0; calls.len()]);
    assert_eq!(reference_run(model, 1, crew.into(), homes, &mut expected, &orders, &calls, &mut told), 0);
    assert_eq!(told.last(), Some(&0), "the close");
    assert_eq!(expected, closed(PUT_IN, homes, table, entries));
    for run in [Calls::run, Calls::run_singly] {
        let (mut cells, mut answers) = (table.to_vec(), vec![1; calls.len()]);
        assert_eq!(run(&list, model, 1, crew.into(), homes, &mut cells, &lent, &mut answers), 0);
        assert_eq!(cells, expected, "{model:?}, {crew} workers, {homes:?}, {table:?}, {entries:?}");
        assert_eq!(answers, told);
    }
}

#[test]
fn texts_become_tables() {
    let random = &mut Rng::new(12);
    for _ in 0..3000 {
        let cells = random.within(2, 30);
        let homes = homes(random);
        let table = table(random, homes, cells);
        let (mut known, tests): (Vec<u32>, Vec<u32>) = labels_of(&table).into_iter().partition(|&label| is_shop_label(label));
        let most = cells - 1 - tests.len();
        if most == 0 {
            continue;
        }
        while known.is_empty() || known.len() < most && !random.once_in(4) {
            let label = random.within(1, 3 * cells) as u32;
            if !known.contains(&label) {
                known.push(label);
            }
        }
        let entries: Vec<Entry> = (0..random.within(1, 2 * cells)).map(|_| (random.pick(&known), price(random))).collect();
        let model = random.pick(&MODELS);
        let crew = random.within(1, model.max_workers) as u32;
        from_text_to_table(random, model, homes, &table, crew, &entries);
    }
}

/// The example of document 01; a table filled but for one cell, and its assortment sent again; and many labels in the greatest table of each model.
#[test]
fn some_tables() {
    let random = &mut Rng::new(13);
    let example = [(3, 1), (8, 1), (13, 1), (4, 1)];
    for model in MODELS {
        from_text_to_table(random, model, Homes::PLAIN, &[0; 5], 2, &example);
    }
    assert_eq!(closed(PUT_IN, Homes::PLAIN, &[0; 5], &example), [4, 3, 0, 13, 8].map(|x| content(x, x.min(1))));
    for (model, cells, labels, crew) in
        [(GATEWAY, 500, 499, 1), (GATEWAY, 500, 499, 16), (GATEWAY, 8192, 6000, 16), (KIOSK, 256, 255, 1), (KIOSK, 256, 255, 4)]
    {
        let mut set = Prices::new();
        while set.len() < labels {
            set.insert(shop_label(random), price(random));
        }
        let mut entries: Vec<Entry> = set.iter().map(|(&label, &price)| (label, price)).collect();
        random.shuffle(&mut entries);
        from_text_to_table(random, model, Homes::PLAIN, &vec![0; cells], crew, &entries);
        let sent_again: Vec<Entry> = entries.iter().map(|&(label, _)| (label, price(random))).collect();
        from_text_to_table(random, model, Homes::PLAIN, &layout(Homes::PLAIN, cells, &set), crew, &sent_again);
    }
}

/// What the reader does not judge, the opening does.
fn values_are_checked_at_the_opening(model: Model) {
    let most = model.max_workers as u32;
    let table = [0, content(7, 5), 0];
    for (text, records, number) in [
        ("0,1", 1, 7),
        ("7,1\r\n0,0", 2, 7),
        ("4000000000,0", 1, 24),
        ("7,1\r\n\"4294967295\",1", 2, 24),
        ("4000000000,1\r\n0,1", 2, 24),
        ("7,0", 1, 14),
        ("3999999999,10000000\r\n4000000000,1", 2, 14),
        ("7,10000000", 1, 14),
        ("7,4294967295\r\n0,1", 2, 14),
        ("7,1\r\n8,1\r\n3999999999,1", 3, 9),
    ] {
        for crew in [1, 3, most] {
            let orders = orders_of(model, text.as_bytes(), crew, records);
            assert_eq!(opening(model, crew, Homes::PLAIN, &table, &orders), REFUSED + number, "{text:?}");
            assert_eq!(Phase::open(model, 1, crew.into(), Homes::PLAIN, &table, &orders).map(|_| ()), Err(number as u8));
        }
    }
    for (records, answer) in [(65_535, 0), (65_536, 0), (65_537, REFUSED + 16), (100_000, REFUSED + 16)] {
        let orders = orders_of(model, format!("7,{MAX_PRICE}\r\n").repeat(records).as_bytes(), most, records);
        assert_eq!(opening(model, most, Homes::PLAIN, &table, &orders), answer);
    }
    // dealt to more workers than the shift has
    let orders = orders_of(model, b"7,1\r\n7,2\r\n7,3", 3, 3);
    for (crew, answer) in [(1, REFUSED + 6), (2, REFUSED + 6), (3, 0), (most, 0)] {
        assert_eq!(opening(model, crew, Homes::PLAIN, &table, &orders), answer);
    }
    // a shift without orders
    let mut cells = table;
    assert_eq!(Calls::of(&[close()]).run(model, 1, 3, Homes::PLAIN, &mut cells, &Orders::of(&orders), &mut [0]), 0);
    assert_eq!(cells, table);
}
