//! Point 4 of document 02, sentence by sentence: till lists.

use reference::generate::till::{
    all_texts, damaged, good, nick, number, written, Quotes, Record, BYTES, PIECES,
};
use reference::generate::Rng;
use reference::layout::{content, layout, Homes, Prices};
use reference::model::GATEWAY;
use reference::phase::{Answer, Order, Phase};
use reference::refusal;
use reference::till::read;

/// What stands in lent places before a reading.
const OLD: Order = Order {
    worker: 77,
    label: 78,
    price: 79,
};

/// Reads for `count` workers into a list of so many places: a refusal writes
/// nothing, and places behind the records keep their contents.
fn read_into(text: &[u8], count: u64, places: usize) -> Result<Vec<Order>, u8> {
    let mut orders = vec![OLD; places];
    let answer = read(GATEWAY, text, count, &mut orders);
    let written = answer.unwrap_or(0);
    assert!(orders[written..].iter().all(|&place| place == OLD));
    answer.map(|count| orders[..count].to_vec())
}

/// The labels and prices, read for one worker into a list that is long enough.
fn records(text: impl AsRef<[u8]>) -> Result<Vec<Record>, u8> {
    let text = text.as_ref();
    let orders = read_into(text, 1, text.len())?;
    assert!(orders.iter().all(|order| order.worker == 0));
    let record = |order: Order| (order.label, order.price);
    Ok(orders.into_iter().map(record).collect())
}

/// The number of a refusal, or 0.
fn said(text: impl AsRef<[u8]>) -> u8 {
    records(text).err().unwrap_or(0)
}

#[test]
fn the_numbers() {
    assert_eq!(refusal::BAD_RECORD, 19);
    assert_eq!(refusal::BAD_FIELD, 20);
}

// ---- "Each record is label and price, without a header."

#[test]
fn labels_and_prices() {
    assert_eq!(records("3,1"), Ok(vec![(3, 1)]));
    assert_eq!(records("3,1\r\n"), Ok(vec![(3, 1)]));
    assert_eq!(records("3,1\r\n8,250"), Ok(vec![(3, 1), (8, 250)]));
    assert_eq!(records("3,1\r\n8,250\r\n"), Ok(vec![(3, 1), (8, 250)]));
    assert_eq!(
        records("\"3\",1\r\n8,\"250\"\r\n\"13\",\"9999999\"\r\n4,1"),
        Ok(vec![(3, 1), (8, 250), (13, 9_999_999), (4, 1)])
    );
    // The same record twice is two records.
    assert_eq!(records("7,5\r\n7,5"), Ok(vec![(7, 5), (7, 5)]));
}

/// A header is a record like any other.
#[test]
fn a_header() {
    assert_eq!(said("label,price\r\n3,1\r\n"), 20);
    assert_eq!(said("\"label\",\"price\"\r\n3,1"), 20);
    assert_eq!(said("label\r\n3,1"), 19);
    assert_eq!(said("label,price,date\r\n3,1"), 19);
}

// ---- "worker numbers dealt in turn from 0 below a worker count handed in"

#[test]
fn workers_in_turn() {
    let text = "3,1\r\n8,2\r\n13,3\r\n4,4\r\n5,5";
    let expected = |workers: [u32; 5]| -> Vec<Order> {
        let entries = [(3, 1), (8, 2), (13, 3), (4, 4), (5, 5)];
        let order = |(worker, (label, price))| Order {
            worker,
            label,
            price,
        };
        workers.into_iter().zip(entries).map(order).collect()
    };
    let read = |count| read_into(text.as_bytes(), count, 6).unwrap();
    assert_eq!(read(1), expected([0, 0, 0, 0, 0]));
    assert_eq!(read(2), expected([0, 1, 0, 1, 0]));
    assert_eq!(read(3), expected([0, 1, 2, 0, 1]));
    assert_eq!(read(4), expected([0, 1, 2, 3, 0]));
    assert_eq!(read(5), expected([0, 1, 2, 3, 4]));
    assert_eq!(read(16), expected([0, 1, 2, 3, 4]));
    let long = "1,1\r\n".repeat(1000);
    for count in 1..=16 {
        let orders = read_into(long.as_bytes(), count, 1000).unwrap();
        for (i, order) in (0..).zip(orders) {
            assert_eq!(u64::from(order.worker), i % count);
        }
    }
}

// ---- "which is checked for 2 first"

#[test]
fn the_worker_count_comes_first() {
    for text in ["", "1", "1,2", "x,2", "1,2\r\n\r\n", "1,\"2", "\u{feff}1,2"] {
        for places in 0..3 {
            for count in [0, 17, 18, 1 << 32, (1 << 32) + 1, u64::MAX] {
                assert_eq!(read_into(text.as_bytes(), count, places), Err(2));
            }
            for count in 1..=16 {
                assert_ne!(read_into(text.as_bytes(), count, places), Err(2));
            }
        }
    }
}

// ---- "accept the grammar of the RFC for two fields and nothing outside it"

/// Texts in the grammar with two fields in each record: 0, or 20 for what isn't
/// a number.
#[test]
fn inside_the_grammar() {
    for (text, number) in [
        ("1,2", 0),
        ("\"1\",2", 0),
        ("1,\"2\"", 0),
        ("\"1\",\"2\"", 0),
        ("1,2\r\n", 0),
        ("\"1\",\"2\"\r\n", 0),
        ("1,2\r\n\"3\",4\r\n5,\"6\"", 0),
        // Spaces are part of a field.
        (" 1,2", 20),
        ("1 ,2", 20),
        ("1, 2", 20),
        ("1,2 ", 20),
        ("\" 1\",2", 20),
        ("1,\"2 \"", 20),
        ("1 1,2", 20),
        // A field may be empty, in quotes or not.
        (",", 20),
        (",\r\n", 20),
        (",1", 20),
        ("1,", 20),
        ("\"\",1", 20),
        ("1,\"\"", 20),
        ("\"\",\"\"", 20),
        // Line breaks, commas and doubled quotes within quotes.
        ("\"aaa\",\"b\r\nbb\"", 20),
        ("\"aaa\",\"b\"\"bb\"", 20),
        ("\"1\r\n\",2", 20),
        ("\"1\r\",2", 20),
        ("\"1\n\",2", 20),
        ("\"\n\r\",\"\r\r\n\n\"", 20),
        ("\"1,2\",3", 20),
        ("1,\"2,3\"", 20),
        ("\",\",\",\"", 20),
        ("\"\"\"\",1", 20),
        ("\"\"\"1\"\"\",2", 20),
        ("\"1\"\"\",2", 20),
        ("\"1\"\"2\",3", 20),
        ("1,\"\"\"\"\"\"", 20),
        ("\"1,2\r\n3,4\",5\r\n", 20),
    ] {
        assert_eq!(said(text), number, "{text:?}");
    }
}

#[test]
fn outside_the_grammar() {
    for text in [
        // Not two fields.
        "1",
        "\"1\"",
        "1\r\n",
        "\"1,2\"",
        "1,2,3",
        "1,2,",
        ",1,2",
        ",,",
        "1,,2",
        "\"1\",\"2\",\"3\"",
        "1;2",
        // A CRLF without a record before it, or with none behind it but one.
        "\r\n",
        "\r\n\r\n",
        "\r\n1,2",
        "1,2\r\n\r\n",
        "1,2\r\n\r\n3,4",
        "1,2\r\n3,4\r\n\r\n",
        // CR or LF alone.
        "1,2\r",
        "1,2\n",
        "1,2\n3,4",
        "1,2\r3,4",
        "1,2\n\r3,4",
        "1,2\r\r\n",
        "1,2\r\n\n",
        "1,2\r\n\r",
        "1\r,2",
        "1,\n2",
        "\r1,2",
        "\n1,2",
        "\"1\"\n,2",
        "1\r\n,2",
        "1,\r2\r\n",
        "\r",
        "\n",
        // Quotes in a field without them.
        "1\",2",
        "1\"1\",2",
        " \"1\",2",
        "1, \"2\"",
        "1,2\"",
        "1,2\"\"",
        "1\"\",2",
        "x\",2",
        // Behind a closing quote.
        "\"1\" ,2",
        "\"1\"1,2",
        "\"1\"x,2",
        "1,\"2\" ",
        "1,\"2\"3\r\n",
        "\"\"1,2",
        "\"\"1\"\",2",
        "\"1\"\" \"x,2",
        // Never closed.
        "\"",
        "\"1",
        "\"1,2",
        "\"1,2\r\n3,4\r\n",
        "\"1\"\",2",
        "\"\"\",2",
        "1,\"",
        "1,\"2",
        "1,\"2\r\n",
        "1,\"2\"\"",
        "1,\"\"\"",
        // Bytes that no field may have.
        "1\t,2",
        "\"1\t\",2",
        "\t1,2",
        "1,2\0",
        "1,\"2\0\"",
        "1,2\u{1a}",
        "1,\u{7f}2",
        "\"\u{7f}\",2",
        "\u{e9},2",
        "\"\u{e9}\",2",
        "1,\u{20ac}",
        "\u{feff}1,2",
        "\u{feff}\"1\",2",
        "1,2\r\n\u{feff}3,4",
    ] {
        assert_eq!(said(text), 19, "{text:?}");
    }
}

/// Every byte as a field and in one, quoted or not.
#[test]
fn every_byte() {
    for byte in 0..=255u8 {
        let [plain, quoted] = match byte {
            b'0'..=b'9' => [0, 0],
            b',' | b'\r' | b'\n' => [19, 20],
            b'"' => [19, 19],
            b' '..=b'~' => [20, 20],
            _ => [19, 19],
        };
        let put = |front: &str, behind: &str| {
            said([front.as_bytes(), &[byte], behind.as_bytes()].concat())
        };
        for (front, behind) in [("", ",2"), ("1,", ""), ("5,6\r\n", ",2\r\n7,8")] {
            assert_eq!(put(front, behind), plain, "{byte}");
            let (front, behind) = (format!("{front}\""), format!("\"{behind}"));
            assert_eq!(put(&front, &behind), quoted, "{byte}");
        }
        for (front, behind) in [("1", ",2"), ("1,2", ""), ("5,6\r\n1", ",2\r\n7,8")] {
            assert_eq!(put(front, behind), plain, "{byte}");
        }
        for (front, behind) in [("\"1", "\",2"), ("1,\"2", "\"\r\n")] {
            assert_eq!(put(front, behind), quoted, "{byte}");
        }
        // In the place of a comma, a CR and a LF, and behind quotes.
        let only = |right: u8| if byte == right { 0 } else { 19 };
        assert_eq!(put("1", "2"), only(b','), "{byte}");
        assert_eq!(put("\"1\"", "\"2\""), only(b','), "{byte}");
        assert_eq!(put("1,2", "\n"), only(b'\r'), "{byte}");
        assert_eq!(put("1,2", "\n3,4"), only(b'\r'), "{byte}");
        assert_eq!(put("1,2\r", ""), only(b'\n'), "{byte}");
        assert_eq!(put("1,\"2\"\r", "3,4"), only(b'\n'), "{byte}");
        assert_eq!(put("\"1\"", ",2"), 19, "{byte}");
        assert_eq!(put("1,\"2\"", ""), 19, "{byte}");
    }
}

// ---- "A list too short gets 12, checked last."

#[test]
fn a_list_too_short() {
    let rng = &mut Rng::new(1);
    for _ in 0..2000 {
        let (text, records) = good(rng);
        let n = records.len();
        for places in [0, n / 2, n - 1] {
            assert_eq!(read_into(&text, 3, places), Err(12));
        }
        for places in [n, n + 1, 2 * n + 5] {
            assert_eq!(read_into(&text, 3, places).map(|read| read.len()), Ok(n));
        }
    }
    // What is wrong behind the list's end comes before.
    for (more, number) in [("", 12), ("x,1", 20), ("1", 19), ("\r\n", 19), ("3,4", 12)] {
        let text = format!("1,2\r\n3,4\r\n{more}");
        for places in 0..2 {
            assert_eq!(read_into(text.as_bytes(), 1, places), Err(number));
        }
    }
}

// ---- "The answer is the number of records; places behind them keep their contents."

#[test]
fn places_behind() {
    let mut orders = [OLD; 5];
    assert_eq!(read(GATEWAY, b"3,1\r\n8,2\r\n", 16, &mut orders), Ok(2));
    let order = |worker, label, price| Order {
        worker,
        label,
        price,
    };
    let read_first = [order(0, 3, 1), order(1, 8, 2), OLD, OLD, OLD];
    assert_eq!(orders, read_first);
    for (text, number) in [("9,9\r\n\r\n", 19), ("9,9\r\n9,x", 20)] {
        assert_eq!(read(GATEWAY, text.as_bytes(), 16, &mut orders), Err(number));
        assert_eq!(orders, read_first);
    }
    assert_eq!(
        read(GATEWAY, "9,9\r\n".repeat(6).as_bytes(), 1, &mut orders),
        Err(12)
    );
    assert_eq!(read(GATEWAY, b"9,9", 0, &mut orders), Err(2));
    assert_eq!(orders, read_first);
    assert_eq!(read(GATEWAY, b"9,9", 16, &mut orders), Ok(1));
    assert_eq!(orders, [order(0, 9, 9), order(1, 8, 2), OLD, OLD, OLD]);
}

// ---- "The fields' values are checked when the shift opens."

#[test]
fn values_are_checked_at_opening() {
    for (text, number) in [
        ("0,1", 7),
        ("0,0", 7),
        ("5,0", 14),
        ("5,10000000", 14),
        ("5,4294967295", 14),
        ("1,1\r\n2,0\r\n0,1", 14),
        ("1,1\r\n0,1\r\n2,0", 7),
        ("1,1\r\n2,2\r\n3,3", 9),
    ] {
        let orders = read_into(text.as_bytes(), 2, 9).unwrap();
        assert_eq!(
            Phase::open(GATEWAY, 1, 2, Homes::PLAIN, &[0; 3], &orders),
            Err(number),
            "{text:?}"
        );
    }
    for count in [65_536, 65_537, 100_000] {
        let orders = read_into("7,5\r\n".repeat(count).as_bytes(), 16, count).unwrap();
        let answer = Phase::open(GATEWAY, 1, 16, Homes::PLAIN, &[0; 3], &orders).map(|_| ());
        assert_eq!(answer, if count == 65_536 { Ok(()) } else { Err(16) });
    }
    // As many workers as the list was dealt to, or more; not fewer.
    let orders = read_into(b"1,1\r\n2,2\r\n3,3", 3, 3).unwrap();
    for (count, answer) in [(2, Err(6)), (3, Ok(())), (4, Ok(()))] {
        assert_eq!(
            Phase::open(GATEWAY, 1, count, Homes::PLAIN, &[0; 9], &orders).map(|_| ()),
            answer
        );
    }
}

/// From the text to the closed table.
#[test]
fn a_shift_of_a_till() {
    let text = "3,1\r\n\"8\",1\r\n13,\"1\"\r\n\"4\",\"1\"\r\n8,5\r\n";
    for count in 1..=16 {
        let orders = read_into(text.as_bytes(), count, 5).unwrap();
        let mut table = vec![0; 5];
        let mut phase = Phase::open(GATEWAY, 1, count, Homes::PLAIN, &table, &orders).unwrap();
        for (line, order) in (0..).zip(&orders) {
            phase.order(GATEWAY, &orders, line, 0, 0).unwrap();
            while phase
                .turn(GATEWAY, &mut table, order.worker.into())
                .unwrap()
                == Answer::WentOn
            {}
        }
        phase.close(GATEWAY).unwrap();
        let prices = Prices::from([(3, 1), (4, 1), (8, 1), (13, 1)]);
        assert_eq!(table, layout(Homes::PLAIN, 5, &prices));
        assert_eq!(
            table,
            [4, 3, 0, 13, 8].map(|label| content(label, label.min(1)))
        );
    }
}

// ---- "20 a field that isn't a decimal number below 4,294,967,296 without leading zeros"

/// In each place, quoted or not.
fn field(field: &str) -> u8 {
    let texts = [
        format!("{field},1"),
        format!("1,{field}"),
        format!("\"{field}\",1\r\n"),
        format!("1,\"{field}\"\r\n1,1"),
        format!("{field},\"{field}\""),
        format!("1,1\r\n{field},{field}"),
    ];
    let numbers: Vec<u8> = texts.iter().map(said).collect();
    assert!(numbers.iter().all(|&number| number == numbers[0]));
    numbers[0]
}

#[test]
fn numbers_of_every_length() {
    for digits in 1..=10 {
        let least = 10u64.pow(digits - 1);
        for number in [
            least,
            least + 1,
            2 * least,
            (10 * least - 1).min(u32::MAX.into()),
        ] {
            let n = number as u32;
            assert_eq!(u64::from(n), number);
            assert_eq!(records(format!("{n},\"{n}\"")), Ok(vec![(n, n)]));
        }
    }
    assert_eq!(records("0,\"0\""), Ok(vec![(0, 0)]));
    assert_eq!(
        records("4294967295,\"4294967295\""),
        Ok(vec![(u32::MAX, u32::MAX)])
    );
    for text in [
        "0",
        "7",
        "10",
        "4294967295",
        "4294967294",
        "4200000000",
        "3999999999",
    ] {
        assert_eq!(field(text), 0, "{text:?}");
    }
}

#[test]
fn no_numbers() {
    for text in [
        "",
        "00",
        "01",
        "007",
        "0000000000",
        "00000000000000000000000001",
        "04294967295",
        "4294967296",
        "4294967297",
        "4294967300",
        "4300000000",
        "5000000000",
        "9999999999",
        "10000000000",
        "42949672950",
        "8589934593",
        "18446744073709551615",
        "18446744073709551616",
        "18446744073709551617",
        "36893488147419103233",
        "99999999999999999999",
        "340282366920938463463374607431768211456",
        "340282366920938463463374607431768211457",
        "+1",
        "-1",
        "-0",
        " 1",
        "1 ",
        " ",
        "1 1",
        "1.0",
        "1e1",
        "0x1",
        "1_000",
        "x",
        "1x",
        "x1",
        "/",
        ":",
        "1/",
        "1:",
        "~",
        "!",
    ] {
        assert_eq!(field(text), 20, "{text:?}");
    }
    // 2 to the power 32 and to the power 64, times anything, and small numbers
    // more.
    for power in [32, 33, 63, 64, 65, 96, 127] {
        for more in [0, 1, 7, 4_294_967_295u128] {
            assert_eq!(field(&((1u128 << power) + more).to_string()), 20);
        }
    }
}

#[test]
fn long_fields() {
    for length in [11, 20, 255, 256, 257, 10_000, 1_000_000] {
        for digit in ["0", "1", "9"] {
            assert_eq!(field(&digit.repeat(length)), 20);
        }
        let rest = format!("{},\r\n", "\"\"".repeat(length));
        assert_eq!(said(format!("\"{rest}\",1")), 20);
        assert_eq!(said(format!("1,\"{rest}\"\r\n")), 20);
        assert_eq!(said(format!("\"{rest},1")), 19);
        assert_eq!(said(format!("1,\"{rest}")), 19);
        assert_eq!(said(format!("\"{rest}\"1,1")), 19);
        assert_eq!(said(format!("\"{}\t\",1", "1".repeat(length))), 19);
        assert_eq!(said(format!("1,{}\0", "1".repeat(length))), 19);
    }
}

// ---- "the earliest record decides, 19 first"

#[test]
fn in_one_record() {
    for text in [
        "x,1,2",
        "x",
        "x,\"1",
        "x\",1",
        "\"x\"1,2",
        "00,1\n",
        "x,1\r",
        "x,1\0",
        "\"\",\"\t\"",
        "4294967296,1,",
        ",\"",
        ",1\n",
        "1,x\"\"",
    ] {
        assert_eq!(said(text), 19, "{text:?}");
    }
}

#[test]
fn in_several_records() {
    // Each with its number, however it goes on. The first is good.
    let kinds = [
        ("7,8", 0),
        ("x,8", 20),
        ("7,\"\r\n\"", 20),
        ("7", 19),
        ("7,8,9", 19),
        ("", 19),
        ("7,8\n", 19),
    ];
    for (first, one) in kinds {
        for (second, two) in kinds {
            for (third, three) in kinds {
                for end in ["", "\r\n"] {
                    let expected = [one, two, three].into_iter().find(|&number| number > 0);
                    let expected = match third {
                        // The CRLF before the end is no record, behind it none
                        // stands.
                        "" if end.is_empty() && one == 0 && two == 0 => 0,
                        _ => expected.unwrap_or(0),
                    };
                    let text = format!("{first}\r\n{second}\r\n{third}{end}");
                    assert_eq!(said(&text), expected, "{text:?}");
                }
            }
        }
    }
    assert_eq!(said("x,1\r\n1"), 20);
    assert_eq!(said("1\r\nx,1"), 19);
    assert_eq!(said("x,1\r\n2,\"3"), 20);
    assert_eq!(said("x,\"1\r\n2,3"), 19);
    assert_eq!(said("x,1\r\n\r\n"), 20);
    assert_eq!(said("1,1\r\n\r\nx,1"), 19);
    // The second line is in the quotes.
    assert_eq!(said("x,\"1\r\n2\",3"), 19);
    assert_eq!(said("x,\"1\r\n2\"\r\n3"), 20);
}

/// The damage in the last of many records.
#[test]
fn late_damages() {
    let front = "4000000000,\"9999999\"\r\n".repeat(10_000);
    for (last, number) in [("", 0), ("1,1", 0), ("\r\n", 19), ("1", 19), ("x,1", 20)] {
        assert_eq!(said(format!("{front}{last}")), number);
    }
    for early in ["1\r\n", "x,1\r\n"] {
        for last in ["1", "x,1"] {
            assert_eq!(said(format!("{early}{front}{last}")), said(early));
        }
    }
}

// ---- "An empty text gets 19."

#[test]
fn an_empty_text() {
    for places in 0..3 {
        assert_eq!(read_into(b"", 1, places), Err(19));
        assert_eq!(read_into(b"", 16, places), Err(19));
        assert_eq!(read_into(b"", 0, places), Err(2));
    }
}

// ---- the RFC's rules as they stand there

/// A set of places in a text, one bit each; place 0 is before the first byte.
type Places = u128;

/// A rule in the RFC's notation. It is followed by sets of places, in every way
/// in which it can be read.
enum Rule {
    /// %x20-21
    Bytes(u8, u8),
    /// These bytes, one behind the other.
    Text(&'static [u8]),
    /// a b
    Then(&'static [Rule]),
    /// a / b
    Either(&'static [Rule]),
    /// *a
    Any(&'static Rule),
    /// [a]
    Maybe(&'static Rule),
    /// 2a
    Times(u32, &'static Rule),
}

use Rule::{Any, Bytes, Either, Maybe, Text, Then, Times};

impl Rule {
    /// The places behind a part of the text that begins at one of these places
    /// and is what the rule says.
    fn behind(&self, text: &[u8], places: Places) -> Places {
        if places == 0 {
            return 0;
        }
        match *self {
            Bytes(low, high) => {
                let (mut left, mut found) = (places, 0);
                while left != 0 {
                    let at = left.trailing_zeros();
                    let byte = text.get(at as usize);
                    if byte.is_some_and(|byte| (low..=high).contains(byte)) {
                        found |= 1 << (at + 1);
                    }
                    left &= left - 1;
                }
                found
            }
            Text(bytes) => bytes.iter().fold(places, |places, &byte| {
                Bytes(byte, byte).behind(text, places)
            }),
            Then(rules) => rules
                .iter()
                .fold(places, |places, rule| rule.behind(text, places)),
            Either(rules) => rules
                .iter()
                .fold(0, |found, rule| found | rule.behind(text, places)),
            Any(rule) => {
                let (mut all, mut new) = (places, places);
                while new != 0 {
                    new = rule.behind(text, new) & !all;
                    all |= new;
                }
                all
            }
            Maybe(rule) => places | rule.behind(text, places),
            Times(times, rule) => (0..times).fold(places, |places, _| rule.behind(text, places)),
        }
    }

    /// Is the whole text what the rule says?
    fn is(&self, text: &[u8]) -> bool {
        self.behind(text, 1) >> text.len() & 1 == 1
    }
}

const COMMA: Rule = Bytes(0x2c, 0x2c);
const CR: Rule = Bytes(0x0d, 0x0d);
const LF: Rule = Bytes(0x0a, 0x0a);
const DQUOTE: Rule = Bytes(0x22, 0x22);
const CRLF: Rule = Then(&[CR, LF]);
const TEXTDATA: Rule = Either(&[Bytes(0x20, 0x21), Bytes(0x23, 0x2b), Bytes(0x2d, 0x7e)]);
const ESCAPED: Rule = Then(&[
    DQUOTE,
    Any(&Either(&[TEXTDATA, COMMA, CR, LF, Times(2, &DQUOTE)])),
    DQUOTE,
]);
const NON_ESCAPED: Rule = Any(&TEXTDATA);
const FIELD: Rule = Either(&[ESCAPED, NON_ESCAPED]);
/// The RFC's record, of two fields.
const RECORD: Rule = Then(&[FIELD, Times(1, &Then(&[COMMA, FIELD]))]);
const FILE: Rule = Then(&[RECORD, Any(&Then(&[CRLF, RECORD])), Maybe(&CRLF)]);

/// A record of two numbers, each in quotes or not.
const NUMBERS: Rule = Then(&[NUMBER_FIELD, COMMA, NUMBER_FIELD]);
const NUMBER_FIELD: Rule = Either(&[Then(&[DQUOTE, NUMBER, DQUOTE]), NUMBER]);

const DIGIT: Rule = Bytes(b'0', b'9');
/// Up to nine digits, or ten that are 4294967295 or less: from the left they are
/// the same up to a lesser one.
const NUMBER: Rule = Either(&[
    Text(b"0"),
    Then(&[Bytes(b'1', b'9'), Times(8, &Maybe(&DIGIT))]),
    Then(&[Bytes(b'1', b'3'), Times(9, &DIGIT)]),
    Then(&[Text(b"4"), Bytes(b'0', b'1'), Times(8, &DIGIT)]),
    Then(&[Text(b"42"), Bytes(b'0', b'8'), Times(7, &DIGIT)]),
    Then(&[Text(b"429"), Bytes(b'0', b'3'), Times(6, &DIGIT)]),
    Then(&[Text(b"4294"), Bytes(b'0', b'8'), Times(5, &DIGIT)]),
    Then(&[Text(b"42949"), Bytes(b'0', b'5'), Times(4, &DIGIT)]),
    Then(&[Text(b"429496"), Bytes(b'0', b'6'), Times(3, &DIGIT)]),
    Then(&[Text(b"4294967"), Bytes(b'0', b'1'), Times(2, &DIGIT)]),
    Then(&[Text(b"42949672"), Bytes(b'0', b'8'), DIGIT]),
    Then(&[Text(b"429496729"), Bytes(b'0', b'5')]),
]);

/// The answer by the rules: from one record's beginnings to the next one's, to
/// the first where no record of two numbers stands.
fn by_rules(text: &[u8]) -> Result<usize, u8> {
    let end: Places = 1 << text.len();
    // Behind the record: the end of the text, or the CRLF.
    let ended = |places| places & end | CRLF.behind(text, places);
    let mut begins = 1;
    for records in 1.. {
        let next = ended(NUMBERS.behind(text, begins));
        if next & end != 0 {
            return Ok(records);
        }
        if next == 0 {
            break;
        }
        begins = next;
    }
    match ended(RECORD.behind(text, begins)) {
        0 => Err(19),
        _ => Err(20),
    }
}

/// The records of a good text, in which quotes mean nothing.
fn by_lines(text: &[u8]) -> Vec<Record> {
    let text = String::from_utf8(text.to_vec()).unwrap().replace('"', "");
    let record = |line: &str| {
        let (label, price) = line.split_once(',').unwrap();
        (label.parse().unwrap(), price.parse().unwrap())
    };
    text.lines().map(record).collect()
}

/// How often each number was said.
#[derive(Default)]
struct Tally([usize; 21]);

impl Tally {
    /// The reader says what the rules say; 19 for no text that the RFC's `file`
    /// takes, and no text is read that it doesn't.
    fn take(&mut self, text: &[u8]) {
        let read = records(text);
        let expected = by_rules(text);
        let shown = || String::from_utf8_lossy(text).into_owned();
        assert_eq!(
            read.as_ref().map(Vec::len),
            expected.as_ref().copied(),
            "{:?}",
            shown()
        );
        match FILE.is(text) {
            true => assert_ne!(expected, Err(19), "{:?}", shown()),
            false => assert!(expected.is_err(), "{:?}", shown()),
        }
        if let Ok(read) = read {
            assert_eq!(read, by_lines(text));
        }
        self.0[usize::from(expected.err().unwrap_or(0))] += 1;
    }

    /// How often 0, 19 and 20 were said; no other number was.
    fn said(&self) -> [usize; 3] {
        let said = [0, 19, 20].map(|number| self.0[number]);
        assert_eq!(said.iter().sum::<usize>(), self.0.iter().sum::<usize>());
        said
    }
}

/// How many texts of two numbers in each record there are, for each number of
/// pieces up to `most`: so many `numbers` of each number of digits, a quote, a
/// comma, and a CRLF of so many pieces.
fn counted(most: usize, numbers: impl Fn(usize) -> usize, crlf: usize) -> Vec<usize> {
    let shorter = |list: &[usize], n: usize, by: usize| n.checked_sub(by).map_or(0, |n| list[n]);
    let numbers: Vec<usize> = (0..=most).map(numbers).collect();
    let fields: Vec<usize> = (0..=most)
        .map(|n| numbers[n] + shorter(&numbers, n, 2))
        .collect();
    let records: Vec<usize> = (0..=most)
        .map(|n| {
            (0..n)
                .map(|label| fields[label] * fields[n - 1 - label])
                .sum()
        })
        .collect();
    // The last record ends the text; before it stand others, each with a CRLF.
    let mut files: Vec<usize> = Vec::new();
    for n in 0..=most {
        let more = (0..=n).map(|first| records[first] * shorter(&files, n - first, crlf));
        files.push(records[n] + more.sum::<usize>());
    }
    (0..=most)
        .map(|n| files[n] + shorter(&files, n, crlf))
        .collect()
}

/// Every text of up to seven bytes.
#[test]
fn all_short_texts() {
    // Digits 0 and 1, no zero in front.
    let numbers = |digits| match digits {
        0 => 0,
        1 => 2,
        _ => 1 << (digits - 1),
    };
    let good = counted(7, numbers, 2);
    // Five bytes: plain, one field quoted, a CRLF behind.
    assert_eq!(good[..6], [0, 0, 0, 4, 8, 20 + 8 + 4]);
    let mut all = [0; 3];
    for (length, &good) in good.iter().enumerate() {
        let mut tally = Tally::default();
        all_texts(length, &BYTES).for_each(|text| tally.take(&text));
        let said = tally.said();
        assert_eq!(said[0], good, "{length}");
        all = [0, 1, 2].map(|i| all[i] + said[i]);
    }
    assert_eq!(all.iter().sum::<usize>(), (8usize.pow(8) - 1) / 7);
    assert!(all[0] > 100 && all[2] > 4000, "{all:?}");
}

/// Every text of up to nine pieces, some of them two records.
#[test]
fn all_texts_of_pieces() {
    let good = counted(9, |digits| usize::from(digits > 0), 1);
    assert_eq!(good[..5], [0, 0, 0, 1, 3]);
    for (count, &good) in good.iter().enumerate() {
        let mut tally = Tally::default();
        all_texts(count, &PIECES).for_each(|text| tally.take(&text));
        let said = tally.said();
        assert_eq!(said[0], good, "{count}");
        assert!(count < 7 || said[0] > 20 && said[2] > 5000, "{said:?}");
    }
}

/// Good texts, damaged ones, and such with one byte changed, of the length that
/// the rules can follow.
#[test]
fn random_texts() {
    let rng = &mut Rng::new(2);
    let mut tally = Tally::default();
    let mut taken = 0;
    while taken < 30_000 {
        let text = match rng.below(4) {
            0 => good(rng).0,
            1 | 2 => damaged(rng),
            _ => {
                let mut text = good(rng).0;
                nick(rng, &mut text);
                text
            }
        };
        if text.len() < 128 {
            tally.take(&text);
            taken += 1;
        }
    }
    let said = tally.said();
    assert!(said.iter().all(|&often| often > 5000), "{said:?}");
}

/// Numbers at every border of the rules above: each with its neighbours.
#[test]
fn numbers_at_the_borders() {
    let rng = &mut Rng::new(3);
    let mut tally = Tally::default();
    let mut take = |number: u64| {
        for text in [format!("{number},1"), format!("1,\"{number}\"\r\n")] {
            tally.take(text.as_bytes());
        }
    };
    for digits in 1..=11 {
        let power = 10u64.pow(digits);
        for near in [power, u64::from(u32::MAX) / power * power, 1 << 32] {
            (0..4).for_each(|more| take((near + more).saturating_sub(2)));
        }
    }
    for _ in 0..10_000 {
        take(number(rng).into());
        take(4_294_960_000 + rng.below(10_000) as u64);
    }
    let said = tally.said();
    assert!(said[0] > 1000 && said[1] == 0 && said[2] > 1000, "{said:?}");
}

// ---- the generators

/// Good texts are read as what they were written from.
#[test]
fn good_texts() {
    let rng = &mut Rng::new(4);
    let (mut lengths, mut quoted, mut plain, mut ended, mut many) = ([0; 11], 0, 0, 0, 0);
    for _ in 0..5000 {
        let (text, expected) = good(rng);
        let count = rng.within(1, 16) as u32;
        let read = read_into(&text, count.into(), expected.len()).unwrap();
        for ((i, order), (label, price)) in (0..).zip(read).zip(expected.iter().copied()) {
            let worker = i % count;
            assert_eq!(
                order,
                Order {
                    worker,
                    label,
                    price
                }
            );
            lengths[label.to_string().len()] += 1;
        }
        ended += usize::from(text.ends_with(b"\r\n"));
        many += usize::from(expected.len() > 9);
        match text.contains(&b'"') {
            true => quoted += 1,
            false => plain += 1,
        }
    }
    assert!(
        lengths[1..].iter().all(|&often| often > 2000),
        "{lengths:?}"
    );
    assert!(
        quoted > 1000 && plain > 1000 && many > 50,
        "{quoted} {plain} {many}"
    );
    assert!((2000..4500).contains(&ended), "{ended}");
    for quotes in [Quotes::Never, Quotes::Mixed, Quotes::Always] {
        let text = written(rng, &[(3, 1); 50], quotes, false);
        let quotes = text.iter().filter(|&&byte| byte == b'"').count();
        assert_eq!(records(&text), Ok(vec![(3, 1); 50]));
        assert_eq!(quotes % 2, 0);
    }
}

/// Damaged texts get each number, in early records and in late ones, and some
/// are long.
#[test]
fn damaged_texts() {
    let rng = &mut Rng::new(5);
    let (mut often, mut late, mut long) = ([0; 21], [0; 21], 0);
    for _ in 0..20_000 {
        let text = damaged(rng);
        let number = usize::from(said(&text));
        often[number] += 1;
        long += usize::from(text.len() > 9000);
        // The first record alone is good.
        let first = text.split_inclusive(|&byte| byte == b'\n').next();
        late[number] += usize::from(said(first.unwrap_or(b"")) == 0);
    }
    for number in [0, 19, 20] {
        assert!(
            often[number] > 1000 && late[number] > 1000,
            "{often:?} {late:?}"
        );
    }
    assert!(long > 100, "{long}");
}
