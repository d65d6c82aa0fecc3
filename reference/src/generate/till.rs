//! Random till texts, good and damaged, and all short ones.

use super::{all_lists, Rng};
use crate::phase::FIRST_TEST_LABEL;

/// A label and a price.
pub type Record = (u32, u32);

const CRLF: &[u8] = b"\r\n";

/// A number with 1 to 10 digits, each as often; the least, the greatest, and those
/// around the least test number now and then.
pub fn number(rng: &mut Rng) -> u32 {
    match rng.below(13) {
        0 => 0,
        1 => u32::MAX - rng.below(2) as u32,
        2 => FIRST_TEST_LABEL - rng.below(2) as u32,
        _ => {
            let digits = rng.within(1, 10) as u32;
            let greatest = (10u64.pow(digits) - 1).min(u32::MAX.into());
            rng.within(10usize.pow(digits - 1), greatest as usize) as u32
        }
    }
}

/// One record or few, and now and then many.
pub fn records(rng: &mut Rng) -> Vec<Record> {
    let count = match rng.below(40) {
        0 => rng.within(10, 300),
        1..=9 => 1,
        _ => rng.within(1, 9),
    };
    (0..count).map(|_| (number(rng), number(rng))).collect()
}

/// Which fields stand in quotes.
#[derive(Clone, Copy, Debug, PartialEq, Eq)]
pub enum Quotes {
    Never,
    Mixed,
    Always,
}

/// The text of a record.
fn line(rng: &mut Rng, quotes: Quotes, (label, price): Record) -> Vec<u8> {
    let mut field = |number: u32| match quotes {
        Quotes::Never => format!("{number}"),
        Quotes::Mixed if rng.once_in(2) => format!("{number}"),
        _ => format!("\"{number}\""),
    };
    format!("{},{}", field(label), field(price)).into_bytes()
}

/// The text of some records, with a CRLF at the end or without.
pub fn written(rng: &mut Rng, records: &[Record], quotes: Quotes, ended: bool) -> Vec<u8> {
    let mut text = Vec::new();
    for (i, &record) in records.iter().enumerate() {
        if i > 0 {
            text.extend(CRLF);
        }
        text.extend(line(rng, quotes, record));
    }
    if ended {
        text.extend(CRLF);
    }
    text
}

/// A good text, and its records.
pub fn good(rng: &mut Rng) -> (Vec<u8>, Vec<Record>) {
    let records = records(rng);
    let quotes = rng.pick(&[Quotes::Never, Quotes::Mixed, Quotes::Mixed, Quotes::Always]);
    let ended = !rng.once_in(3);
    (written(rng, &records, quotes, ended), records)
}

/// A damaged text: one damage in one record or several in several, or in the
/// text as a whole, or both.
pub fn damaged(rng: &mut Rng) -> Vec<u8> {
    let records = records(rng);
    let mut lines: Vec<Vec<u8>> = records
        .into_iter()
        .map(|record| line(rng, Quotes::Mixed, record))
        .collect();
    let whole = rng.once_in(4);
    for _ in 0..rng.pick(&[usize::from(!whole), 1, 1, 2, 3]) {
        let at = rng.below(lines.len());
        match rng.below(8) {
            0..=2 => spoil_field(rng, &mut lines[at]),
            3 => lines[at] = rng.pick(&BROKEN).to_vec(),
            4 => lines[at] = rng.pick(&WELL_FORMED).to_vec(),
            5 => {
                let more = field(rng);
                lines[at].push(b',');
                lines[at].extend(more);
            }
            _ => nick(rng, &mut lines[at]),
        }
    }
    let mut text = lines.join(CRLF);
    if !rng.once_in(3) {
        text.extend(CRLF);
    }
    if whole {
        spoil_whole(rng, &mut text);
    }
    text
}

/// Takes a byte out, puts one in or writes one over, anywhere.
pub fn nick(rng: &mut Rng, text: &mut Vec<u8>) {
    let at = rng.below(text.len() + 1);
    match rng.below(3) {
        0 if at < text.len() => drop(text.remove(at)),
        1 if at < text.len() => text[at] = byte(rng),
        _ => text.insert(at, byte(rng)),
    }
}

/// A byte that means something, or is next to one that does, or any.
fn byte(rng: &mut Rng) -> u8 {
    match rng.below(3) {
        0 => rng.pick(b"\"\"\"\",,,\r\r\n\n00129"),
        1 => rng.pick(b"\0\t\x0b\x0c\x0e\x1f !#'+-./:;A\\^_`ax~\x7f\x80\x8d\xa2\xac\xb0\xff"),
        _ => rng.draw() as u8,
    }
}

/// Puts another field in the place of one of a record's two.
fn spoil_field(rng: &mut Rng, line: &mut Vec<u8>) {
    let comma = line.iter().position(|&byte| byte == b',');
    let comma = comma.unwrap_or(line.len());
    let new = field(rng);
    if rng.once_in(2) {
        line.splice(..comma, new);
    } else {
        line.splice((comma + 1).min(line.len()).., new);
    }
}

/// A field that isn't a number, or just so.
fn field(rng: &mut Rng) -> Vec<u8> {
    let plain = match rng.below(8) {
        0..=2 => return rng.pick(&FIELDS).to_vec(),
        // Too great; some look small in 32 or in 64 bits.
        3 => {
            let great = 1 << rng.pick(&[32, 32, 33, 63, 64, 64, 65, 96, 126]);
            format!("{}", great + u128::from(number(rng)))
        }
        4 => format!("{}", u64::from(u32::MAX) + rng.below(3) as u64),
        // Zeros in front, more digits behind, another byte between.
        5 => format!("{:0>1$}", number(rng), rng.within(1, 24)),
        6 => format!("{}{}", number(rng), number(rng)),
        _ => {
            let mut field = number(rng).to_string().into_bytes();
            nick(rng, &mut field);
            return field;
        }
    };
    match rng.once_in(2) {
        true => plain.into_bytes(),
        false => format!("\"{plain}\"").into_bytes(),
    }
}

/// Damages a text beyond its records.
fn spoil_whole(rng: &mut Rng, text: &mut Vec<u8>) {
    let at = rng.below(text.len() + 1);
    let replaced = |from: &str, to: &str, text: &[u8]| {
        let text: String = text.iter().map(|&byte| char::from(byte)).collect();
        let text = text.replace(from, to);
        text.chars().map(|c| c as u8).collect::<Vec<u8>>()
    };
    match rng.below(14) {
        0 => text.truncate(at),
        1 => drop(text.drain(..at)),
        2 => text.extend(CRLF),
        3 => text.extend(rng.pick(&[&b"\r"[..], b"\n", b"\n\r", b"\r\n\r\n", b"\0", b"\x1a"])),
        4 => drop(text.splice(..0, CRLF.iter().copied())),
        5 => drop(text.splice(..0, *b"\xef\xbb\xbf")),
        6 => drop(text.splice(..0, *b"label,price\r\n")),
        7 => drop(text.splice(..0, *b"\"label\",\"price\"\r\n")),
        8 => {
            *text = replaced(
                "\r\n",
                rng.pick(&["\n", "\r", "\n\r", "\r\r\n", "\r\n\r\n"]),
                text,
            )
        }
        9 => *text = replaced(",", rng.pick(&[";", "\t", ", ", ",,"]), text),
        10 => *text = replaced("\"", rng.pick(&["'", "\"\"", "\"\"\""]), text),
        // A quote that isn't closed, or closes where another opens.
        11 => text.insert(at, b'"'),
        12 => *text = long(rng),
        _ => text.clear(),
    }
}

/// A record with a very long field, and one behind it.
fn long(rng: &mut Rng) -> Vec<u8> {
    let length = rng.pick(&[255, 256, 257, 4096, 10_000, 65_536]);
    let unit = rng.pick(&[
        &b"0"[..],
        b"1",
        b"9",
        b" ",
        b"x",
        b"\"\"",
        b",",
        CRLF,
        b"\n",
        b"1,2\r\n",
    ]);
    let mut field: Vec<u8> = unit.iter().copied().cycle().take(length).collect();
    if rng.once_in(4) {
        nick(rng, &mut field);
    }
    if !rng.once_in(3) {
        field.insert(0, b'"');
        field.push(b'"');
    }
    let (front, behind) = rng.pick(&[("", ",1"), ("1,", ""), ("7,8\r\n", ",1"), ("7,8\r\n1,", "")]);
    let next = rng.pick(&["", "\r\n", "\r\n5,6\r\n", "\r\nx,6", "\r\n5", "\r\n\r\n"]);
    [front.as_bytes(), &field, behind.as_bytes(), next.as_bytes()].concat()
}

/// Fields, most of them in the grammar; none is a number.
const FIELDS: [&[u8]; 44] = [
    b"",
    b"\"\"",
    b"00",
    b"\"00\"",
    b"01",
    b"\"01\"",
    b"007",
    b"+1",
    b"\"+1\"",
    b"-1",
    b"-0",
    b" 1",
    b"1 ",
    b" ",
    b"\" 1\"",
    b"\"1 \"",
    b" \"1\"",
    b"\"1\" ",
    b"1 2",
    b"0x1",
    b"1e1",
    b"1.0",
    b"1'000",
    b"\"1,000\"",
    b"x",
    b"label",
    b"\"price\"",
    b"/",
    b":",
    b"4294967296",
    b"\"4294967296\"",
    b"42949672950",
    b"18446744073709551616",
    b"18446744073709551617",
    b"340282366920938463463374607431768211457",
    b"\"\"\"\"",
    b"\"\"\"1\"\"\"",
    b"\"1\"\"\"",
    b"\"1\"\"2\"",
    b"\"\"1\"\"",
    b"\"\r\n\"",
    b"\"1\r\"",
    b"\"\n1\"",
    b"\"1\r\n2,3\"",
];

/// Records that break the grammar or haven't two fields.
const BROKEN: [&[u8]; 32] = [
    b"",
    b"1",
    b"\"1\"",
    b"\"1,2\"",
    b"\"1\r\n2\"",
    b"1;2",
    b"1,2,3",
    b"1,2,",
    b",1,2",
    b",,",
    b"1,,2",
    b"x,y,z",
    b"x",
    b"\"",
    b"\"1",
    b"\"1,2",
    b"1,\"2",
    b"1,\"",
    b"1,\"\"\"",
    b"x,\"1",
    b"1\",2",
    b"1,2\"",
    b"1\"\",2",
    b"\"1\"2,3",
    b"1,\"2\"3",
    b"\"\"1,2",
    b" \"1\",2",
    b"\"1\" ,2",
    b"1, \"2\"",
    b"1,\"2\" ",
    b"\x01,2",
    b"1,\"\x7f\"",
];

/// Records of two fields in the grammar, of which one or both aren't numbers.
const WELL_FORMED: [&[u8]; 14] = [
    b",",
    b",1",
    b"1,",
    b"\"\",1",
    b"1,\"\"",
    b"\"\",\"\"",
    b" ,1",
    b"x,1",
    b"1,x",
    b"\"1,2\",3",
    b"1,\"2\r\n3,4\"",
    b"\"\r\n\",\"\r\n\"",
    b"\"\"\"\",1",
    b"1,\"\"\"2\"\"\"",
];

/// Bytes of short texts: digits, what the grammar names, and what it doesn't.
pub const BYTES: [&[u8]; 8] = [b"1", b"0", b",", b"\"", b"\r", b"\n", b"x", b"\t"];

/// Pieces of longer ones, of several records.
pub const PIECES: [&[u8]; 5] = [b"7", b",", b"\"", CRLF, b"x"];

/// Every text of so many of these.
pub fn all_texts<'a>(count: usize, of: &'a [&[u8]]) -> impl Iterator<Item = Vec<u8>> + 'a {
    all_lists(count, of).map(|pieces| pieces.concat())
}
