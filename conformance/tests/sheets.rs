//! The replay program on stored sheets, on long and damaged input, on input and output that fail, and on many generated sheets against the
//! reference. The sheets come whole and cut into blocks, since the program answers a sheet block by block.

use std::fs::{self, File};
use std::io::{Read, Write};
use std::ops::Range;
use std::os::fd::{FromRawFd, OwnedFd};
use std::os::unix::net::UnixStream;
use std::path::{Path, PathBuf};
use std::process::{Command, Output, Stdio};
use std::thread;

use reference::generate::factory::{self, FITTED, GOLDEN};
use reference::generate::{homes, price, sheet, shop_label, styled, Rng, Style};
use reference::layout::{label_of, price_of, Homes, MAX_PRICE};
use reference::phase::{FIRST_TEST_LABEL, LOOK_UP, TAKE_OUT};
use reference::sheet::replay_bytes;

fn program() -> PathBuf {
    let target = std::env::var("VULZEGAN_TARGET").expect("VULZEGAN_TARGET names the folder that build.sh writes");
    Path::new(&target).join("bin/replay")
}

// ---- blocks

/// The greatest block that a pipe keeps apart from the next.
const PACKET: usize = 4096;

/// The longest readable line.
const LONGEST: &[u8] = b"open\t4294967295\t4294967295\t4294967295\t4294967295";

/// The longest line that opens a shift.
const LONGEST_OPEN: &[u8] = b"open\t1\t16\t4294967295\t4294967295";

/// The longest readable item.
const LONGEST_ITEM: &[u8] = b"item\t4294967295\t4294967295\t4294967295";

/// The longest readable order, in a shift that does not put in.
const LONGEST_ORDER: &[u8] = b"order\t4294967295\t4294967295";

/// The most items of a list.
const ITEMS: usize = 1024;

/// Bytes of a block: very few, around those that are kept of a line (one more than the longest word with four numbers has, or a byte less, as the
/// longest readable line), and a whole packet.
const CUTS: [usize; 8] = [1, 2, 3, LONGEST.len(), LONGEST.len() + 1, LONGEST.len() + 2, LONGEST.len() + 3, PACKET];

/// As large blocks as an ordinary pipe takes.
const WHOLE: usize = usize::MAX;

extern "C" {
    fn pipe2(ends: *mut i32, flags: i32) -> i32;
}

const O_DIRECT: i32 = 0o40000;
const O_CLOEXEC: i32 = 0o2000000;

/// The reading and the writing end of a pipe for blocks of `size` bytes. Up to a packet each read brings exactly one block: Linux keeps the
/// writes to such a pipe apart.
fn pipe(size: usize) -> (File, File) {
    let packets = if size <= PACKET { O_DIRECT } else { 0 };
    let mut ends = [0; 2];
    let made = unsafe { pipe2(ends.as_mut_ptr(), O_CLOEXEC | packets) };
    assert_eq!(made, 0, "a pipe");
    let [from, to] = ends.map(|end| File::from(unsafe { OwnedFd::from_raw_fd(end) }));
    (from, to)
}

#[test]
fn a_pipe_cuts() {
    for size in CUTS {
        let (mut from, mut to) = pipe(size);
        let input: Vec<u8> = (0..=255).cycle().take(3 * size + 1).collect();
        for block in input.chunks(size) {
            to.write_all(block).expect("room for four blocks");
        }
        drop(to);
        let mut space = vec![0; 65536];
        for block in input.chunks(size).chain([&[][..]]) {
            let count = from.read(&mut space).expect("a block");
            assert_eq!(&space[..count], block, "blocks of {size}");
        }
    }
}

// ---- the program

/// How the program ends that writes to `stdout` and is fed the sheet in blocks of `size` bytes.
fn run(input: &[u8], size: usize, stdout: Stdio) -> Output {
    let (from, mut to) = pipe(size);
    let child = Command::new(program()).stdin(from).stdout(stdout).stderr(Stdio::piped()).spawn().expect("the replay program");
    thread::scope(|scope| {
        // the program may end before it has read all: that is no failure
        scope.spawn(move || input.chunks(size).all(|block| to.write_all(block).is_ok()));
        child.wait_with_output().expect("its output")
    })
}

/// The program ended by itself, and this is all that it said on standard error.
fn said(output: &Output, message: &str) {
    assert!(output.status.code().is_some(), "the program was stopped by a signal");
    assert_eq!(output.stderr.escape_ascii().to_string(), message.as_bytes().escape_ascii().to_string(), "on standard error");
}

fn shown(text: &[u8]) -> String {
    // a generated sheet is far shorter than this and is shown whole
    let end = text.len().min(1_000_000);
    text[..end].split_inclusive(|&b| b == b'\n').map(|line| format!("  {}\n", line.escape_ascii())).collect()
}

fn same(name: &str, input: &[u8], expected: &[u8], size: usize) {
    let output = run(input, size, Stdio::piped());
    said(&output, "");
    let got = output.stdout;
    assert!(got == expected, "{name}, blocks of {size}\nsheet:\n{}expected:\n{}got:\n{}", shown(input), shown(expected), shown(&got));
}

/// The same for the whole sheet and for every size of blocks that makes not too many of them.
fn same_cut(name: &str, input: &[u8], expected: &[u8]) {
    same(name, input, expected, WHOLE);
    for size in CUTS {
        if input.len() / size <= 300_000 {
            same(name, input, expected, size);
        }
    }
}

// ---- sheets

/// Each stored sheet prints its stored output; the reference agrees.
#[test]
fn stored_sheets() {
    let folder = Path::new(env!("CARGO_MANIFEST_DIR")).join("sheets");
    let mut sheets: Vec<PathBuf> = fs::read_dir(folder).expect("the stored sheets").map(|e| e.expect("an entry").path()).collect();
    sheets.retain(|p| p.extension().is_some_and(|e| e == "sheet"));
    sheets.sort();
    assert!(sheets.len() >= 69, "{} stored sheets", sheets.len());
    for path in sheets {
        let input = fs::read(&path).expect("a sheet");
        let expected = fs::read(path.with_extension("out")).expect("its output");
        let name = path.display().to_string();
        assert_eq!(replay_bytes(&input), expected, "the reference on {name}");
        same_cut(&name, &input, &expected);
    }
}

#[test]
fn long_and_strange_input() {
    let million = vec![b'x'; 1_000_000];
    let mut order_million = b"order\t".to_vec();
    order_million.extend(vec![b'1'; 1_000_000]);
    let mut after = order_million.clone();
    after.extend(b"\nitem\t0\t2\t1\ncells\t3\nopen\t1\t1\t1\t0\norder\t0\nrun\nclose\nlist\n");
    let longest = [LONGEST, b"\n", LONGEST, b"\ncells\t3\n", LONGEST, b"\nlist\n"].concat();
    let one_more = [LONGEST, b"0\nlist\n"].concat();
    let longest_open = [b"cells\t3\n", LONGEST_OPEN, b"\nturn\t0\nclose\n", LONGEST_OPEN, b"\n", LONGEST_OPEN, b"\nlist\n"].concat();
    let open_one_more = [b"cells\t3\n", LONGEST_OPEN, b"0\nlist\n"].concat();
    let longest_item = [LONGEST_ITEM, b"\n", LONGEST_ITEM, b"\ncells\t3\nopen\t1\t16\t1\t0\nlist\n"].concat();
    let item_one_more = [LONGEST_ITEM, b"0\nlist\n"].concat();
    let opened = b"cells\t3\nopen\t2\t16\t1\t0\n";
    let longest_order = [opened, LONGEST_ORDER, b"\n", LONGEST_ORDER, b"\nlist\n"].concat();
    let order_one_more = [opened, LONGEST_ORDER, b"0\nlist\n"].concat();
    let three = [LONGEST_ORDER, b"\t4294967295"].concat();
    let four = [&three[..], b"\t4294967295"].concat();
    let shut = [LONGEST_ORDER, b"\n", LONGEST_ORDER, b"0\n", &three, b"\n", &four, b"\n", &four, b"0\n", &four, b"\t\nlist"].concat();
    let four_numbers = [opened, &four[..], b"\nlist\n"].concat();
    let many: Vec<u8> = b"cells\t4096\nopen\t1\t16\t1\t0\n".iter().copied().chain(b"turn\t3\n".repeat(300_000)).collect();
    for (name, input) in [
        ("no input", &b""[..]),
        ("one newline", b"\n"),
        ("no last newline", b"cells\t2"),
        ("carriage return", b"cells\t2\r\n"),
        ("NUL", b"cells\t2\0\n"),
        ("a million bytes", &million),
        ("order with a million digits, shut", &order_million),
        ("the same, and the sheet goes on", &after),
        ("the longest readable line", &longest),
        ("one byte more", &one_more),
        ("the longest line that opens", &longest_open),
        ("one byte more", &open_one_more),
        ("the longest readable item", &longest_item),
        ("one byte more", &item_one_more),
        ("the longest readable order", &longest_order),
        ("one byte more", &order_one_more),
        ("an order with four numbers", &four_numbers),
        ("longer orders in a shut shift", &shut),
        ("300,000 turns", &many),
    ] {
        same_cut(name, input, &replay_bytes(input));
    }
}

/// Lines that put in keys with their prices by sixteen workers, sixteen orders to a run, in as few shifts as the items allow.
fn put_in(text: &mut Vec<u8>, cells: usize, Homes { a, b }: Homes, entries: impl Iterator<Item = (u32, u32)>) {
    text.extend(format!("cells\t{cells}\n").bytes());
    for list in entries.collect::<Vec<_>>().chunks(ITEMS) {
        for (i, (key, price)) in list.iter().enumerate() {
            text.extend(format!("item\t{}\t{key}\t{price}\n", i % 16).bytes());
        }
        text.extend(format!("open\t1\t16\t{a}\t{b}\n").bytes());
        for place in 0..list.len() {
            text.extend(format!("order\t{place}\n").bytes());
            if place % 16 == 15 {
                text.extend(b"run\n");
            }
        }
        text.extend(b"run\nclose\n");
    }
}

/// As many items as a list takes, and one more; in one go, around a refused opening, and again after a close.
#[test]
fn most_items() {
    for (before, after) in [(ITEMS, 0), (ITEMS, 1), (ITEMS / 2, ITEMS / 2), (ITEMS / 2, ITEMS / 2 + 1), (1, ITEMS - 1), (1, ITEMS)] {
        let items = |text: &mut Vec<u8>, count: usize| (0..count).for_each(|i| text.extend(format!("item\t{}\t7\t{}\n", i % 16, 1 + i).bytes()));
        let mut text = b"cells\t2\n".to_vec();
        for _ in 0..2 {
            items(&mut text, before);
            text.extend(b"open\t1\t17\t1\t0\nopen\t3\t1\t1\t0\nclose\n");
            items(&mut text, after);
            text.extend(b"open\t1\t16\t1\t0\n");
            for place in [ITEMS, ITEMS - 1, 1, 0] {
                text.extend(format!("order\t{place}\nrun\nlist\n").bytes());
            }
            text.extend(b"close\n");
        }
        let expected = replay_bytes(&text);
        assert_eq!(expected.ends_with(b"\tbad\n"), before + after > ITEMS);
        same_cut("many items", &text, &expected);
    }
}

/// A table of 4,096 cells filled, listed and emptied: the longest output lines, with labels of ten digits and prices of seven.
#[test]
fn largest_table() {
    let mut text = Vec::new();
    put_in(&mut text, 4096, Homes::PLAIN, (0..4095).map(|i| (FIRST_TEST_LABEL - 1 - i, MAX_PRICE - i)));
    text.extend(b"list\nlist\nopen\t2\t16\t1\t0\norder\t3\t3999999999\nrun\nclose\nlist\n");
    let expected = replay_bytes(&text);
    let longest = expected.split(|&b| b == b'\n').map(<[u8]>::len).max();
    assert!(longest > Some(4095 * "\t4294967295\t9999999".len()), "{longest:?}");
    same_cut("largest table", &text, &expected);
}

/// Megabytes of output: lists that fill the output's buffer one at a time, or several with a rest, among lines with short answers.
#[test]
fn long_output() {
    let random = &mut Rng::new(5);
    let mut text = Vec::new();
    for (cells, keys, lists) in [(4096, 4095, 60), (1000, 700, 300), (300, 40, 5000)] {
        put_in(&mut text, cells, homes(random), (0..keys).map(|_| (shop_label(random), price(random))));
        for _ in 0..lists {
            text.extend(b"list\n");
            text.extend(b"turn\t0\n".repeat(random.below(9)));
        }
    }
    let expected = replay_bytes(&text);
    assert!(expected.len() > 6_000_000, "{} bytes of output", expected.len());
    same_cut("long output", &text, &expected);
}

/// Look-ups of every label of the largest table: a price of up to seven digits for each of sixteen workers on a line, and one by one.
#[test]
fn many_prices() {
    let mut text = Vec::new();
    put_in(&mut text, 4096, Homes::PLAIN, (0..4095).map(|i| (7 + 9 * i, 1 + i * 2441)));
    text.extend(b"open\t3\t16\t1\t0\n");
    for i in 0..4095 {
        text.extend(format!("order\t{}\t{}\n", i % 16, 7 + 9 * i).bytes());
        match i % 48 {
            15 | 31 => text.extend(b"run\n"),
            47 => (0..16).for_each(|worker| text.extend(format!("turn\t{worker}\n").repeat(40).bytes())),
            _ => (),
        }
    }
    text.extend(b"run\nclose\n");
    same_cut("many prices", &text, &replay_bytes(&text));
}

/// The label factory's shifts on a sheet, with homes that crowd and homes that spread: filled, listed, opened under others, looked up and emptied.
#[test]
fn the_factory() {
    const LABELS: usize = 900;
    let orders = factory::orders(LABELS);
    let all = [Homes::PLAIN, GOLDEN, FITTED];
    let mut listed = Vec::new();
    for homes in all {
        let Homes { a, b } = homes;
        let mut text = Vec::new();
        put_in(&mut text, factory::CELLS, homes, orders.iter().map(|order| (order.label, order.price)));
        text.extend(b"list\n");
        for Homes { a, b } in all.into_iter().filter(|&other| other != homes) {
            text.extend(format!("open\t3\t16\t{a}\t{b}\nlist\n").bytes());
        }
        for kind in [LOOK_UP, TAKE_OUT] {
            text.extend(format!("open\t{kind}\t16\t{a}\t{b}\n").bytes());
            for (i, order) in orders.iter().enumerate() {
                text.extend(format!("order\t{}\t{}\n", order.worker, order.label).bytes());
                if i % 16 == 15 {
                    text.extend(b"run\n");
                }
            }
            text.extend(b"run\nclose\nlist\n");
        }
        let expected = replay_bytes(&text);
        let printed = String::from_utf8(expected.clone()).expect("text");
        assert!(printed.ends_with("\t0\n") && !printed.contains("bad"));
        assert!(printed.contains("\trefused\t17\n") || printed.contains("\trefused\t18\n"));
        let cells = factory::table(homes, LABELS).into_iter().filter(|&cell| cell != 0);
        let list: String = cells.map(|cell| format!("\t{}\t{}", label_of(cell), price_of(cell))).collect();
        let list = format!("\t{LABELS}{list}\n");
        // once it is filled, after each refused opening and after the look-ups
        assert_eq!(printed.matches(&list).count(), 4, "{homes:?}");
        listed.push(list);
        same_cut("the factory", &text, &expected);
    }
    assert!(listed[0] != listed[1] && listed[0] != listed[2] && listed[1] != listed[2]);
}

/// Sheets of many packets.
#[test]
fn long_sheets() {
    let long: Vec<Vec<u8>> = (0..).map(|seed| styled(Style::Large, seed)).filter(|text| text.len() > 3 * PACKET).take(8).collect();
    for text in long {
        same_cut("a long sheet", &text, &replay_bytes(&text));
    }
}

/// The seeds of SHEETS generated sheets from FIRST_SEED on.
fn seeds() -> Range<u64> {
    let number = |name: &str, default: u64| std::env::var(name).map_or(default, |n| n.parse().expect("a number"));
    let first = number("FIRST_SEED", 0);
    first..first + number("SHEETS", 3000)
}

#[test]
fn generated_sheets() {
    for seed in seeds() {
        let text = sheet(seed);
        same(&format!("generated sheet of seed {seed}"), &text, &replay_bytes(&text), WHOLE);
    }
}

/// Each sheet cut by one size, in turn, and every tenth by all.
#[test]
fn generated_sheets_cut() {
    for (seed, size) in seeds().zip(CUTS.into_iter().cycle()) {
        let text = sheet(seed);
        let expected = replay_bytes(&text);
        let name = format!("generated sheet of seed {seed}");
        if seed % 10 == 0 {
            same_cut(&name, &text, &expected);
        } else {
            same(&name, &text, &expected, size);
        }
    }
}

// ---- input and output that fail

const UNREAD: &str = "replay: cannot read standard input\n";
const UNWRITTEN: &str = "replay: cannot write standard output\n";

/// The program started by a shell with these redirections.
fn redirected(to: &str) -> Output {
    Command::new("sh").args(["-c", &format!("exec \"$0\" {to}")]).arg(program()).stdin(Stdio::null()).output().expect("a shell")
}

#[test]
fn a_directory_as_input() {
    let output = redirected("</");
    said(&output, UNREAD);
    assert!(output.stdout.is_empty());
}

#[test]
fn closed_input() {
    let output = redirected("<&-");
    said(&output, UNREAD);
    assert!(output.stdout.is_empty());
}

/// Input that fails behind some lines; none of them is answered wrongly.
#[test]
fn input_that_breaks_off() {
    let text = b"item\t0\t2\t1\ncells\t3\nopen\t1\t1\t1\t0\norder\t0\nrun\nclose\nlist\n";
    let (mut ours, mut theirs) = UnixStream::pair().expect("a pair of sockets");
    // our end is closed with a byte unread: the other end's reads fail once they have brought all that we wrote
    theirs.write_all(b"x").expect("a byte sent");
    ours.write_all(text).expect("a sheet sent");
    drop(ours);
    let output = Command::new(program()).stdin(OwnedFd::from(theirs)).output().expect("the replay program");
    said(&output, UNREAD);
    assert!(replay_bytes(text).starts_with(&output.stdout), "{}", shown(&output.stdout));
}

/// Where no byte can be written, the program says so once and ends, on a short sheet and on one whose output fills its buffer many times.
#[test]
fn a_full_device_as_output() {
    let many: Vec<u8> = b"cells\t4096\nopen\t1\t16\t1\t0\n".iter().copied().chain(b"turn\t3\n".repeat(300_000)).collect();
    for text in [&b"cells\t3\nlist\n"[..], b"list", &many] {
        let full = File::options().write(true).open("/dev/full").expect("/dev/full");
        said(&run(text, WHOLE, full.into()), UNWRITTEN);
    }
}

#[test]
fn closed_output() {
    let output = Command::new("sh").args(["-c", "echo list | \"$0\" >&-"]).arg(program()).output().expect("a shell");
    said(&output, UNWRITTEN);
}

/// A reader that has gone: the program ends, and it tells nothing. (Its start-up code ignores the system's signal for that, which ended it before.)
#[test]
fn a_reader_that_has_gone() {
    let (from, to) = pipe(WHOLE);
    drop(from);
    let output = run(b"list\n", WHOLE, to.into());
    assert!(output.status.code() == Some(0) && output.stderr.is_empty(), "{output:?}");
}
