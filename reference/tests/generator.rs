//! What the generated sheets reach, and what their replays must show.

use std::collections::{BTreeMap, BTreeSet};

use reference::generate::{sheet, styled, undamaged, Style};
use reference::layout::{label_of, layout, price_of, soundness, Homes, Prices};
use reference::sheet::replay_bytes;

fn lines(text: &[u8]) -> Vec<&[u8]> {
    text.split_inclusive(|&byte| byte == b'\n')
        .map(|line| line.strip_suffix(b"\n").unwrap_or(line))
        .collect()
}

fn fields(line: &[u8]) -> Vec<String> {
    String::from_utf8_lossy(line)
        .split('\t')
        .map(str::to_string)
        .collect()
}

/// An item: worker, label, price.
type Item = (u32, u32, u32);

/// What an opening with these homes and no fault in its kind and count answers
/// on a sound table of these labels, closed under the homes `last`.
fn opening(
    kind: &str,
    count: u32,
    homes: Homes,
    (n, set, last): (usize, &Prices, Homes),
    items: &[Item],
) -> String {
    if homes.a.is_multiple_of(2) {
        return "refused 21".to_string();
    }
    if let Err(number) = soundness(homes, &layout(last, n, set)) {
        return format!("refused {number}");
    }
    if kind != "1" {
        return "ok".to_string();
    }
    let fault = items.iter().find_map(|&(worker, label, price)| {
        let faults = [
            (label == 0, 7),
            (label >= 4_000_000_000, 24),
            (!(1..=9_999_999).contains(&price), 14),
            (worker >= count, 6),
        ];
        faults.into_iter().find(|fault| fault.0)
    });
    let labels: BTreeSet<u32> = items.iter().map(|item| item.1).collect();
    let together = labels.iter().chain(set.keys()).collect::<BTreeSet<_>>();
    match fault {
        Some((_, number)) => format!("refused {number}"),
        None if together.len() >= n => "refused 9".to_string(),
        None => "ok".to_string(),
    }
}

/// Follows a replay from outside: line numbers, shares of answers, every
/// look-up's answer, every opening, and every list after a close against the
/// layout. Returns the accepted closes.
fn follow(text: &[u8], words: &mut BTreeMap<String, usize>) -> usize {
    let output = replay_bytes(text);
    assert!(output.is_empty() || output.ends_with(b"\n"));
    let (sheet, answers) = (lines(text), lines(&output));
    assert!(answers.len() <= sheet.len());
    let (mut n, mut kind, mut open) = (0, 0, false);
    let mut set = Prices::new();
    // Those of the last accepted opening.
    let mut last = Homes::PLAIN;
    let mut items: Vec<Item> = Vec::new();
    let mut ordered: Vec<(u32, u32)> = Vec::new();
    // The label that each worker looks up.
    let mut sought = BTreeMap::new();
    let mut closes = 0;
    for (i, answer) in answers.iter().enumerate() {
        let answer = fields(answer);
        assert_eq!(answer[0], (i + 1).to_string());
        let line = fields(sheet[i]);
        let word = match answer[1].as_str() {
            "refused" => answer[1..].join(" "),
            other if other.parse::<u32>().is_ok() => format!("{} number", line[0]),
            other => other.to_string(),
        };
        *words.entry(word).or_default() += 1;
        if answer[1] == "bad" {
            assert_eq!(i + 1, answers.len());
            return closes;
        }
        let found = |label: u32| set.get(&label).map_or("no".to_string(), u32::to_string);
        if line[0] == "open" {
            let numbers: Vec<u32> = line[1..].iter().map(|f| f.parse().unwrap()).collect();
            let [number, count, a, b] = numbers[..] else {
                panic!("{line:?} has four numbers");
            };
            let homes = Homes { a, b };
            let expected = match (n, count, number) {
                (0, ..) => "refused 1".to_string(),
                (_, 0 | 17.., _) => "refused 2".to_string(),
                (_, _, 0 | 4..) => "refused 3".to_string(),
                _ => opening(&line[1], count, homes, (n, &set, last), &items),
            };
            assert_eq!(answer[1..].join(" "), expected);
            if expected == "ok" {
                let moved = !set.is_empty() && homes != last;
                *words.entry(format!("moved {moved}")).or_default() += 1;
                last = homes;
            }
        }
        match (line[0].as_str(), answer[1].as_str()) {
            ("item", "ok") => {
                let numbers: Vec<u32> = line[1..].iter().map(|f| f.parse().unwrap()).collect();
                items.push((numbers[0], numbers[1], numbers[2]));
            }
            ("cells", "ok") => {
                n = line[1].parse().unwrap();
                set.clear();
            }
            ("open", "ok") => {
                kind = line[1].parse().unwrap();
                open = true;
                ordered.clear();
            }
            ("order", "ok") => {
                let first: usize = line[1].parse().unwrap();
                if kind == 1 {
                    assert_eq!(line.len(), 2);
                    let (_, label, price) = items[first];
                    ordered.push((label, price));
                } else {
                    assert_eq!(line.len(), 3);
                    let label = line[2].parse().unwrap();
                    ordered.push((label, 0));
                    if kind == 3 {
                        sought.insert(line[1].clone(), label);
                    }
                }
            }
            ("turn", "on" | "done" | "idle" | "refused") => {}
            ("turn", answer) => {
                let label = sought.remove(&line[1]).expect("a label looked up");
                assert_eq!(answer, found(label));
            }
            ("run", first) if kind == 3 && first != "refused" => {
                for (worker, answer) in answer[1..].iter().enumerate() {
                    let label = sought.remove(&worker.to_string());
                    assert_eq!(*answer, label.map_or("-".to_string(), found));
                }
            }
            ("close", "ok") => {
                open = false;
                closes += 1;
                if kind == 1 {
                    items.clear();
                }
                for &(label, price) in &ordered {
                    if kind == 1 {
                        let least = set.entry(label).or_insert(price);
                        *least = price.min(*least);
                    } else if kind == 2 {
                        set.remove(&label);
                    }
                }
            }
            ("list", count) if !open && n > 0 => {
                let listed: Vec<u32> = answer[2..].iter().map(|l| l.parse().unwrap()).collect();
                assert_eq!(count, (listed.len() / 2).to_string());
                let table = layout(last, n, &set).into_iter().filter(|&cell| cell != 0);
                let expected: Vec<u32> = table
                    .flat_map(|cell| [label_of(cell), price_of(cell)])
                    .collect();
                assert_eq!(listed, expected);
            }
            _ => {}
        }
    }
    // Only a bad line ends the replay early.
    assert_eq!(answers.len(), sheet.len());
    closes
}

#[test]
fn sheets_reach_everything() {
    let mut words = BTreeMap::new();
    let (mut several, mut unended, mut empty, mut bytes) = (0, 0, 0, 0);
    let sheets = 3000;
    for seed in 0..sheets {
        let text = sheet(seed);
        assert_eq!(text, sheet(seed));
        bytes += text.len();
        empty += usize::from(text.is_empty());
        unended += usize::from(text.last().is_some_and(|&byte| byte != b'\n'));
        several += usize::from(follow(&text, &mut words) >= 3);
    }
    println!("{sheets} sheets, {bytes} bytes, {several} with 3 closes or more: {words:?}");
    for word in [
        "ok",
        "on",
        "done",
        "turn number",
        "run number",
        "no",
        "idle",
        "-",
        "bad",
    ] {
        assert!(words.get(word).is_some_and(|&n| n > 100), "{word}");
    }
    // 4, 5, 12, 13 and 16 can't come from a sheet; 17 and 18 come by an opening
    // with other homes, and by a list while a take-out is at work.
    for number in [1, 2, 3, 6, 7, 8, 9, 10, 11, 14, 15, 17, 18, 21, 24] {
        let word = format!("refused {number}");
        assert!(words.get(&word).is_some_and(|&n| n > 30), "{word}");
    }
    for number in [4, 5, 12, 13, 16] {
        assert_eq!(words.get(&format!("refused {number}")), None);
    }
    // Tables with labels, closed under one a and b and opened under others.
    assert!(words["moved true"] > 300, "{words:?}");
    assert!(several * 4 > sheets as usize * 3);
    assert!(unended * 10 > sheets as usize);
    assert!(empty > 3);
}

#[test]
fn undamaged_sheets_are_never_bad() {
    let mut words = BTreeMap::new();
    for seed in 0..1000 {
        assert!(follow(&undamaged(seed), &mut words) >= 2, "seed {seed}");
    }
    assert_eq!(words.get("bad"), None);
}

#[test]
fn every_style() {
    for style in [
        Style::Crowded,
        Style::Wrap,
        Style::OneHome,
        Style::Hundreds,
        Style::Greatest,
        Style::Sixteen,
        Style::Large,
    ] {
        let mut words = BTreeMap::new();
        for seed in 0..60 {
            assert!(follow(&styled(style, seed), &mut words) >= 2);
        }
        assert_eq!(words.get("bad"), None);
    }
}
