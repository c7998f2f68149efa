//! Levels, early decay and T20, as they are printed and as they are drawn.

mod common;

use std::fs;
use std::path::{Path, PathBuf};

use common::{hall, text};
use hall::{decay_curve, report, Trace};
use random::Random;
use wubraken::Shape;

const SHAPE: Shape = Shape {
    workers: 1,
    nodes: 1,
    buckets: 1,
    width: 1,
};

/// Many arrivals and few, short slots and long ones.
const OPTIONS: [&[&str]; 7] = [
    &[],
    &["--order", "0"],
    &["--order", "5", "--nodes", "200"],
    &["--order", "15", "--nodes", "4096"],
    &["--slot", "1"],
    &["--slot", "7"],
    &["--slot", "100"],
];

fn traced(row: &[u32], milliseconds: usize) -> Trace {
    Trace {
        row: row.to_vec(),
        slot_length: 48 * milliseconds as u64,
        ..Trace::default()
    }
}

/// What is left from slot k on.
fn left(row: &[u32], k: usize) -> u128 {
    row[k..].iter().map(|&slot| u128::from(slot)).sum()
}

/// The first k by what is left there and what there is.
fn first(row: &[u32], holds: impl Fn(u128, u128) -> bool) -> usize {
    let holds = |&k: &usize| holds(left(row, k), left(row, 0));
    (0..=row.len()).find(holds).unwrap()
}

fn first_at_a_tenth(row: &[u32]) -> usize {
    first(row, |left, all| 10 * left <= all)
}

fn t20(row: &[u32]) -> usize {
    let from = first(row, |left, all| 10 * left * left <= all * all);
    let to = first(row, |left, all| 100_000 * left * left <= all * all);
    3 * (to - from)
}

/// Tenths of a decibel.
fn level(row: &[u32], k: usize) -> Option<usize> {
    let r = 1_024 * left(row, k) / left(row, 0);
    (r > 0).then(|| exponent(1_024) - exponent(r as u64))
}

/// The largest v with 10^v at most r^100, which has v + 1 digits.
fn exponent(r: u64) -> usize {
    let mut digits = vec![1];
    for _ in 0..100 {
        let mut carry = 0;
        for digit in &mut digits {
            carry += *digit * r;
            *digit = carry % 10;
            carry /= 10;
        }
        while carry > 0 {
            digits.push(carry % 10);
            carry /= 10;
        }
    }
    digits.len() - 1
}

fn decibels(level: Option<usize>) -> String {
    match level {
        None => "-".to_string(),
        Some(0) => "0.0".to_string(),
        Some(level) => format!("{:.1}", level as f64 / -10.0),
    }
}

/// Energies and levels of the slots.
fn slots(text: &str) -> (Vec<u32>, Vec<String>) {
    let (_, slots) = text.split_once(" level\n").unwrap();
    let (slots, _) = slots.split_once("sum of the slots: ").unwrap();
    let parse = |line: &str| {
        let words: Vec<&str> = line.split_whitespace().collect();
        (words[2].parse::<u32>().unwrap(), words[3].to_string())
    };
    slots.lines().map(parse).unzip()
}

/// The lines behind the echogram.
fn last_lines(row: &[u32], milliseconds: usize) -> String {
    let (early_decay, t20) = (6 * first_at_a_tenth(row), t20(row));
    format!(
        "early decay: {early_decay} slots, {} ms (6 times the first crossing of -10 dB)\n\
         T20: {t20} slots, {} ms (3 times the way from the first crossing of -5 dB to that of -25 dB)\n\
         crossings: of sums, not of rounded levels; in whole slots; no line is fitted (ISO 3382 fits one)\n",
        early_decay * milliseconds,
        t20 * milliseconds
    )
}

/// By the definitions, from the energies that are printed.
fn check_report(text: &str, milliseconds: usize) {
    let (row, printed) = slots(text);
    let levels = (0..row.len()).map(|k| decibels(level(&row, k)));
    assert_eq!(printed, levels.collect::<Vec<_>>());
    let mut end = last_lines(&row, milliseconds);
    if let refused @ 1.. = refused(text) {
        end += &format!("decay: only of what was recorded; {refused} recordings were refused\n");
    }
    assert!(text.ends_with(&end), "{text}");
}

/// How many recordings were, past the row or by the sum.
fn refused(text: &str) -> u64 {
    let line = text.split("\nrecordings refused: ").nth(1).unwrap();
    let counts = line.lines().next().unwrap().split(", ");
    let first_word = |part: &str| part.split(' ').next().unwrap().parse::<u64>().unwrap();
    counts.map(first_word).sum()
}

/// A picture of a row that lacks something says so.
#[test]
fn a_row_that_is_cut() {
    let (whole, cut) = (["--slot", "100"], ["--slot", "1"]);
    assert_eq!(refused(&text(&whole)), 0);
    assert_ne!(refused(&text(&cut)), 0);
    let note = format!(
        "decay: only of what was recorded; {} recordings were refused",
        refused(&text(&cut))
    );
    assert!(text(&cut).ends_with(&format!("\n{note}\n")));
    let notes = |options: &[&str]| {
        let tags = tags(&written(options, "cut.svg"));
        tags.iter().filter(|tag| tag.text == note).count()
    };
    assert_eq!((notes(&whole), notes(&cut)), (0, 1));
}

fn milliseconds(text: &str) -> usize {
    let (_, heading) = text.split_once("echogram: 40 slots of ").unwrap();
    heading.split_once(" ms").unwrap().0.parse().unwrap()
}

#[test]
fn the_program_prints_the_decay_of_its_echogram() {
    for options in OPTIONS {
        let text = text(options);
        assert_eq!(slots(&text).0.len(), 40);
        check_report(&text, milliseconds(&text));
    }
}

/// What is left falls to a tenth, a hundredth and a thousandth: 102, 10 and 1 of 1,024, whose
/// hundredfold logarithms are 200.9, 100 and 0; that of 1,024 is 301.03. A tenth is left from
/// slot 1 on, as is less than -5 dB, and less than -25 dB from slot 3 on.
#[test]
fn a_decay_by_hand() {
    let text = report(SHAPE, &traced(&[900, 90, 9, 1], 10));
    assert_eq!(slots(&text).1, ["0.0", "-10.1", "-20.1", "-30.1"]);
    assert!(text.contains("\nearly decay: 6 slots, 60 ms ("));
    assert!(text.contains("\nT20: 6 slots, 60 ms ("));
    check_report(&text, 10);
}

/// From slot 1 on 38 of 10,240 are left, -24.3 dB: 3.8 of 1,024, rounded down to 3, which are
/// -25.4 dB. The sum passes -25 dB at slot 2.
#[test]
fn a_rounded_level_passes_sooner_than_the_sum() {
    let text = report(SHAPE, &traced(&[10_202, 29, 9], 1));
    assert_eq!(slots(&text).1, ["0.0", "-25.4", "-"]);
    assert!(text.contains("\nT20: 3 slots, 3 ms ("));
    check_report(&text, 1);
}

/// The last slot ends the decay: what is left behind the row is nothing.
#[test]
fn a_decay_to_the_end_of_the_row() {
    for slots in [1, 2, 40] {
        let mut row = vec![0; slots];
        row[slots - 1] = u32::MAX;
        let text = report(SHAPE, &traced(&row, 100));
        let early_decay = format!("early decay: {} slots, {} ms (", 6 * slots, 600 * slots);
        assert!(text.contains(&early_decay), "{text}");
        assert!(text.contains("\nT20: 0 slots, 0 ms ("));
        check_report(&text, 100);
    }
}

/// Rows in which something was recorded, each with the milliseconds of its slots. Energies
/// fall at three speeds, and a slot in four is empty.
fn random_rows(seed: u64) -> Vec<(Vec<u32>, usize)> {
    let mut random = Random::new(seed);
    let mut rows = Vec::new();
    for _ in 0..60 {
        let (count, fall) = (random.between(1, 60), random.below(3));
        let energy = |slot: u32| match random.one_in(4) {
            true => 0,
            false => random.below(1 << 26) >> (slot * fall).min(31),
        };
        let row: Vec<u32> = (0..count).map(energy).collect();
        rows.push((row, random.between(1, 100) as usize));
    }
    rows.retain(|(row, _)| left(row, 0) > 0);
    rows
}

#[test]
fn decays_at_random() {
    for (row, milliseconds) in random_rows(5) {
        let text = report(SHAPE, &traced(&row, milliseconds));
        check_report(&text, milliseconds);
    }
}

/// A name, its attributes, and the text behind it.
struct Tag {
    name: String,
    attributes: Vec<(String, String)>,
    text: String,
}

impl Tag {
    fn get(&self, name: &str) -> &str {
        let attribute = self.attributes.iter().find(|pair| pair.0 == name);
        &attribute.unwrap().1
    }

    fn has(&self, name: &str, value: &str) -> bool {
        let pair = (name.to_string(), value.to_string());
        self.attributes.contains(&pair)
    }
}

/// The tags of a picture that is well-formed: each is closed by its own or by itself, all
/// stand in one, and none of the characters `<`, `>`, `&` and `"` stands where it may not.
fn tags(svg: &str) -> Vec<Tag> {
    let (mut tags, mut open) = (Vec::new(), Vec::new());
    let mut pieces = svg.split('<');
    assert_eq!(pieces.next(), Some(""));
    for piece in pieces {
        let (tag, text) = piece.split_once('>').unwrap();
        assert!(!piece.contains('&') && !text.contains('>'));
        if let Some(name) = tag.strip_prefix('/') {
            assert_eq!(open.pop().as_deref(), Some(name));
        } else {
            assert!(tags.is_empty() || !open.is_empty());
            let inner = tag.strip_suffix('/').unwrap_or(tag);
            let (name, attributes) = inner.split_once(' ').unwrap_or((inner, ""));
            if inner == tag {
                open.push(name.to_string());
            }
            tags.push(Tag {
                name: name.to_string(),
                attributes: pairs(attributes),
                text: text.to_string(),
            });
        }
        let may_have_text = matches!(open.last().map(String::as_str), Some("text" | "title"));
        assert!(may_have_text || text.trim().is_empty(), "{text}");
    }
    assert!(open.is_empty());
    tags
}

/// Names and values.
fn pairs(attributes: &str) -> Vec<(String, String)> {
    let mut pieces = attributes.split('"');
    let mut pairs: Vec<(String, String)> = Vec::new();
    while let Some(name) = pieces.next().filter(|name| !name.is_empty()) {
        let name = name.trim_start().strip_suffix('=').unwrap();
        assert!(name.chars().all(|c| c.is_ascii_alphanumeric() || c == '-'));
        assert!(pairs.iter().all(|pair| pair.0 != name));
        pairs.push((name.to_string(), pieces.next().unwrap().to_string()));
    }
    assert_eq!(pieces.next(), None);
    pairs
}

/// The numbers of a path, with its letters in between.
fn numbers(path: &str) -> Vec<f64> {
    let numbers = path.split(|c: char| c != '.' && !c.is_ascii_digit());
    let numbers = numbers.filter(|number| !number.is_empty());
    numbers.map(|number| number.parse().unwrap()).collect()
}

/// Where values lie along an axis, by its first and its last label.
struct Axis(Vec<(f64, f64)>);

impl Axis {
    /// By labels that stand behind the lines they name.
    fn new(tags: &[Tag], is_line: impl Fn(&str) -> bool, place: usize) -> Self {
        let mut labels = Vec::new();
        for pair in tags.windows(2) {
            let value = pair[1].text.replace('−', "-").parse();
            if let (Ok(value), "path") = (value, &pair[0].name[..]) {
                let path = pair[0].get("d");
                if is_line(path) {
                    labels.push((value, numbers(path)[place]));
                }
            }
        }
        Self(labels)
    }

    fn place(&self, value: f64) -> f64 {
        let (first, last) = (self.0[0], self.0[self.0.len() - 1]);
        first.1 + (last.1 - first.1) * (value - first.0) / (last.0 - first.0)
    }

    /// Labels are where they should be, too.
    fn check(&self, values: &[f64]) {
        let labels: Vec<f64> = self.0.iter().map(|label| label.0).collect();
        assert_eq!(labels, values);
        for &(value, place) in &self.0 {
            check_place(place, self.place(value));
        }
    }
}

fn check_place(drawn: f64, expected: f64) {
    assert!((drawn - expected).abs() < 0.2, "{drawn}, not {expected}");
}

fn time_axis(tags: &[Tag]) -> Axis {
    Axis::new(tags, |path| path.contains('v'), 0)
}

fn level_axis(tags: &[Tag]) -> Axis {
    Axis::new(tags, |path| path.contains('H'), 1)
}

fn by_id<'a>(tags: &'a [Tag], id: &str) -> &'a Tag {
    tags.iter().find(|tag| tag.has("id", id)).unwrap()
}

/// The steps of the curve, and the crossing at a tenth, by the definitions.
fn check_curve(svg: &str, row: &[u32], milliseconds: usize) {
    let tags = tags(svg);
    let (times, levels) = (time_axis(&tags), level_axis(&tags));
    let at = |slot: usize| times.place((slot * milliseconds) as f64);
    let drawn = numbers(by_id(&tags, "curve").get("d"));
    let (start, steps) = drawn.split_at(2);
    check_place(start[0], at(0));
    check_place(start[1], levels.place(0.0));
    let expected: Vec<usize> = (0..row.len()).map_while(|k| level(row, k)).collect();
    assert_eq!(steps.len(), 2 * expected.len());
    for ((slot, level), step) in expected.iter().enumerate().zip(steps.chunks(2)) {
        check_place(step[0], levels.place(*level as f64 / -10.0));
        check_place(step[1], at(slot + 1));
    }
    let crossing = by_id(&tags, "crossing");
    check_place(numbers(crossing.get("cx"))[0], at(first_at_a_tenth(row)));
    check_place(numbers(crossing.get("cy"))[0], levels.place(-10.0));
    check_words(&tags, row, milliseconds);
}

fn check_words(tags: &[Tag], row: &[u32], milliseconds: usize) {
    let length = |slots: usize| format!("{slots} slots, {} ms", slots * milliseconds);
    let crossing = first_at_a_tenth(row);
    for words in [
        format!("Decay curve: {} slots of {milliseconds} ms", row.len()),
        format!("early decay: {}", length(6 * crossing)),
        format!("T20: {}", length(t20(row))),
        format!("slot {crossing}, {} ms", crossing * milliseconds),
    ] {
        let is_there = |tag: &Tag| tag.name == "text" && tag.text == words;
        assert!(tags.iter().any(is_there), "{words}");
    }
}

/// A file of this test alone.
fn file(name: &str) -> PathBuf {
    Path::new(env!("CARGO_TARGET_TMPDIR")).join(name)
}

/// What the program writes beside its report, which is the same as without.
fn written(options: &[&str], name: &str) -> String {
    let file = file(name);
    let words = [options, &["--curve", file.to_str().unwrap()]].concat();
    assert_eq!(text(&words), text(options));
    fs::read_to_string(file).unwrap()
}

#[test]
fn the_program_draws_the_decay_of_its_echogram() {
    for options in OPTIONS {
        let text = text(options);
        let svg = written(options, "decay.svg");
        check_curve(&svg, &slots(&text).0, milliseconds(&text));
    }
}

#[test]
fn curves_at_random() {
    for (row, milliseconds) in random_rows(6) {
        let svg = decay_curve(&traced(&row, milliseconds));
        check_curve(&svg, &row, milliseconds);
    }
}

/// Ticks are 1, 2 or 5 times a power of ten apart, and at most eleven.
#[test]
fn the_axes() {
    for (milliseconds, tick, count) in [
        (1, 5, 9),
        (5, 20, 11),
        (7, 50, 6),
        (27, 100, 11),
        (28, 200, 6),
    ] {
        let tags = tags(&decay_curve(&traced(&[1; 40], milliseconds)));
        let ticks: Vec<f64> = (0..count).map(|place| f64::from(place * tick)).collect();
        time_axis(&tags).check(&ticks);
        level_axis(&tags).check(&[0.0, -5.0, -10.0, -15.0, -20.0, -25.0, -30.0]);
    }
}

/// A line of its colour at each level whose crossing is counted.
#[test]
fn the_crossed_levels() {
    let tags = tags(&decay_curve(&traced(&[900, 90, 9, 1], 10)));
    let levels = level_axis(&tags);
    for (name, level) in [
        ("T20, from", -5.0),
        ("early decay", -10.0),
        ("T20, to", -25.0),
    ] {
        let pair = tags.windows(2).find(|pair| pair[1].text == name).unwrap();
        assert_eq!(pair[0].get("stroke"), pair[1].get("fill"));
        check_place(numbers(pair[0].get("d"))[1], levels.place(level));
    }
}

/// Axes without a curve, and why.
#[test]
fn nothing_recorded() {
    let trace = traced(&[0; 40], 5);
    let svg = decay_curve(&trace);
    let tags = tags(&svg);
    level_axis(&tags).check(&[0.0, -5.0, -10.0, -15.0, -20.0, -25.0, -30.0]);
    assert!(!tags.iter().any(|tag| tag.has("id", "curve")));
    assert!(tags
        .iter()
        .any(|tag| tag.text == "nothing was recorded (17)"));
    let text = report(SHAPE, &trace);
    assert_eq!(slots(&text).1, ["-"; 40]);
    assert!(text.ends_with("\nno early decay and no T20: nothing was recorded (17)\n"));
}

/// Whatever the order of turns, it is the same hall.
#[test]
fn the_same_picture_again() {
    let picture = written(&[], "again.svg");
    for options in [&[][..], &["--seed", "2"], &["--dealer", "--workers", "8"]] {
        assert_eq!(written(options, "again.svg"), picture);
    }
    assert_ne!(written(&["--order", "3"], "again.svg"), picture);
}

/// This says that the picture is not out of date, and no more: it was made by the program.
#[test]
fn the_picture_of_the_readme() {
    let picture = include_str!("../../../docs/pictures/decay.svg");
    assert_eq!(written(&[], "readme.svg"), picture);
    assert!(include_str!("../../../README.md").contains("(docs/pictures/decay.svg)"));
}

#[test]
fn a_file_that_cannot_be_written() {
    let file = file("no such folder").join("decay.svg");
    let output = hall(&["--curve", file.to_str().unwrap()]);
    assert_eq!(output.status.code(), Some(1));
    assert!(output.stdout.is_empty());
    let error = String::from_utf8(output.stderr).unwrap();
    let start = format!("hall: cannot write {}: ", file.display());
    assert!(error.starts_with(&start), "{error}");
}
