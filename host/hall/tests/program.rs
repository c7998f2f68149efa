//! The program, as it is run.

mod common;

use common::{hall, text};

#[test]
fn the_same_seed_prints_the_same() {
    assert_eq!(text(&[]), text(&["--seed", "1"]));
    let options = ["--workers", "8", "--seed", "7", "--order", "5"];
    assert_eq!(text(&options), text(&options));
    assert_ne!(text(&["--seed", "1"]), text(&["--seed", "2"]));
}

/// It leaves nothing to a seed, and takes the same arrivals.
#[test]
fn a_dealer_instead_of_a_seed() {
    for options in [&[][..], &["--workers", "8", "--order", "5"]] {
        let dealt = text(&[&["--dealer"], options].concat());
        assert_eq!(dealt, text(&[options, &["--dealer"]].concat()));
        let (mut dealt, mut random) = (taken(&dealt), taken(&text(options)));
        dealt.sort_unstable();
        random.sort_unstable();
        assert_eq!(dealt, random);
    }
    let alone = ["--workers", "1", "--seed", "5"];
    assert_eq!(text(&["--dealer", "--workers", "1"]), text(&alone));
}

/// The direct sound, 6 reflections and 18 second ones; the account; then the echogram:
/// its heading, a line for each slot, the sums, and the decay.
#[test]
fn the_default_run_fits_two_screens() {
    let text = text(&[]);
    let lines: Vec<&str> = text.lines().collect();
    assert!(lines.iter().all(|line| line.len() <= 100));
    let (list, echogram) = lines.split_at(1 + (1 + 6 + 18) + 6);
    assert_eq!(echogram.len(), 3 + slots(&text).len() + 2 + 3);
    let account = &list[list.len() - 6..];
    for (line, name) in account.iter().zip([
        "turns:",
        "epochs:",
        "nodes:",
        "refusals: 0 too far (5), ",
        "tail:",
        "taken",
    ]) {
        assert!(line.starts_with(name), "{line}");
    }
}

/// How many of the 25 come after the span. 1,465 samples take the direct sound and that
/// by the floor, at most; the next one, by a side wall, 18.5 metres, is at 2,582. After
/// 4,800 samples, 34.3 metres, come three second reflections, by a side wall at 35 metres,
/// and by front and rear wall at 38 and 58, which is 8,119 samples.
#[test]
fn the_tail_is_counted() {
    for (span, samples, late) in [
        ("1", 48, 25),
        ("50", 2_400, 23),
        ("100", 4_800, 3),
        ("169", 8_112, 1),
        ("170", 8_160, 0),
    ] {
        let said = format!(
            "tail: {late} came after the span of {samples} samples, from the last bucket; no time is too late\n"
        );
        let text = text(&["--span", span]);
        assert!(text.contains(&said), "{text}");
    }
}

/// The lines of the slots: number, start in milliseconds, energy, and the bar. (The levels
/// are looked at in decay.rs.)
fn slots(text: &str) -> Vec<(u64, u64, u64, usize)> {
    let (_, echogram) = text.split_once(" slot     ms     energy  level\n").unwrap();
    let (slots, _) = echogram.split_once("sum of the slots: ").unwrap();
    let parse = |line: &str| {
        let words: Vec<&str> = line.split_whitespace().collect();
        let number = |place: usize| words[place].parse().unwrap();
        let bar = words.get(4).map_or("", |bar| bar);
        assert_eq!(bar, "#".repeat(bar.len()));
        (number(0), number(1), number(2), bar.len())
    };
    slots.lines().map(parse).collect()
}

/// Times and energies of the list.
fn taken(text: &str) -> Vec<(u64, u64)> {
    let (list, _) = text.split_once("turns: ").unwrap();
    let parse = |line: &str| {
        let words: Vec<&str> = line.split_whitespace().collect();
        (words[0].parse().unwrap(), words[4].parse().unwrap())
    };
    list.lines().skip(1).map(parse).collect()
}

/// In the list each energy stands beside its time; in the echogram it is in the slot of
/// that time. Each slot has a line.
///
/// 40 slots of a millisecond have 1,920 samples. The last reflection of order 5 comes from
/// 124 metres, by front and rear wall: 17,353 samples, more than 9 times as many. That of
/// order 15 comes from 364 metres: 50,939 samples, more than 26 times as many.
#[test]
fn the_echogram_has_the_energies_of_the_list() {
    for (words, milliseconds) in [
        (&[][..], 5),
        (&["--seed", "7", "--workers", "8"], 5),
        (&["--order", "0"], 1),
        (&["--order", "5", "--nodes", "3"], 10),
        (&["--order", "15", "--nodes", "4096"], 27),
        (&["--slot", "7"], 7),
        (&["--slot", "100"], 100),
    ] {
        let text = text(words);
        let heading = format!("echogram: 40 slots of {milliseconds} ms; ");
        assert!(text.contains(&heading), "{text}");
        let (mut row, mut sum) = ([0; 40], 0);
        for (time, energy) in taken(&text) {
            row[(time / (48 * milliseconds)) as usize] += energy;
            sum += energy;
        }
        let slots = slots(&text);
        assert_eq!(slots.len(), row.len());
        for (slot, energy) in (0..).zip(row) {
            let (number, start, printed, _) = slots[slot as usize];
            assert_eq!((number, start), (slot, slot * milliseconds));
            assert_eq!(printed, energy);
        }
        let sums = format!("sum of the slots: {sum}; of the energies taken: {sum}\n");
        let refused = "recordings refused: 0 past the row (14), 0 by a sum above 2^32 - 1 (15)\n";
        assert!(text.contains(&format!("{sums}{refused}")), "{text}");
    }
}

/// The direct sound, at 1,416 samples, is in slot 5, of 1,200 to 1,439, and that by the
/// floor, at 1,465, in slot 6; both come from 10 metres. Slot 11, of 2,640 to 2,879, has two
/// from 19 metres and two from 20: 2 * (46,474 + 41,943), which is the most. The last, at
/// 8,119, is in slot 33, and comes from 58 metres. The square roots of 167,772 / 176,834 and
/// of 4,987 / 176,834 are 0.974 and 0.1679.
#[test]
fn the_bars_of_the_default_run() {
    let slots = slots(&text(&[]));
    assert_eq!(slots[5..7], [(5, 25, 167_772, 59), (6, 30, 167_772, 59)]);
    assert_eq!(slots[11], (11, 55, 176_834, 60));
    assert_eq!(slots[33], (33, 165, 4_987, 11));
    assert!(slots[..5]
        .iter()
        .chain(&slots[34..])
        .all(|slot| slot.2 == 0));
}

/// Each line that the README shows of the default run is printed by it.
#[test]
fn the_readme_shows_the_default_run() {
    let readme = include_str!("../../../README.md");
    let (_, example) = readme.split_once("\n## An example\n").unwrap();
    let (example, _) = example.split_once("\n## ").unwrap();
    let indented = example.lines().filter_map(|line| line.strip_prefix("    "));
    let shown: Vec<&str> = indented.filter(|line| !line.starts_with("cd ")).collect();
    assert!(shown.len() > 6 + 2 + 10);
    let text = text(&[]);
    for line in shown {
        assert!(text.lines().any(|printed| printed == line), "{line}");
    }
}

/// 40 slots of a millisecond have the direct sound, and that by the floor; the 23 others
/// come later.
#[test]
fn what_is_past_the_row_is_counted() {
    let text = text(&["--slot", "1"]);
    let energies: Vec<u64> = taken(&text).iter().map(|taken| taken.1).collect();
    assert_eq!(energies.len(), 25);
    let sums = format!(
        "sum of the slots: {}; of the energies taken: {}\n",
        2 * 167_772,
        energies.iter().sum::<u64>()
    );
    assert!(text.contains(&sums), "{text}");
    assert!(text.contains("recordings refused: 23 past the row (14), 0 by a sum"));
    assert!(slots(&text).len() <= 40);
}

#[test]
fn a_slot_outside_its_limits() {
    for milliseconds in ["0", "101", "18446744073709551615"] {
        let output = hall(&["--slot", milliseconds]);
        assert_eq!(output.status.code(), Some(1));
        let error = String::from_utf8(output.stderr).unwrap();
        assert!(error.starts_with("hall: refused by 13: "), "{error}");
    }
}

#[test]
fn a_shape_outside_its_limits() {
    for (option, number, outside) in [
        ("--workers", "65", "workers is 65, and must be 1 to 64"),
        ("--nodes", "0", "nodes is 0, and must be 1 to 4096"),
        ("--span", "21846", "width is 65538, and must be 1 to 65535"),
    ] {
        let output = hall(&[option, number]);
        assert_eq!(output.status.code(), Some(1));
        let error = String::from_utf8(output.stderr).unwrap();
        assert_eq!(error, format!("hall: {outside}\n"));
    }
}

#[test]
fn words_that_make_no_sense() {
    for words in [
        &["--order", "16"][..],
        &["--seed"],
        &["--seed", "x"],
        &["--seed", "1", "--dealer"],
        &["--dealer", "--seed", "1"],
        &["--dealer", "1"],
        &["--curve"],
        &["12"],
    ] {
        let output = hall(words);
        assert_eq!(output.status.code(), Some(2));
        assert!(output.stdout.is_empty());
    }
    let help = text(&["--help"]);
    assert!(help.starts_with("usage:"));
    assert!(
        help.contains("--slot MS      how many milliseconds a slot of the echogram has, 1 to 100;")
    );
    assert!(help.contains("comes after 40 slots is refused"));
    assert!(help.contains("--dealer       instead of a random order, a dealer:"));
    assert!(help.contains("--curve FILE   writes the decay curve"));
    assert!(help.contains("no line is fitted, where ISO 3382 fits one."));
    assert!(help.contains("at equal times the one with the fewest reflections,"));
}
