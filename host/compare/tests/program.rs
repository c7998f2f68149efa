//! The program `compare`, with the second program as engine and with wrong ones.

use std::process::Command;

use compare::arguments::{again, parse, Arguments};
use compare::difference;
use compare::engine::Engine;

const ENGINE: &str = env!("CARGO_BIN_EXE_altered");

/// Status and output of `compare` with the engine altered like this.
fn compare(alter: Option<&str>, options: &[&str]) -> (Option<i32>, String) {
    let mut command = Command::new(env!("CARGO_BIN_EXE_compare"));
    command.arg(ENGINE).args(options).env_remove("ALTER");
    if let Some(alter) = alter {
        command.env("ALTER", alter);
    }
    let output = command.output().unwrap();
    assert!(output.stderr.is_empty());
    let text = String::from_utf8(output.stdout).unwrap();
    (output.status.code(), text)
}

const FEW: [&str; 4] = ["--seeds", "0..2", "--records", "3000"];

#[test]
fn the_second_program_passes() {
    let (status, text) = compare(None, &FEW);
    assert_eq!(status, Some(0), "{text}");
    assert_eq!(text.lines().count(), 12);
    for line in [
        "worked example      1 files        15 records     1 histories       2 calls in order\n",
        "every distance      1 files     14339 records\n",
        "every shape         2 files      6000 records\n",
    ] {
        assert!(text.contains(line), "{text}");
    }
    // Each promise had something to say, of histories of every group.
    let last = text.lines().last().unwrap();
    let words = last.strip_prefix("promises ").unwrap().split(' ');
    let counts: Vec<u64> = words
        .filter_map(|word| word.trim_matches(&['(', ')'][..]).parse().ok())
        .collect();
    assert_eq!(counts.len(), 8, "{last}");
    assert!(counts[..7].iter().all(|&count| count > 100), "{last}");
}

#[test]
fn fresh_seeds_are_printed() {
    let (status, text) = compare(
        None,
        &["--seeds", "0..0", "--fresh", "2", "--records", "500"],
    );
    assert_eq!(status, Some(0), "{text}");
    let seeds = text.lines().next().unwrap().strip_prefix("fresh seeds ");
    let (from, to) = seeds.unwrap().split_once("..").unwrap();
    let (from, to): (u64, u64) = (from.parse().unwrap(), to.parse().unwrap());
    assert_eq!(to - from, 2);
    assert!(text.contains("no refusals         2 files      1000 records\n"));
}

#[test]
fn wrong_engines_are_refused() {
    for (alter, shown) in [
        ("energy", "  second   took 5 7 1 16777216\n  engine   took 5 7 1 16777215\n"),
        ("far energy", "wrong: every distance, every distance\nfirst difference at record 9704\n"),
        ("refusal", "first difference at record 42\n  record   PU 2 5 7 1 3\n  second   no 12\n  engine   no 9\n"),
        ("extra", "  record   (no record)\n  second   (no line)\n  engine   on\n"),
        ("short", "  engine   took 5 7 1 1864135 (and no end of the line)\n"),
        ("missing", "  engine   (no line)\n"),
        ("status", "ended with exit status: 3\n"),
    ] {
        let (status, text) = compare(Some(alter), &FEW);
        assert_eq!(status, Some(1), "{alter}: {text}");
        assert!(text.contains(shown), "{alter}: {text}");
        let again = format!("again: compare {ENGINE} --seeds 0..0 --records 3000\n");
        assert!(text.ends_with(&again), "{alter}: {text}");
    }
}

/// Found in a seeded file, with the seed and without an order.
#[test]
fn a_lost_arrival_is_refused() {
    let (status, text) = compare(Some("lost"), &["--seeds", "3..9", "--records", "3000"]);
    assert_eq!(status, Some(1), "{text}");
    assert!(text.contains("wrong: small histories, seed 3\n"), "{text}");
    assert!(text.contains("  engine   empty\n"), "{text}");
    assert!(text.contains("no order of a plain queue"), "{text}");
    let again = format!("again: compare {ENGINE} --seeds 3..4 --records 3000\n");
    assert!(text.ends_with(&again), "{text}");
}

/// Each promise is named, with the calls that break it.
#[test]
fn a_broken_promise_is_named() {
    for (mistake, shown) in [
        (
            "PassNextAfterLoss",
            "promise 2 (nothing earlier is passed over) is broken",
        ),
        ("PassNextAfterLoss", "promise 4 (two takes) is broken"),
        (
            "OrderIgnored",
            "wrong: by hand, orders put in the wrong order\n",
        ),
        ("OrderIgnored", "promise 4 (two takes) is broken"),
        ("StoredUnlinked", "promise 3 (empty means empty) is broken"),
        (
            "OtherPath",
            "promise 5 (once each) is broken at record 15\n",
        ),
        (
            "OtherPath",
            "calls:\n  2    worker 0   take                        records 8 to 15",
        ),
    ] {
        let (status, text) = compare(Some(mistake), &FEW);
        assert_eq!(status, Some(1), "{mistake}: {text}");
        assert!(text.contains(shown), "{mistake}: {text}");
    }
}

#[test]
fn an_engine_that_is_not_there() {
    let output = Command::new(env!("CARGO_BIN_EXE_compare"))
        .arg("/no/such/engine")
        .output()
        .unwrap();
    assert_eq!(output.status.code(), Some(1));
    let text = String::from_utf8(output.stdout).unwrap();
    assert!(text.contains("cannot run /no/such/engine"), "{text}");
}

fn words(line: &str) -> Vec<String> {
    line.split(' ').map(str::to_string).collect()
}

#[test]
fn arguments() {
    let all = parse(&words("e --seeds 3..9 --fresh 2 --records 50")).unwrap();
    let expected = Arguments {
        engine: "e".to_string(),
        seeds: 3..9,
        fresh: 2,
        records: 50,
    };
    assert_eq!(all, expected);
    assert_eq!(
        parse(&words(&again(&all, Some(7))[8..])).unwrap().seeds,
        7..8
    );
    assert_eq!(parse(&words("e")).unwrap().seeds, 0..16);
    for wrong in [
        "--seeds 0..1",
        "e --seeds",
        "e --seeds 1",
        "e --seeds 2..1",
        "e --fresh -1",
        "e --what 1",
    ] {
        assert_eq!(parse(&words(wrong)), None, "{wrong}");
        let output = Command::new(env!("CARGO_BIN_EXE_compare"))
            .args(words(wrong))
            .output()
            .unwrap();
        assert_eq!(output.status.code(), Some(2));
    }
}

/// Far more than a pipe holds, in and out.
#[test]
fn large_inputs_do_not_block() {
    let engine = Engine::new(ENGINE);
    let input = b"TU\x00".repeat(2_000_000);
    let printed = engine.run(&input).unwrap();
    assert!(printed.status.success());
    assert_eq!(printed.output, b"no 1\n".repeat(2_000_000));
}

/// The engine leaves at the wrong mark and reads no more.
#[test]
fn an_engine_may_end_early() {
    let engine = Engine::new(ENGINE);
    let printed = engine.run(&b"zz".repeat(2_000_000)).unwrap();
    assert!(printed.status.success());
    assert_eq!(printed.output, b"no 7\n");
}

#[test]
fn the_first_difference() {
    let input = b"TU\x00TA\x07TU";
    let lines = b"no 1\nno 1\nno 8\n";
    let first = |printed: &[u8]| {
        let difference = difference::first(input, lines, printed)?;
        Some((difference.number, difference.record, difference.printed))
    };
    let found = |number, record: &str, printed: &str| {
        Some((number, record.to_string(), printed.to_string()))
    };
    assert_eq!(first(lines), None);
    assert_eq!(first(b"no 1\nno 2\nno 8\n"), found(2, "TA 7", "no 2"));
    assert_eq!(first(b"no 1\r\nno 1\n"), found(1, "TU 0", "no 1\\r"));
    assert_eq!(first(b""), found(1, "TU 0", "(no line)"));
    assert_eq!(
        first(b"no 1\nno 1\n"),
        found(3, "(a cut record)", "(no line)")
    );
    let longer = b"no 1\nno 1\nno 8\n\n";
    assert_eq!(first(longer), found(4, "(no record)", ""));
}
