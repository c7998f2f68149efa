//! Reading in pieces, cut and unknown records, and the built program.

mod common;

use std::io::{self, ErrorKind, Read, Write};

use common::program;
use schedule::lines;
use schedule::script::{bytes, open, put, take, turn};
use second::{Record, LENT_WORDS};

fn lines_of(records: &[Record]) -> String {
    lines(&bytes(records)[..])
}

/// Hands out at most so many bytes at a time, with an interruption between.
struct Pieces<'a> {
    input: &'a [u8],
    size: usize,
    interrupted: bool,
}

impl Read for Pieces<'_> {
    fn read(&mut self, room: &mut [u8]) -> io::Result<usize> {
        self.interrupted = !self.interrupted;
        if self.interrupted {
            return Err(ErrorKind::Interrupted.into());
        }
        let size = self.size.min(self.input.len()).min(room.len());
        room[..size].copy_from_slice(&self.input[..size]);
        self.input = &self.input[size..];
        Ok(size)
    }
}

fn in_pieces(input: &[u8], size: usize) -> String {
    lines(Pieces {
        input,
        size,
        interrupted: false,
    })
}

/// A file of several blocks, whose records do not divide a block.
fn long_file() -> Vec<u8> {
    let mut records = vec![open(2, 3, 2, 10)];
    let mut state = 1u32;
    for _ in 0..60_000 {
        state = state.wrapping_mul(1_664_525).wrapping_add(1_013_904_223);
        let worker = (state >> 16) as u8 % 3;
        records.push(match state >> 24 & 15 {
            0 => put(worker, state >> 8 & 31),
            1 => take(worker),
            _ => turn(worker),
        });
    }
    bytes(&records)
}

#[test]
fn the_size_of_the_pieces_does_not_matter() {
    let mut input = long_file();
    assert!(input.len() > 3 * 64 * 1024);
    let expected = lines(&input[..]);
    assert_eq!(expected.lines().count(), 60_001);
    for word in ["begun", "on", "stored", "took", "empty"] {
        assert!(expected.contains(word));
    }
    for size in [1, 7, 11, 12, 13, 4_096, 65_535, 65_536, 65_537] {
        assert_eq!(in_pieces(&input, size), expected);
    }
    for (tail, line) in [(&b"T"[..], "no 8\n"), (b"PU", "no 8\n"), (b"ZZ", "no 7\n")] {
        let length = input.len();
        input.extend(tail);
        for size in [1, 7, 65_536] {
            assert_eq!(in_pieces(&input, size), format!("{expected}{line}"));
        }
        input.truncate(length);
    }
}

#[test]
fn a_file_cut_at_every_byte() {
    let records = [
        turn(0),
        open(1, 4, 2, 10),
        put(0, 5),
        turn(0),
        take(0),
        open(0, 0, 0, 0),
        turn(9),
    ];
    let whole = lines_of(&records);
    assert_eq!(whole, "no 1\nopen\nbegun 1\non\nno 9\nno 1\nno 4\n");
    let input = bytes(&records);
    let mut ends = vec![0];
    for count in 1..=records.len() {
        ends.push(bytes(&records[..count]).len());
    }
    assert_eq!(ends, [0, 3, 12, 24, 27, 30, 39, 42]);
    for length in 0..=input.len() {
        let complete = ends.iter().filter(|&&end| end <= length).count() - 1;
        let mut expected: String = whole.split_inclusive('\n').take(complete).collect();
        if !ends.contains(&length) {
            expected.push_str("no 8\n");
        }
        for size in [1, 5, 64] {
            assert_eq!(in_pieces(&input[..length], size), expected, "{length}");
        }
    }
}

#[test]
fn every_mark() {
    for first in 0..=255 {
        for second in 0..=255 {
            let expected = match [first, second] {
                [b'O', b'P'] | [b'P', b'U'] | [b'T', b'A'] | [b'T', b'U'] => "no 8\n",
                _ => "no 7\n",
            };
            assert_eq!(lines(&[first, second][..]), expected);
        }
        assert_eq!(lines(&[first][..]), "no 8\n");
    }
}

#[test]
fn seven_and_eight_end_the_run() {
    let mut input = bytes(&[open(1, 1, 1, 1)]);
    input.extend(b"tu");
    input.extend(bytes(&[take(0), take(0)]));
    assert_eq!(lines(&input[..]), "open\nno 7\n");
    assert_eq!(lines(&b"OPTA\x00TA\x00"[..]), "no 8\n");
}

#[test]
fn a_read_error_is_the_end_of_the_input() {
    struct Failing<'a>(&'a [u8]);
    impl Read for Failing<'_> {
        fn read(&mut self, room: &mut [u8]) -> io::Result<usize> {
            match self.0.read(room)? {
                0 => Err(io::Error::new(io::ErrorKind::Other, "broken")),
                read => Ok(read),
            }
        }
    }
    assert_eq!(lines(Failing(b"")), "");
    assert_eq!(lines(Failing(b"TU\x00TU\x00")), "no 1\nno 1\n");
    assert_eq!(lines(Failing(b"TU\x00TU")), "no 1\nno 8\n");
}

#[test]
fn before_the_first_opening_the_shape_is_zero() {
    let start = [put(0, 5), take(0), turn(255), open(65, 1, 1, 1), turn(0)];
    assert_eq!(lines_of(&start), "no 1\n".repeat(5));
}

#[test]
fn a_refused_opening_leaves_the_shape_and_the_calls() {
    let records = [
        open(1, 4, 2, 10),
        put(0, 5),
        open(1, 4_096, 1, 1),
        open(1, 4, 0, 10),
        turn(0),
        open(1, 4, 2, 10),
        turn(0),
        take(0),
        turn(0),
    ];
    let expected = "open\nbegun 1\nno 2\nno 1\non\nopen\nno 10\nbegun 1\non\n";
    assert_eq!(lines_of(&records), expected);
}

#[test]
fn what_the_lent_words_hold() {
    // The number of rule O2.
    assert_eq!(LENT_WORDS, 4_355);
    for (record, line) in [
        (open(1, 543, 1, 1), "open\n"),
        (open(1, 544, 1, 1), "no 2\n"),
        (open(64, 512, 256, 65_535), "open\n"),
        (open(64, 513, 256, 65_535), "no 2\n"),
        (open(65, 513, 256, 65_535), "no 1\n"),
        (open(1, 4_096, 1, 1), "no 2\n"),
        (open(1, 4_097, 1, 1), "no 1\n"),
        (open(1, 1, 257, 1), "no 1\n"),
    ] {
        assert_eq!(lines_of(&[record]), line, "{record:?}");
    }
}

#[test]
fn the_fields_are_little_endian_and_whole() {
    let input = b"OP\x01\x02\x00\x00\x01\xFF\xFF\
        PU\x00\xFF\xFE\xFF\x00\xFF\xFF\x3F\x00\x04\
        PU\x00\x00\xFF\xFF\x00\xFF\xFF\x3F\x00\x04\
        PU\x00\x00\x00\x00\x00\x00\x00\x40\x00\x04\
        PU\x00\x00\x00\x00\x00\x00\x00\x00\x01\x04\
        PU\x00\x00\x00\x00\x01\x00\x00\x00\x01\x00";
    // Worker 0 is busy after the first put; an order and a distance too high come first.
    let expected = "open\nbegun 1\nno 9\nno 5\nno 5\nno 9\n";
    assert_eq!(lines(&input[..]), expected);

    // One bucket, so that 5 and 7 turns are needed.
    let mut input = b"OP\x01\x02\x00\x01\x00\xFF\xFF\
        PU\x00\x04\x03\x02\x01\x05\x06\x07\x08\x01"
        .to_vec();
    input.extend(b"TU\x00".repeat(5));
    input.extend(b"TA\x00");
    input.extend(b"TU\x00".repeat(7));
    // 0x0102_0304, 0x0605, 7, and 2^24 / 264² = 240.7.
    let expected = format!(
        "open\nbegun 1\n{}stored 1\nbegun 2\n{}took 16909060 1541 7 240\n",
        "on\n".repeat(4),
        "on\n".repeat(6)
    );
    assert_eq!(lines(&input[..]), expected);
}

#[test]
fn the_program_prints_the_same() {
    let input = long_file();
    let output = program::run(&input);
    assert!(output.status.success() && output.stderr.is_empty());
    assert_eq!(output.stdout, lines(&input[..]).into_bytes());
    let output = program::run(b"");
    assert!(output.status.success() && output.stdout.is_empty());
}

#[test]
fn a_closed_output_stops_the_program_quietly() {
    let mut program = program::start();
    drop(program.stdout.take());
    let mut stdin = program.stdin.take().unwrap();
    let block = b"TU\x00".repeat(100_000);
    // The program leaves, and then nobody reads what is written here either.
    while stdin.write_all(&block).is_ok() {}
    let output = program.wait_with_output().unwrap();
    assert!(output.status.success() && output.stderr.is_empty());
}
