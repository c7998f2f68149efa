//! The stored input of `turns` and its stored lines: as the script has them, and as this program prints them.

use schedule::stored::{input, output, script, BUFFER, PIECE};

const INPUT: &[u8] = include_bytes!("../../../crates/turns/stdin");
const OUTPUT: &str = include_str!("../../../crates/turns/stdout");

#[test]
fn the_stored_files() {
    assert!(INPUT == input(), "crates/turns/stdin is not the script's");
    assert!(
        OUTPUT == output(),
        "crates/turns/stdout is not the script's"
    );
}

#[test]
fn through_the_library() {
    assert!(OUTPUT == schedule::lines(INPUT), "other lines than stored");
}

/// A record stands across the end of the first piece, within its time.
#[test]
fn cut_by_the_first_read() {
    let mut bytes = Vec::new();
    for record in script().records() {
        let start = bytes.len();
        record.encode(&mut bytes);
        if bytes.len() > PIECE {
            assert_eq!((start, bytes.len()), (PIECE - 4, PIECE + 8));
            return;
        }
    }
    panic!("shorter than a piece");
}

/// The buffer is full, and written out, before the first piece is worked through.
#[test]
fn full_within_the_first_piece() {
    let script = script();
    let mut bytes = Vec::new();
    let mut lines = 0;
    for (record, line) in script.records().iter().zip(script.lines()) {
        record.encode(&mut bytes);
        if bytes.len() > PIECE {
            break;
        }
        lines += line.len() + 1;
    }
    assert!(lines > BUFFER, "{lines} bytes of lines fit");
}
