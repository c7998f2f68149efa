//! The first line in which two outputs differ.

use second::Records;

use crate::record::show;

#[derive(Clone, Debug, PartialEq, Eq)]
pub struct Difference {
    /// The number of the record, from 1.
    pub number: usize,
    pub record: String,
    pub expected: String,
    pub printed: String,
}

/// None if the outputs are the same, byte for byte.
pub fn first(input: &[u8], expected: &[u8], printed: &[u8]) -> Option<Difference> {
    if expected == printed {
        return None;
    }
    let mut place = 0;
    let (mut left, mut right) = (lines(expected), lines(printed));
    let (left, right) = loop {
        match (left.next(), right.next()) {
            (left, right) if left != right => break (left, right),
            _ => place += 1,
        }
    };
    let record = Records::new(input).nth(place);
    Some(Difference {
        number: place + 1,
        record: record.map_or("(no record)".to_string(), |record| show(&record)),
        expected: text(left),
        printed: text(right),
    })
}

/// Lines with their ends: a missing end is a difference too.
fn lines(output: &[u8]) -> impl Iterator<Item = &[u8]> {
    output.split_inclusive(|&byte| byte == b'\n')
}

fn text(line: Option<&[u8]>) -> String {
    match line {
        None => "(no line)".to_string(),
        Some([line @ .., b'\n']) => line.escape_ascii().to_string(),
        Some(line) => format!("{} (and no end of the line)", line.escape_ascii()),
    }
}
