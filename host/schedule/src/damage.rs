//! Damage to a turn file: fields flipped here and there, and one wound that
//! usually ends the run.

use random::Random;
use second::{Record, Records};

/// The wound.
#[derive(Clone, Copy)]
enum Wound {
    /// The file ends inside a record.
    Cut,
    /// The file ends with one byte too many.
    ByteLeftOver,
    /// A mark nobody knows.
    UnknownMark,
    /// A byte is missing, and everything behind it is shifted.
    ByteMissing,
    /// A byte too many, likewise.
    ByteInserted,
    /// The file ends with anything at all.
    Noise,
    None,
}

pub struct Damage {
    wound: Wound,
    /// The record with the wound.
    at: u64,
}

impl Damage {
    pub fn new(random: &mut Random, records: u64) -> Self {
        let wound = random.choose(&[
            Wound::Cut,
            Wound::ByteLeftOver,
            Wound::UnknownMark,
            Wound::ByteMissing,
            Wound::ByteInserted,
            Wound::Noise,
            Wound::None,
        ]);
        let at = random.draw() % records.max(1);
        Self { wound, at }
    }

    /// Flips a bit of a field now and then; the record that results.
    pub fn flip(&self, random: &mut Random, record: Record) -> Record {
        if !random.one_in(64) {
            return record;
        }
        let mut bytes = Vec::new();
        record.encode(&mut bytes);
        let field = random.between(2, bytes.len() as u32 - 1) as usize;
        bytes[field] ^= 1 << random.below(8);
        match Records::new(&bytes[..]).next() {
            Some(Ok(flipped)) => flipped,
            _ => record,
        }
    }

    /// Damages the bytes of one record; whether the file goes on behind it.
    pub fn strike(&self, random: &mut Random, index: u64, bytes: &mut Vec<u8>) -> bool {
        if index != self.at {
            return true;
        }
        match self.wound {
            Wound::Cut => {
                bytes.truncate(random.between(1, bytes.len() as u32 - 1) as usize);
                false
            }
            Wound::ByteLeftOver => {
                bytes.push(random.choose(b"OPTAU\x00\xFF"));
                false
            }
            Wound::UnknownMark => {
                bytes[random.below(2) as usize] ^= 1 << random.below(8);
                true
            }
            Wound::ByteMissing => {
                bytes.remove(random.below(bytes.len() as u32) as usize);
                true
            }
            Wound::ByteInserted => {
                let at = random.below(bytes.len() as u32 + 1) as usize;
                bytes.insert(at, random.draw() as u8);
                true
            }
            Wound::Noise => {
                let length = random.length(7);
                bytes.extend((0..length).map(|_| random.draw() as u8));
                false
            }
            Wound::None => true,
        }
    }
}
