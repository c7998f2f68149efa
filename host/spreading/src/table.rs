//! A search for stored energies: those of consecutive distances one behind the other, as
//! words of 16, 32 or 64 bits with the lowest byte first, the nearest or the farthest in
//! front, from any byte on; side by side, or at any equal steps up to [`STEP`]: between
//! them there may be other fields, or the rest of an instruction.

use std::collections::HashMap;
use std::fmt;

use crate::energies;

/// So many different energies in a row are no chance, where the first and the last are so
/// far apart, or where so many stand side by side.
const DIFFERENT: usize = 4;
const APART: u64 = 64;
const MANY: usize = 32;

/// The widths of a word, in bytes.
pub const WIDTHS: [usize; 3] = [2, 4, 8];

/// The longest step from a word to the next, in bytes.
pub const STEP: usize = 16;

/// Where energies stand.
#[derive(Clone, Copy, Debug, PartialEq, Eq)]
pub struct Found {
    /// The place of the first byte.
    pub at: usize,
    /// Bytes of a word, and from it to the next.
    pub width: usize,
    pub step: usize,
    /// The first energy and the last one that was looked at.
    pub from: u64,
    pub to: u64,
}

impl fmt::Display for Found {
    fn fmt(&self, f: &mut fmt::Formatter<'_>) -> fmt::Result {
        let Self {
            at, step, from, to, ..
        } = self;
        let bits = 8 * self.width;
        write!(
            f,
            "energies {from} to {to} in words of {bits} bits, every {step} bytes from byte {at} on"
        )
    }
}

/// The bytes of these words, each of so many; none if one does not fit.
pub fn words(energies: &[u64], width: usize) -> Option<Vec<u8>> {
    let mut bytes = Vec::new();
    for energy in energies {
        let word = energy.to_le_bytes();
        if word[width..].iter().any(|&byte| byte != 0) {
            return None;
        }
        bytes.extend(&word[..width]);
    }
    Some(bytes)
}

/// The word of so many bytes at a place.
fn word(bytes: &[u8], at: usize, width: usize) -> Option<u64> {
    let mut word = [0; 8];
    word[..width].copy_from_slice(bytes.get(at..at + width)?);
    Some(u64::from_le_bytes(word))
}

/// The pieces of the table that tell it from other numbers, by their first energy, and
/// then by their second one.
pub struct Pieces(HashMap<u64, HashMap<u64, Vec<Vec<u64>>>>);

impl Pieces {
    pub fn all() -> Self {
        let mut pieces: HashMap<_, HashMap<_, Vec<_>>> = HashMap::new();
        let mut energies = energies();
        for _ in 0..2 {
            for piece in telling(&energies) {
                let seconds = pieces.entry(piece[0]).or_default();
                seconds.entry(piece[1]).or_default().push(piece.to_vec());
            }
            energies.reverse();
        }
        Self(pieces)
    }

    /// The first of them in some bytes.
    pub fn find(&self, bytes: &[u8]) -> Option<Found> {
        let places = (0..bytes.len()).flat_map(|at| WIDTHS.map(|width| (at, width)));
        places.into_iter().find_map(|(at, width)| {
            let seconds = self.0.get(&word(bytes, at, width)?)?;
            (width..=STEP).find_map(|step| {
                let nth = |n| word(bytes, at + n * step, width);
                let is_piece = |piece: &&Vec<u64>| {
                    let is_apart = piece[0].abs_diff(piece[piece.len() - 1]) >= APART;
                    (is_apart || step == width)
                        && (0..).zip(*piece).all(|(n, &e)| nth(n) == Some(e))
                };
                let piece = seconds.get(&nth(1)?)?.iter().find(is_piece)?;
                Some(Found {
                    at,
                    width,
                    step,
                    from: piece[0],
                    to: piece[piece.len() - 1],
                })
            })
        })
    }
}

/// From each energy that the next one differs from, as many as tell energies from other
/// numbers.
fn telling(energies: &[u64]) -> impl Iterator<Item = &[u64]> {
    let starts = (1..energies.len()).filter(move |&next| energies[next - 1] != energies[next]);
    starts.filter_map(move |next| {
        let rest = &energies[next - 1..];
        let mut pieces = (DIFFERENT..=rest.len()).map(|length| &rest[..length]);
        pieces.find(|piece| is_telling(piece))
    })
}

/// Fewer different ones, evenly spaced ones, and few that are close together may be
/// anything: places in a file, or numbers counted out.
fn is_telling(piece: &[u64]) -> bool {
    let steps = piece.windows(2).map(|pair| pair[0].abs_diff(pair[1]));
    let different = 1 + steps.clone().filter(|&step| step > 0).count();
    let is_even = steps.clone().min() == steps.clone().max();
    different >= DIFFERENT && !is_even && (steps.sum::<u64>() >= APART || piece.len() >= MANY)
}
