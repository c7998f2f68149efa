//! The search for stored energies: what it finds, and what it passes over.

use std::fs;
use std::path::Path;
use std::process::Command;

use spreading::energies;
use spreading::table::{words, Pieces, STEP, WIDTHS};

/// The energies that fit into words of so many bytes, nearest first or last.
fn table(width: usize, is_reversed: bool) -> Vec<u64> {
    let fits = |energy: &u64| words(&[*energy], width).is_some();
    let mut table: Vec<u64> = energies().into_iter().filter(fits).collect();
    if is_reversed {
        table.reverse();
    }
    table
}

#[test]
fn a_table_is_found_at_any_byte() {
    let pieces = Pieces::all();
    for width in WIDTHS {
        for is_reversed in [false, true] {
            let stored = words(&table(width, is_reversed), width).unwrap();
            for before in 0..9 {
                let mut bytes = vec![0xA5; before];
                bytes.extend(&stored);
                let found = pieces.find(&bytes).unwrap();
                assert_eq!(found.step, width);
                assert_eq!(found.at % width, before % width);
            }
        }
    }
}

/// Near energies are found even where a compiler stores four at a time; of far ones,
/// many of which are equal, longer pieces.
#[test]
fn a_piece_of_a_table_is_found() {
    let pieces = Pieces::all();
    for width in WIDTHS {
        for is_reversed in [false, true] {
            let table = table(width, is_reversed);
            for (length, least) in [(4, 2_048), (40, 60), (100, 17)] {
                let near = |part: &&[u64]| part.iter().all(|&energy| energy >= least);
                for part in table.windows(length).filter(near) {
                    let bytes = words(part, width).unwrap();
                    assert!(pieces.find(&bytes).is_some(), "{part:?}");
                }
            }
        }
    }
}

/// Each energy with something in front of it: as a field of a record, and as a compiler
/// writes a constant to the stack.
#[test]
fn a_table_with_gaps_is_found() {
    let pieces = Pieces::all();
    let with = |front: fn(u32) -> Vec<u8>| {
        let entries = (1..).zip(energies());
        let entry = |(distance, energy): (u32, u64)| {
            [front(distance), (energy as u32).to_le_bytes().to_vec()].concat()
        };
        entries.flat_map(entry).collect::<Vec<u8>>()
    };
    for (step, bytes) in [
        (8, with(|distance| distance.to_le_bytes().to_vec())),
        (
            9,
            with(|distance| vec![0x48, 0xC7, 0x44, 0x24, distance as u8 * 8]),
        ),
        (
            12,
            with(|distance| {
                [
                    vec![0x48, 0xC7, 0x84, 0x24],
                    (distance * 8).to_le_bytes().to_vec(),
                ]
                .concat()
            }),
        ),
        (STEP, with(|distance| vec![distance as u8; STEP - 4])),
    ] {
        assert_eq!(pieces.find(&bytes).unwrap().step, step);
    }
    assert_eq!(pieces.find(&with(|_| vec![0xA5; STEP - 3])), None);
}

#[test]
fn other_numbers_are_passed_over() {
    let pieces = Pieces::all();
    let energies = energies();
    for width in [4, 8] {
        for other in [
            // Not by the square; others by as much; every second one; the distances.
            (1..=1_024).map(|distance| (1 << 24) / distance).collect(),
            energies.iter().map(|energy| energy + 1_000).collect(),
            energies.iter().copied().step_by(2).collect(),
            (0..=1_024).rev().collect(),
        ] {
            let other: Vec<u64> = other;
            assert_eq!(pieces.find(&words(&other, width).unwrap()), None);
        }
    }
    assert_eq!(pieces.find(&[0; 1_000]), None);
    assert_eq!(pieces.find(&[]), None);
}

/// The status of the program for a file, and what it prints.
fn energy_table(file: &Path) -> (Option<i32>, String) {
    let program = env!("CARGO_BIN_EXE_energy_table");
    let output = Command::new(program).arg(file).output().unwrap();
    let text = String::from_utf8(output.stdout).unwrap();
    (output.status.code(), text)
}

#[test]
fn the_program() {
    // It has none itself.
    let (status, text) = energy_table(Path::new(env!("CARGO_BIN_EXE_energy_table")));
    assert_eq!(status, Some(0), "{text}");
    assert!(text.ends_with(": no table of energies\n"), "{text}");

    let file = Path::new(env!("CARGO_TARGET_TMPDIR")).join("energies");
    fs::write(&file, words(&energies(), 4).unwrap()).unwrap();
    let (status, text) = energy_table(&file);
    assert_eq!(status, Some(1), "{text}");
    let found =
        ": energies 16777216 to 1048576 in words of 32 bits, every 4 bytes from byte 0 on\n";
    assert!(text.ends_with(found), "{text}");

    fs::remove_file(&file).unwrap();
    assert_eq!(energy_table(&file).0, Some(2));
}
