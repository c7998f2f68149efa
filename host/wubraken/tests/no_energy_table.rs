//! The library computes energies: it has no table of them to be copied with it.

use std::{env, fs};

use spreading::is_energy;
use spreading::table::Pieces;

#[test]
fn in_no_archive() {
    let pieces = Pieces::all();
    // The search finds one where it is: this test has that of the second program.
    assert!((1..=1_024).all(|distance| is_energy(distance, second::energy(distance).into())));
    let this = fs::read(env::current_exe().unwrap()).unwrap();
    assert!(pieces.find(&this).is_some());

    for archive in env!("WUBRAKEN_ARCHIVES").split(':') {
        let bytes = fs::read(archive).unwrap_or_else(|error| panic!("{archive}: {error}"));
        if let Some(found) = pieces.find(&bytes) {
            panic!("{archive}: {found}");
        }
    }
}
