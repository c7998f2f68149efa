//! The turn file that `turns` is run on whenever it is proved: crates/turns/stdin, and in crates/turns/stdout its lines.
//!
//! From host/, `cargo run --release --offline -p schedule --example stored_input > ../crates/turns/stdin` writes the first, and
//! `cargo run --release --offline -p second < ../crates/turns/stdin > ../crates/turns/stdout` the second. Each line is also said here,
//! by the rules; a test of `second` compares all four.

use second::{Arrival, Record};

use crate::script::{arrival, open, put, put_arrival, took, turn, Script};

/// The bytes that one read of `turns` can hand over.
pub const PIECE: usize = 65_536;

/// The bytes of lines that `turns` has room for.
pub const BUFFER: usize = 65_536;

/// So many turns of an idle worker, whose lines are longer than they are, make the lines of the first piece too many for the buffer.
const IDLE_TURNS: usize = 8_300;

/// Of the record that the first read cuts, these bytes come before the cut, which lies in its time.
const BEFORE_THE_CUT: usize = 4;

/// The input: whole records, and a last one without its last byte.
pub fn input() -> Vec<u8> {
    let mut bytes = script().bytes();
    put(0, 5).encode(&mut bytes);
    bytes.pop();
    bytes
}

/// What it prints.
pub fn output() -> String {
    script().output() + "no 8\n"
}

/// The whole records of the input, with their lines.
pub fn script() -> Script {
    let script = refused_before_an_opening(Script::default());
    let script = limits_of_the_store(script);
    let script = worked_example(script);
    across_the_cut(script)
}

/// The shape is all zeros, also after an opening that is refused.
fn refused_before_an_opening(script: Script) -> Script {
    script
        .refused(turn(0), 1)
        .refused(open(65, 1, 1, 1), 1)
        .refused(put(0, 0), 1)
}

/// 3 + 8 + 8 × 543 words are all that is lent; with a word more the shape stays as it was.
fn limits_of_the_store(script: Script) -> Script {
    script
        .opened(1, 543, 8, 1)
        .stored(0, 7, 4)
        .refused(open(1, 543, 9, 1), 2)
        .refused(open(1, 544, 1, 1), 2)
        .taken(0, 21, &took(7))
}

fn worked_example(script: Script) -> Script {
    script
        .opened(1, 4, 2, 10)
        .stored(0, 5, 5)
        .taken(0, 7, &took(5))
}

/// As many workers as records are lent, and refused records up to the end of the first piece, where the last worker's put is cut;
/// their lines fill the buffer once before. The time that is cut has four different bytes and lies far behind the widths of both
/// buckets. A take that began before gets the arrival that is put next, where they end; another take gets the late one.
fn across_the_cut(script: Script) -> Script {
    let late = Arrival {
        time: 2_309_737_967,
        path: 65_535,
        order: 63,
        distance: 1_024,
    };
    let mut script = script.opened(64, 4, 2, 65_535).take(0);
    for _ in 0..IDLE_TURNS {
        script = script.refused(turn(1), 10);
    }
    let room = PIECE - BEFORE_THE_CUT - script.bytes().len();
    for number in 0..room / 12 {
        let (record, refusal) = refused_put(number, late);
        script = script.refused(record, refusal);
    }
    for _ in 0..room % 12 / 3 {
        script = script.refused(turn(64), 4);
    }
    script
        .begin(put_arrival(63, late))
        .end(63, 4, "stored 2")
        .stored(1, 131_070, 5)
        .end(0, 10, &took(131_070))
        .taken(63, 7, "took 2309737967 65535 63 16")
}

/// No such worker, an order too high, no distance at the last time there is, a worker with a call in progress.
fn refused_put(number: usize, late: Arrival) -> (Record, u8) {
    let (worker, arrival, refusal) = match number % 4 {
        0 => (64, late, 4),
        1 => (1, Arrival { order: 64, ..late }, 5),
        2 => (
            1,
            Arrival {
                time: u32::MAX,
                distance: 0,
                ..late
            },
            5,
        ),
        _ => (0, arrival(131_070), 9),
    };
    (put_arrival(worker, arrival), refusal)
}
