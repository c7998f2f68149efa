//! Nothing outside the lent slices is touched, not even read: they lie against
//! pages that end the process when touched.
#![cfg(target_os = "linux")]

mod common;

use common::draw::{any_arrival, any_memory, Drawn};
use common::fenced::Fenced;
use common::lent::{Call, Deal, Lent};
use common::seeds::on_seeds;
use common::{shape, translate};
use schedule::lent::small_shape;
use schedule::{write_damaged, Options, Random};
use wubraken::{Dealer, Pool, Shape, Worker};

/// Calls that look at all of the memory, one after the other; all that they answer.
fn whole_calls(random: &mut Random, shape: Shape, lent: Lent) -> String {
    let calls = (0..8).map(|_| {
        let worker = random.draw() % 4;
        let turns = random.below(12).into();
        let deals = [Deal::One, Deal::Run(turns)];
        match random.below(4) {
            0 => format!("{:?}", lent.deal(shape, worker, random.choose(&deals))),
            _ => {
                let calls = Call::of_worker(worker, any_arrival(random, shape));
                format!("{:?}", lent.call(shape, random.choose(&calls)))
            }
        }
    });
    calls.collect()
}

/// Every call of a pool, one after the other; all that they answer.
fn all_calls<S: AsMut<[u64]>, T: AsMut<[Worker]>>(
    random: &mut Random,
    pool: &mut Pool<S, T>,
    file: &[u8],
    out: &mut [u8],
) -> String {
    let mut said = String::new();
    let mut dealer = Dealer::new(pool.shape());
    for _ in 0..16 {
        let worker = random.draw() % 4;
        let shape = pool.shape();
        let turns = random.below(12).into();
        said += &match random.below(12) {
            0 => format!("{:?}", pool.enqueue(worker, any_arrival(random, shape))),
            1 => format!("{:?}", pool.dequeue(worker)),
            2 => format!("{:?}", pool.put(worker, any_arrival(random, shape), turns)),
            3 => format!("{:?}", pool.take(worker, turns)),
            4 => format!("{:?}", pool.run(worker, turns)),
            5 => format!("{:?}", pool.audit()),
            6 => format!("{:?}", dealer.deal(pool)),
            7 => format!("{:?}", dealer.run(pool, turns)),
            _ => format!("{:?}", pool.step(worker)),
        };
    }
    said += &format!("{:?}", pool.run_batch(file, out));
    said += &format!("{:?}", pool.reopen(shape(1, 1, 1, 1)));
    said
}

#[test]
fn no_call_leaves_its_slices() {
    on_seeds("fences", |random| {
        let mut pages = [(); 4].map(|()| Fenced::new());
        for _ in 0..4_000 {
            one_round(random, &mut pages);
        }
    });
}

/// The same calls between fences and in plain memory.
fn one_round(
    random: &mut Random,
    [store_pages, table_pages, file_pages, out_pages]: &mut [Fenced; 4],
) {
    let at_the_end = random.one_in(2);
    let small = small_shape(random);
    let shape = translate::shape_back(small);
    let Drawn {
        mut store,
        mut table,
        ..
    } = any_memory(random, small);
    let mut file = Vec::new();
    let records = random.below(40).into();
    write_damaged(random.draw(), records, Options::default(), &mut file).unwrap();
    let mut out = vec![0; random.below(600) as usize];

    let lent_store = store_pages.lend(&store, at_the_end);
    let lent_table = table_pages.lend(&table, at_the_end);
    let lent_file = file_pages.lend(&file, at_the_end);
    let lent_out = out_pages.lend(&out, at_the_end);
    let mut again = random.clone();
    let fenced = Lent::of(lent_store, lent_table);
    let mut said = whole_calls(&mut again, shape, fenced);
    let mut lent = Pool::resume(shape, lent_store, lent_table);
    said += &all_calls(&mut again, &mut lent, lent_file, lent_out);

    let mut expected = whole_calls(random, shape, Lent::of(&mut store, &mut table));
    let mut plain = Pool::resume(shape, store, table);
    expected += &all_calls(random, &mut plain, &file, &mut out);
    assert_eq!(said, expected);
    assert_eq!((lent.store(), lent.table()), (plain.store(), plain.table()));
    assert_eq!(lent_out, out);
}
