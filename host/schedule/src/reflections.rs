//! Reflection orders for arrivals.

use random::Random;
use second::Arrival;

/// What the orders of some arrivals are chosen from: mostly one to three, so that equal
/// times often have equal orders, too; sometimes all there are.
pub fn reflection_orders(random: &mut Random) -> Vec<u32> {
    let mut one = || {
        let any = random.between(0, Arrival::MAX_ORDER);
        random.choose(&[0, 1, 2, Arrival::MAX_ORDER - 1, Arrival::MAX_ORDER, any])
    };
    let few = [one(), one(), one()];
    match random.below(4) {
        0 => (0..=Arrival::MAX_ORDER).collect(),
        count => few[..count as usize].to_vec(),
    }
}
