//! Plans: a case draws from a pool of few, so that votes meet, tie and rival.

use crate::random::Random;
use second_engine::Plan;

/// One to four different plans, none of them 0. Some differ in one byte only, which shows a wrong byte order.
pub fn pool(random: &mut Random) -> Vec<Plan> {
    let mut pool = Vec::new();
    let count = random.between(1, 4);
    while pool.len() < count {
        let plan = any(random);
        if !pool.contains(&plan) {
            pool.push(plan);
        }
    }
    pool
}

/// Any plan but 0, mostly small ones and those at the edges of a byte.
pub fn any(random: &mut Random) -> Plan {
    match random.below(4) {
        0 => random.between(1, 9) as Plan,
        1 => random.pick(&[1, 255, 256, 257, 512, 1 << (Plan::BITS - 1), Plan::MAX << 8, Plan::MAX]),
        2 => (random.between(1, 255) as Plan) << 8,
        _ => random.between(1, Plan::MAX as usize) as Plan,
    }
}

/// A plan of the pool, or 0 in a quarter of the cases.
pub fn some_or_none(random: &mut Random, pool: &[Plan]) -> Plan {
    if random.chance(1, 4) {
        0
    } else {
        random.pick(pool)
    }
}
