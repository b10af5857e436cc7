//! Pairs of files, fixed by a seed and a number, to compare two
//! implementations on: most nearly right, some damaged.

pub mod draws;
pub mod random;
pub mod setups;

use crate::Audit;
use random::Random;

/// The k-th pair of a seed: setup and draws.
pub fn pair(seed: u64, k: u64) -> (Vec<u8>, Vec<u8>) {
    let mut random = Random::of(seed, k);
    // Few, since their draws are large: nearly 20,000 draws, 65,535 counts.
    let (long, huge) = (random.chance(1, 1000), random.chance(1, 2500));
    let plan = match (long, huge) {
        (_, true) => setups::long_plan(&mut random, 65_535),
        (true, _) => setups::long_plan(&mut random, 30_000),
        _ => setups::plan(&mut random),
    };
    let right = plan.bytes();
    let audit = Audit::open(&right).expect("a plan is within the limits");
    let draws = match (long, huge) {
        (_, true) => draws::whole_count(&mut random, &plan, audit),
        (true, _) => draws::long_draws(&mut random, &plan, audit),
        _ => draws::draws(&mut random, &plan, audit),
    };
    let setup = if random.chance(18, 100) {
        setups::damaged(&mut random, &plan)
    } else {
        right
    };
    (setup, draws)
}

/// Appends a pair in packed form: each file behind its 4-byte length.
pub fn pack(setup: &[u8], draws: &[u8], out: &mut Vec<u8>) {
    for file in [setup, draws] {
        out.extend((file.len() as u32).to_be_bytes());
        out.extend(file);
    }
}
