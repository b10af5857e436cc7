//! Pairs that are too long for the program, fixed by a seed and a number.

use twin::generate::random::Random;
use twin::generate::{draws, setups};
use twin::{Audit, MOST_BYTES};

/// What is long about a pair.
#[derive(Clone, Copy, PartialEq, Eq, Debug)]
pub enum Long {
    /// Draws up to the draw limit.
    Draws,
    /// A hand count of all cards.
    Count,
    /// A setup with bytes behind its end.
    Setup,
    /// Batches without end.
    Batches,
    /// A long draws file with one byte changed.
    Changed,
}

pub const ALL: [Long; 5] = [Long::Draws, Long::Count, Long::Setup, Long::Batches, Long::Changed];

/// The k-th long pair of a seed: setup and draws.
pub fn pair(seed: u64, k: u64) -> (Long, Vec<u8>, Vec<u8>) {
    let mut random = Random::of(seed ^ 0x6c6f_6e67, k);
    let long = ALL[(k % ALL.len() as u64) as usize];
    let plan = roomy_plan(&mut random);
    let mut setup = plan.bytes();
    let audit = Audit::open(&setup).expect("a plan is within the limits");
    let mut drawn = match long {
        Long::Draws => draws::long_draws(&mut random, &plan, audit),
        Long::Count | Long::Changed => draws::whole_count(&mut random, &plan, audit),
        Long::Setup | Long::Batches => draws::draws(&mut random, &plan, audit),
    };
    match long {
        Long::Setup => {
            let byte = random.byte();
            let length = MOST_BYTES + 1 + random.below(40_000) as usize;
            setup.resize(length, byte);
        }
        Long::Batches => {
            let batch = b"\x01BOX-0001\x00\x01";
            setup = batch.iter().copied().cycle().take(MOST_BYTES + 1 + random.below(9999) as usize).collect();
        }
        Long::Changed => {
            let at = random.below(drawn.len() as u64) as usize;
            drawn[at] ^= 1 << random.below(8);
        }
        Long::Draws | Long::Count => {}
    }
    (long, setup, drawn)
}

/// A plan with cards enough for a long hand count, of one assertion or of many.
fn roomy_plan(random: &mut Random) -> setups::Plan {
    if random.chance(1, 3) {
        let cards = random.one_of(&[3000, 20_000, 65_535]);
        return setups::long_plan(random, cards);
    }
    loop {
        let plan = setups::plan(random);
        if plan.cards() > 2000 {
            return plan;
        }
    }
}
