//! `compare COUNT SEED`: the twin and the library, in this process, on COUNT
//! pairs of files without a limit on their length, and on a long pair for
//! every hundred of them.

use std::process::ExitCode;
use twin_library::{header_agrees, long, read_setup, report};

/// How the pairs came out.
#[derive(Default)]
struct Tally {
    pairs: u64,
    differ: u64,
    over_the_limit: u64,
    followed_to_the_end: u64,
}

fn main() -> ExitCode {
    let arguments: Vec<u64> = std::env::args().skip(1).map(|a| a.parse().unwrap()).collect();
    let (count, seed) = (arguments[0], arguments[1]);
    assert!(header_agrees(), "the header declares other functions");
    let mut tally = Tally::default();
    for k in 0..count {
        let (setup, draws) = twin::generate::pair(seed, k);
        compare(&format!("pair {k}"), &setup, &draws, &mut tally);
    }
    let long_pairs = count.div_ceil(100);
    for k in 0..long_pairs {
        let (what, setup, draws) = long::pair(seed, k);
        compare(&format!("long pair {k}, {what:?}"), &setup, &draws, &mut tally);
    }
    println!(
        "{} pairs compared, {} of them longer than {} bytes, and {} of these not refused; {} differ",
        tally.pairs, tally.over_the_limit, twin::MOST_BYTES, tally.followed_to_the_end, tally.differ
    );
    ExitCode::from(u8::from(tally.differ > 0 || tally.pairs != count + long_pairs))
}

/// The report, its length where it does not fit, and the answer to the setup alone.
fn compare(name: &str, setup: &[u8], draws: &[u8], tally: &mut Tally) {
    let expected = twin::audit(setup, draws);
    let wanted = twin::setup::read_setup(setup).err().map(|f| (f.refusal.number() as u8, f.offset));
    let mut buffer = vec![b'#'; expected.len() + 64];
    let length = report(setup, draws, &mut buffer);
    let told = &buffer[..length.min(buffer.len())];
    let untouched = buffer[told.len()..].iter().all(|&b| b == b'#');
    tally.pairs += 1;
    let same = told == expected && untouched && fits_exactly(setup, draws, &expected) && read_setup(setup) == wanted;
    if !same {
        tally.differ += 1;
        if tally.differ <= 10 {
            println!("{name}: setup of {} bytes, draws of {}", setup.len(), draws.len());
            println!("  library ends {:?}", end_of(told));
            println!("  twin ends    {:?}", end_of(&expected));
        }
    }
    if setup.len() > twin::MOST_BYTES || draws.len() > twin::MOST_BYTES {
        tally.over_the_limit += 1;
        tally.followed_to_the_end += u64::from(!expected.starts_with(b"refused") && !expected.windows(9).any(|w| w == b"\nrefused "));
    }
}

/// A buffer of just that length takes the report; one that is a byte shorter stays as it was.
fn fits_exactly(setup: &[u8], draws: &[u8], expected: &[u8]) -> bool {
    // Twice more of a long audit would take long.
    if draws.len() > twin::MOST_BYTES {
        return true;
    }
    let mut exact = vec![0; expected.len()];
    let mut short = vec![b'#'; expected.len().saturating_sub(1)];
    let fits = report(setup, draws, &mut exact) == expected.len() && exact == expected;
    let refused = report(setup, draws, &mut short) == expected.len() && short.iter().all(|&b| b == b'#');
    fits && (refused || expected.is_empty())
}

fn end_of(text: &[u8]) -> String {
    String::from_utf8_lossy(&text[text.len().saturating_sub(80)..]).into_owned()
}
