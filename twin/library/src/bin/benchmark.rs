//! `benchmark`: the twin and the library on the same files, in one process.
//! Each case is run once to warm up and then by turns; the times are the
//! median and the best of the rounds, in time of the processor, since others
//! may use the machine.

use std::time::{Duration, Instant};
use twin::generate::random::Random;
use twin_library::{allocations, read_setup, report};

const MOST_DRAWS: usize = 20_000;
const MOST_CARDS: u16 = 65_535;

fn main() {
    let only: Vec<String> = std::env::args().skip(1).collect();
    let chosen = |name: &str| only.is_empty() || only.iter().any(|word| word == name);
    if chosen("entries") { entries() }
    if chosen("settled") { settled() }
    if chosen("draws") { draws() }
    if chosen("assertions") { assertions() }
    if chosen("verdicts") { verdicts() }
    if chosen("count") { count() }
    if chosen("setup") { setups() }
    if chosen("small") { small() }
    if chosen("allocations") { allocated() }
}

// ---- what is measured

fn entries() {
    title("20,000 entries and a verdict, none settled", "entry");
    for policy in [FIXED, SHRINKING] {
        for shape in [PAIR, Shape { kind: 1, candidates: 8, seats: 4 }, WIDE, Shape { kind: 3, ..PAIR }] {
            let file = drawn(&shape.cards(), MOST_DRAWS);
            reports(&format!("{}, {}", shape.words(), policy.words()), MOST_DRAWS, &shape.setup(policy), &file);
        }
    }
}

/// 255 assertions that are settled soon, and one that never is.
fn settled() {
    title("20,000 entries, the last assertion never settled", "entry");
    let last = PAIR;
    let first = Shape { kind: 2, candidates: 32, seats: 15 };
    for policy in [FIXED, SHRINKING] {
        let cards = last.cards();
        let alone: Vec<[u32; 8]> = cards.clone();
        let both: Vec<[u32; 8]> = cards.iter().map(|c| [0x7fff, c[0], 0, 0, 0, 0, 0, 0]).collect();
        let mut contests = first.contest(40_000, 1);
        contests.extend(last.contest(1001, 1000));
        let name = policy.words();
        reports(&format!("it alone, {name}"), MOST_DRAWS, &last.setup(policy), &drawn(&alone, MOST_DRAWS));
        reports(&format!("255 settled before it, {name}"), MOST_DRAWS, &setup(policy, &contests), &drawn(&both, MOST_DRAWS));
    }
}

fn draws() {
    title("entries by how many there are, 16 assertions, fixed", "entry");
    let shape = Shape { kind: 1, candidates: 8, seats: 4 };
    for number in [2_500, 5_000, 10_000, 20_000] {
        reports(&format!("{number} entries"), number, &shape.setup(FIXED), &drawn(&shape.cards(), number));
    }
}

fn assertions() {
    title("20,000 entries by the number of assertions, fixed", "entry");
    for (candidates, seats) in [(2, 1), (3, 1), (4, 2), (6, 2), (8, 4), (12, 4), (16, 8), (24, 8), (32, 16)] {
        let shape = Shape { kind: 1, candidates, seats };
        reports(&shape.words(), MOST_DRAWS, &shape.setup(FIXED), &drawn(&shape.cards(), MOST_DRAWS));
    }
}

fn verdicts() {
    title("10,000 entries, a verdict after each, fixed", "entry");
    for shape in [PAIR, WIDE] {
        let file: Vec<u8> = drawn(&shape.cards(), 10_000).chunks(36).flat_map(|entry| [entry, &[0x12]].concat()).collect();
        reports(&shape.words(), 10_000, &shape.setup(FIXED), &file);
    }
}

fn count() {
    title("a hand count of 65,535 cards to its close", "card");
    for shape in [PAIR, WIDE] {
        let mut file = vec![0x13];
        for (place, card) in (1..=MOST_CARDS).zip(shape.cards().iter().cycle()) {
            show(&mut file, 0x14, place, card);
        }
        file.push(0x15);
        reports(&shape.words(), usize::from(MOST_CARDS), &shape.setup(FIXED), &file);
    }
}

fn setups() {
    title("reading a setup file", "file");
    let largest = largest_setup();
    for (name, file) in [("the worked example", one_contest()), ("the largest, 5,089 bytes", largest)] {
        assert_eq!(read_setup(&file), None);
        let library = || assert!(read_setup(&file).is_none());
        row(name, 1, || assert!(twin::setup::read_setup(&file).is_ok()), library);
    }
}

fn small() {
    title("whole reports", "report");
    let mut file = Vec::new();
    for place in 1..=17 {
        show(&mut file, 0x11, place, &[1, 0, 0, 0, 0, 0, 0, 0]);
    }
    file.push(0x12);
    reports("the worked example, 17 entries", 1, &one_contest(), &file);
    reports("the largest setup, no draws", 1, &largest_setup(), &[]);
}

fn allocated() {
    println!();
    println!("calls of malloc, calloc and realloc for one report, and bytes asked for");
    println!("{:<44} {:>10} {:>12} {:>10} {:>12}", "", "twin", "bytes", "library", "bytes");
    for shape in [PAIR, WIDE] {
        for number in [10, 1_000, 10_000, 20_000] {
            let (setup, file) = (shape.setup(FIXED), drawn(&shape.cards(), number));
            let mut buffer = vec![0; 4096];
            let twin = allocations::of(|| assert!(!twin::audit(&setup, &file).is_empty()));
            let library = allocations::of(|| assert!(report(&setup, &file, &mut buffer) > 0));
            let name = format!("{}, {number} entries", shape.words());
            println!("{name:<44} {:>10} {:>12} {:>10} {:>12}", twin.0, twin.1, library.0, library.1);
        }
    }
}

// ---- how it is measured

fn title(what: &str, step: &str) {
    println!();
    println!("{what}; nanoseconds per {step}");
    println!(
        "{:<44} {:>9} {:>9} {:>6}   {:>9} {:>9} {:>6} {:>11}",
        "", "twin", "library", "ratio", "best twin", "best lib.", "ratio", "lib. per s"
    );
}

/// Both reports of the files, which must be the same.
fn reports(name: &str, steps: usize, setup: &[u8], draws: &[u8]) {
    let text = twin::audit(setup, draws);
    let mut buffer = vec![0; text.len()];
    assert_eq!(report(setup, draws, &mut buffer), text.len());
    assert!(buffer == text && !text.starts_with(b"refused"));
    let twin = || assert_eq!(twin::audit(setup, draws).len(), text.len());
    row(name, steps, twin, || assert_eq!(report(setup, draws, &mut buffer), text.len()));
}

/// Rounds of both by turns, for a second or more, and at least 15.
fn row(name: &str, steps: usize, twin: impl FnMut(), library: impl FnMut()) {
    let (mut twin, mut library) = (repeated(twin), repeated(library));
    let (mut twins, mut libraries) = (Vec::new(), Vec::new());
    let begun = Instant::now();
    while twins.len() < 15 || begun.elapsed() < Duration::from_millis(1200) {
        twins.push(twin());
        libraries.push(library());
    }
    let per_step = |seconds: f64| 1e9 * seconds / steps as f64;
    let (median, best) = (middle(&mut twins), twins[0]);
    let (own_median, own_best) = (middle(&mut libraries), libraries[0]);
    println!(
        "{name:<44} {:>9.1} {:>9.1} {:>6.2}   {:>9.1} {:>9.1} {:>6.2} {:>11.0}",
        per_step(median), per_step(own_median), own_median / median,
        per_step(best), per_step(own_best), own_best / best, steps as f64 / own_best
    );
}

/// The seconds of one run; a short one is repeated and its mean taken.
fn repeated(mut run: impl FnMut()) -> impl FnMut() -> f64 {
    let mut times = 1u32;
    let mut timed = move |times: u32| {
        let begun = processor_seconds();
        (0..times).for_each(|_| run());
        processor_seconds() - begun
    };
    while timed(times) < 0.0005 {
        times *= 2;
    }
    move || timed(times) / f64::from(times)
}

#[repr(C)]
struct Clock {
    seconds: i64,
    nanoseconds: i64,
}

extern "C" {
    fn clock_gettime(clock: i32, time: &mut Clock) -> i32;
}

/// What this thread has had of a processor, as Linux counts it.
fn processor_seconds() -> f64 {
    const CLOCK_THREAD_CPUTIME_ID: i32 = 3;
    let mut time = Clock { seconds: 0, nanoseconds: 0 };
    // The C library fills in the two numbers.
    let answer = unsafe { clock_gettime(CLOCK_THREAD_CPUTIME_ID, &mut time) };
    assert_eq!(answer, 0);
    time.seconds as f64 + 1e-9 * time.nanoseconds as f64
}

/// The middle of the times, which are sorted.
fn middle(times: &mut [f64]) -> f64 {
    times.sort_by(f64::total_cmp);
    times[times.len() / 2]
}

// ---- the files

#[derive(Clone, Copy)]
struct Policy(u8, u16);

const FIXED: Policy = Policy(1, 0);
const SHRINKING: Policy = Policy(2, 1000);

impl Policy {
    fn words(self) -> &'static str {
        if self.0 == 1 { "fixed" } else { "shrinking" }
    }
}

/// A contest of so many candidates and seats.
#[derive(Clone, Copy)]
struct Shape {
    kind: u8,
    candidates: u8,
    seats: u8,
}

const PAIR: Shape = Shape { kind: 1, candidates: 2, seats: 1 };
const WIDE: Shape = Shape { kind: 1, candidates: 32, seats: 16 };

impl Shape {
    fn words(self) -> String {
        match self.kind {
            3 => "1 assertion of a share".to_string(),
            _ => match u16::from(self.seats) * u16::from(self.candidates - self.seats) {
                1 => "1 assertion".to_string(),
                number => format!("{number} assertions"),
            },
        }
    }

    /// The contest's commands, with the votes of a winner and of a loser.
    fn contest(self, winner: u16, loser: u16) -> Vec<u8> {
        let mut bytes = vec![3, self.kind, self.candidates, self.seats];
        bytes.extend(if self.kind == 3 { [0, 1, 0, 2] } else { [0; 4] });
        for i in 0..self.candidates {
            bytes.extend(b"\x04SOMEBODY");
            bytes.extend(if i < self.seats { winner } else { loser }.to_be_bytes());
        }
        bytes
    }

    /// Winners a vote ahead, so that bets are small.
    fn setup(self, policy: Policy) -> Vec<u8> {
        setup(policy, &self.contest(1001, 1000))
    }

    /// 1,024 cards, each with as many marks as seats and then its opposite, so
    /// that nobody gains and nothing is settled.
    fn cards(self) -> Vec<[u32; 8]> {
        let mut random = Random::of(7, 7);
        let mut list = Vec::new();
        for _ in 0..512 {
            let mut bits = 0u32;
            while bits.count_ones() < u32::from(self.seats) {
                bits |= 1 << random.below(u64::from(self.candidates));
            }
            let opposite = !bits & (u32::MAX >> (32 - u32::from(self.candidates)));
            list.extend([bits, opposite].map(|marks| [marks, 0, 0, 0, 0, 0, 0, 0]));
        }
        list
    }
}

/// 65,535 cards in a batch, risk limit 10, 20,000 draws.
fn setup(policy: Policy, contests: &[u8]) -> Vec<u8> {
    let mut bytes = b"\x01BOX-0001\xff\xff\x02\x00\x0a".to_vec();
    bytes.extend((MOST_DRAWS as u16).to_be_bytes());
    bytes.push(policy.0);
    bytes.extend(policy.1.to_be_bytes());
    bytes.extend(contests);
    bytes.push(5);
    bytes
}

/// 200 batches and 8 contests of 32 candidates, 248 assertions: no setup is longer.
fn largest_setup() -> Vec<u8> {
    let mut bytes = b"\x01BOX-0001\x00\xc8".repeat(200);
    bytes.extend(b"\x02\x00\x32\x01\x90\x02\x00\x64");
    for _ in 0..8 {
        bytes.extend(Shape { kind: 1, candidates: 32, seats: 1 }.contest(2000, 1000));
    }
    bytes.push(5);
    assert_eq!(bytes.len(), 5_089);
    bytes
}

fn one_contest() -> Vec<u8> {
    include_bytes!("../../../../examples/one-contest/setup.bin").to_vec()
}

/// So many entries, and a verdict.
fn drawn(cards: &[[u32; 8]], number: usize) -> Vec<u8> {
    let mut file = Vec::new();
    for (i, card) in cards.iter().cycle().take(number).enumerate() {
        show(&mut file, 0x11, 1 + i as u16, card);
    }
    file.push(0x12);
    file
}

/// A card that was drawn or counted.
fn show(file: &mut Vec<u8>, code: u8, place: u16, card: &[u32; 8]) {
    file.push(code);
    file.extend(place.to_be_bytes());
    file.push(1);
    card.iter().for_each(|marks| file.extend(marks.to_be_bytes()));
}
