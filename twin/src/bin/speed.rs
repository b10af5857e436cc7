//! `speed`: entries and counts per second with 1, 16 and 256 assertions.

use std::time::Instant;
use twin::generate::random::Random;
use twin::Audit;

fn main() {
    println!("{:>10} {:>10} {:>6} {:>14} {:>14} {:>14}", "assertions", "policy", "kind", "enter/s", "file entry/s", "count/s");
    for (kind, c, k) in [(1u8, 2u8, 1u8), (1, 8, 4), (1, 32, 16), (2, 32, 16), (3, 2, 1)] {
        for policy in [1u8, 2] {
            measure(kind, c, k, policy);
        }
    }
}

/// The best of some rounds of each, since the machine may be shared.
fn measure(kind: u8, c: u8, k: u8, policy: u8) {
    let setup = setup(kind, c, k, policy);
    let cards = cards(c, k);
    let opened = Audit::open(&setup).unwrap();
    let rounds = 400 / opened.assertions() + 40;

    let direct = best(rounds, 20_000, || {
        let mut audit = opened.clone();
        for i in 0..20_000 {
            audit.enter(1 + i as u16, 1, &cards[i & 1023]).unwrap();
        }
        assert_eq!(audit.unsettled(), audit.assertions());
    });

    let mut file = Vec::new();
    for i in 0..20_000 {
        file.push(0x11);
        file.extend((1 + i as u16).to_be_bytes());
        file.push(1);
        cards[i & 1023].iter().for_each(|m| file.extend(m.to_be_bytes()));
    }
    file.push(0x12);
    let whole = best(rounds, 20_000, || {
        let text = twin::audit(&setup, &file);
        assert!(text.ends_with(b"draws 20000\nfull hand count\n"));
    });

    let counts = best(rounds, 65_535, || {
        let mut audit = opened.clone();
        audit.escalate().unwrap();
        for i in 0..65_535usize {
            audit.count(1 + i as u16, 1, &cards[i & 1023]).unwrap();
        }
        audit.close().unwrap();
    });
    let policy = if policy == 1 { "fixed" } else { "shrinking" };
    println!("{:>10} {policy:>10} {kind:>6} {direct:>14.0} {whole:>14.0} {counts:>14.0}", opened.assertions());
}

/// Steps per second in the best round.
fn best(rounds: usize, steps: u32, mut run: impl FnMut()) -> f64 {
    let seconds = (0..rounds).map(|_| {
        let start = Instant::now();
        run();
        start.elapsed().as_secs_f64()
    });
    f64::from(steps) / seconds.fold(f64::INFINITY, f64::min)
}

/// 65,535 cards, the first K candidates a vote ahead, so that bets are small.
fn setup(kind: u8, c: u8, k: u8, policy: u8) -> Vec<u8> {
    let mut bytes = b"\x01BOX-0001\xff\xff\x02\x00\x0a".to_vec();
    bytes.extend(20_000u16.to_be_bytes());
    bytes.push(policy);
    bytes.extend(if policy == 1 { 0u16 } else { 1000 }.to_be_bytes());
    bytes.extend([3, kind, c, k]);
    let (p, q): (u16, u16) = if kind == 3 { (1, 2) } else { (0, 0) };
    bytes.extend(p.to_be_bytes());
    bytes.extend(q.to_be_bytes());
    for i in 0..c {
        bytes.extend(b"\x04SOMEBODY");
        bytes.extend(if i < k { 1001u16 } else { 1000 }.to_be_bytes());
    }
    bytes.push(5);
    bytes
}

/// 1,024 cards with K marks each of 2 K candidates, after each its
/// complement, so that nobody gains and no record is settled.
fn cards(c: u8, k: u8) -> Vec<[u32; 8]> {
    let mut random = Random::of(7, 7);
    let mut list = vec![[0; 8]; 1024];
    for i in 0..512 {
        let mut bits = 0u32;
        while bits.count_ones() < u32::from(k) {
            bits |= 1 << random.below(u64::from(c));
        }
        list[2 * i][0] = bits;
        list[2 * i + 1][0] = !bits & (u32::MAX >> (32 - u32::from(c)));
    }
    list
}
