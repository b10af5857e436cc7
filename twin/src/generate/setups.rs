//! Setups: a plan within the limits, its bytes, and damaged forms.

use super::random::Random;

pub type Name = [u8; 8];

#[derive(Clone, Debug)]
pub struct Plan {
    pub batches: Vec<(Name, u16)>,
    pub risk: u16,
    pub limit: u16,
    pub policy: u8,
    pub weight: u16,
    pub contests: Vec<PlannedContest>,
}

#[derive(Clone, Debug)]
pub struct PlannedContest {
    pub kind: u8,
    /// The number of candidates that the contest command names.
    pub says: u8,
    pub seats: u8,
    pub p: u16,
    pub q: u16,
    pub candidates: Vec<(Name, u16)>,
    /// Bits of the reported winners.
    pub winners: u32,
}

impl Plan {
    pub fn cards(&self) -> u64 {
        self.batches.iter().map(|b| u64::from(b.1)).sum()
    }

    /// The commands, each as its bytes.
    pub fn commands(&self) -> Vec<Vec<u8>> {
        let mut list = Vec::new();
        for (name, cards) in &self.batches {
            list.push(named(0x01, name, *cards));
        }
        let mut terms = vec![0x02];
        terms.extend(self.risk.to_be_bytes());
        terms.extend(self.limit.to_be_bytes());
        terms.push(self.policy);
        terms.extend(self.weight.to_be_bytes());
        list.push(terms);
        for contest in &self.contests {
            let mut command = vec![0x03, contest.kind, contest.says, contest.seats];
            command.extend(contest.p.to_be_bytes());
            command.extend(contest.q.to_be_bytes());
            list.push(command);
            for (name, votes) in &contest.candidates {
                list.push(named(0x04, name, *votes));
            }
        }
        list.push(vec![0x05]);
        list
    }

    pub fn bytes(&self) -> Vec<u8> {
        self.commands().concat()
    }
}

fn named(code: u8, name: &Name, number: u16) -> Vec<u8> {
    let mut bytes = vec![code];
    bytes.extend(name);
    bytes.extend(number.to_be_bytes());
    bytes
}

fn name(random: &mut Random) -> Name {
    let mut name = [b' '; 8];
    match random.below(10) {
        0 => name.iter_mut().for_each(|b| *b = random.byte()),
        1 => name.iter_mut().for_each(|b| *b = 1 + random.byte() % 5),
        _ => {
            let length = random.from_to(1, 8) as usize;
            name[..length].iter_mut().for_each(|b| *b = b'A' + random.byte() % 26);
        }
    }
    name
}

/// A random plan that is within the limits.
pub fn plan(random: &mut Random) -> Plan {
    if random.chance(1, 100) {
        return exact_plan(random);
    }
    let longest = random.chance(1, 100);
    let cards = match random.below(100) {
        _ if longest => random.from_to(200, 65_535),
        0..=14 => random.from_to(1, 5),
        15..=44 => random.from_to(6, 60),
        45..=69 => random.from_to(61, 1000),
        70..=84 => random.from_to(1001, 65_534),
        85..=92 => 65_535,
        _ => random.one_of(&[1, 2, 32, 200, 255, 256, 257, 32_767, 32_768, 65_534]),
    };
    let most = cards.min(200);
    let batches = match random.below(100) {
        _ if longest => 200,
        0..=44 => 1,
        45..=79 => random.from_to(1, most.min(5)),
        80..=92 => random.from_to(1, most),
        _ => most,
    };
    let (policy, weight) = if random.chance(1, 2) {
        (1, 0)
    } else {
        (2, choose(random, &[1, 2, 10, 100, 999, 1000], 1, 1000))
    };
    Plan {
        batches: manifest(random, cards, batches),
        risk: choose(random, &[10, 11, 50, 50, 100, 499, 500], 10, 500),
        limit: match random.below(10) {
            0 => random.one_of(&[1, 2, 3]),
            1..=3 => random.from_to(1, 60) as u16,
            4..=5 => random.from_to(60, 500) as u16,
            6..=7 => random.from_to(500, 20_000) as u16,
            8 => random.one_of(&[19_999, 20_000]),
            _ => 20_000,
        },
        policy,
        weight,
        contests: contests(random, cards, longest),
    }
}

/// Shares, weights and first bets where two wins make peak × r exactly 10^12
/// (found by a search over wins alone; it found none with a pair or a fixed bet).
const EXACT: [(u16, u16, u16, u64, u16); 9] = [
    // p, q, weight, first bet, risk limit
    (4, 7, 4, 750, 400),
    (6, 11, 1, 600, 400),
    (7, 11, 5, 700, 500),
    (7, 12, 10, 560, 500),
    (16, 31, 9, 600, 400),
    (21, 41, 18, 420, 500),
    (28, 53, 3, 840, 320),
    (28, 53, 16, 448, 500),
    (36, 61, 17, 585, 500),
];

/// A plan in which two wins bring the peak exactly to the limit, or whose
/// limit is one beside it.
fn exact_plan(random: &mut Random) -> Plan {
    let (p, q, weight, first_bet, risk) = random.one_of(&EXACT);
    let scale = random.from_to(1, 1000 / u64::from(q)) as u16;
    let all = random.from_to(6_000, 65_535);
    let (part, whole) = (u64::from(p), u64::from(q));
    // The least votes that give this first bet.
    let of_winner = (first_bet * (whole - part) * all + 1000 * part * all).div_ceil(1000 * whole);
    let c = random.from_to(2, 5);
    let winner = random.below(c);
    let other = if winner == 0 { 1 } else { 0 };
    let mut candidates: Vec<(Name, u16)> = (0..c).map(|_| (name(random), 0)).collect();
    candidates[winner as usize].1 = of_winner as u16;
    candidates[other].1 = (all - of_winner) as u16;
    let cards = random.from_to(all, 65_535);
    Plan {
        batches: manifest(random, cards, 1),
        risk: (risk + random.one_of(&[0, 1, 1, 1, 2]) - 1).min(500),
        limit: random.from_to(2, 20_000) as u16,
        policy: 2,
        weight,
        contests: vec![PlannedContest {
            kind: 3,
            says: c as u8,
            seats: 1,
            p: p * scale,
            q: q * scale,
            candidates,
            winners: 1 << winner,
        }],
    }
}

/// A shrinking policy with two candidates and nearly 20,000 draws.
pub fn long_plan(random: &mut Random, cards: u64) -> Plan {
    let kind = random.from_to(1, 3) as u8;
    Plan {
        batches: manifest(random, cards, 1),
        risk: choose(random, &[10, 50, 500], 10, 500),
        limit: random.from_to(16_000, 20_000) as u16,
        policy: 2,
        weight: choose(random, &[1, 10, 100], 1, 1000),
        contests: vec![contest(random, kind, 2, 1, cards)],
    }
}

/// Half the time one of the list, otherwise any of the range.
fn choose(random: &mut Random, list: &[u16], least: u64, most: u64) -> u16 {
    if random.chance(1, 2) {
        random.one_of(list)
    } else {
        random.from_to(least, most) as u16
    }
}

/// So many cards in so many batches, each with at least one.
fn manifest(random: &mut Random, cards: u64, batches: u64) -> Vec<(Name, u16)> {
    let mut left = cards - batches;
    let mut list = Vec::new();
    for index in 0..batches {
        let behind = batches - 1 - index;
        let more = if behind == 0 {
            left
        } else {
            random.below(left.min(2 * left / (behind + 1) + 1) + 1)
        };
        left -= more;
        list.push((name(random), (more + 1) as u16));
    }
    list
}

fn contests(random: &mut Random, cards: u64, longest: bool) -> Vec<PlannedContest> {
    let shape = random.below(100);
    // (kind, candidates, seats) of each
    let mut list: Vec<(u8, u64, u64)> = Vec::new();
    let kind = |random: &mut Random| random.from_to(1, 3) as u8;
    match shape {
        _ if longest => {
            for _ in 0..8 {
                let seats = random.one_of(&[1, 31]);
                list.push((kind(random), 32, seats));
            }
        }
        // exactly 256 assertions in one contest
        0..=2 => list.push((random.from_to(1, 2) as u8, 32, 16)),
        // exactly 256 in eight contests
        3..=4 => {
            for _ in 0..8 {
                let (c, k) = random.one_of(&[(12, 4), (12, 8), (18, 2), (18, 16)]);
                list.push((random.from_to(1, 2) as u8, c, k));
            }
        }
        // filled up to 256 or 255
        5..=6 => {
            let goal = random.one_of(&[255, 256]);
            list.push((random.from_to(1, 2) as u8, 31, 15)); // 240
            list.push((random.from_to(1, 2) as u8, goal - 240 + 1, 1));
        }
        _ => {
            let number = match random.below(100) {
                0..=44 => 1,
                45..=79 => random.from_to(2, 3),
                80..=91 => random.from_to(4, 7),
                _ => 8,
            };
            let mut room = 256;
            for index in 0..number {
                let kind = kind(random);
                let mut c = match random.below(100) {
                    0..=39 => 2,
                    40..=79 => random.from_to(3, 6),
                    80..=91 => random.from_to(7, 31),
                    _ => 32,
                };
                let mut k = match random.below(4) {
                    0..=1 => 1,
                    2 => random.from_to(1, c - 1),
                    _ => c - 1,
                };
                let needs = if kind == 3 { 1 } else { k * (c - k) };
                if needs + (number - 1 - index) > room {
                    (c, k) = (2, 1);
                }
                room -= if kind == 3 { 1 } else { k * (c - k) };
                list.push((kind, c, k));
            }
        }
    }
    list.into_iter().map(|(kind, c, k)| contest(random, kind, c, k, cards)).collect()
}

fn contest(random: &mut Random, kind: u8, c: u64, seats: u64, cards: u64) -> PlannedContest {
    let (seats, p, q) = if kind == 3 {
        let (p, q) = share(random);
        (1, p, q)
    } else {
        (seats, 0, 0)
    };
    let winners = choose_bits(random, c, seats);
    let votes = match kind {
        2 => approval_votes(random, c, winners, cards),
        1 => plurality_votes(random, c, seats, winners, cards),
        _ => share_votes(random, c, winners, p, q, cards),
    };
    let candidates = votes.into_iter().map(|v| (name(random), v as u16)).collect();
    PlannedContest { kind, says: c as u8, seats: seats as u8, p, q, candidates, winners }
}

fn share(random: &mut Random) -> (u16, u16) {
    match random.below(4) {
        0 => random.one_of(&[(1, 2), (2, 3), (3, 4), (3, 5)]),
        1 => random.one_of(&[(500, 1000), (999, 1000), (1, 2), (499, 997), (501, 1000), (998, 999)]),
        _ => {
            let most = random.one_of(&[10, 100, 1000]);
            let q = random.from_to(2, most);
            let p = random.from_to(q.div_ceil(2), q - 1);
            (p as u16, q as u16)
        }
    }
}

/// `how_many` of `c` bits.
fn choose_bits(random: &mut Random, c: u64, how_many: u64) -> u32 {
    let mut bits: u32 = 0;
    while u64::from(bits.count_ones()) < how_many {
        bits |= 1 << random.below(c);
    }
    bits
}

fn is(bits: u32, i: u64) -> bool {
    bits >> i & 1 == 1
}

fn approval_votes(random: &mut Random, c: u64, winners: u32, cards: u64) -> Vec<u64> {
    // Losers have at most t, winners more.
    let style = random.below(6);
    let t = match style {
        0 => 0,
        1 => cards - 1,
        2 => cards / 2,
        _ => random.below(cards),
    };
    (0..c)
        .map(|i| match (is(winners, i), style) {
            (true, 0 | 3) => cards,
            (true, 1 | 2) => t + 1,
            (true, _) => random.from_to(t + 1, cards),
            (false, 1 | 2) => t,
            (false, _) => random.from_to(0, t),
        })
        .collect()
}

fn plurality_votes(random: &mut Random, c: u64, k: u64, winners: u32, cards: u64) -> Vec<u64> {
    let all = k * cards;
    let most_t = (all / c).saturating_sub(1);
    let style = random.below(6);
    let t = match style {
        0 | 1 => 0,
        2 => most_t,
        _ => random.from_to(0, most_t),
    };
    let mut votes: Vec<u64> = (0..c)
        .map(|i| match (is(winners, i), style) {
            (true, _) => t + 1,
            (false, 2) => t,
            (false, _) => random.from_to(0, t),
        })
        .collect();
    let mut left = all - votes.iter().sum::<u64>();
    for i in 0..c {
        let more = left.min(cards - votes[i as usize]);
        if is(winners, i) && style != 2 {
            // Styles 0 and 5 spend all votes there are: the sum is at its limit.
            let more = if matches!(style, 0 | 5) { more } else { random.from_to(0, more) };
            votes[i as usize] += more;
            left -= more;
        }
    }
    votes
}

fn share_votes(random: &mut Random, c: u64, winner: u32, p: u16, q: u16, cards: u64) -> Vec<u64> {
    let (p, q) = (u64::from(p), u64::from(q));
    // All votes together, a multiple of q now and then.
    let all = match random.below(4) {
        0 => cards,
        1 if cards >= q => q * random.from_to(1, cards / q),
        _ => random.from_to(1, cards),
    };
    let least = p * all / q + 1;
    let of_winner = match random.below(4) {
        0 => least,
        1 => all,
        _ => random.from_to(least, all),
    };
    let mut left = all - of_winner;
    let at = u64::from(winner.trailing_zeros());
    let mut votes = vec![0; c as usize];
    votes[at as usize] = of_winner;
    let last_other = if at == c - 1 { c - 2 } else { c - 1 };
    for i in (0..c).filter(|&i| i != at) {
        let more = if i == last_other { left } else { random.from_to(0, left) };
        votes[i as usize] = more;
        left -= more;
    }
    votes
}

/// A damaged form of a plan: mostly refused, at times still accepted.
pub fn damaged(random: &mut Random, plan: &Plan) -> Vec<u8> {
    match random.below(100) {
        0..=17 => flipped(random, plan.bytes()),
        18..=29 => {
            let bytes = plan.bytes();
            let end = random.below(bytes.len() as u64) as usize;
            bytes[..end].to_vec()
        }
        30..=34 => {
            let mut bytes = plan.bytes();
            for _ in 0..random.from_to(1, 12) {
                bytes.push(random.byte());
            }
            bytes
        }
        35..=37 => {
            // At and above the program's limit.
            let mut bytes = plan.bytes();
            let length = random.one_of(&[65_535, 65_536, 65_537, 65_538, 70_000]);
            bytes.resize(length, random.byte());
            bytes
        }
        38 => {
            // Very many batches.
            let command = named(0x01, &name(random), random.from_to(1, 400) as u16);
            command.repeat(random.from_to(201, 6_100) as usize)
        }
        39..=51 => reordered(random, plan),
        _ => out_of_range(random, plan),
    }
}

/// One byte changed.
fn flipped(random: &mut Random, mut bytes: Vec<u8>) -> Vec<u8> {
    if bytes.is_empty() {
        return bytes;
    }
    let at = random.below(bytes.len() as u64) as usize;
    bytes[at] = match random.below(4) {
        0 => bytes[at] ^ 1 << random.below(8),
        1 => bytes[at].wrapping_add(1),
        2 => bytes[at].wrapping_sub(1),
        _ => random.byte(),
    };
    bytes
}

/// A command left out, doubled, swapped with the next, put elsewhere, or cut.
fn reordered(random: &mut Random, plan: &Plan) -> Vec<u8> {
    let mut list = plan.commands();
    let end = list.len() as u64;
    let at = random.below(end) as usize;
    match random.below(6) {
        0 => {
            list.remove(at);
        }
        1 => {
            let again = list[at].clone();
            list.insert(at, again);
        }
        2 if at + 1 < list.len() => list.swap(at, at + 1),
        3 => {
            let command = list.remove(at);
            list.insert(random.below(end) as usize, command);
        }
        4 => list.insert(at, vec![random.byte()]),
        _ => {
            list[at].pop();
        }
    }
    list.concat()
}

/// One operand or number just outside its range, or a rule just broken.
fn out_of_range(random: &mut Random, plan: &Plan) -> Vec<u8> {
    let mut plan = plan.clone();
    let cards = plan.cards();
    let which = random.below(plan.contests.len() as u64) as usize;
    let batch = random.below(plan.batches.len() as u64) as usize;
    let contest = &mut plan.contests[which];
    let candidate = random.below(contest.candidates.len() as u64) as usize;
    match random.below(30) {
        0 => plan.risk = random.one_of(&[0, 9, 501, 65_535]),
        1 => plan.limit = random.one_of(&[0, 20_001, 65_535]),
        2 => plan.policy = random.one_of(&[0, 3, 255]),
        3 => (plan.policy, plan.weight) = (1, random.one_of(&[1, 100, 65_535])),
        4 => (plan.policy, plan.weight) = (2, random.one_of(&[0, 1001, 65_535])),
        5 => plan.batches[batch].1 = 0,
        6 => {
            // N becomes 65,535 (accepted), 65,536 or more.
            let others = cards - u64::from(plan.batches[batch].1);
            let wanted = random.one_of(&[65_535, 65_536, 65_537]) - others;
            plan.batches[batch].1 = wanted.min(65_535) as u16;
            if plan.cards() < 65_536 && random.chance(2, 3) {
                plan.batches.push((name(random), random.one_of(&[1, 2])));
            }
        }
        7 => {
            // 200, 201 or 202 batches, of few cards where they would not fit.
            let wanted = random.one_of(&[200, 201, 201, 202]);
            while plan.batches.len() < wanted {
                plan.batches.push((name(random), 1));
            }
        }
        8 => contest.kind = random.one_of(&[0, 4, 255]),
        9 => contest.says = random.one_of(&[0, 1, 33, 255]),
        10 => {
            contest.says = 33;
            while contest.candidates.len() < 33 {
                contest.candidates.push((name(random), 0));
            }
        }
        11 => contest.seats = random.one_of(&[0, contest.says, contest.says + 1, 255]),
        12 => contest.kind = contest.kind % 3 + 1,
        13 => match contest.kind {
            3 => (contest.p, contest.q) = (contest.q, contest.q),
            _ => contest.p = 1,
        },
        14 => match contest.kind {
            3 => contest.p = (contest.q - 1) / 2,
            _ => contest.q = 1,
        },
        15 => match contest.kind {
            3 => (contest.p, contest.q) = random.one_of(&[(501, 1001), (1000, 1001), (40_000, 65_535)]),
            _ => (contest.p, contest.q) = (1, 2),
        },
        16 => (contest.p, contest.q) = random.one_of(&[(0, 0), (0, 1), (1, 1), (1, 3), (499, 999)]),
        17 => contest.candidates[candidate].1 = (cards + 1).min(65_535) as u16,
        18 => contest.candidates[candidate].1 = 65_535,
        19..=20 => {
            // The sum at its limit or one above it.
            let over = random.below(2);
            let wanted = u64::from(contest.seats) * cards + over;
            let mut sum: u64 = contest.candidates.iter().map(|c| u64::from(c.1)).sum();
            for (_, votes) in contest.candidates.iter_mut() {
                let more = (cards - u64::from(*votes)).min(wanted.saturating_sub(sum));
                *votes += more as u16;
                sum += more;
            }
        }
        21..=23 => tied(random, contest, cards),
        24 => contest.candidates.iter_mut().for_each(|c| c.1 = 0),
        25..=26 => {
            // A ninth contest.
            while plan.contests.len() < 9 {
                let more = self::contest(random, 3, 2, 1, cards);
                plan.contests.push(more);
            }
        }
        27..=28 => {
            // 256, 257 or more assertions.
            let used: u64 = plan.contests.iter().map(assertions).sum();
            let wanted = random.one_of(&[256, 257, 257, 258]) - used.min(256);
            if wanted >= 1 && plan.contests.len() < 8 {
                let (c, k) = if wanted <= 31 { (wanted + 1, 1) } else { (32, 16) };
                let kind = random.from_to(1, 2) as u8;
                let more = self::contest(random, kind, c, k, cards);
                plan.contests.push(more);
            }
        }
        _ => {
            contest.candidates.remove(candidate);
        }
    }
    plan.bytes()
}

fn assertions(contest: &PlannedContest) -> u64 {
    match contest.kind {
        3 => 1,
        _ => u64::from(contest.seats) * u64::from(contest.says - contest.seats),
    }
}

/// A tie for the last seat, or a share of exactly p/q or just below or above.
fn tied(random: &mut Random, contest: &mut PlannedContest, cards: u64) {
    if contest.kind == 3 {
        let (p, q) = (u64::from(contest.p), u64::from(contest.q));
        let times = (cards / q).max(1);
        let times = random.from_to(1, times);
        let lift = random.below(3);
        let at = contest.winners.trailing_zeros() as usize;
        let other = if at == 0 { 1 } else { 0 };
        contest.candidates.iter_mut().for_each(|c| c.1 = 0);
        contest.candidates[at].1 = (p * times + lift).saturating_sub(1).min(cards) as u16;
        contest.candidates[other].1 = ((q - p) * times).min(cards) as u16;
        return;
    }
    // A loser gets what the last winner has, a vote less or a vote more.
    let of_winners = contest.candidates.iter().enumerate();
    let last_in = of_winners
        .filter(|(i, _)| contest.winners >> i & 1 == 1)
        .map(|(_, c)| c.1)
        .min()
        .unwrap();
    let loser = (0..contest.candidates.len())
        .filter(|i| contest.winners >> i & 1 == 0)
        .max_by_key(|&i| contest.candidates[i].1)
        .unwrap();
    let votes = (u64::from(last_in) + random.one_of(&[0, 0, 1, 2])).saturating_sub(1);
    contest.candidates[loser].1 = votes.min(cards) as u16;
    if random.chance(1, 2) {
        contest.candidates[loser].1 = last_in;
    }
}
