//! Draws files that follow a setup: draws with verdicts, escalation, hand
//! count and close, with faults put in here and there. The audit itself is
//! asked on the way, to know when all is settled.

use super::random::Random;
use super::setups::{Plan, PlannedContest};
use crate::Audit;

/// What the cards of a script are like.
#[derive(Clone, Copy, PartialEq, Eq)]
enum Cards {
    /// Nearly all for the reported winners.
    Winning,
    /// Many for the winners, some for losers, blank, overvoted, missing.
    Mixed,
    /// Half and half: a tie where the number of cards is even.
    Balanced,
    /// For winners in the first p of each q cards: a share of exactly p/q.
    ExactShare,
    Losing,
    Blank,
    Random,
}

const ALL_CARDS: [Cards; 7] = [
    Cards::Winning,
    Cards::Mixed,
    Cards::Balanced,
    Cards::ExactShare,
    Cards::Losing,
    Cards::Blank,
    Cards::Random,
];

struct Script<'a> {
    random: &'a mut Random,
    plan: &'a Plan,
    cards: u64,
    audit: Audit,
    out: Vec<u8>,
    /// A refusal was met: what follows is never read.
    broken: bool,
}

pub fn draws(random: &mut Random, plan: &Plan, audit: Audit) -> Vec<u8> {
    let cards = plan.cards();
    let mut script = Script { random, plan, cards, audit, out: Vec::new(), broken: false };
    match script.random.below(4000) {
        0..=39 => {}
        40..=79 => script.noise(),
        80..=119 => script.about_the_limit(),
        120..=123 => script.spend_all_draws(None),
        124..=125 => script.count_everything(),
        126..=200 => script.long_and_slow(),
        201..=400 => script.fall_and_rise(),
        _ => script.usual(),
    }
    let Script { random, out, .. } = script;
    damaged(random, out)
}

/// All draws of a long plan: m of its policy comes near to 20,000.
pub fn long_draws(random: &mut Random, plan: &Plan, audit: Audit) -> Vec<u8> {
    let cards = plan.cards();
    let mut script = Script { random, plan, cards, audit, out: Vec::new(), broken: false };
    script.spend_all_draws(Some(Cards::Balanced));
    script.out
}

/// The whole hand count, and now and then a count too many.
pub fn whole_count(random: &mut Random, plan: &Plan, audit: Audit) -> Vec<u8> {
    let cards = plan.cards();
    let mut script = Script { random, plan, cards, audit, out: Vec::new(), broken: false };
    script.count_everything();
    script.out
}

/// The whole file damaged, at times.
fn damaged(random: &mut Random, mut out: Vec<u8>) -> Vec<u8> {
    if out.is_empty() {
        return out;
    }
    let length = out.len() as u64;
    match random.below(100) {
        0..=3 => {
            for _ in 0..random.from_to(1, 3) {
                let at = random.below(length) as usize;
                out[at] ^= 1 << random.below(8);
            }
        }
        4..=5 => {
            let at = random.below(length) as usize;
            out[at] = random.byte();
        }
        6..=8 => out.truncate(random.below(length) as usize),
        9..=10 => out.truncate((length - 1) as usize),
        11..=12 => {
            for _ in 0..random.from_to(1, 40) {
                out.push(random.byte());
            }
        }
        13 => {
            let at = random.below(length) as usize;
            out.insert(at, random.one_of(&[0x11, 0x12, 0x13, 0x14, 0x15, 0]));
        }
        14 => {
            let at = random.below(length) as usize;
            out.remove(at);
        }
        _ => {}
    }
    out
}

impl Script<'_> {
    /// Draws, verdicts, and possibly a hand count.
    fn usual(&mut self) {
        let cards = match self.random.below(10) {
            0..=5 => Cards::Winning,
            6..=7 => Cards::Mixed,
            _ => self.random.one_of(&ALL_CARDS),
        };
        // Fewer draws where there are many assertions, for speed.
        let cap = if self.audit.assertions() > 64 { 300 } else { 900 };
        let (most, until_spent) = match self.random.below(20) {
            0 => (0, false),
            1..=3 => (self.random.from_to(1, 6), false),
            4..=6 => (self.random.from_to(6, 40), false),
            7 => (self.random.from_to(40, 200), false),
            _ => (cap, true),
        };
        let verdicts = self.random.one_of(&[0, 0, 3, 5, 30, 300, 1000]);
        let fault_at = if self.random.chance(10, 100) { self.random.below(most + 1) } else { most + 1 };
        let mut extra = u64::from(self.random.chance(15, 100));
        for index in 0..most {
            if until_spent && self.audit.is_spent() && !self.broken {
                if extra == 0 {
                    break;
                }
                extra -= 1;
                if self.random.chance(1, 2) {
                    self.verdict();
                }
                if self.random.chance(1, 4) {
                    // A fault that comes before "no draws left".
                    self.faulty(0x11);
                }
            }
            if index == fault_at {
                self.draws_fault();
            }
            self.card(0x11, cards, index);
            if self.random.chance(verdicts, 1000) {
                self.verdict();
            }
            if self.broken && self.random.chance(1, 3) {
                break;
            }
        }
        if self.random.chance(85, 100) {
            self.verdict();
        }
        let escalates = if self.cards <= 60 { 60 } else { 12 };
        if self.random.chance(escalates, 100) {
            self.hand_count();
        }
    }

    fn hand_count(&mut self) {
        self.byte(0x13);
        let cards = match self.random.below(10) {
            0..=3 => Cards::Winning,
            4..=5 => Cards::Mixed,
            _ => self.random.one_of(&ALL_CARDS),
        };
        let whole = self.cards <= 150 && self.random.chance(9, 10);
        let most = if whole { self.cards } else { self.random.below(self.cards.min(80)) };
        let fault_at = if self.random.chance(20, 100) { self.random.below(most + 1) } else { most + 1 };
        for index in 0..most {
            if index == fault_at {
                self.count_fault();
            }
            self.card(0x14, cards, index);
        }
        if self.random.chance(8, 100) {
            // One count too many: the last place again, the first, or N + 1.
            let place = self.random.one_of(&[self.cards, 1, self.cards + 1]);
            let marks = self.marks(Cards::Random, 0);
            self.show(0x14, place.min(65_535) as u16, 1, marks);
        }
        if self.random.chance(94, 100) {
            self.byte(0x15);
        }
        if self.random.chance(12, 100) {
            let code = self.random.one_of(&[0x15, 0x14, 0x13, 0x12, 0x11, 0x00, 0xff]);
            self.byte(code);
        }
    }

    /// Bytes that look like commands, or nothing like them.
    fn noise(&mut self) {
        for _ in 0..self.random.from_to(1, 60) {
            match self.random.below(8) {
                0 => {
                    let byte = self.random.byte();
                    self.byte(byte);
                }
                1 => self.byte(0x13),
                2 => self.byte(0x15),
                3 => self.verdict(),
                4 => self.card(0x14, Cards::Random, 0),
                _ => self.card(0x11, Cards::Random, 0),
            }
        }
    }

    /// A file of nearly 65,536 bytes, or a little more.
    fn about_the_limit(&mut self) {
        let cards = self.random.one_of(&[Cards::Losing, Cards::Blank, Cards::Balanced, Cards::Mixed]);
        let counts = self.random.chance(1, 3);
        if counts {
            self.byte(0x13);
        }
        let code = if counts { 0x14 } else { 0x11 };
        for index in 0..1820 {
            self.card(code, cards, index);
        }
        match self.random.below(3) {
            0 => self.card(code, cards, 1820),
            1 => {
                for _ in 0..self.random.from_to(14, 18) {
                    self.byte(if counts { 0x15 } else { 0x12 });
                }
            }
            _ => {
                let length = self.random.one_of(&[65_535, 65_536, 65_537]);
                while self.out.len() < length {
                    self.byte(if counts { 0x15 } else { 0x12 });
                }
            }
        }
    }

    /// Wins and losses in turn for long, then wins: m of a shrinking policy
    /// grows large before anything is settled.
    fn long_and_slow(&mut self) {
        let turns = self.random.from_to(600, 1500);
        for index in 0..1800 {
            if self.audit.is_spent() {
                break;
            }
            self.card(0x11, Cards::Balanced, if index < turns { index } else { 0 });
            if index >= turns && self.random.chance(1, 10) {
                self.verdict();
            }
        }
        self.verdict();
    }

    /// Losses until the wealth is small and rounding tells, then wins.
    fn fall_and_rise(&mut self) {
        let losses = self.random.one_of(&[0, 1, 5, 8, 12, 20, 40, 100]);
        let losses = self.random.from_to(0, losses);
        let rise = self.random.one_of(&[100, 1000]);
        for index in 0..losses + rise {
            if self.audit.is_spent() {
                break;
            }
            if index >= losses {
                self.card(0x11, Cards::Balanced, 0);
            } else if self.random.chance(1, 4) {
                let place = self.random.from_to(1, self.cards) as u16;
                self.show(0x11, place, 0, [0; 8]);
            } else {
                self.card(0x11, Cards::Balanced, 1);
            }
            if self.random.chance(1, 4) {
                self.byte(0x12);
            }
        }
        self.verdict();
        if self.random.chance(1, 5) {
            self.card(0x11, Cards::Winning, 0);
        }
    }

    /// Up to 20,000 draws, for the library form; mostly wins at last.
    fn spend_all_draws(&mut self, cards: Option<Cards>) {
        let any = self.random.one_of(&[Cards::Losing, Cards::Blank, Cards::Balanced, Cards::ExactShare]);
        let cards = cards.unwrap_or(any);
        let wins = self.random.one_of(&[0, 300, 500]);
        let mut index = 0;
        while !self.audit.is_spent() {
            let left = u64::from(self.audit.draw_limit() - self.audit.draws());
            if left <= wins {
                self.card(0x11, Cards::Balanced, 0);
            } else {
                self.card(0x11, cards, index);
            }
            index += 1;
            if index % 4000 == 0 {
                self.verdict();
            }
        }
        self.verdict();
        if self.random.chance(1, 2) {
            self.card(0x11, cards, index);
        }
    }

    /// A whole hand count, however large, for the library form.
    fn count_everything(&mut self) {
        let cards = self.random.one_of(&ALL_CARDS);
        self.byte(0x13);
        for index in 0..self.cards {
            self.card(0x14, cards, index);
        }
        if self.random.chance(1, 2) {
            let place = self.random.one_of(&[1, 1, self.cards]);
            self.show(0x14, place as u16, 1, [0; 8]);
        }
        self.byte(0x15);
    }

    fn verdict(&mut self) {
        for _ in 0..self.random.one_of(&[1, 1, 1, 1, 2, 3]) {
            self.byte(0x12);
        }
    }

    /// A card: drawn at any place, or counted at the next.
    fn card(&mut self, code: u8, cards: Cards, index: u64) {
        let place = match code {
            0x11 => self.random.from_to(1, self.cards) as u16,
            _ => (self.audit.counted() + 1).min(65_535) as u16,
        };
        let missing = match cards {
            Cards::Mixed | Cards::Random => self.random.chance(3, 100),
            Cards::Winning => self.random.chance(1, 300),
            _ => false,
        };
        if missing {
            self.show(code, place, 0, [0; 8]);
        } else {
            let marks = self.marks(cards, index);
            self.show(code, place, 1, marks);
        }
    }

    fn marks(&mut self, cards: Cards, index: u64) -> [u32; 8] {
        let mut marks = [0; 8];
        for (slot, contest) in self.plan.contests.iter().enumerate() {
            marks[slot] = marks_of(self.random, contest, cards, index);
        }
        marks
    }

    /// Something that the drawing refuses, mostly.
    fn draws_fault(&mut self) {
        match self.random.below(8) {
            0 => self.card(0x14, Cards::Random, 0),
            1 => self.byte(0x15),
            2 => {
                let byte = self.random.byte();
                self.byte(byte);
            }
            _ => self.faulty(0x11),
        }
    }

    /// Something that the hand count refuses, mostly.
    fn count_fault(&mut self) {
        match self.random.below(12) {
            0 => self.card(0x11, Cards::Random, 0),
            1 => self.byte(0x12),
            2 => self.byte(0x13),
            3 => self.byte(0x15),
            4 => {
                let byte = self.random.byte();
                self.byte(byte);
            }
            5..=8 => {
                // A place that is not the next.
                let next = u64::from(self.audit.counted()) + 1;
                let any = self.random.from_to(1, self.cards);
                let place = self.random.one_of(&[next - 1, next + 1, any, 1, self.cards]);
                let marks = self.marks(Cards::Random, 0);
                self.show(0x14, place as u16, 1, marks);
            }
            _ => self.faulty(0x14),
        }
    }

    /// A card with one to three faults of 11, 12, 13.
    fn faulty(&mut self, code: u8) {
        let which = self.random.from_to(1, 7);
        let mut place = match code {
            0x11 => self.random.from_to(1, self.cards),
            _ => u64::from(self.audit.counted()) + 1,
        };
        let mut found = 1;
        let mut marks = self.marks(Cards::Random, 0);
        if which & 1 != 0 {
            place = self.random.one_of(&[0, self.cards + 1, 65_535, 65_536]);
        }
        if which & 2 != 0 {
            found = self.random.one_of(&[2, 3, 128, 255]);
        }
        if which & 4 != 0 {
            match self.random.below(4) {
                0 => {
                    // Marks on a missing card, in one contest.
                    let slot = self.random.below(self.plan.contests.len() as u64) as usize;
                    marks = [0; 8];
                    marks[slot] = 1;
                    if found == 1 {
                        found = 0;
                    }
                }
                1 => {
                    // The first bit that is no candidate.
                    let slot = self.random.below(self.plan.contests.len() as u64) as usize;
                    let says = u32::from(self.plan.contests[slot].says);
                    marks[slot] |= 1u32.checked_shl(says).unwrap_or(0);
                }
                2 => {
                    // A contest that the setup does not have, or any bit.
                    let slot = self.random.below(8) as usize;
                    marks[slot] |= 1 << self.random.below(32);
                }
                _ => {
                    let last = self.plan.contests.len().min(7);
                    marks[last] |= 1 << 31;
                }
            }
        }
        self.show(code, place as u16, found, marks);
    }

    fn byte(&mut self, code: u8) {
        self.out.push(code);
        if self.broken {
            return;
        }
        self.broken = match code {
            0x12 => !self.audit.is_drawing(),
            0x13 => self.audit.escalate().is_err(),
            0x15 => self.audit.close().is_err(),
            _ => true,
        };
    }

    fn show(&mut self, code: u8, place: u16, found: u8, marks: [u32; 8]) {
        self.out.push(code);
        self.out.extend(place.to_be_bytes());
        self.out.push(found);
        for one in marks {
            self.out.extend(one.to_be_bytes());
        }
        if !self.broken {
            self.broken = match code {
                0x11 => self.audit.enter(place, found, &marks).is_err(),
                _ => self.audit.count(place, found, &marks).is_err(),
            };
        }
    }
}

fn marks_of(random: &mut Random, contest: &PlannedContest, cards: Cards, index: u64) -> u32 {
    let allowed = u32::MAX >> (32 - u32::from(contest.says));
    let winners = contest.winners;
    let losers = allowed & !winners;
    match cards {
        Cards::Winning => match random.below(100) {
            0 => some_of(random, losers, 1),
            1 => 0,
            _ => winners,
        },
        Cards::Mixed => match random.below(100) {
            0..=64 => winners,
            65..=74 => some_of(random, winners, 1),
            75..=84 => some_of(random, losers, contest.seats),
            85..=89 => 0,
            90..=93 => allowed,
            94..=95 => some_of(random, allowed, contest.seats + 1),
            _ => random.bits() & allowed,
        },
        Cards::Balanced => {
            if index % 2 == 0 { winners } else { losers_of(contest, losers) }
        }
        Cards::ExactShare => {
            let (p, q) = if contest.kind == 3 { (contest.p, contest.q) } else { (1, 2) };
            if index % u64::from(q) < u64::from(p) {
                winners
            } else {
                losers_of(contest, losers)
            }
        }
        Cards::Losing => some_of(random, losers, contest.seats),
        Cards::Blank => 0,
        Cards::Random => match random.below(4) {
            0 => random.bits() & allowed,
            1 => random.bits() & random.bits() & allowed,
            _ => some_of(random, allowed, contest.seats),
        },
    }
}

/// The first losers, as many as there may be marks.
fn losers_of(contest: &PlannedContest, losers: u32) -> u32 {
    let mut bits = losers;
    if contest.kind != 2 {
        while bits.count_ones() > u32::from(contest.seats) {
            bits &= bits - 1;
        }
    }
    bits
}

/// Up to so many of the bits, at least one.
fn some_of(random: &mut Random, bits: u32, how_many: u8) -> u32 {
    let mut chosen = 0;
    for _ in 0..how_many {
        let which = random.below(u64::from(bits.count_ones()));
        let mut left = bits;
        for _ in 0..which {
            left &= left - 1;
        }
        chosen |= left & left.wrapping_neg();
    }
    chosen
}
