//! A contest: its ranges, its number of assertions, its reported winners.
//! (RULES.md, "Contests and votes", "Reported winners")

#[derive(Clone, Copy, PartialEq, Eq, Debug)]
pub enum Kind {
    Plurality,
    Approval,
    Supermajority { p: u16, q: u16 },
}

#[derive(Clone, PartialEq, Eq, Debug)]
pub struct Contest {
    pub kind: Kind,
    pub candidates: u8,
    pub seats: u8,
    /// Reported votes in candidate order; full once the contest is read.
    pub votes: Vec<u16>,
}

impl Contest {
    /// The contest with these operands and no candidate yet; none where an
    /// operand is outside its range.
    pub fn from_operands(kind: u8, candidates: u8, seats: u8, p: u16, q: u16) -> Option<Contest> {
        if !(2..=32).contains(&candidates) {
            return None;
        }
        let kind = match kind {
            1 | 2 => {
                if seats < 1 || seats > candidates - 1 || p != 0 || q != 0 {
                    return None;
                }
                if kind == 1 { Kind::Plurality } else { Kind::Approval }
            }
            3 => {
                let share = p < q && 2 * u32::from(p) >= u32::from(q) && q <= 1000;
                if seats != 1 || !share {
                    return None;
                }
                Kind::Supermajority { p, q }
            }
            _ => return None,
        };
        Some(Contest { kind, candidates, seats, votes: Vec::new() })
    }

    pub fn is_complete(&self) -> bool {
        self.votes.len() == usize::from(self.candidates)
    }

    pub fn assertion_count(&self) -> u32 {
        match self.kind {
            Kind::Plurality | Kind::Approval => {
                u32::from(self.seats) * u32::from(self.candidates - self.seats)
            }
            Kind::Supermajority { .. } => 1,
        }
    }

    pub fn all_votes(&self) -> u64 {
        self.votes.iter().map(|&v| u64::from(v)).sum()
    }

    /// The limit on the votes of the contest together.
    pub fn votes_fit(&self, cards: u32) -> bool {
        match self.kind {
            Kind::Approval => true,
            _ => self.all_votes() <= u64::from(self.seats) * u64::from(cards),
        }
    }

    /// The reported winners as bits, bit i for candidate i; none where the
    /// rules name none.
    pub fn winners(&self) -> Option<u32> {
        match self.kind {
            Kind::Plurality | Kind::Approval => {
                // The K best must each be ahead of each other one: the K-th
                // best has more than the next.
                let mut sorted = self.votes.clone();
                sorted.sort_unstable_by(|a, b| b.cmp(a));
                let seats = usize::from(self.seats);
                let (last_in, first_out) = (sorted[seats - 1], sorted[seats]);
                if last_in <= first_out {
                    return None;
                }
                Some(self.bits_of(|votes| votes >= last_in))
            }
            Kind::Supermajority { p, q } => {
                let all = self.all_votes();
                let bits = self.bits_of(|v| u64::from(q) * u64::from(v) > u64::from(p) * all);
                // p/q is at least a half, so no two can be above it.
                if bits == 0 { None } else { Some(bits) }
            }
        }
    }

    fn bits_of(&self, wins: impl Fn(u16) -> bool) -> u32 {
        let mut bits = 0;
        for (i, &votes) in self.votes.iter().enumerate() {
            if wins(votes) {
                bits |= 1 << i;
            }
        }
        bits
    }

    /// The bits that marks may have: those of the contest's candidates.
    pub fn allowed_marks(&self) -> u32 {
        u32::MAX >> (32 - u32::from(self.candidates))
    }
}
