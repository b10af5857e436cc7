//! Policies and the record of an assertion. (RULES.md "Policies", "Wealth,
//! peak, settled, risk")
//!
//! Sums are in 64 bits. A record that is not settled has peak × r < 10^12
//! with r ≥ 10, so its wealth is below 10^11; times a bet or a value of at
//! most 1,000 it stays below 10^14.

pub const START: u64 = 1_000_000_000;
const GOAL: u64 = 1_000_000_000_000;
const MOST_TALLY: u64 = 65_535_000;
const MOST_TOLD: u32 = 20_000;

#[derive(Clone, Copy, PartialEq, Eq, Debug)]
pub enum Policy {
    Fixed { bet: u32 },
    Shrinking { first_bet: u32, weight: u32, half: u32, top: u32, told: u32, excess: i64 },
}

impl Policy {
    #[inline]
    pub fn bet(&self) -> u32 {
        match *self {
            Policy::Fixed { bet } => bet,
            Policy::Shrinking { first_bet, weight, half, top, told, excess } => {
                let span = i64::from(top - half);
                let dividend = i64::from(weight) * i64::from(first_bet) * span + 1000 * excess;
                if dividend < 0 {
                    return 0;
                }
                let divisor = span * i64::from(weight + told);
                (dividend / divisor).min(950) as u32
            }
        }
    }

    #[inline]
    pub fn tell(&mut self, value: u32) {
        if let Policy::Shrinking { half, top, told, excess, .. } = self {
            let value = value.min(*top);
            if value != *half && *told < MOST_TOLD {
                *told += 1;
                *excess += i64::from(value) - i64::from(*half);
            }
        }
    }
}

#[derive(Clone, Copy, PartialEq, Eq, Debug)]
pub struct Record {
    pub policy: Policy,
    pub wealth: u64,
    pub peak: u64,
    pub tally: u64,
}

impl Record {
    pub fn start(policy: Policy) -> Record {
        Record { policy, wealth: START, peak: START, tally: 0 }
    }

    #[inline]
    pub fn is_settled(&self, risk_limit: u64) -> bool {
        self.peak * risk_limit >= GOAL
    }

    /// Measured risk in thousandths: 10^12 ÷ peak, rounded up.
    pub fn risk(&self) -> u64 {
        GOAL.div_ceil(self.peak)
    }

    /// What a card of this value does to a record that is not settled.
    #[inline]
    pub fn play(&mut self, half: u32, value: u32) {
        let bet = u64::from(self.policy.bet());
        let stake = self.wealth * bet / 1000;
        let payoff = stake * u64::from(value) / u64::from(half);
        self.wealth = self.wealth - stake + payoff;
        self.peak = self.peak.max(self.wealth);
        self.policy.tell(value);
    }

    pub fn add_to_tally(&mut self, value: u32) {
        self.tally = (self.tally + u64::from(value)).min(MOST_TALLY);
    }
}
