//! Assertions: which there are, what a card is worth to each, the first bet.
//! (RULES.md "Assertions", "The first bet")

use crate::contest::{Contest, Kind};

#[derive(Clone, Copy, PartialEq, Eq, Debug)]
pub enum Assorter {
    /// `most_marks` is K in plurality and 32, no limit, in approval.
    Pair { winner: u8, loser: u8, most_marks: u8 },
    Share { winner: u8, p: u16, q: u16 },
}

impl Assorter {
    pub fn half(self) -> u32 {
        match self {
            Assorter::Pair { .. } => 1,
            Assorter::Share { p, .. } => u32::from(p),
        }
    }

    pub fn top(self) -> u32 {
        match self {
            Assorter::Pair { .. } => 2,
            Assorter::Share { q, .. } => u32::from(q),
        }
    }

    /// The value of a found card with these marks for the contest.
    #[inline]
    pub fn value(self, marks: u32) -> u32 {
        match self {
            Assorter::Pair { winner, loser, most_marks } => {
                if marks.count_ones() > u32::from(most_marks) {
                    return 1;
                }
                let for_winner = marks >> winner & 1;
                let for_loser = marks >> loser & 1;
                1 + for_winner - for_loser
            }
            Assorter::Share { winner, p, q } => {
                if marks.count_ones() != 1 {
                    u32::from(p)
                } else if marks >> winner & 1 == 1 {
                    u32::from(q)
                } else {
                    0
                }
            }
        }
    }
}

/// An assertion as it is planned: its assorter and its first bet.
#[derive(Clone, Copy, PartialEq, Eq, Debug)]
pub struct Planned {
    pub assorter: Assorter,
    pub first_bet: u32,
}

/// Appends the assertions of a contest that has reported winners, in order:
/// winners in candidate order, under each the losers in candidate order.
pub fn list_assertions(contest: &Contest, winners: u32, out: &mut Vec<Planned>) {
    let is_winner = |i: u8| winners >> i & 1 == 1;
    let votes = |i: u8| u64::from(contest.votes[usize::from(i)]);
    for winner in (0..contest.candidates).filter(|&i| is_winner(i)) {
        let most_marks = match contest.kind {
            Kind::Plurality => contest.seats,
            Kind::Approval => 32,
            Kind::Supermajority { p, q } => {
                let first_bet = share_bet(p, q, votes(winner), contest.all_votes());
                out.push(Planned { assorter: Assorter::Share { winner, p, q }, first_bet });
                continue;
            }
        };
        for loser in (0..contest.candidates).filter(|&i| !is_winner(i)) {
            let first_bet = pair_bet(votes(winner), votes(loser));
            out.push(Planned { assorter: Assorter::Pair { winner, loser, most_marks }, first_bet });
        }
    }
}

/// Of a winner with more votes than the loser.
pub fn pair_bet(winner: u64, loser: u64) -> u32 {
    in_bet_range(1000 * (winner - loser) / (winner + loser))
}

/// Of a winner with q × votes above p × all.
pub fn share_bet(p: u16, q: u16, winner: u64, all: u64) -> u32 {
    let (p, q) = (u64::from(p), u64::from(q));
    in_bet_range(1000 * (q * winner - p * all) / ((q - p) * all))
}

fn in_bet_range(quotient: u64) -> u32 {
    quotient.clamp(1, 950) as u32
}
