//! A whole setup file: accepted, or refused with its first fault.
//! (FORMAT.md, REFUSALS.md "The order of the tests")

use crate::contest::Contest;
use crate::format::{next_setup_command, SetupCommand, SetupPhase};
use crate::refusal::{Fault, File, Refusal};

#[derive(Clone, Copy, PartialEq, Eq, Debug)]
pub enum PolicyChoice {
    Fixed,
    Shrinking { weight: u16 },
}

#[derive(Clone, Copy, PartialEq, Eq, Debug)]
pub struct Terms {
    pub risk_limit: u16,
    pub draw_limit: u16,
    pub policy: PolicyChoice,
}

#[derive(Clone, PartialEq, Eq, Debug)]
pub struct Setup {
    pub batches: u32,
    pub cards: u32,
    pub terms: Terms,
    pub contests: Vec<Contest>,
    pub assertions: u32,
}

const MOST_BATCHES: u32 = 200;
const MOST_CARDS: u32 = 65_535;
const MOST_CONTESTS: usize = 8;
const MOST_ASSERTIONS: u32 = 256;

pub fn read_setup(file: &[u8]) -> Result<Setup, Fault> {
    let mut batches = 0;
    let mut cards = 0;
    let mut terms = None;
    let mut contests: Vec<Contest> = Vec::new();
    let mut assertions = 0;

    let mut phase = SetupPhase::Start;
    let mut at = 0;
    loop {
        let fault = |refusal| Fault { refusal, file: File::Setup, offset: at };
        let (command, width) = next_setup_command(&file[at..], phase).map_err(fault)?;
        match command {
            SetupCommand::Batch { cards: more } => {
                if more == 0 || batches == MOST_BATCHES || cards + u32::from(more) > MOST_CARDS {
                    return Err(fault(Refusal::BadBatch));
                }
                batches += 1;
                cards += u32::from(more);
                phase = SetupPhase::AfterBatch;
            }
            SetupCommand::Terms { risk_limit, draw_limit, policy, weight } => {
                let read = terms_from(risk_limit, draw_limit, policy, weight);
                terms = Some(read.ok_or(fault(Refusal::BadTerms))?);
                phase = SetupPhase::AfterTerms;
            }
            SetupCommand::Contest { kind, candidates, seats, p, q } => {
                let contest = Contest::from_operands(kind, candidates, seats, p, q)
                    .filter(|_| contests.len() < MOST_CONTESTS)
                    .ok_or(fault(Refusal::BadContest))?;
                if assertions + contest.assertion_count() > MOST_ASSERTIONS {
                    return Err(fault(Refusal::TooManyAssertions));
                }
                assertions += contest.assertion_count();
                contests.push(contest);
                phase = SetupPhase::InContest;
            }
            SetupCommand::Candidate { votes } => {
                if u32::from(votes) > cards {
                    return Err(fault(Refusal::TooManyVotes));
                }
                // A candidate stands only behind its contest.
                let contest = contests.last_mut().unwrap();
                contest.votes.push(votes);
                if contest.is_complete() {
                    if !contest.votes_fit(cards) {
                        return Err(fault(Refusal::TooManyVotes));
                    }
                    if contest.winners().is_none() {
                        return Err(fault(Refusal::NoWinners));
                    }
                    phase = SetupPhase::AfterContest;
                }
            }
            SetupCommand::Open => {
                let end = at + width;
                if end < file.len() {
                    return Err(Fault {
                        refusal: Refusal::TrailingBytes,
                        file: File::Setup,
                        offset: end,
                    });
                }
                // Open stands only behind terms.
                let terms = terms.unwrap();
                return Ok(Setup { batches, cards, terms, contests, assertions });
            }
        }
        at += width;
    }
}

fn terms_from(risk_limit: u16, draw_limit: u16, policy: u8, weight: u16) -> Option<Terms> {
    if !(10..=500).contains(&risk_limit) || !(1..=20_000).contains(&draw_limit) {
        return None;
    }
    let policy = match policy {
        1 if weight == 0 => PolicyChoice::Fixed,
        2 if (1..=1000).contains(&weight) => PolicyChoice::Shrinking { weight },
        _ => return None,
    };
    Some(Terms { risk_limit, draw_limit, policy })
}
