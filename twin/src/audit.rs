//! An audit: opening, entering draws, verdict, escalation, hand count,
//! close. (RULES.md from "Entering a draw" on, REFUSALS.md)

use crate::assertions::{list_assertions, Assorter, Planned};
use crate::betting::{Policy, Record};
use crate::refusal::{Fault, Refusal};
use crate::setup::{read_setup, PolicyChoice, Setup, Terms};

#[derive(Clone, Copy, PartialEq, Eq, Debug)]
pub enum Finding {
    Confirm,
    Continue,
    FullHandCount,
}

#[derive(Clone, PartialEq, Eq, Debug)]
pub struct Verdict {
    /// The measured risk of each contest.
    pub risks: Vec<u64>,
    pub draws: u32,
    pub finding: Finding,
}

#[derive(Clone, Copy, PartialEq, Eq, Debug)]
enum Stage {
    Drawing,
    Counting,
    Closed,
}

/// An assertion with its record.
#[derive(Clone, Copy, Debug)]
struct Line {
    contest: u8,
    assorter: Assorter,
    settled: bool,
    record: Record,
}

#[derive(Clone, Debug)]
pub struct Audit {
    cards: u32,
    risk_limit: u64,
    draw_limit: u32,
    contests: usize,
    /// The bits that may be marked in each contest; 0 where there is none.
    allowed: [u32; 8],
    lines: Vec<Line>,
    unsettled: usize,
    draws: u32,
    counted: u32,
    stage: Stage,
}

impl Audit {
    /// Reads a setup file and opens the audit that it describes.
    pub fn open(file: &[u8]) -> Result<Audit, Fault> {
        Ok(Audit::from_setup(&read_setup(file)?))
    }

    pub fn from_setup(setup: &Setup) -> Audit {
        let mut allowed = [0; 8];
        let mut lines = Vec::new();
        let mut planned = Vec::new();
        for (index, contest) in setup.contests.iter().enumerate() {
            allowed[index] = contest.allowed_marks();
            planned.clear();
            // An accepted setup has winners in each contest.
            list_assertions(contest, contest.winners().unwrap(), &mut planned);
            for one in &planned {
                lines.push(Line {
                    contest: index as u8,
                    assorter: one.assorter,
                    settled: false,
                    record: Record::start(policy_of(&setup.terms, one)),
                });
            }
        }
        Audit {
            cards: setup.cards,
            risk_limit: u64::from(setup.terms.risk_limit),
            draw_limit: u32::from(setup.terms.draw_limit),
            contests: setup.contests.len(),
            allowed,
            unsettled: lines.len(),
            lines,
            draws: 0,
            counted: 0,
            stage: Stage::Drawing,
        }
    }

    /// Enters a drawn card.
    pub fn enter(&mut self, place: u16, found: u8, marks: &[u32; 8]) -> Result<(), Refusal> {
        self.expect(Stage::Drawing)?;
        let found = self.shown(place, found, marks)?;
        if self.unsettled == 0 || self.draws == self.draw_limit {
            return Err(Refusal::NoDrawsLeft);
        }
        for line in self.lines.iter_mut().filter(|line| !line.settled) {
            let value = line.value(found, marks);
            line.record.play(line.assorter.half(), value);
            if line.record.is_settled(self.risk_limit) {
                line.settled = true;
                self.unsettled -= 1;
            }
        }
        self.draws += 1;
        Ok(())
    }

    pub fn verdict(&self) -> Verdict {
        let mut risks = vec![0; self.contests];
        for line in &self.lines {
            let risk = &mut risks[usize::from(line.contest)];
            *risk = line.record.risk().max(*risk);
        }
        let finding = if self.unsettled == 0 {
            Finding::Confirm
        } else if self.draws == self.draw_limit {
            Finding::FullHandCount
        } else {
            Finding::Continue
        };
        Verdict { risks, draws: self.draws, finding }
    }

    /// Ends the drawing and begins the hand count.
    pub fn escalate(&mut self) -> Result<(), Refusal> {
        self.expect(Stage::Drawing)?;
        self.stage = Stage::Counting;
        Ok(())
    }

    /// Counts the next card of the hand count.
    pub fn count(&mut self, place: u16, found: u8, marks: &[u32; 8]) -> Result<(), Refusal> {
        self.expect(Stage::Counting)?;
        let found = self.shown(place, found, marks)?;
        if u32::from(place) != self.counted + 1 {
            return Err(Refusal::NotTheNextPlace);
        }
        for line in &mut self.lines {
            let value = line.value(found, marks);
            line.record.add_to_tally(value);
        }
        self.counted += 1;
        Ok(())
    }

    /// Closes the hand count: of each contest whether it is upheld.
    pub fn close(&mut self) -> Result<Vec<bool>, Refusal> {
        self.expect(Stage::Counting)?;
        if self.counted < self.cards {
            return Err(Refusal::CountUnfinished);
        }
        let mut upheld = vec![true; self.contests];
        for line in &self.lines {
            let half_of_all = u64::from(line.assorter.half()) * u64::from(self.cards);
            if line.record.tally <= half_of_all {
                upheld[usize::from(line.contest)] = false;
            }
        }
        self.stage = Stage::Closed;
        Ok(upheld)
    }

    /// The tests that an entry and a count share, in their order; answers
    /// whether the card was found.
    fn shown(&self, place: u16, found: u8, marks: &[u32; 8]) -> Result<bool, Refusal> {
        if place == 0 || u32::from(place) > self.cards {
            return Err(Refusal::BadPlace);
        }
        if found > 1 {
            return Err(Refusal::BadFound);
        }
        for (marks, allowed) in marks.iter().zip(&self.allowed) {
            if marks & !allowed != 0 || (found == 0 && *marks != 0) {
                return Err(Refusal::BadMarks);
            }
        }
        Ok(found == 1)
    }

    fn expect(&self, stage: Stage) -> Result<(), Refusal> {
        if self.stage == stage { Ok(()) } else { Err(Refusal::OutOfOrder) }
    }

    pub fn cards(&self) -> u32 {
        self.cards
    }

    pub fn draws(&self) -> u32 {
        self.draws
    }

    pub fn draw_limit(&self) -> u32 {
        self.draw_limit
    }

    pub fn counted(&self) -> u32 {
        self.counted
    }

    pub fn assertions(&self) -> usize {
        self.lines.len()
    }

    pub fn unsettled(&self) -> usize {
        self.unsettled
    }

    /// Whether escalation has not come yet.
    pub fn is_drawing(&self) -> bool {
        self.stage == Stage::Drawing
    }

    /// Whether no further entry is taken.
    pub fn is_spent(&self) -> bool {
        self.unsettled == 0 || self.draws == self.draw_limit
    }
}

impl Line {
    /// A missing card has value 0 for every assertion.
    #[inline]
    fn value(&self, found: bool, marks: &[u32; 8]) -> u32 {
        if found {
            self.assorter.value(marks[usize::from(self.contest & 7)])
        } else {
            0
        }
    }
}

fn policy_of(terms: &Terms, planned: &Planned) -> Policy {
    match terms.policy {
        PolicyChoice::Fixed => Policy::Fixed { bet: planned.first_bet },
        PolicyChoice::Shrinking { weight } => Policy::Shrinking {
            first_bet: planned.first_bet,
            weight: u32::from(weight),
            half: planned.assorter.half(),
            top: planned.assorter.top(),
            told: 0,
            excess: 0,
        },
    }
}
