//! Refusals by number, and a fault in a file. (REFUSALS.md)

#[derive(Clone, Copy, PartialEq, Eq, Debug)]
pub enum Refusal {
    EndsEarly,
    OutOfOrder,
    BadBatch,
    BadTerms,
    BadContest,
    TooManyAssertions,
    TooManyVotes,
    NoWinners,
    TrailingBytes,
    BadPlace,
    BadFound,
    BadMarks,
    NoDrawsLeft,
    NotTheNextPlace,
    CountUnfinished,
}

impl Refusal {
    pub fn number(self) -> u32 {
        match self {
            Refusal::EndsEarly => 1,
            Refusal::OutOfOrder => 2,
            Refusal::BadBatch => 3,
            Refusal::BadTerms => 4,
            Refusal::BadContest => 5,
            Refusal::TooManyAssertions => 6,
            Refusal::TooManyVotes => 7,
            Refusal::NoWinners => 8,
            Refusal::TrailingBytes => 9,
            // 10 (no room): the lists here grow as needed.
            Refusal::BadPlace => 11,
            Refusal::BadFound => 12,
            Refusal::BadMarks => 13,
            Refusal::NoDrawsLeft => 14,
            Refusal::NotTheNextPlace => 15,
            Refusal::CountUnfinished => 16,
            // 17 (report's buffer), 18 (index), 19 (no setup): cannot occur here.
        }
    }
}

#[derive(Clone, Copy, PartialEq, Eq, Debug)]
pub enum File {
    Setup,
    Draws,
}

impl File {
    pub fn number(self) -> u32 {
        match self {
            File::Setup => 1,
            File::Draws => 2,
        }
    }
}

/// A refusal met in a file, with the offset of the command that met it.
#[derive(Clone, Copy, PartialEq, Eq, Debug)]
pub struct Fault {
    pub refusal: Refusal,
    pub file: File,
    pub offset: usize,
}
