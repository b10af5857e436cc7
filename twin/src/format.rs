//! Bytes to commands, for both files. A command that may not stand where it
//! is meets 2; only then is it tested whether the file ends inside it (1).
//! (FORMAT.md)

use crate::refusal::Refusal;

#[derive(Clone, Copy, PartialEq, Eq, Debug)]
pub enum SetupCommand {
    /// Names are not tested and not needed for an audit.
    Batch { cards: u16 },
    Terms { risk_limit: u16, draw_limit: u16, policy: u8, weight: u16 },
    Contest { kind: u8, candidates: u8, seats: u8, p: u16, q: u16 },
    Candidate { votes: u16 },
    Open,
}

/// What came before, as far as it decides what may stand next.
#[derive(Clone, Copy, PartialEq, Eq, Debug)]
pub enum SetupPhase {
    Start,
    AfterBatch,
    AfterTerms,
    InContest,
    AfterContest,
}

/// A card as an entry or a count shows it, untested.
#[derive(Clone, Copy, PartialEq, Eq, Debug)]
pub struct Shown {
    pub place: u16,
    pub found: u8,
    pub marks: [u32; 8],
}

#[derive(Clone, Copy, PartialEq, Eq, Debug)]
pub enum DrawsCommand {
    Entry(Shown),
    Verdict,
    Escalate,
    Count(Shown),
    Close,
}

#[derive(Clone, Copy, PartialEq, Eq, Debug)]
pub enum DrawsPhase {
    Drawing,
    Counting,
    Closed,
}

fn two(bytes: &[u8], at: usize) -> u16 {
    u16::from_be_bytes([bytes[at], bytes[at + 1]])
}

fn four(bytes: &[u8], at: usize) -> u32 {
    u32::from_be_bytes([bytes[at], bytes[at + 1], bytes[at + 2], bytes[at + 3]])
}

/// The command at the front, and its whole width.
pub fn next_setup_command(
    rest: &[u8],
    phase: SetupPhase,
) -> Result<(SetupCommand, usize), Refusal> {
    let code = *rest.first().ok_or(Refusal::EndsEarly)?;
    let may_stand = match phase {
        SetupPhase::Start => code == 0x01,
        SetupPhase::AfterBatch => code == 0x01 || code == 0x02,
        SetupPhase::AfterTerms => code == 0x03,
        SetupPhase::InContest => code == 0x04,
        SetupPhase::AfterContest => code == 0x03 || code == 0x05,
    };
    if !may_stand {
        return Err(Refusal::OutOfOrder);
    }
    let width = match code {
        0x01 | 0x04 => 11,
        0x02 | 0x03 => 8,
        _ => 1,
    };
    if rest.len() < width {
        return Err(Refusal::EndsEarly);
    }
    let command = match code {
        0x01 => SetupCommand::Batch { cards: two(rest, 9) },
        0x02 => SetupCommand::Terms {
            risk_limit: two(rest, 1),
            draw_limit: two(rest, 3),
            policy: rest[5],
            weight: two(rest, 6),
        },
        0x03 => SetupCommand::Contest {
            kind: rest[1],
            candidates: rest[2],
            seats: rest[3],
            p: two(rest, 4),
            q: two(rest, 6),
        },
        0x04 => SetupCommand::Candidate { votes: two(rest, 9) },
        _ => SetupCommand::Open,
    };
    Ok((command, width))
}

/// The command at the front of a rest that is not empty, and its whole width.
pub fn next_draws_command(
    rest: &[u8],
    phase: DrawsPhase,
) -> Result<(DrawsCommand, usize), Refusal> {
    let code = *rest.first().ok_or(Refusal::EndsEarly)?;
    let may_stand = match phase {
        DrawsPhase::Drawing => matches!(code, 0x11 | 0x12 | 0x13),
        DrawsPhase::Counting => matches!(code, 0x14 | 0x15),
        DrawsPhase::Closed => false,
    };
    if !may_stand {
        return Err(Refusal::OutOfOrder);
    }
    let width = if matches!(code, 0x11 | 0x14) { 36 } else { 1 };
    if rest.len() < width {
        return Err(Refusal::EndsEarly);
    }
    let command = match code {
        0x11 => DrawsCommand::Entry(shown(rest)),
        0x12 => DrawsCommand::Verdict,
        0x13 => DrawsCommand::Escalate,
        0x14 => DrawsCommand::Count(shown(rest)),
        _ => DrawsCommand::Close,
    };
    Ok((command, width))
}

fn shown(bytes: &[u8]) -> Shown {
    let mut marks = [0; 8];
    for (contest, mark) in marks.iter_mut().enumerate() {
        *mark = four(bytes, 4 + 4 * contest);
    }
    Shown { place: two(bytes, 1), found: bytes[3], marks }
}
