//! An independent second implementation of the election audit, written from
//! its documents alone (FORMAT.md, RULES.md, REFUSALS.md).
//!
//! `refusal` numbers and faults; `format` bytes to commands; `contest` ranges
//! and reported winners; `setup` the whole setup file; `assertions` pairs and
//! shares, values of a card, first bets; `betting` policies and records;
//! `audit` entering, verdict, hand count, close; `report` the printed lines;
//! `generate` pairs of files to compare two implementations on.

pub mod assertions;
pub mod audit;
pub mod betting;
pub mod contest;
pub mod format;
pub mod generate;
pub mod refusal;
pub mod report;
pub mod setup;

pub use audit::{Audit, Finding, Verdict};
pub use refusal::{Fault, File, Refusal};

use format::{next_draws_command, DrawsCommand, DrawsPhase};

/// The longest file that a program reads.
pub const MOST_BYTES: usize = 65_536;

/// The whole text for these two files, without the limit on their length.
pub fn audit(setup: &[u8], draws: &[u8]) -> Vec<u8> {
    let mut text = Vec::new();
    let outcome = match Audit::open(setup) {
        Ok(mut audit) => follow(&mut audit, draws, &mut text),
        Err(fault) => Err(fault),
    };
    if let Err(fault) = outcome {
        report::fault(&mut text, &fault);
    }
    text
}

/// The same as a program prints it: a file longer than 65,536 bytes gives
/// only `file too long`, whichever it is: both are read before either is
/// judged.
pub fn audit_program(setup: &[u8], draws: &[u8]) -> Vec<u8> {
    const TOO_LONG: &[u8] = b"file too long\n";
    if setup.len() > MOST_BYTES || draws.len() > MOST_BYTES {
        return TOO_LONG.to_vec();
    }
    audit(setup, draws)
}

/// Follows the draws file command by command, up to its first refusal.
pub fn follow(audit: &mut Audit, draws: &[u8], text: &mut Vec<u8>) -> Result<(), Fault> {
    let mut phase = DrawsPhase::Drawing;
    let mut at = 0;
    while at < draws.len() {
        let fault = |refusal| Fault { refusal, file: File::Draws, offset: at };
        let (command, width) = next_draws_command(&draws[at..], phase).map_err(fault)?;
        match command {
            DrawsCommand::Entry(shown) => {
                audit.enter(shown.place, shown.found, &shown.marks).map_err(fault)?
            }
            DrawsCommand::Verdict => report::verdict(text, &audit.verdict()),
            DrawsCommand::Escalate => {
                audit.escalate().map_err(fault)?;
                phase = DrawsPhase::Counting;
            }
            DrawsCommand::Count(shown) => {
                audit.count(shown.place, shown.found, &shown.marks).map_err(fault)?
            }
            DrawsCommand::Close => {
                let upheld = audit.close().map_err(fault)?;
                report::closing(text, &upheld);
                phase = DrawsPhase::Closed;
            }
        }
        at += width;
    }
    Ok(())
}
