//! The printed lines. (FORMAT.md "What programs read and print")

use crate::audit::{Finding, Verdict};
use crate::refusal::Fault;
use std::io::Write;

pub fn fault(text: &mut Vec<u8>, fault: &Fault) {
    let (number, file) = (fault.refusal.number(), fault.file.number());
    line(text, format_args!("refused {number} file {file} at {}", fault.offset));
}

pub fn verdict(text: &mut Vec<u8>, verdict: &Verdict) {
    for (contest, risk) in (1u32..).zip(&verdict.risks) {
        line(text, format_args!("contest {contest} risk {risk}"));
    }
    line(text, format_args!("draws {}", verdict.draws));
    let finding = match verdict.finding {
        Finding::Confirm => "confirm",
        Finding::Continue => "continue",
        Finding::FullHandCount => "full hand count",
    };
    line(text, format_args!("{finding}"));
}

pub fn closing(text: &mut Vec<u8>, upheld: &[bool]) {
    for (contest, upheld) in (1u32..).zip(upheld) {
        let not = if *upheld { "" } else { "not " };
        line(text, format_args!("contest {contest} {not}upheld"));
    }
}

fn line(text: &mut Vec<u8>, words: std::fmt::Arguments) {
    // Writing to a Vec cannot fail.
    text.write_fmt(words).unwrap();
    text.push(b'\n');
}
