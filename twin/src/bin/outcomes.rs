//! `outcomes COUNT SEED`: how the generated pairs come out.

use std::collections::BTreeMap;

fn main() {
    let arguments: Vec<u64> = std::env::args().skip(1).map(|a| a.parse().unwrap()).collect();
    let (count, seed) = (arguments[0], arguments[1]);
    let mut library = BTreeMap::new();
    let mut program = BTreeMap::new();
    let mut about = BTreeMap::new();
    let (mut setup_bytes, mut draws_bytes, mut text_bytes) = (0, 0, 0);
    for k in 0..count {
        let (setup, draws) = twin::generate::pair(seed, k);
        setup_bytes += setup.len();
        draws_bytes += draws.len();
        let text = twin::audit(&setup, &draws);
        text_bytes += text.len();
        tally(&text, &mut library);
        tally(&twin::audit_program(&setup, &draws), &mut program);
        if let Ok(read) = twin::setup::read_setup(&setup) {
            let mut note = |label: &str| *about.entry(label.to_string()).or_insert(0u64) += 1;
            note("accepted");
            if read.assertions == 256 { note("256 assertions") }
            if read.assertions >= 64 { note("64 or more assertions") }
            if read.cards == 65_535 { note("N = 65,535") }
            if read.cards <= 5 { note("N at most 5") }
            if read.batches == 200 { note("200 batches") }
            if read.contests.len() == 8 { note("8 contests") }
            if read.contests.iter().any(|c| c.candidates == 32) { note("32 candidates") }
            if setup.len() == 5_089 { note("5,089 bytes") }
            match read.terms.policy {
                twin::setup::PolicyChoice::Fixed => note("fixed"),
                _ => note("shrinking"),
            }
            if read.terms.risk_limit == 10 { note("risk limit 10") }
            if read.terms.risk_limit == 500 { note("risk limit 500") }
            if read.terms.draw_limit == 1 { note("draw limit 1") }
            if read.terms.draw_limit == 20_000 { note("draw limit 20,000") }
            for contest in &read.contests {
                match contest.kind {
                    twin::contest::Kind::Plurality => note("contests of kind 1"),
                    twin::contest::Kind::Approval => note("contests of kind 2"),
                    _ => note("contests of kind 3"),
                }
            }
        }
    }
    println!("{count} pairs, seed {seed}: {setup_bytes} bytes of setups, {draws_bytes} of draws, {text_bytes} of text");
    for (title, list) in [("setups", about), ("library form", library), ("program form", program)] {
        println!("{title}");
        for (label, number) in list {
            println!("  {label}: {number}");
        }
    }
}

/// Counts pairs by their end and by what they have, and lines by their words.
fn tally(text: &[u8], list: &mut BTreeMap<String, u64>) {
    let text = std::str::from_utf8(text).unwrap();
    let mut note = |label: &str| *list.entry(label.to_string()).or_insert(0) += 1;
    let mut has: BTreeMap<&str, bool> = BTreeMap::new();
    for line in text.lines() {
        let words: Vec<&str> = line.split(' ').collect();
        match words[..] {
            ["refused", number, "file", file, "at", _] => {
                note(&format!("pairs: refused {number:>2} file {file}"));
            }
            ["confirm"] | ["continue"] | ["full", "hand", "count"] => {
                note(&format!("lines: {line}"));
                has.insert(line, true);
            }
            ["contest", _, "upheld"] => {
                note("lines: upheld");
                has.insert("close", true);
            }
            ["contest", _, "not", "upheld"] => {
                note("lines: not upheld");
                has.insert("close", true);
            }
            ["file", "too", "long"] => note("pairs: file too long"),
            ["contest", _, "risk", _] | ["draws", _] => {}
            _ => panic!("unknown line {line}"),
        }
    }
    for label in has.keys() {
        note(&format!("pairs: with {label}"));
    }
    if text.is_empty() {
        note("pairs: empty text");
    } else if !text.contains("refused") && !text.contains("too long") {
        note("pairs: not refused, with text");
    }
}
