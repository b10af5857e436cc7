//! `twin-audit SETUP DRAWS` prints what the program prints for two files.
//! `twin-audit --pack IN OUT` judges every pair of a packed file (library
//! form) and writes each text behind its 4-byte big-endian length;
//! `twin-audit --pack-program IN OUT` does it with the program's limit.

use std::io::{ErrorKind, Write};

fn main() {
    let arguments: Vec<String> = std::env::args().skip(1).collect();
    let arguments: Vec<&str> = arguments.iter().map(String::as_str).collect();
    match arguments[..] {
        ["--pack", from, to] => pack(from, to, twin::audit),
        ["--pack-program", from, to] => pack(from, to, twin::audit_program),
        [setup, draws] => {
            let text = twin::audit_program(&bytes_of(setup), &bytes_of(draws));
            std::io::stdout().write_all(&text).unwrap();
        }
        _ => {
            eprintln!("twin-audit SETUP DRAWS | --pack IN OUT | --pack-program IN OUT");
            std::process::exit(2);
        }
    }
}

/// A missing file is empty; one that cannot be read ends the run.
fn bytes_of(path: &str) -> Vec<u8> {
    match std::fs::read(path) {
        Ok(bytes) => bytes,
        Err(error) if error.kind() == ErrorKind::NotFound => Vec::new(),
        Err(_) => std::process::exit(1),
    }
}

fn pack(from: &str, to: &str, judge: fn(&[u8], &[u8]) -> Vec<u8>) {
    let packed = std::fs::read(from).unwrap();
    let mut out = std::io::BufWriter::new(std::fs::File::create(to).unwrap());
    let mut rest = &packed[..];
    while !rest.is_empty() {
        let setup = take(&mut rest);
        let draws = take(&mut rest);
        let text = judge(setup, draws);
        out.write_all(&(text.len() as u32).to_be_bytes()).unwrap();
        out.write_all(&text).unwrap();
    }
    out.flush().unwrap();
}

fn take<'a>(rest: &mut &'a [u8]) -> &'a [u8] {
    let (length, behind) = rest.split_at(4);
    let length = u32::from_be_bytes(length.try_into().unwrap()) as usize;
    let (part, behind) = behind.split_at(length);
    *rest = behind;
    part
}
