//! `generate DIR COUNT SEED` writes COUNT pairs NNNNN.setup and NNNNN.draws.
//! `generate --pack FILE COUNT SEED` writes them into one file: for each
//! pair the 4-byte big-endian length of the setup, the setup, and so the draws.

use std::io::Write;

fn main() {
    let arguments: Vec<String> = std::env::args().skip(1).collect();
    let arguments: Vec<&str> = arguments.iter().map(String::as_str).collect();
    match arguments[..] {
        ["--pack", file, count, seed] => pack(file, number(count), number(seed)),
        [folder, count, seed] => write(folder, number(count), number(seed)),
        _ => usage(),
    }
}

fn number(text: &str) -> u64 {
    text.parse().unwrap_or_else(|_| usage())
}

fn usage() -> ! {
    eprintln!("generate DIR COUNT SEED | generate --pack FILE COUNT SEED");
    std::process::exit(2);
}

fn write(folder: &str, count: u64, seed: u64) {
    std::fs::create_dir_all(folder).unwrap();
    for k in 0..count {
        let (setup, draws) = twin::generate::pair(seed, k);
        std::fs::write(format!("{folder}/{k:05}.setup"), setup).unwrap();
        std::fs::write(format!("{folder}/{k:05}.draws"), draws).unwrap();
    }
}

fn pack(file: &str, count: u64, seed: u64) {
    let mut out = std::io::BufWriter::new(std::fs::File::create(file).unwrap());
    let mut bytes = Vec::new();
    for k in 0..count {
        let (setup, draws) = twin::generate::pair(seed, k);
        bytes.clear();
        twin::generate::pack(&setup, &draws, &mut bytes);
        out.write_all(&bytes).unwrap();
    }
    out.flush().unwrap();
}
