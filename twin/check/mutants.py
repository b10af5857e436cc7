"""How strong are the generated pairs? Changes one place of the twin at a
time, in a copy, and tells whether COUNT pairs show the change.

    mutants.py COUNT SEED [FILE]
"""
import os
import shutil
import struct
import subprocess
import sys

HERE = os.path.dirname(os.path.abspath(__file__))
ROOT = os.path.dirname(HERE)
WORK = "/tmp/twinwork/mutants" + str(os.getpid())

# Left out, since no pair of files can show them: m standing still at 19,999
# (20,000 draws ask 20,000 bets, the last at m = 19,999), a tally that stops
# at 65,534,000 (above 999 x 65,535), approval's limit 31 (with all 32 marked
# a pair is worth 1 either way).
MUTANTS = [
    ("betting.rs", "self.peak * risk_limit >= GOAL", "self.peak * risk_limit > GOAL"),
    ("betting.rs", "GOAL.div_ceil(self.peak)", "(GOAL / self.peak)"),
    ("betting.rs", "GOAL.div_ceil(self.peak)", "GOAL.div_ceil(self.wealth.max(1))"),
    ("betting.rs", "self.wealth * bet / 1000", "(self.wealth * bet + 500) / 1000"),
    ("betting.rs", "stake * u64::from(value) / u64::from(half)", "(stake * u64::from(value)).div_ceil(u64::from(half))"),
    ("betting.rs", "(dividend / divisor).min(950)", "(dividend / divisor).min(1000)"),
    ("betting.rs", "if dividend < 0 {\n                    return 0;", "if dividend < 0 {\n                    return 1;"),
    ("betting.rs", "if value != *half &&", "if value <= *top &&"),
    ("betting.rs", "i64::from(weight + told)", "i64::from(weight + told + 1)"),
    ("betting.rs", "const MOST_TOLD: u32 = 20_000", "const MOST_TOLD: u32 = 1_000"),
    ("betting.rs", "const MOST_TOLD: u32 = 20_000", "const MOST_TOLD: u32 = 15_000"),
    ("betting.rs", "        let bet = u64::from(self.policy.bet());", "        self.policy.tell(value);\n        let bet = u64::from(self.policy.bet());"),
    ("assertions.rs", "marks.count_ones() > u32::from(most_marks)", "marks.count_ones() >= u32::from(most_marks) + 2"),
    ("assertions.rs", "marks.count_ones() > u32::from(most_marks)", "marks.count_ones() > 1 + 0 * u32::from(most_marks)"),
    ("assertions.rs", "Kind::Approval => 32", "Kind::Approval => contest.seats"),
    ("assertions.rs", "marks.count_ones() != 1", "marks == 0"),
    ("assertions.rs", "quotient.clamp(1, 950)", "quotient.clamp(0, 950)"),
    ("assertions.rs", "quotient.clamp(1, 950)", "quotient.clamp(1, 951)"),
    ("assertions.rs", "1000 * (winner - loser) / (winner + loser)", "(1000 * (winner - loser)).div_ceil(winner + loser)"),
    ("assertions.rs", "1000 * (q * winner - p * all) / ((q - p) * all)", "(1000 * (q * winner - p * all)).div_ceil((q - p) * all)"),
    ("contest.rs", "last_in <= first_out", "last_in < first_out"),
    ("contest.rs", "u64::from(q) * u64::from(v) > u64::from(p) * all", "u64::from(q) * u64::from(v) >= u64::from(p) * all"),
    ("contest.rs", "2 * u32::from(p) >= u32::from(q)", "2 * u32::from(p) > u32::from(q)"),
    ("contest.rs", "2 * u32::from(p) >= u32::from(q)", "2 * u32::from(p) + 1 >= u32::from(q)"),
    ("contest.rs", "q <= 1000", "q <= 1001"),
    ("contest.rs", "q <= 1000", "q < 1000"),
    ("contest.rs", "p < q &&", "p <= q && q > 0 &&"),
    ("contest.rs", "(2..=32)", "(2..=31)"),
    ("contest.rs", "(2..=32)", "(1..=32)"),
    ("contest.rs", "seats > candidates - 1", "seats > candidates"),
    ("contest.rs", "|| p != 0 ||", "||"),
    ("contest.rs", "|| q != 0 {", "{"),
    ("contest.rs", "if seats != 1 || !share", "if seats == 0 || !share"),
    ("contest.rs", "<= u64::from(self.seats) * u64::from(cards)", "< u64::from(self.seats) * u64::from(cards)"),
    ("contest.rs", "<= u64::from(self.seats) * u64::from(cards)", "<= u64::from(self.seats) * u64::from(cards) + 1"),
    ("contest.rs", "Kind::Approval => true", "Kind::Approval if self.seats > 99 => true"),
    ("setup.rs", "const MOST_BATCHES: u32 = 200", "const MOST_BATCHES: u32 = 201"),
    ("setup.rs", "const MOST_BATCHES: u32 = 200", "const MOST_BATCHES: u32 = 199"),
    ("setup.rs", "const MOST_CARDS: u32 = 65_535", "const MOST_CARDS: u32 = 65_536"),
    ("setup.rs", "const MOST_CARDS: u32 = 65_535", "const MOST_CARDS: u32 = 65_534"),
    ("setup.rs", "const MOST_CONTESTS: usize = 8", "const MOST_CONTESTS: usize = 7"),
    ("setup.rs", "const MOST_ASSERTIONS: u32 = 256", "const MOST_ASSERTIONS: u32 = 257"),
    ("setup.rs", "const MOST_ASSERTIONS: u32 = 256", "const MOST_ASSERTIONS: u32 = 255"),
    ("setup.rs", "more == 0 ||", ""),
    ("setup.rs", "(10..=500)", "(9..=500)"),
    ("setup.rs", "(10..=500)", "(11..=500)"),
    ("setup.rs", "(10..=500)", "(10..=501)"),
    ("setup.rs", "(10..=500)", "(10..=499)"),
    ("setup.rs", "(1..=20_000)", "(0..=20_000)"),
    ("setup.rs", "(1..=20_000)", "(2..=20_000)"),
    ("setup.rs", "(1..=20_000)", "(1..=20_001)"),
    ("setup.rs", "(1..=20_000)", "(1..=19_999)"),
    ("setup.rs", "1 if weight == 0", "1 if weight < 2"),
    ("setup.rs", "(1..=1000)", "(1..=1001)"),
    ("setup.rs", "(1..=1000)", "(1..=999)"),
    ("setup.rs", "(1..=1000)", "(2..=1000)"),
    ("setup.rs", "u32::from(votes) > cards", "u32::from(votes) > cards + 1"),
    ("setup.rs", "u32::from(votes) > cards", "u32::from(votes) >= cards"),
    ("setup.rs", "let end = at + width;", "let end = at + width; if end < file.len() { return Err(fault(Refusal::TrailingBytes)); }"),
    # The order is kept twice, by the format and by the audit: both are changed.
    ("format.rs", "matches!(code, 0x14 | 0x15)", "matches!(code, 0x13 | 0x14 | 0x15)",
     "audit.rs", "self.expect(Stage::Drawing)?;\n        self.stage", "self.stage"),
    ("format.rs", "DrawsPhase::Closed => false", "DrawsPhase::Closed => code == 0x15",
     "audit.rs", "        self.stage = Stage::Closed;\n", ""),
    ("format.rs", "matches!(code, 0x11 | 0x12 | 0x13)", "matches!(code, 0x11 | 0x12 | 0x13 | 0x15)",
     "audit.rs", "self.expect(Stage::Counting)?;\n        if self.counted <", "if self.counted <"),
    ("format.rs", "matches!(code, 0x14 | 0x15),", "matches!(code, 0x12 | 0x14 | 0x15),"),
    ("audit.rs", "u32::from(place) > self.cards", "u32::from(place) > self.cards + 1"),
    ("audit.rs", "place == 0 ||", ""),
    ("audit.rs", "if found > 1", "if found > 2"),
    ("audit.rs", "|| (found == 0 && *marks != 0)", ""),
    ("audit.rs", "marks & !allowed != 0 ||", ""),
    ("audit.rs", "if self.unsettled == 0 || self.draws == self.draw_limit {\n            return Err", "if self.unsettled == 0 {\n            return Err"),
    ("audit.rs", "if self.unsettled == 0 || self.draws == self.draw_limit {\n            return Err", "if self.draws == self.draw_limit {\n            return Err"),
    ("audit.rs", ".filter(|line| !line.settled)", ".filter(|line| !line.settled || line.record.peak < 50_000_000_000)"),
    ("audit.rs", "line.record.risk().max(*risk)", "if *risk == 0 { line.record.risk() } else { line.record.risk().min(*risk) }"),
    ("audit.rs", "if self.unsettled == 0 {\n            Finding::Confirm\n        } else if self.draws == self.draw_limit {\n            Finding::FullHandCount", "if self.draws == self.draw_limit {\n            Finding::FullHandCount\n        } else if self.unsettled == 0 {\n            Finding::Confirm"),
    ("audit.rs", "u32::from(place) != self.counted + 1", "u32::from(place) < self.counted + 1"),
    ("audit.rs", "u32::from(place) != self.counted + 1", "u32::from(place) > self.counted + 1"),
    ("audit.rs", "u32::from(place) != self.counted + 1", "place != (self.counted as u16).wrapping_add(1).max(1)"),
    ("audit.rs", "self.counted < self.cards {", "self.counted + 1 < self.cards {"),
    ("audit.rs", "line.record.tally <= half_of_all", "line.record.tally < half_of_all"),
    ("audit.rs", "for line in &mut self.lines {\n            let value", "for line in self.lines.iter_mut().filter(|line| !line.settled) {\n            let value"),
    ("audit.rs", "        if found {\n            self.assorter", "        if found || self.assorter.half() > 1 {\n            self.assorter"),
    ("audit.rs", "let found = self.shown(place, found, marks)?;\n        if self.unsettled", "if self.is_spent() { return Err(Refusal::NoDrawsLeft); }\n        let found = self.shown(place, found, marks)?;\n        if self.unsettled"),
    ("audit.rs", "let found = self.shown(place, found, marks)?;\n        if u32::from(place)", "if u32::from(place) != self.counted + 1 { return Err(Refusal::NotTheNextPlace); }\n        let found = self.shown(place, found, marks)?;\n        if u32::from(place)"),
    ("lib.rs", "draws.len() > MOST_BYTES &&", "draws.len() >= MOST_BYTES &&"),
    ("lib.rs", "draws.len() > MOST_BYTES &&", "draws.len() > MOST_BYTES + 1 &&"),
    ("lib.rs", "setup.len() > MOST_BYTES {", "setup.len() >= MOST_BYTES {"),
    ("lib.rs", "&& setup::read_setup(setup).is_ok()", ""),
]


def parts(path):
    b = open(path, "rb").read()
    at, out = 0, []
    while at < len(b):
        n = struct.unpack(">I", b[at:at + 4])[0]
        out.append(b[at + 4:at + 4 + n])
        at += 4 + n
    return out


def run(*command):
    return subprocess.run(command, stdout=subprocess.DEVNULL, stderr=subprocess.PIPE)


def main():
    count, seed = sys.argv[1], sys.argv[2]
    shutil.rmtree(WORK, ignore_errors=True)
    shutil.copytree(ROOT, WORK, ignore=shutil.ignore_patterns("target", "check"))
    pack, program = WORK + "/pack", {}
    run(ROOT + "/target/release/generate", "--pack", pack, count, seed)
    modes = ["--pack", "--pack-program"]
    for mode in modes:
        run(ROOT + "/target/release/twin-audit", mode, pack, WORK + "/right" + mode)
        program[mode] = parts(WORK + "/right" + mode)
    missed = 0
    only = sys.argv[3] if len(sys.argv) > 3 else ""
    for mutant in MUTANTS:
        if only not in mutant[0]:
            continue
        sources = {}
        for i in range(0, len(mutant), 3):
            file, old, new = mutant[i:i + 3]
            path = WORK + "/src/" + file
            sources[path] = open(path).read()
            assert old in sources[path] and old != new, mutant
            open(path, "w").write(sources[path].replace(old, new, 1))
        file, old, new = mutant[:3]
        built = run("cargo", "build", "--release", "--offline", "--manifest-path", WORK + "/Cargo.toml", "--bin", "twin-audit")
        for path in sources:
            open(path, "w").write(sources[path])
        if built.returncode:
            print("DOES NOT BUILD", file, repr(new), built.stderr.decode()[-300:])
            continue
        shown = []
        for mode in modes:
            done = run(WORK + "/target/release/twin-audit", mode, pack, WORK + "/other")
            if done.returncode:
                shown.append("panic")
            else:
                shown.append(sum(a != b for a, b in zip(program[mode], parts(WORK + "/other"))))
        if shown == [0, 0]:
            missed += 1
        print("MISSED" if shown == [0, 0] else "shown ", shown, file, repr(old[:50]), "->", repr(new[:60]), flush=True)
    print(missed, "missed of", len(MUTANTS))


if __name__ == "__main__":
    main()
