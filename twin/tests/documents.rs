//! The worked examples of the documents.

use twin::assertions::{list_assertions, pair_bet, share_bet, Assorter};
use twin::audit::{Audit, Finding};
use twin::betting::{Policy, Record};
use twin::contest::{Contest, Kind};
use twin::setup::read_setup;
use twin::{audit, audit_program, Refusal};

const ONE: &[u8] = include_bytes!("../../examples/one-contest/setup.bin");
const BOARD: &[u8] = include_bytes!("../../examples/board/setup.bin");

fn text(setup: &[u8], draws: &[u8]) -> String {
    String::from_utf8(audit(setup, draws)).unwrap()
}

/// The worked example with the bytes at `at` replaced.
fn with(at: usize, bytes: &[u8]) -> Vec<u8> {
    let mut file = ONE.to_vec();
    file[at..at + bytes.len()].copy_from_slice(bytes);
    file
}

fn batch(cards: u16) -> Vec<u8> {
    let mut bytes = b"\x01BOX-0001".to_vec();
    bytes.extend(cards.to_be_bytes());
    bytes
}

fn terms(risk: u16, draws: u16, policy: u8, weight: u16) -> Vec<u8> {
    let mut bytes = vec![2];
    bytes.extend(risk.to_be_bytes());
    bytes.extend(draws.to_be_bytes());
    bytes.push(policy);
    bytes.extend(weight.to_be_bytes());
    bytes
}

fn contest(kind: u8, c: u8, k: u8, p: u16, q: u16, votes: &[u16]) -> Vec<u8> {
    let mut bytes = vec![3, kind, c, k];
    bytes.extend(p.to_be_bytes());
    bytes.extend(q.to_be_bytes());
    for v in votes {
        bytes.extend(b"\x04NAME    ");
        bytes.extend(v.to_be_bytes());
    }
    bytes
}

fn joined(parts: &[Vec<u8>]) -> Vec<u8> {
    parts.concat()
}

/// A setup of one contest of 100 cards.
fn of_contest(contest: Vec<u8>) -> Vec<u8> {
    joined(&[batch(100), terms(50, 400, 1, 0), contest, vec![5]])
}

fn shown(code: u8, place: u16, found: u8, marks: &[u32]) -> Vec<u8> {
    let mut bytes = vec![code];
    bytes.extend(place.to_be_bytes());
    bytes.push(found);
    for i in 0..8 {
        bytes.extend(marks.get(i).copied().unwrap_or(0).to_be_bytes());
    }
    bytes
}

fn entry(place: u16, found: u8, marks: &[u32]) -> Vec<u8> {
    shown(0x11, place, found, marks)
}

fn count(place: u16, found: u8, marks: &[u32]) -> Vec<u8> {
    shown(0x14, place, found, marks)
}

fn reported(kind: Kind, seats: u8, votes: &[u16]) -> Option<u32> {
    Contest { kind, candidates: votes.len() as u8, seats, votes: votes.to_vec() }.winners()
}

#[test]
fn format_setup_faults() {
    assert_eq!(ONE.len(), 50);
    assert_eq!(text(ONE, b""), "");
    assert_eq!(text(&with(12, &[0, 9]), b""), "refused 4 file 1 at 11\n");
    assert_eq!(text(&ONE[..49], b""), "refused 1 file 1 at 49\n");
    assert_eq!(text(&ONE[..40], b""), "refused 1 file 1 at 38\n");
    assert_eq!(text(b"", b""), "refused 1 file 1 at 0\n");
    assert_eq!(text(&[ONE, b"\x05"].concat(), b""), "refused 9 file 1 at 50\n");
}

#[test]
fn refusals_offsets() {
    assert_eq!(text(b"\x02", b""), "refused 2 file 1 at 0\n");
    assert_eq!(text(&[batch(1), vec![2]].concat(), b""), "refused 1 file 1 at 11\n");
    assert_eq!(text(&batch(1), b""), "refused 1 file 1 at 11\n");
    let nine = joined(&[batch(1), terms(9, 400, 1, 0)]);
    assert_eq!(text(&nine, b""), "refused 4 file 1 at 11\n");
    assert_eq!(text(&with(47, &[0, 60]), b""), "refused 7 file 1 at 38\n");
    let fifty = of_contest(contest(1, 2, 1, 0, 0, &[50, 50]));
    assert_eq!(text(&fifty, b""), "refused 8 file 1 at 38\n");
    let fifty_one = of_contest(contest(1, 2, 1, 0, 0, &[51, 51]));
    assert_eq!(text(&fifty_one, b""), "refused 7 file 1 at 38\n");
    // The range example: 60 and 40 may, 61 and 40 may not; approval 90 and 80 may.
    assert_eq!(text(&of_contest(contest(1, 2, 1, 0, 0, &[61, 40])), b""), "refused 7 file 1 at 38\n");
    assert_eq!(text(&of_contest(contest(2, 2, 1, 0, 0, &[90, 80])), b""), "");
    // Last candidate with N + 1 votes in a contest without winners.
    assert_eq!(text(&of_contest(contest(2, 2, 1, 0, 0, &[0, 101])), b""), "refused 7 file 1 at 38\n");
}

#[test]
fn refusals_order_of_batches_and_contests() {
    let mut many = batch(1).repeat(201);
    assert_eq!(text(&many, b""), format!("refused 3 file 1 at {}\n", 200 * 11));
    many.pop();
    assert_eq!(text(&many, b""), format!("refused 1 file 1 at {}\n", 200 * 11));

    let start = joined(&[batch(100), terms(50, 400, 1, 0)]);
    let wide_votes: Vec<u16> = (0..32).map(|i| if i < 16 { 2 } else { 1 }).collect();
    let wide = contest(1, 32, 16, 0, 0, &wide_votes);
    let file = joined(&[start.clone(), wide.clone()]);
    let open = [&file[..], &[5]].concat();
    assert_eq!(Audit::open(&open).unwrap().assertions(), 256);
    let more = joined(&[file.clone(), contest(1, 2, 1, 0, 0, &[1, 0])]);
    assert_eq!(text(&more, b""), format!("refused 6 file 1 at {}\n", file.len()));
    let broad = joined(&[file.clone(), contest(1, 33, 16, 0, 0, &[])]);
    assert_eq!(text(&broad, b""), format!("refused 5 file 1 at {}\n", file.len()));

    // Eight contests of 4 × 8 assertions, then a ninth that would also make 257.
    let mut file = start;
    for _ in 0..8 {
        let votes: Vec<u16> = (0..12).map(|i| if i < 4 { 2 } else { 1 }).collect();
        file.extend(contest(1, 12, 4, 0, 0, &votes));
    }
    let ninth = joined(&[file.clone(), contest(1, 2, 1, 0, 0, &[1, 0])]);
    assert_eq!(text(&ninth, b""), format!("refused 5 file 1 at {}\n", file.len()));
}

#[test]
fn longest_setup() {
    let votes: Vec<u16> = (0..32).map(|i| u16::from(i == 31)).collect();
    let file = joined(&[
        batch(1).repeat(200),
        terms(50, 400, 2, 1000),
        contest(2, 32, 1, 0, 0, &votes).repeat(8),
        vec![5],
    ]);
    assert_eq!(file.len(), 5089);
    let setup = read_setup(&file).unwrap();
    assert_eq!((setup.batches, setup.cards, setup.assertions), (200, 200, 248));
}

#[test]
fn rules_reported_winners() {
    let two_thirds = Kind::Supermajority { p: 2, q: 3 };
    assert_eq!(reported(Kind::Plurality, 1, &[60, 40]), Some(1));
    assert_eq!(reported(Kind::Plurality, 1, &[50, 50]), None);
    assert_eq!(reported(Kind::Plurality, 2, &[50, 50, 10]), Some(3));
    assert_eq!(reported(Kind::Plurality, 2, &[50, 30, 30]), None);
    assert_eq!(reported(two_thirds, 1, &[61, 29]), Some(1));
    assert_eq!(reported(two_thirds, 1, &[60, 30]), None);
    for kind in [Kind::Plurality, Kind::Approval, two_thirds] {
        assert_eq!(reported(kind, 1, &[0, 0]), None);
    }
}

#[test]
fn rules_assertions_in_order() {
    let contest = Contest {
        kind: Kind::Plurality,
        candidates: 4,
        seats: 2,
        votes: vec![30, 50, 10, 40],
    };
    let mut list = Vec::new();
    list_assertions(&contest, contest.winners().unwrap(), &mut list);
    let pairs: Vec<(u8, u8)> = list
        .iter()
        .map(|one| match one.assorter {
            Assorter::Pair { winner, loser, most_marks } => {
                assert_eq!(most_marks, 2);
                (winner, loser)
            }
            Assorter::Share { .. } => panic!(),
        })
        .collect();
    assert_eq!(pairs, [(1, 0), (1, 2), (3, 0), (3, 2)]);
}

#[test]
fn rules_values() {
    let pair = Assorter::Pair { winner: 0, loser: 1, most_marks: 1 };
    assert_eq!([1, 2, 0, 3].map(|marks| pair.value(marks)), [2, 0, 1, 1]);
    // Marks 3: plurality with 2 seats and approval, a vote to each.
    let two_seats = Assorter::Pair { winner: 0, loser: 2, most_marks: 2 };
    assert_eq!([3, 7].map(|marks| two_seats.value(marks)), [2, 1]);
    let approval = Assorter::Pair { winner: 0, loser: 31, most_marks: 32 };
    assert_eq!([3, u32::MAX >> 1, u32::MAX, 1 << 31].map(|m| approval.value(m)), [2, 2, 1, 0]);
    let share = Assorter::Share { winner: 0, p: 2, q: 3 };
    assert_eq!([1, 2, 0, 3].map(|marks| share.value(marks)), [3, 0, 2, 2]);
}

#[test]
fn rules_first_bets() {
    assert_eq!(pair_bet(60, 40), 200);
    assert_eq!(pair_bet(5001, 5000), 1);
    assert_eq!(pair_bet(2, 0), 950);
    assert_eq!(share_bet(2, 3, 72, 90), 400);
    assert_eq!(share_bet(2, 3, 61, 90), 33);
    // The board of the README.
    assert_eq!(pair_bet(55, 30), 294);
    assert_eq!(pair_bet(48, 30), 230);
}

fn shrinking(first_bet: u32, weight: u32) -> Policy {
    Policy::Shrinking { first_bet, weight, half: 1, top: 2, told: 0, excess: 0 }
}

fn bet_after(mut policy: Policy, values: &[u32]) -> u32 {
    for &value in values {
        policy.tell(value);
    }
    policy.bet()
}

#[test]
fn rules_shrinking() {
    let policy = shrinking(200, 100);
    assert_eq!(bet_after(policy, &[]), 200);
    assert_eq!(bet_after(policy, &[2]), 207);
    assert_eq!(bet_after(policy, &[0]), 188);
    assert_eq!(bet_after(policy, &[1]), 200);
    assert_eq!(bet_after(policy, &[0; 20]), 0);
    assert_eq!(bet_after(policy, &[0; 21]), 0);
    assert_eq!(bet_after(shrinking(950, 1), &[2; 20]), 950);
}

#[test]
fn rules_wealth() {
    let start = Record::start(Policy::Fixed { bet: 200 });
    let after = |mut record: Record, half, value| {
        record.play(half, value);
        (record.wealth, record.peak, record.risk())
    };
    assert_eq!(after(start, 1, 2), (1_200_000_000, 1_200_000_000, 834));
    let mut won = start;
    won.play(1, 2);
    assert_eq!(after(won, 1, 0), (960_000_000, 1_200_000_000, 834));
    assert_eq!(after(start, 1, 0), (800_000_000, 1_000_000_000, 1000));
    assert_eq!(after(start, 1, 1), (1_000_000_000, 1_000_000_000, 1000));
    let share = Record::start(Policy::Fixed { bet: 400 });
    assert_eq!(after(share, 2, 3).0, 1_200_000_000);
    assert_eq!(after(share, 2, 0).0, 600_000_000);
    assert_eq!(after(share, 2, 2).0, 1_000_000_000);
    // Rounding.
    let poor = |wealth, bet| Record { wealth, ..Record::start(Policy::Fixed { bet }) };
    assert_eq!(after(poor(7, 200), 1, 2).0, 8);
    assert_eq!(after(poor(7, 200), 1, 0).0, 6);
    assert_eq!(after(poor(4, 200), 1, 2).0, 4);
    assert_eq!(after(poor(10, 100), 2, 3).0, 10);
}

#[test]
fn readme_pencil() {
    // win loss blank missing win
    let mut record = Record::start(Policy::Fixed { bet: 200 });
    let mut wealths = Vec::new();
    for value in [2, 0, 1, 0, 2] {
        record.play(1, value);
        wealths.push(record.wealth);
    }
    assert_eq!(wealths, [1_200_000_000, 960_000_000, 960_000_000, 768_000_000, 921_600_000]);
    assert_eq!(record.peak, 1_200_000_000);
}

#[test]
fn settled_at_twenty_thousand_million() {
    let at = |peak| Record { peak, ..Record::start(Policy::Fixed { bet: 1 }) };
    assert!(!at(19_999_999_999).is_settled(50));
    assert!(at(20_000_000_000).is_settled(50));
    assert_eq!(at(19_999_999_999).risk(), 51);
    assert_eq!(at(20_000_000_000).risk(), 50);
}

#[test]
fn worked_example_of_draws() {
    let sixteen = [entry(1, 1, &[1]).repeat(16), vec![0x12]].concat();
    assert_eq!(text(ONE, &sixteen), "contest 1 risk 55\ndraws 16\ncontinue\n");
    let seventeen = [entry(1, 1, &[1]).repeat(17), vec![0x12]].concat();
    assert_eq!(seventeen.len(), 613);
    assert_eq!(text(ONE, &seventeen), "contest 1 risk 46\ndraws 17\nconfirm\n");
    let eighteenth = [seventeen, entry(1, 1, &[1])].concat();
    assert_eq!(
        text(ONE, &eighteenth),
        "contest 1 risk 46\ndraws 17\nconfirm\nrefused 14 file 2 at 613\n"
    );
    let blanks = [entry(1, 1, &[]).repeat(400), vec![0x12], entry(1, 1, &[])].concat();
    assert_eq!(
        text(ONE, &blanks),
        "contest 1 risk 1000\ndraws 400\nfull hand count\nrefused 14 file 2 at 14401\n"
    );
}

#[test]
fn risk_after_one_draw() {
    let setup = joined(&[
        batch(2),
        terms(50, 400, 1, 0),
        contest(1, 2, 1, 0, 0, &[2, 0]),
        vec![5],
    ]);
    let draws = [entry(1, 1, &[1]), vec![0x12]].concat();
    assert_eq!(text(&setup, &draws), "contest 1 risk 513\ndraws 1\ncontinue\n");
}

#[test]
fn refusals_of_entries() {
    let alone = |bytes: Vec<u8>| text(ONE, &bytes);
    assert_eq!(alone(entry(0, 2, &[])), "refused 11 file 2 at 0\n");
    assert_eq!(alone(entry(101, 0, &[1])), "refused 11 file 2 at 0\n");
    assert_eq!(alone(entry(1, 2, &[4])), "refused 12 file 2 at 0\n");
    assert_eq!(alone(entry(1, 1, &[4])), "refused 13 file 2 at 0\n");
    assert_eq!(alone(entry(1, 0, &[1])), "refused 13 file 2 at 0\n");
    assert_eq!(alone(entry(1, 1, &[0, 1])), "refused 13 file 2 at 0\n");
    let spent = entry(100, 1, &[3]).repeat(400);
    assert_eq!(
        alone([spent.clone(), entry(1, 0, &[1])].concat()),
        "refused 13 file 2 at 14400\n"
    );
    assert_eq!(alone([spent, entry(1, 1, &[1])].concat()), "refused 14 file 2 at 14400\n");
}

#[test]
fn refusals_of_order_in_draws() {
    let alone = |bytes: Vec<u8>| text(ONE, &bytes);
    assert_eq!(alone(vec![0x14]), "refused 2 file 2 at 0\n");
    assert_eq!(alone(vec![0x15]), "refused 2 file 2 at 0\n");
    assert_eq!(alone(vec![0x11]), "refused 1 file 2 at 0\n");
    assert_eq!(alone(vec![0x13, 0x11]), "refused 2 file 2 at 1\n");
    assert_eq!(alone(vec![0x13, 0x12]), "refused 2 file 2 at 1\n");
    assert_eq!(alone(vec![0x13, 0x13]), "refused 2 file 2 at 1\n");
    assert_eq!(alone(vec![0x13, 0x14]), "refused 1 file 2 at 1\n");
    assert_eq!(alone(vec![0x13, 0x15]), "refused 16 file 2 at 1\n");
    assert_eq!(alone([vec![0x13], count(2, 1, &[])].concat()), "refused 15 file 2 at 1\n");
    assert_eq!(alone(vec![0x12, 0x00]), "contest 1 risk 1000\ndraws 0\ncontinue\nrefused 2 file 2 at 1\n");
}

#[test]
fn hand_counts() {
    let three = joined(&[batch(3), terms(50, 400, 1, 0), contest(1, 2, 1, 0, 0, &[2, 1]), vec![5]]);
    let wins = [vec![0x13], count(1, 1, &[1]), count(2, 1, &[1]), count(3, 0, &[])].concat();
    let closed = [wins.clone(), vec![0x15]].concat();
    assert_eq!(text(&three, &closed), "contest 1 upheld\n");
    let twice = [closed, vec![0x15]].concat();
    assert_eq!(text(&three, &twice), "contest 1 upheld\nrefused 2 file 2 at 110\n");
    let again = [wins.clone(), count(3, 1, &[])].concat();
    assert_eq!(text(&three, &again), "refused 15 file 2 at 109\n");
    let past = [wins, count(4, 1, &[])].concat();
    assert_eq!(text(&three, &past), "refused 11 file 2 at 109\n");

    let two = joined(&[batch(2), terms(50, 400, 1, 0), contest(1, 2, 1, 0, 0, &[2, 0]), vec![5]]);
    let tie = [vec![0x13], count(1, 1, &[1]), count(2, 0, &[]), vec![0x15]].concat();
    assert_eq!(text(&two, &tie), "contest 1 not upheld\n");
}

#[test]
fn whole_hand_count_of_65535() {
    let votes = [65_535, 0];
    let setup = joined(&[
        batch(65_535),
        terms(50, 400, 1, 0),
        contest(3, 2, 1, 999, 1000, &votes),
        vec![5],
    ]);
    let mut audit = Audit::open(&setup).unwrap();
    audit.escalate().unwrap();
    for place in 1..=65_535 {
        audit.count(place, 1, &[1, 0, 0, 0, 0, 0, 0, 0]).unwrap();
    }
    assert_eq!(audit.count(65_535, 1, &[0; 8]), Err(Refusal::NotTheNextPlace));
    assert_eq!(audit.close(), Ok(vec![true]));
}

#[test]
fn board() {
    let setup = read_setup(BOARD).unwrap();
    assert_eq!((setup.batches, setup.cards, setup.assertions), (2, 100, 4));
    let mut audit = Audit::open(BOARD).unwrap();
    while !audit.is_spent() {
        audit.enter(1, 1, &[1, 3, 1, 0, 0, 0, 0, 0]).unwrap();
    }
    let verdict = audit.verdict();
    assert_eq!(verdict.finding, Finding::Confirm);
    assert_eq!(verdict.draws, 17);
    assert!(verdict.risks.iter().all(|&risk| risk <= 50));
}

#[test]
fn too_long() {
    let long = |bytes: &[u8], length: usize| {
        let mut file = bytes.to_vec();
        file.resize(length, 0x12);
        file
    };
    let print = |setup: &[u8], draws: &[u8]| String::from_utf8(audit_program(setup, draws)).unwrap();
    assert_eq!(print(&long(ONE, 65_536), b""), "refused 9 file 1 at 50\n");
    assert_eq!(print(&long(ONE, 65_537), b""), "file too long\n");
    assert_eq!(print(ONE, &long(b"", 65_537)), "file too long\n");
    assert_eq!(print(b"", &long(b"", 65_537)), "file too long\n");
    assert_eq!(print(ONE, &long(b"", 65_536)).lines().count(), 3 * 65_536);
}
