//! The generator: fixed by seed and number, and of use.

use twin::generate::pair;
use twin::{audit, Audit};

#[test]
fn a_pair_is_fixed_by_seed_and_number() {
    for k in [0, 1, 77] {
        assert_eq!(pair(3, k), pair(3, k));
        assert_ne!(pair(3, k), pair(4, k));
        assert_ne!(pair(3, k), pair(3, k + 1));
    }
}

#[test]
fn most_setups_are_accepted_and_all_findings_occur() {
    let (mut accepted, mut text) = (0, Vec::new());
    for k in 0..300 {
        let (setup, draws) = pair(1, k);
        accepted += u32::from(Audit::open(&setup).is_ok());
        text.extend(audit(&setup, &draws));
    }
    assert!((200..300).contains(&accepted));
    let text = String::from_utf8(text).unwrap();
    for words in ["confirm", "continue", "full hand count", "1 upheld", "not upheld", "refused"] {
        assert!(text.contains(words), "{words}");
    }
}

/// Two wins make the peak 2,500,000,000, and times 400 it is exactly 10^12.
#[test]
fn settled_exactly_at_the_limit() {
    let setup_with_limit = |limit: u16| {
        let mut setup = b"\x01BOX-0001\x00\x1c\x02".to_vec();
        setup.extend(limit.to_be_bytes());
        setup.extend(b"\x01\x90\x02\x00\x04\x03\x03\x02\x01\x00\x04\x00\x07");
        setup.extend(b"\x04YES     \x00\x19\x04NO      \x00\x03\x05");
        setup
    };
    let mut draws = Vec::new();
    for _ in 0..2 {
        draws.extend(b"\x11\x00\x01\x01\x00\x00\x00\x01");
        draws.extend([0; 28]);
        draws.push(0x12);
    }
    let told = |limit| String::from_utf8(audit(&setup_with_limit(limit), &draws)).unwrap();
    let first = "contest 1 risk 640\ndraws 1\ncontinue\ncontest 1 risk 400\ndraws 2\n";
    assert_eq!(told(400), format!("{first}confirm\n"));
    assert_eq!(told(399), format!("{first}continue\n"));
}
