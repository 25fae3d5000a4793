//! The check in pieces: the stored examples, the answer for every beginning of an image, and, on states that no call has left too, the
//! same as a definition that takes one byte after another.

mod plain;

use plain::State;
use reference::answer::{number, offset};
use reference::calls::{Call, Engine, Reference};
use reference::cases::{forged, hex, image_case, image_of, pieces, plan, single_bytes, some_cuts, Ground, Rng, PLAN_P};
use reference::pieces::CHECK_BYTES;
use reference::plan::IMAGE_LIMIT;
use reference::{check, check_answer, check_piece, check_start};
use std::collections::BTreeSet;

/// The starting state.
fn started() -> [u8; CHECK_BYTES] {
    let mut state = [0xAA; CHECK_BYTES];
    assert_eq!(check_start(&mut state), (CHECK_BYTES as u64) << 32);
    state
}

/// The answer after pieces, asked for once they are all there.
fn in_pieces<'a>(pieces: impl IntoIterator<Item = &'a [u8]>) -> u64 {
    let mut state = started();
    for piece in pieces {
        assert_eq!(check_piece(&mut state, piece), 0);
    }
    check_answer(&state)
}

fn in_words(answer: u64) -> String {
    match answer {
        0 => "ok".to_string(),
        _ => format!("{} {}", number(answer), offset(answer)),
    }
}

/// An image in the form of `pieces.py`: digits, `DIGITS*COPIES`, several of them joined by `+`, or `-`.
fn image(text: &str) -> Vec<u8> {
    let part = |part: &str| match part.split_once('*') {
        Some((digits, copies)) => hex(digits).repeat(copies.parse().expect("a number")),
        None => hex(part),
    };
    text.trim_matches('-').split('+').flat_map(part).collect()
}

/// Offsets, `/N` for one after every N bytes, or `-`.
fn cuts(text: &str, length: usize) -> Vec<usize> {
    let number = |text: &str| text.parse().expect("an offset");
    match text.strip_prefix('/') {
        Some(size) => (0..length).step_by(number(size)).skip(1).collect(),
        None => text.split(',').filter(|&cut| cut != "-").map(number).collect(),
    }
}

/// The lines of the stored file, or of the one that `PIECES_CASES` names.
#[test]
fn stored_examples() {
    let stored = concat!(env!("CARGO_MANIFEST_DIR"), "/../pieces/cases.txt");
    let name = std::env::var("PIECES_CASES").unwrap_or(stored.to_string());
    let text = std::fs::read_to_string(&name).expect(&name);
    let mut count = 0;
    for line in text.lines().filter(|line| !line.starts_with('#')) {
        let (asked, expected) = line.split_once(" > ").expect("an answer");
        let words: Vec<&str> = asked.split(' ').collect();
        let image = image(words[1]);
        let given = match words[..] {
            ["check", _] => check(&image),
            ["pieces", _, offsets] => in_pieces(pieces(&image, &cuts(offsets, image.len()))),
            _ => panic!("{line}"),
        };
        assert_eq!(in_words(given), expected, "{line}");
        assert_eq!(in_pieces(image.chunks(1)), given, "byte by byte: {line}");
        assert_eq!(check(&image), given, "in one: {line}");
        count += 1;
    }
    println!("{count} examples");
    assert!(count >= 100);
}

#[test]
fn starts() {
    for length in [0, 1, 494] {
        let mut state = vec![0xAA; length];
        assert_eq!(check_start(&mut state), 15);
        assert_eq!(state, vec![0xAA; length]);
    }
    let mut state = [0xAA; 500];
    assert_eq!(check_start(&mut state), 495 << 32);
    assert_eq!(state[..495], [0; 495]);
    assert_eq!(state[495..], [0xAA; 5]);
}

/// Where everything stands in the bytes, halfway through the two-valve plan.
#[test]
fn bytes_of_a_state() {
    let image = hex(PLAN_P);
    let mut state = started();
    check_piece(&mut state, &image[..72]);
    let mut expected = vec![0; 495];
    let mut put = |at: usize, digits: &str| {
        let bytes = hex(digits);
        expected[at..at + bytes.len()].copy_from_slice(&bytes);
    };
    put(6, "00000048 02 1600"); // 72 bytes taken, two of them of a record that has begun
    put(23, "01 15000103 020104"); // a record has come; the last one; the head's counts
    put(31, "000000000000000F 0000000000000005 00000101"); // events, those controllable, their modules
    put(175, "0000000000000003 0202"); // modules and their states
    put(199, "0000000000000001 02"); // supervisors and their states
    put(239, "000000000000000D"); // the alphabet of supervisor 0
    assert_eq!(state[..], expected);
    assert_eq!(in_words(check_answer(&state)), "3 70");
    check_piece(&mut state, &image[72..]);
    let mut put = |at: usize, digits: &str| {
        let bytes = hex(digits);
        expected[at..at + bytes.len()].copy_from_slice(&bytes);
    };
    put(0, "01 0000000000 00000052 00 0000");
    put(24, "1F000000");
    assert_eq!(state[..], expected);
    assert_eq!(check_answer(&state), 0);
    check_piece(&mut state, &[0x20, 0x10]);
    assert_eq!(state[..11], hex("02 04 00000052 00000054 00"));
    assert_eq!(in_words(check_answer(&state)), "4 82");
    assert_eq!(state[23..], expected[23..]);
    check_piece(&mut state, &[0; IMAGE_LIMIT - 84]);
    assert_eq!(state[..11], hex("02 04 00000052 0000C000 00"));
    check_piece(&mut state, &[]);
    assert_eq!(in_words(check_answer(&state)), "4 82");
    check_piece(&mut state, &[0; 3]);
    assert_eq!(state[..11], hex("00 00 00000000 0000C001 00"));
    assert_eq!(state[11..], [0; 484]);
    assert_eq!(in_words(check_answer(&state)), "1 0");
}

#[test]
fn bytes_that_stand_for_no_state() {
    let refused = |state: &[u8]| {
        let mut lent = state.to_vec();
        check_piece(&mut lent, &[0x10]) == 9 && check_answer(state) == 9 && lent == state
    };
    let with = |bytes: &[(usize, u8)]| {
        let mut state = started();
        bytes.iter().for_each(|&(at, byte)| state[at] = byte);
        state
    };
    for length in [0, 494, 496] {
        assert!(refused(&vec![0; length]), "{length} bytes");
    }
    for bytes in [
        &[(0, 3)][..],
        &[(0, 255)],
        &[(23, 2)],
        &[(0, 2)],
        &[(0, 2), (1, 1)],
        &[(0, 2), (1, 9)],
    ] {
        assert!(refused(&with(bytes)), "{bytes:?}");
    }
    for at in 1..6 {
        assert!(refused(&with(&[(at, 1)])), "byte {at}");
        assert!(refused(&with(&[(0, 1), (at, 1)])), "byte {at}");
    }
    for good in 2..=8 {
        let state = with(&[(0, 2), (1, good), (2, 255), (10, 255)]);
        assert_eq!(check_answer(&state), u64::from(good) | 0xFF00_0000 << 32);
        assert_eq!(check_piece(&mut state.clone(), &[1]), 0);
    }
}

/// Draws images as the differential test does, good and damaged.
fn images(seed: u64, plans: usize, mut with: impl FnMut(&mut Rng, &[u8])) {
    let mut rng = Rng::new(seed);
    for _ in 0..plans {
        let records = plan(&mut rng);
        let image = image_of(&records);
        let ground = Ground::new(&records, &image);
        for _ in 0..20 {
            let case = image_case(&mut rng, &ground);
            with(&mut rng, &case.image);
        }
    }
}

/// After each piece the answer is that for the bytes handed over so far.
#[test]
fn any_cuts_give_the_answer_for_the_whole() {
    let mut numbers = BTreeSet::new();
    images(21, 150, |rng, image| {
        for cuts in [some_cuts(rng, image.len()), single_bytes(rng, image.len())] {
            let mut state = started();
            let mut taken = 0;
            for piece in pieces(image, &cuts) {
                assert_eq!(check_piece(&mut state, piece), 0);
                taken += piece.len();
                if cuts.len() < 10 || taken < 200 || taken == image.len() {
                    assert_eq!(check_answer(&state), check(&image[..taken]), "{taken} bytes of {image:02X?}");
                }
            }
            assert_eq!(taken, image.len());
        }
        numbers.insert(number(check(image)));
    });
    assert_eq!(numbers, (0..9).collect());
}

/// On any state and piece the same state and answer as the definition, and every verdict arises.
#[test]
fn as_the_definition_says() {
    let mut draw = forged();
    let mut rng = Rng::new(22);
    let mut numbers = [0; 16];
    let mut accepted = BTreeSet::new();
    for _ in 0..120 {
        let records = plan(&mut rng);
        let image = image_of(&records);
        let ground = Ground::new(&records, &image);
        for _ in 0..1_000 {
            let mut case = draw(&mut rng, &ground);
            let before = (case.state.clone(), case.buffer.clone());
            let plain = State::read(&case.state);
            let answer = Reference.call(case.call, &case.image, &mut case.state, &[], &mut case.buffer);
            numbers[usize::from(number(answer))] += 1;
            if number(answer) != 0 {
                assert_eq!((&case.state, &case.buffer), (&before.0, &before.1));
            }
            match (case.call, plain) {
                (Call::CheckPiece, Some(mut plain)) => {
                    let last = plain.context.last;
                    case.image.iter().for_each(|&byte| plain.byte(byte));
                    assert_eq!(
                        (answer, &case.state),
                        (0, &plain.write()),
                        "{:02X?} from {:02X?}",
                        case.image,
                        before.0
                    );
                    if plain.context.last != last && plain.context.begun {
                        accepted.insert(plain.context.last[0]);
                    }
                }
                (Call::CheckAnswer, Some(plain)) => {
                    let (number, offset) = plain.verdict();
                    assert_eq!(answer, u64::from(number) | u64::from(offset) << 32, "{:02X?}", before.0);
                }
                (Call::CheckPiece | Call::CheckAnswer, None) => assert_eq!(answer, 9, "{:02X?}", before.0),
                (_, _) => {
                    let long = before.1.len() >= CHECK_BYTES;
                    assert_eq!(answer, if long { 495 << 32 } else { 15 });
                    assert!(!long || (case.buffer[..495] == State::start().write() && case.buffer[495..] == before.1[495..]));
                }
            }
        }
    }
    println!("{numbers:?}");
    for number in [0, 1, 2, 3, 4, 5, 6, 7, 8, 9, 15] {
        assert!(numbers[number] >= 40, "number {number}: {numbers:?}");
    }
    assert!((0x10..=0x18).chain([0x1F]).all(|kind| accepted.contains(&kind)), "{accepted:02X?}");
}
