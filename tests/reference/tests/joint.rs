//! Whether a plan ever gets stuck, and how many words lead where: the examples stored for these, and those of the readings.

use reference::answer::{did, length, number, offset, value, DONE, FREE, STUCK};
use reference::cases::{hex, image_of, rounds, COUNT_BYTES, PLAN_P};
use reference::{check, count_words, find_stuck};

/// The answer in the words of the stored examples, after the buffer was seen to hold it and, behind it, what it held before.
fn stuck(image: &[u8], room: usize) -> String {
    let mut buffer = vec![0xAA; room];
    let answer = find_stuck(image, &mut buffer);
    let (written, rest) = buffer.split_at(length(answer) as usize);
    assert!(rest.iter().all(|&byte| byte == 0xAA));
    match (number(answer), did(answer), value(answer)) {
        (0, FREE, 0) if written.is_empty() => "free".to_string(),
        (0, STUCK, 0) => format!("stuck {}", digits(written)),
        _ => in_words(answer),
    }
}

/// The same of counts: the text's digits.
fn counts(image: &[u8], words: u64, room: usize) -> String {
    let mut buffer = vec![0xAA; room];
    let answer = count_words(image, words, &mut buffer);
    let (written, rest) = buffer.split_at(length(answer) as usize);
    assert!(rest.iter().all(|&byte| byte == 0xAA));
    match (number(answer), did(answer), value(answer)) {
        (0, DONE, 0) => digits(written),
        _ => in_words(answer),
    }
}

fn digits(bytes: &[u8]) -> String {
    bytes.iter().map(|byte| format!("{byte:02x}")).collect()
}

/// A refusal, or an answer that no call gives.
fn in_words(answer: u64) -> String {
    match (number(answer), did(answer), value(answer)) {
        (refused, 0, 0) if refused != 0 => format!("{refused} {}", offset(answer)),
        _ => format!("{answer:016X}"),
    }
}

fn checked(image: &[u8]) -> String {
    match check(image) {
        0 => "ok".to_string(),
        answer => format!("{} {}", number(answer), offset(answer)),
    }
}

/// The lines of the stored files, or of the file that `JOINT_CASES` names, in the form of `joint.py`.
#[test]
fn stored_examples() {
    let stored = ["stuck", "counts"].map(|name| format!("{}/../{name}/cases.txt", env!("CARGO_MANIFEST_DIR")));
    let names = std::env::var("JOINT_CASES").map_or(stored.to_vec(), |name| vec![name]);
    for name in names {
        examples(&std::fs::read_to_string(&name).expect(&name));
    }
}

fn examples(text: &str) {
    let mut count = 0;
    for line in text.lines().filter(|line| !line.starts_with('#')) {
        let (asked, expected) = line.split_once(" > ").expect("an answer");
        let words: Vec<&str> = asked.split(' ').collect();
        let image = hex(words[1].trim_matches('-'));
        let given = match words[..] {
            ["check", _] => checked(&image),
            ["stuck", _, room] => stuck(&image, room.parse().expect("a length")),
            ["counts", _, words, room] => counts(&image, words.parse().expect("a length"), room.parse().expect("a length")),
            _ => panic!("{line}"),
        };
        assert_eq!(given, expected, "{line}");
        count += 1;
    }
    println!("{count} examples");
    assert!(count >= 60);
}

/// P with records before its end.
fn p(records: &str) -> Vec<u8> {
    hex(&PLAN_P.replace("1F", &format!("{records} 1F")))
}

#[test]
fn the_two_valve_plan() {
    assert_eq!(stuck(&p(""), 0), "free");
    assert_eq!(stuck(&p("18 00 00 18 01 00"), 0), "free");
    // The pump runs only while the valve is open, but the valve may close then.
    assert_eq!(stuck(&p("18 00 01 18 01 00"), 0), "free");
}

/// A module of four states: event 0 leads from 0 to 1 and from 1 to 2, event 1 from 1 back to 0 and from 2 to 3.
fn line(records: &str) -> Vec<u8> {
    let moves = "1300000001 1300010002 1300010100 1300020103";
    hex(&format!("10010002 11000001 11010000 12000400 {moves} {records} 1F"))
}

#[test]
fn words_and_marks() {
    assert_eq!(stuck(&line(""), 0), "free");
    assert_eq!(stuck(&line("18 00 03"), 0), "free");
    assert_eq!(stuck(&line("18 00 02"), 4), "stuck 00000103");
    assert_eq!(stuck(&line("18 00 02 18 00 03"), 4), "free");
    assert_eq!(stuck(&line("18 00 00"), 3), "stuck 000002");
    assert_eq!(stuck(&line("18 00 00"), 2), "15 0");
    assert_eq!(stuck(&line("18 00 01"), 2), "15 0");
    assert_eq!(stuck(&line("18 00 04"), 0), "6 36");
}

#[test]
fn four_thousand_and_ninety_six() {
    let stuck = |sizes: &[u8], room| stuck(&image_of(&rounds(sizes)), room);
    assert_eq!(stuck(&[2; 12], 0), "free");
    assert_eq!(stuck(&[32, 32, 4], 0), "free");
    assert_eq!(stuck(&[17, 15, 16], 0), "free");
    assert_eq!(stuck(&[17, 16, 16], 0), "16 0");
    assert_eq!(stuck(&[2; 13], 5_000), "16 0");
}

/// The text of counts, with a space for each line feed.
fn text(image: &[u8], words: u64, room: usize) -> String {
    let told = counts(image, words, room);
    if told.contains(' ') {
        return told;
    }
    String::from_utf8(hex(&told)).expect("a text").replace('\n', " ")
}

#[test]
fn words_of_the_two_valve_plan() {
    assert_eq!(text(&p(""), 0, 10), "1 0 0 0 1 ");
    assert_eq!(text(&p(""), 3, 10), "0 2 1 0 3 ");
    assert_eq!(text(&p(""), 3, 9), "15 0");
    assert_eq!(text(&p(""), 41, 0), "17 0");
    // marks are not looked at
    assert_eq!(text(&p("18 00 01 18 01 00"), 3, COUNT_BYTES), "0 2 1 0 3 ");
}

/// A module of so many states with so many events, each of which leads to the next state, if there is one, or stays.
fn events(states: u8, events: u8, stays: bool) -> Vec<u8> {
    let mut image = vec![0x10, 1, 0, events];
    image.extend((0..events).flat_map(|event| [0x11, event, 0, 1]));
    image.extend([0x12, 0, states, 0]);
    let last = if stays { states } else { states - 1 };
    image.extend((0..last).flat_map(|state| (0..events).flat_map(move |event| [0x13, 0, state, event, state + u8::from(!stays)])));
    image.push(0x1F);
    image
}

#[test]
fn sixty_four_bits() {
    assert_eq!(text(&events(1, 4, true), 31, 40), "4611686018427387904 4611686018427387904 ");
    assert_eq!(text(&events(1, 4, true), 32, 40), "17 0");
    let line = events(32, 64, false);
    let zeros = |count| "0 ".repeat(count);
    let most = 1u64 << 60;
    assert_eq!(text(&line, 10, COUNT_BYTES), format!("{}{most} {}{most} ", zeros(10), zeros(21)));
    // there is no word of 32 events, but there are too many of 11
    assert!((11..=40).all(|length| text(&line, length, COUNT_BYTES) == "17 0"));
    let line = events(32, 1, false);
    assert_eq!(text(&line, 31, COUNT_BYTES), format!("{}1 1 ", zeros(31)));
    assert_eq!(text(&line, 32, COUNT_BYTES), zeros(33));
}
