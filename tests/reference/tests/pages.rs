//! Plans on paper: a line of each kind as the columns are told, whole pages, buffers, and the stored examples.

use reference::answer::{did, length, number, offset, value, DONE};
use reference::cases::{hex, image_of, most_records, PLAN_P, PRINT_BYTES};
use reference::plan::{EVENT, HEAD, MODULE, MODULE_MOVE};
use reference::{check, print_plan};

const PAGE: usize = 4_380;

/// The page set as digits, or the number and the offset, after the buffer was seen to hold behind the text, or throughout, what it held
/// before.
fn pages(image: &[u8], room: usize) -> String {
    let mut buffer = vec![0xAA; room];
    let answer = print_plan(image, &mut buffer);
    let (written, rest) = buffer.split_at(length(answer) as usize);
    assert!(rest.iter().all(|&byte| byte == 0xAA));
    match (number(answer), did(answer), value(answer)) {
        (0, DONE, 0) => written.iter().map(|byte| format!("{byte:02x}")).collect(),
        (refused, 0, 0) if refused != 0 => format!("{refused} {}", offset(answer)),
        _ => format!("{answer:016X}"),
    }
}

/// The lines of an accepted plan's page set; the buffer is of its length.
fn lines(image: &[u8], page_count: usize) -> Vec<String> {
    let digits = pages(image, page_count * PAGE);
    assert_eq!(digits.len(), 2 * page_count * PAGE, "{digits:.20}");
    let text = String::from_utf8(hex(&digits)).expect("a text");
    let lines: Vec<String> = text.split_terminator('\n').map(str::to_string).collect();
    assert_eq!(lines.len(), 60 * page_count);
    assert!(text.ends_with('\n') && lines.iter().all(|line| line.len() == 72));
    lines
}

/// The lines of the stored file, or of the one that `PAGES_CASES` names.
#[test]
fn stored_examples() {
    let stored = concat!(env!("CARGO_MANIFEST_DIR"), "/../pages/cases.txt");
    let name = std::env::var("PAGES_CASES").unwrap_or(stored.to_string());
    let text = std::fs::read_to_string(&name).expect(&name);
    let mut count = 0;
    for line in text.lines().filter(|line| !line.starts_with('#')) {
        let (asked, expected) = line.split_once(" > ").expect("an answer");
        let ["pages", image, room] = asked.split(' ').collect::<Vec<&str>>()[..] else {
            panic!("{line:.60}");
        };
        let part = |part: &str| match part.split_once('*') {
            Some((digits, copies)) => hex(digits).repeat(copies.parse().expect("a number")),
            None => hex(part),
        };
        let image: Vec<u8> = image.trim_matches('-').split('+').flat_map(part).collect();
        assert_eq!(pages(&image, room.parse().expect("a length")), expected, "{asked}");
        count += 1;
    }
    println!("{count} examples");
    assert!(count >= 60);
}

/// Every kind, with fields of one digit and of two, and all sixteen digits of an eight-byte field.
#[test]
fn a_line_of_each_kind() {
    let events: String = (0..64)
        .map(|event| format!("11 {event:02X} {} 01", ["00", "01"][event % 2]))
        .collect();
    let image = hex(&format!(
        "10 02 02 40 {events} 12 00 20 1F 12 01 01 00 13 00 1F 3E 0A 13 01 00 01 00 \
         14 00 40 3F FEDCBA9876543210 14 01 01 00 0123456789ABCDEF 15 00 00 04 09 15 00 3F 3F 3F 16 00 0A FEDCBA9876543210 \
         17 0A 00 01 000000000000001F 17 0A 01 03 000000000000FFFF 17 0A 02 04 4100000000000000 18 00 00 18 00 1F 18 01 00 1F"
    ));
    let lines = lines(&image, 2);
    let expected = [
        (0, "head                 2     2    64                                      "),
        (1, "event                0     0     1                                      "),
        (2, "event                1     1     1                                      "),
        (10, "event                9     1     1                                      "),
        (11, "event               10     0     1                                      "),
        (64, "event               63     1     1                                      "),
        (65, "module               0    32    31                                      "),
        (66, "module               1     1     0                                      "),
        (67, "module move          0    31    62    10                                "),
        (68, "module move          1     0     1     0                                "),
        (69, "supervisor           0    64    63                      FEDCBA9876543210"),
        (70, "supervisor           1     1     0                      0123456789ABCDEF"),
        (71, "supervisor move      0     0     4     9                                "),
        (72, "supervisor move      0    63    63    63                                "),
        (73, "disabling            0    10                            FEDCBA9876543210"),
        (74, "procedure step      10     0     1                      000000000000001F"),
        (75, "procedure step      10     1     3                      000000000000FFFF"),
        (76, "procedure step      10     2     4                      4100000000000000"),
        (77, "marking              0     0                                            "),
        (78, "marking              0    31                                            "),
        (79, "marking              1     0                                            "),
        (80, "end                                                                     "),
        (81, "                                                                        "),
        (119, "                                                                        "),
    ];
    for (at, line) in expected {
        assert_eq!(lines[at], line, "line {at}");
    }
    assert!(lines[81..].iter().all(|line| *line == " ".repeat(72)));
}

#[test]
fn the_two_valve_plan() {
    let expected = [
        "head                 2     1     4                                      ",
        "event                0     0     1                                      ",
        "event                1     0     0                                      ",
        "event                2     1     1                                      ",
        "event                3     1     0                                      ",
        "module               0     2     0                                      ",
        "module               1     2     0                                      ",
        "module move          0     0     0     1                                ",
        "module move          0     1     1     0                                ",
        "module move          1     0     2     1                                ",
        "module move          1     1     3     0                                ",
        "supervisor           0     2     0                      000000000000000D",
        "supervisor move      0     0     2     1                                ",
        "supervisor move      0     1     3     0                                ",
        "disabling            0     0                            0000000000000001",
        "end                                                                     ",
    ];
    let lines = lines(&hex(PLAN_P), 1);
    assert_eq!(lines[..16], expected);
    assert!(lines[16..].iter().all(|line| *line == " ".repeat(72)));
}

/// A plan of so many records, from 7 to 135: a module of 32 states, four events and as many moves as are left.
fn of_records(count: usize) -> Vec<u8> {
    let mut image = vec![HEAD, 1, 0, 4];
    image.extend((0..4).flat_map(|event| [EVENT, event, 0, 1]));
    image.extend([MODULE, 0, 32, 0]);
    let moves = (0..32).flat_map(|from| (0..4).map(move |event| [MODULE_MOVE, 0, from, event, 31 - from]));
    image.extend(moves.take(count - 7).flatten());
    image.push(0x1F);
    assert_eq!(check(&image), 0);
    image
}

/// A page more only where a record stands on it, and buffers of its length, one byte less, one more and none.
#[test]
fn pages_begun() {
    for (count, page_count) in [(7, 1), (59, 1), (60, 1), (61, 2), (119, 2), (120, 2), (121, 3)] {
        let (image, bytes) = (of_records(count), page_count * PAGE);
        let lines = lines(&image, page_count);
        let printed = lines.iter().take_while(|line| !line.starts_with(' ')).count();
        assert_eq!(printed, count);
        assert!(lines[count - 1].starts_with("end   ") && lines[count..].iter().all(|line| *line == " ".repeat(72)));
        for room in [bytes - 1, bytes - PAGE, 72, 0] {
            assert_eq!(pages(&image, room), "15 0");
        }
        assert_eq!(pages(&image, bytes + 1), pages(&image, bytes));
    }
}

#[test]
fn the_most_records() {
    let (records, image) = (most_records(), image_of(&most_records()));
    assert_eq!((records.len(), image.len(), PRINT_BYTES), (10_049, 49_150, 735_840));
    let lines = lines(&image, 168);
    assert_eq!(
        lines[10_047],
        "marking             15    31                                            "
    );
    assert!(lines[10_048].starts_with("end ") && lines[10_049..].iter().all(|line| *line == " ".repeat(72)));
    assert_eq!(pages(&image, PRINT_BYTES - 1), "15 0");
}

/// The image's own number comes first, whatever the buffer.
#[test]
fn refused_images() {
    let short = "10010001 11000001 12000100";
    let images = [
        (vec![0; 49_153], "1 0"),
        (hex("20"), "2 0"),
        (hex("10010001 19"), "2 4"),
        (Vec::new(), "3 0"),
        (hex("18"), "3 0"),
        (hex(short), "3 12"),
        (hex("1F"), "4 0"),
        (hex(&format!("{short} 1F 1F")), "4 13"),
        (hex("10110001 1F"), "5 0"),
        (hex("10010001 11000001 12000202 1F"), "6 8"),
        (hex("10020002 11000001 11010101 12000100 12010100 1300000100 1F"), "7 20"),
        (hex("10010001 1F"), "8 4"),
    ];
    for (image, expected) in images {
        for room in [0, 72, PAGE - 1, PAGE, 2 * PAGE] {
            assert_eq!(pages(&image, room), expected);
        }
    }
}
