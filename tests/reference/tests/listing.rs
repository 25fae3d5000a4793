//! The listing program's lines on the reference, one device in each: the stored ones, or those of the file that `LISTING_CASES` names.

use reference::answer::{did, number, offset, value, EVENT, NONE};
use reference::cases::hex;
use reference::state::{DEVICE_BYTES, MODULE_SLOTS, OWN_BYTES};
use reference::{check, device_respond, device_start, device_turn};

/// A decimal number up to 255, without leading zeros.
fn decimal(word: &str) -> Option<u8> {
    let plain = word.bytes().all(|byte| byte.is_ascii_digit()) && (word.len() == 1 || !word.starts_with('0'));
    word.parse().ok().filter(|_| plain)
}

/// What the program prints for a line of a script.
fn answered(image: &[u8], state: &mut [u8], line: &[u8]) -> String {
    let line = String::from_utf8_lossy(line);
    let mut words = line.split(' ');
    let letter = words.next();
    let numbers: Option<Vec<u8>> = words.map(decimal).collect();
    match (letter, numbers.as_deref()) {
        (Some("t"), Some(&[module])) => {
            let answer = device_turn(image, state, module);
            match (number(answer), did(answer)) {
                (0, EVENT) => format!("turn {module} event {}", value(answer)),
                (0, NONE) => format!("turn {module} none"),
                (0, other) => panic!("a turn did {other}"),
                (number, _) => format!("refused {number}"),
            }
        }
        (Some("r"), Some(&[module, event])) => match number(device_respond(image, state, module, event)) {
            0 => format!("response {module} queued {event}"),
            number => format!("refused {number}"),
        },
        _ => "refused 10".to_string(),
    }
}

/// What the program prints for a plan and a script.
fn listing(image: &[u8], script: &[u8]) -> String {
    let checked = check(image);
    if number(checked) != 0 {
        return format!("plan refused {} at {}\n", number(checked), offset(checked));
    }
    let mut state = vec![0; DEVICE_BYTES];
    device_start(image, &mut state);
    let mut said = vec![format!("plan {} {} {}", image[1], image[2], image[3])];
    for line in script.split_inclusive(|&byte| byte == b'\n') {
        said.push(answered(image, &mut state, line.strip_suffix(b"\n").unwrap_or(line)));
    }
    let modules = (0..usize::from(image[1])).map(|module| state[module * OWN_BYTES]);
    let supervisors = (0..usize::from(image[2])).map(|supervisor| state[MODULE_SLOTS * OWN_BYTES + supervisor]);
    let states: Vec<String> = modules.chain(supervisors).map(|state| state.to_string()).collect();
    said.push(format!("states {}", states.join(" ")));
    said.join("\n") + "\n"
}

#[test]
fn lines_are_answered() {
    let stored = concat!(env!("CARGO_MANIFEST_DIR"), "/../listing/lines.txt");
    let name = std::env::var("LISTING_CASES").unwrap_or(stored.to_string());
    let text = std::fs::read_to_string(&name).expect("a file of lines");
    let bytes = |word: &str| if word == "-" { Vec::new() } else { hex(word) };
    let mut count = 0;
    for line in text.lines().filter(|line| !line.starts_with('#')) {
        let words: Vec<&str> = line.split(' ').collect();
        let ["listing", image, script, ">", answer] = words[..] else {
            panic!("no line of the listing: {line}");
        };
        let given = listing(&bytes(image), &bytes(script));
        assert_eq!(given, String::from_utf8_lossy(&bytes(answer)), "{line}");
        count += 1;
    }
    assert!(count > 0, "no lines");
}
