//! Document 01's own examples, and those of the readings, on the reference.

use reference::answer::{did, length, number, offset, value, BIDS, DONE, EVENT, NONE, SENDS, WAITS};
use reference::cases::{hex, PLAN_P};
use reference::state::{DEVICE_BYTES, MODULE_BYTES, OWN_BYTES, SUPERVISOR_BYTES};
use reference::*;

fn p() -> Vec<u8> {
    hex(PLAN_P)
}

/// Number and offset that the check of an image gives.
fn checked(image: &str) -> (u8, u32) {
    let answer = check(&hex(image));
    (number(answer), offset(answer))
}

/// P with one record replaced, or removed where the new one is empty.
fn changed(old: &str, new: &str) -> (u8, u32) {
    assert!(PLAN_P.contains(old));
    checked(&PLAN_P.replacen(old, new, 1))
}

fn device(image: &[u8]) -> Vec<u8> {
    let mut state = vec![0; DEVICE_BYTES];
    assert_eq!(device_start(image, &mut state), (DEVICE_BYTES as u64) << 32);
    state
}

fn module(image: &[u8], number: u8) -> Vec<u8> {
    let mut state = vec![0; MODULE_BYTES];
    assert_eq!(module_start(image, number, &mut state), (MODULE_BYTES as u64) << 32);
    state
}

fn supervisor(image: &[u8], number: u8) -> Vec<u8> {
    let mut state = vec![0; SUPERVISOR_BYTES];
    assert_eq!(supervisor_start(image, number, &mut state), (SUPERVISOR_BYTES as u64) << 32);
    state
}

#[test]
fn the_sheet() {
    let image = p();
    assert_eq!(image.len(), 82);
    assert_eq!(check(&image), 0);
    let mut state = device(&image);
    let did_value = |answer: u64| (number(answer), did(answer), value(answer), length(answer));
    assert_eq!(did_value(device_turn(&image, &mut state, 0)), (0, NONE, 0, 0));
    assert_eq!(did_value(device_turn(&image, &mut state, 1)), (0, EVENT, 2, 0));
    assert_eq!(did_value(device_turn(&image, &mut state, 0)), (0, EVENT, 0, 0));
    assert_eq!(did_value(device_respond(&image, &mut state, 1, 3)), (0, DONE, 0, 0));
    assert_eq!(did_value(device_turn(&image, &mut state, 1)), (0, EVENT, 3, 0));
    assert_eq!(did_value(device_turn(&image, &mut state, 0)), (0, NONE, 0, 0));
    assert_eq!((state[0], state[OWN_BYTES], state[16 * OWN_BYTES]), (1, 0, 0));
}

/// In the start of P valve 1 has no move by its response 3: the command 2 goes first, 3 waits, and fires where the valve expects it.
#[test]
fn a_contact_that_closes_early() {
    let image = p();
    let mut state = device(&image);
    let turn = |state: &mut Vec<u8>| {
        let answer = device_turn(&image, state, 1);
        (did(answer), value(answer))
    };
    assert_eq!(device_respond(&image, &mut state, 1, 3), 0);
    assert_eq!(turn(&mut state), (EVENT, 2));
    assert_eq!(state[OWN_BYTES..OWN_BYTES + 4], [1, 1, 3, 0]);
    assert_eq!(turn(&mut state), (EVENT, 3));
    assert_eq!(state, device(&image));
}

/// One module, and no supervisor. It goes round by the responses 2, 1 and 3; in the last state it has the command 0 too, whose procedure
/// responds by 1.
const ROUND: &str = "10010004 11000001 11010000 11020000 11030000 12000300 \
    1300000201 1300010102 1300020002 1300020300 17000005 0000000000000001 1F";

/// What a turn of module 0 comes to, and its queue then.
fn turned(image: &[u8], state: &mut [u8]) -> (u8, u8, Vec<u8>) {
    let answer = device_turn(image, state, 0);
    assert_eq!(state[2 + usize::from(state[1])..10], vec![0; 8 - usize::from(state[1])]);
    (did(answer), value(answer), state[2..2 + usize::from(state[1])].to_vec())
}

#[test]
fn the_first_usable_response_goes_and_the_others_stay_in_order() {
    let image = hex(ROUND);
    let mut state = device(&image);
    for event in [1, 3, 2, 1, 2, 3] {
        assert_eq!(device_respond(&image, &mut state, 0, event), 0);
    }
    for (event, left) in [
        (2, vec![1, 3, 1, 2, 3]),
        (1, vec![3, 1, 2, 3]),
        (3, vec![1, 2, 3]),
        (2, vec![1, 3]),
        (1, vec![3]),
        (3, vec![]),
    ] {
        assert_eq!(turned(&image, &mut state), (EVENT, event, left));
    }
    assert_eq!(turned(&image, &mut state), (NONE, 0, vec![]));
    assert_eq!(state, device(&image));
}

#[test]
fn a_response_without_a_move_is_no_wish() {
    let image = hex(ROUND);
    let mut state = module(&image, 0);
    assert_eq!(module_respond(&image, &mut state, 0, 1), 0);
    assert_eq!(did(module_step(&image, &mut state, 0, &mut [])), WAITS);
    assert_eq!(module_respond(&image, &mut state, 0, 2), 0);
    let answer = module_step(&image, &mut state, 0, &mut []);
    assert_eq!((did(answer), value(answer)), (EVENT, 2));
    assert_eq!(state[..4], [1, 1, 1, 0]);
    // With a neighbour it bids for a wish only, but with all permits held takes its turn in any case.
    let image = hex(&ROUND
        .replace("10010004", "10010104")
        .replace("17000005", "14000100 0000000000000002 17000005"));
    let (mut state, mut buffer) = (module(&image, 0), [0; 4]);
    assert_eq!(module_respond(&image, &mut state, 0, 1), 0);
    assert_eq!(did(module_step(&image, &mut state, 0, &mut buffer)), WAITS);
    state[38] = 1;
    let answer = module_step(&image, &mut state, 0, &mut buffer);
    assert_eq!((did(answer), length(answer)), (NONE, 4));
    assert_eq!(buffer[..], hex("03 00 00 FF"));
    assert_eq!((state[1], state[38]), (1, 0));
}

/// Eight responses without a move, and a procedure at a respond step: no turn, tick or response changes anything any more.
#[test]
fn a_halted_module() {
    let image = hex(ROUND);
    let mut state = device(&image);
    for event in [2, 1] {
        device_respond(&image, &mut state, 0, event);
        assert_eq!(turned(&image, &mut state), (EVENT, event, vec![]));
    }
    assert_eq!(turned(&image, &mut state), (EVENT, 0, vec![]));
    for _ in 0..8 {
        assert_eq!(device_respond(&image, &mut state, 0, 1), 0);
    }
    let before = state.clone();
    assert_eq!(turned(&image, &mut state), (NONE, 0, vec![1; 8]));
    assert_eq!(device_tick(&image, &mut state, 0, 1, 1.0), 0);
    assert_eq!(device_respond(&image, &mut state, 0, 3), 13);
    assert_eq!(state, before);
}

#[test]
fn marked_images() {
    assert_eq!(checked(""), (3, 0));
    assert_eq!(checked("1F"), (4, 0));
    assert_eq!(checked("10010001 1F"), (8, 4));
}

#[test]
fn marked_messages() {
    let image = p();
    let mut pump = module(&image, 0);
    let mut guard = supervisor(&image, 0);
    let mut buffer = [0xAA; 128];
    let answer = module_step(&image, &mut pump, 0, &mut buffer);
    assert_eq!((did(answer), value(answer), length(answer)), (BIDS, 0, 3));
    assert_eq!(buffer[..4], hex("01 00 00 AA"));
    assert_eq!(supervisor_deliver(&image, &mut guard, 0, &hex("01 00 00")), 0);
    let answer = supervisor_step(&image, &mut guard, 0, &mut buffer);
    assert_eq!((did(answer), value(answer), length(answer)), (SENDS, 0, 11));
    let permit = hex("02 00 00 0000000000000001");
    assert_eq!(buffer[..11], permit);
    assert_eq!(module_deliver(&image, &mut pump, 0, &permit), 0);
    let answer = module_step(&image, &mut pump, 0, &mut buffer);
    assert_eq!((did(answer), value(answer), length(answer)), (NONE, 0, 4));
    let release = hex("03 00 00 FF");
    assert_eq!(buffer[..4], release);
    assert_eq!(pump, module(&image, 0));
    assert_eq!(supervisor_deliver(&image, &mut guard, 0, &release), 0);
    assert_eq!(guard, hex("00 0000 00 00 00"));
}

#[test]
fn a_release_with_its_event() {
    let image = p();
    let mut valve = module(&image, 1);
    let mut guard = supervisor(&image, 0);
    let mut buffer = [0; 128];
    module_step(&image, &mut valve, 1, &mut buffer);
    assert_eq!(supervisor_deliver(&image, &mut guard, 0, &buffer[..3]), 0);
    supervisor_step(&image, &mut guard, 0, &mut buffer);
    assert_eq!(guard, hex("00 0000 01 01 01"));
    assert_eq!(module_deliver(&image, &mut valve, 1, &buffer[..11]), 0);
    let answer = module_step(&image, &mut valve, 1, &mut buffer);
    assert_eq!((did(answer), value(answer), length(answer)), (EVENT, 2, 4));
    assert_eq!(buffer[..4], hex("03 01 00 02"));
    assert_eq!(supervisor_deliver(&image, &mut guard, 0, &buffer[..4]), 0);
    assert_eq!(guard, hex("01 0000 00 00 01"));
}

/// P with event 0 a command that waits for four litres.
fn watered() -> Vec<u8> {
    hex(&PLAN_P.replace("1F", "17 00 00 04 4010000000000000 1F"))
}

#[test]
fn marked_readings() {
    let image = watered();
    assert_eq!(check(&image), 0);
    let mut state = device(&image);
    device_turn(&image, &mut state, 1);
    assert_eq!(did(device_turn(&image, &mut state, 0)), EVENT);
    assert_eq!(device_tick(&image, &mut state, 0, 1, 2.5), 0);
    assert_eq!(device_tick(&image, &mut state, 0, 1, 0.125), 0);
    assert_eq!(state[10..13], [1, 0, 0]);
    assert_eq!(state[15..23], 4.0f64.to_be_bytes());
    assert_eq!(state[23..31], (21.0f64 / 8.0).to_be_bytes());
    assert_eq!(device_tick(&image, &mut state, 0, 0, f64::NAN), 0);
    assert_eq!(state[23..31], (21.0f64 / 8.0).to_be_bytes());
    assert_eq!(device_tick(&image, &mut state, 0, 1, 64.125), 14);
    assert_eq!(device_tick(&image, &mut state, 0, 1, 64.0), 0);
    assert_eq!(state[10..31], [0; 21]);
    for bad in [0.1, 64.125, -0.0, -0.125, f64::NAN, f64::INFINITY, 5e-324, 0.0625] {
        assert_eq!(device_tick(&image, &mut state, 0, 1, bad), 14);
    }
    assert_eq!(device_tick(&image, &mut state, 0, 2, 64.0), 0);
}

#[test]
fn numbers_of_the_table() {
    assert_eq!(check(&vec![0; 49_153]), 1);
    assert_eq!(checked("20"), (2, 0));
    assert_eq!(checked("10 11 00 01 1F"), (5, 0));
    assert_eq!(changed("12000200", "12000202"), (6, 20));
    assert_eq!(changed("1600000000000000000001", "1600000000000000000002"), (7, 70));
    let image = p();
    let mut state = device(&image);
    state[0] = 2;
    assert_eq!(device_turn(&image, &mut state, 0), 9);
    assert_eq!(device_turn(&image, &mut state, 9), 9);
    let mut state = device(&image);
    assert_eq!(device_turn(&image, &mut state, 9), 11);
    let mut pump = module(&image, 0);
    assert_eq!(module_deliver(&image, &mut pump, 0, &[4]), 10);
    assert_eq!(module_step(&image, &mut pump, 9, &mut []), 11);
    assert_eq!(module_deliver(&image, &mut pump, 0, &hex("02 00 00 0000000000000001")), 12);
    assert_eq!(module_step(&image, &mut pump, 0, &mut [0; 2]), 15);
    assert_eq!(pump, module(&image, 0));
    for _ in 0..8 {
        assert_eq!(module_respond(&image, &mut pump, 0, 1), 0);
    }
    assert_eq!(module_respond(&image, &mut pump, 0, 1), 13);
    assert_eq!(module_respond(&image, &mut pump, 0, 0), 11);
    assert_eq!(module_respond(&image, &mut pump, 0, 3), 11);
    assert_eq!(module_tick(&image, &mut pump, 0, 1, 0.1), 14);
}

#[test]
fn readings_of_the_check() {
    assert_eq!(checked("10010102 11000000 12000100 14000100 0000000000000002 1F"), (6, 12));
    assert_eq!(checked("11"), (3, 0));
    assert_eq!(checked("11 00 00 01"), (4, 0));
    assert_eq!(checked("10010001 10110001"), (4, 4));
    assert_eq!(checked("10010001 1F 00"), (8, 4));
    assert_eq!(checked(&format!("{PLAN_P} 20")), (4, 82));
    assert_eq!(checked(&format!("{PLAN_P} 1F")), (4, 82));
    assert_eq!(changed("1F", ""), (3, 81));
    assert_eq!(changed("12000200", "12000000"), (5, 20));
    assert_eq!(changed("11000001", "11000201"), (6, 4));
    assert_eq!(changed("11000001", "11400001"), (6, 4));
    assert_eq!(changed("11000001", "11000002"), (5, 4));
    assert_eq!(changed("1600000000000000000001", "1605000000000000000000"), (5, 70));
    assert_eq!(changed("1600000000000000000001", "1605000000000000000001"), (6, 70));
    assert_eq!(changed("1600000000000000000001", "1600000000000000000010"), (6, 70));
    assert_eq!(changed("1500000201", "1500000101"), (7, 60));
    assert_eq!(changed("1300010100", "1300010300"), (7, 33));
    assert_eq!(checked("10010001 11000000 12000100 14000100 0000000000000000 1F"), (6, 12));
    assert_eq!(check(&vec![0; 49_152]), 2);
}

/// The check of P with steps before its end record; the first of them stands at 81.
fn steps(records: &[&str]) -> (u8, u32) {
    checked(&PLAN_P.replace("1F", &format!("{} 1F", records.join(" "))))
}

#[test]
fn readings_of_steps() {
    assert_eq!(steps(&["17 00 00 01 000000000000001F"]), (0, 0));
    assert_eq!(steps(&["17 00 00 01 0000000000000020"]), (5, 81));
    assert_eq!(steps(&["17 00 40 01 000000000000001F"]), (4, 81));
    assert_eq!(steps(&["17 09 01 01 000000000000001F"]), (4, 81));
    assert_eq!(steps(&["17 09 00 01 000000000000001F"]), (6, 81));
    assert_eq!(steps(&["17 00 00 06 000000000000001F"]), (5, 81));
    assert_eq!(steps(&["17 00 00 00 000000000000001F"]), (5, 81));
    assert_eq!(steps(&["17 00 00 05 8000000000000001"]), (6, 81));
    assert_eq!(steps(&["17 00 00 05 0000000000000001"]), (0, 0));
    assert_eq!(steps(&["17 00 00 05 0000000000000002"]), (7, 81));
    assert_eq!(steps(&["17 00 00 05 0000000000000003"]), (7, 81));
    assert_eq!(steps(&["17 01 00 01 0000000000000003"]), (7, 81));
    assert_eq!(steps(&["17 01 00 05 0000000000000009"]), (6, 81));
    assert_eq!(steps(&["17 00 00 03 0000000000000000"]), (5, 81));
    assert_eq!(steps(&["17 00 00 03 0000000000010000"]), (5, 81));
    assert_eq!(steps(&["17 00 00 04 4100000000000000"]), (0, 0));
    assert_eq!(steps(&["17 00 00 04 4100000100000000"]), (5, 81));
    assert_eq!(steps(&["17 00 00 04 7FF8000000000000"]), (5, 81));
    let long: Vec<String> = (0..65).map(|index| format!("17 00 {index:02X} 01 0000000000000000")).collect();
    let long: Vec<&str> = long.iter().map(String::as_str).collect();
    assert_eq!(steps(&long[..64]), (0, 0));
    assert_eq!(steps(&long), (5, 81 + 64 * 12));
    assert_eq!(steps(&[long[0], long[2]]), (4, 93));
}

/// The check of P with marks before its end record; the first of them stands at 81.
fn marks(records: &str) -> (u8, u32) {
    checked(&PLAN_P.replace("1F", &format!("{records} 1F")))
}

#[test]
fn readings_of_marks() {
    assert_eq!(marks("18 00 00"), (0, 0));
    assert_eq!(marks("18 00 00 18 00 01 18 01 00 18 01 01"), (0, 0));
    assert_eq!(marks("18 00 01 18 01 00"), (0, 0));
    assert_eq!(marks("17 00 00 01 0000000000000000 18 00 00"), (0, 0));
    assert_eq!(checked("18"), (3, 0));
    assert_eq!(checked("18 00"), (3, 0));
    assert_eq!(checked("18 00 00"), (4, 0));
    assert_eq!(marks("18 00 00 18 00 00"), (4, 84));
    assert_eq!(marks("18 00 01 18 00 00"), (4, 84));
    assert_eq!(marks("18 01 00 18 00 01"), (4, 84));
    assert_eq!(marks("18 01 00 18 00 02"), (4, 84));
    assert_eq!(marks("18 00 00 17 00 00 01 0000000000000000"), (4, 84));
    assert_eq!(marks("18 00 02"), (6, 81));
    assert_eq!(marks("18 02 00"), (6, 81));
    assert_eq!(marks("18 FF FF"), (6, 81));
    assert_eq!(checked("10020001 11000001 12010100 18 00 00 1F"), (6, 12));
    assert_eq!(checked("10020001 11000001 12010100 18 01 00 1F"), (8, 15));
    assert_eq!(checked(&format!("{PLAN_P} 18 00 00")), (4, 82));
    // Kinds above it are still unknown.
    assert_eq!(checked("19"), (2, 0));
    assert_eq!(marks("1E 00 00"), (2, 81));
}

#[test]
fn a_module_without_marks_has_all_its_states_marked() {
    let marked = |records: &str| {
        let image = hex(&PLAN_P.replace("1F", &format!("{records} 1F")));
        plan::check(&image).map(|plan| plan.marked[..2].to_vec())
    };
    assert_eq!(marked(""), Ok(vec![3, 3]));
    assert_eq!(marked("18 00 01"), Ok(vec![2, 3]));
    assert_eq!(marked("18 00 00 18 01 00"), Ok(vec![1, 1]));
    let wide = hex("10010001 11000001 12002000 1F");
    assert_eq!(plan::check(&wide).map(|plan| plan.marked[0]), Ok(u32::MAX));
}

#[test]
fn readings_of_records() {
    let image = p();
    assert_eq!(read_record(&image, 0), 0x10 << 16 | 4 << 32);
    assert_eq!(read_record(&image, 81), 0x1F << 16 | 1 << 32);
    assert_eq!(read_record(&image, 82), 3 | 82 << 32);
    assert_eq!(read_record(&image, 500), 3 | 82 << 32);
    assert_eq!(read_record(&image, 1), 2 | 1 << 32);
    assert_eq!(read_record(&[0x10, 0, 0], 0), 3);
    let mut buffer = [0xAA; 13];
    assert_eq!(write_record(0x16, 0, 0, 9, 9, 1, &mut buffer), 11 << 32);
    assert_eq!(buffer[..], hex("1600000000000000000001 AAAA"));
    assert_eq!(write_record(0x16, 0, 0, 9, 9, 0, &mut buffer), 5);
    assert_eq!(write_record(0x20, 0, 0, 9, 9, 0, &mut buffer), 5);
    assert_eq!(write_record(0x16, 0, 0, 9, 9, 1, &mut buffer[..10]), 15);
    assert_eq!(write_record(0x12, 200, 1, 77, 9, 1, &mut buffer[..4]), 4 << 32);
    assert_eq!(write_record(0x17, 0, 64, 1, 9, 1, &mut []), 5);
    assert_eq!(write_record(0x1F, 0, 64, 1, 9, 1, &mut []), 15);
    let mut buffer = [0xAA; 4];
    assert_eq!(write_record(0x18, 255, 254, 9, 9, 1, &mut buffer), 3 << 32);
    assert_eq!(buffer[..], hex("18FFFE AA"));
    assert_eq!(write_record(0x18, 0, 0, 9, 9, 1, &mut buffer[..2]), 15);
    assert_eq!(read_record(&hex("18FFFE"), 0), 0x18 << 16 | 3 << 32);
    assert_eq!(read_record(&hex("18FF"), 0), 3);
}

/// An accepted plan, taken apart into records and written, yields its own bytes.
#[test]
fn a_plan_taken_apart() {
    let image = hex(&PLAN_P.replace("1F", "17 00 00 04 4010000000000000 18 00 00 18 01 01 1F"));
    let mut written = Vec::new();
    while written.len() < image.len() {
        let answer = read_record(&image, written.len());
        assert_eq!(number(answer), 0);
        let record = &image[written.len()..written.len() + length(answer) as usize];
        let mut buffer = [0; 12];
        let bytes = match value(answer) {
            0x16 | 0x18 => 2,
            0x14 | 0x17 => 3,
            _ => record.len() - 1,
        };
        let mut fields = [0; 4];
        fields[..bytes].copy_from_slice(&record[1..1 + bytes]);
        let word = record[1 + bytes..].iter().fold(0, |word, &byte| word << 8 | u64::from(byte));
        let [a, b, c, d] = fields;
        assert_eq!(length(write_record(value(answer), a, b, c, d, word, &mut buffer)), length(answer));
        written.extend_from_slice(&buffer[..record.len()]);
    }
    assert_eq!(written, image);
}

#[test]
fn readings_of_messages() {
    let image = p();
    let mut guard = supervisor(&image, 0);
    let mut take = |message: &str| supervisor_deliver(&image, &mut guard, 0, &hex(message));
    for (message, answer) in [
        ("", 10),
        ("01 00", 10),
        ("01 00 00 00", 10),
        ("01 02 00", 11),
        ("01 00 01", 11),
        ("02 00 00 FFFFFFFFFFFFFFFF", 12),
        ("02 00 02 FFFFFFFFFFFFFFFF", 11),
        ("03 00 00 FF", 12),
        ("03 00 00 01", 11),
        ("03 00 00 02", 11),
        ("03 00 00 40", 11),
        ("03 00 00 FE", 11),
        ("01 00 00", 0),
        ("01 00 00", 12),
        ("01 01 00", 0),
    ] {
        assert_eq!(take(message), answer, "{message}");
    }
    // A supervisor that the plan lacks has no state to judge.
    assert_eq!(supervisor_deliver(&image, &mut [], 1, &hex("01 00 00")), 11);
    assert_eq!(supervisor_deliver(&image, &mut [], 1, &[4]), 10);
    assert_eq!(supervisor_deliver(&image, &mut [], 0, &[4]), 9);
    assert_eq!(module_deliver(&image, &mut [], 2, &[4]), 10);
    assert_eq!(module_deliver(&image, &mut [], 2, &hex("01 00 00")), 11);
    let mut buffer = [0xAA; 12];
    assert_eq!(write_message(2, 7, 8, 9, 10, &mut buffer), 11 << 32);
    assert_eq!(buffer[..], hex("02 07 08 000000000000000A AA"));
    assert_eq!(read_message(&buffer[..11]), 2 << 16 | 11 << 32);
    assert_eq!(read_message(&buffer), 10);
    assert_eq!(write_message(4, 7, 8, 9, 10, &mut []), 10);
    assert_eq!(write_message(3, 7, 8, 9, 10, &mut [0; 3]), 15);
}

#[test]
fn states_that_stand_for_none() {
    let image = watered();
    let good = module(&image, 0);
    for (at, byte) in [
        (0, 2),
        (1, 9),
        (2, 1),
        (10, 2),
        (11, 1),
        (12, 1),
        (14, 1),
        (15, 0x80),
        (23, 0x80),
        (47, 2),
        (35, 1),
        (46, 1),
    ] {
        let mut state = good.clone();
        state[at] = byte;
        assert_eq!(module_tick(&image, &mut state, 0, 0, 0.0), 9, "byte {at}");
    }
    let mut state = good.clone();
    state[38] = 1;
    state[47] = 1;
    assert_eq!(module_tick(&image, &mut state, 0, 0, 0.0), 9);
    assert_eq!(module_tick(&image, &mut good[..47].to_vec(), 0, 0, 0.0), 9);
    for (at, byte) in [(0, 2), (1, 1), (2, 4), (3, 2), (4, 1), (5, 16)] {
        let mut state = supervisor(&image, 0);
        state[at] = byte;
        assert_eq!(supervisor_step(&image, &mut state, 0, &mut []), 9, "byte {at}");
    }
    let mut state = supervisor(&image, 0);
    assert_eq!(did(supervisor_step(&image, &mut state, 0, &mut [])), WAITS);
}

#[test]
fn starts() {
    let image = p();
    assert_eq!(device_start(&image, &mut [0; 591]), 15);
    assert_eq!(module_start(&image, 2, &mut []), 11);
    assert_eq!(module_start(&image, 1, &mut [0; 47]), 15);
    assert_eq!(supervisor_start(&image, 1, &mut []), 11);
    let mut buffer = [0xAA; 8];
    assert_eq!(supervisor_start(&image, 0, &mut buffer), 6 << 32);
    assert_eq!(buffer[..], hex("00 0000 00 00 0F AAAA"));
    assert_eq!(device_start(&image[..81], &mut []), 3 | 81 << 32);
}
